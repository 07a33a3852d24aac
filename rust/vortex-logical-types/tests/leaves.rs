// SPDX-License-Identifier: Apache-2.0
// SPDX-FileCopyrightText: Copyright the Vortex contributors

//! The leaves of a type: worked examples, and what relates them to its paths and its projections.

use vortex_logical_types::{DType, FieldPath, Nullability::NonNullable};

fn dtype(text: &str) -> DType {
    text.parse()
        .unwrap_or_else(|error| panic!("{text}: {error}"))
}

// Each type, and its leaves separated by spaces.
const LEAVES: &[(&str, &str)] = &[
    ("i32?", "."),
    ("null", "."),
    ("{}", "."),
    ("{}?", "."),
    ("{a=i32, b=utf8}", "a b"),
    (
        "{a=list(i32), b={}, c=map(utf8, u8, keys_sorted=false)}",
        "a.[] b c",
    ),
    ("list(list(i32)?)", "[].[]"),
    ("fixed_size_list({x=f32, y=f32})[0]?", "[].x [].y"),
    ("list({})", "[]"),
    ("map(utf8, {a=i32}, keys_sorted=true)", "."),
    ("union(a={b=i32})", "."),
    ("x.y[0x61]({a=i32})", "."),
    ("{a=variant, b=union(c=i32), d=x.y[0x]({e=u8})}", "a b d"),
    // of the fields of a name the first counts
    ("{a=i32, a={b=u8}}", "a"),
    ("{a={b=u8}, a=i32, a={c=u8}}", "a.b"),
    ("{a={}, c=i32, a={b=u8}, c={d=u8}}", "a c"),
    // inside of different fields, names may be the same
    ("{a={b=u8}, c={b=u8, a=i8}}", "a.b c.a c.b"),
    ("{\"a.b\"=list({\"[]\"=i32})}", "\"a.b\".[].\"[]\""),
];

fn sources(paths: impl IntoIterator<Item = FieldPath>) -> String {
    let mut texts: Vec<_> = paths.into_iter().map(|it| it.to_source()).collect();
    texts.sort();
    texts.join(" ")
}

#[test]
fn leaves_of_each_kind() {
    for (whole, leaves) in LEAVES {
        let found = dtype(whole).leaf_paths();
        assert_eq!(sources(found.clone()), *leaves, "{whole}");
        assert_eq!(found.len(), leaves.split(' ').count(), "{whole}");
    }
}

#[test]
fn no_leaf_is_a_prefix_and_each_path_is_one_of_a_leaf() {
    for (whole, _) in LEAVES {
        let whole = dtype(whole);
        let leaves = whole.leaf_paths();
        assert_eq!(leaves.try_cover().unwrap().len(), leaves.len(), "{whole}");
        for (path, _) in whole.parts() {
            assert!(
                leaves.iter().any(|leaf| leaf.starts_with(&path)),
                "{whole} {path}"
            );
        }
    }
}

#[test]
fn the_projection_to_the_leaves_lacks_only_what_no_path_leads_to() {
    for (whole, _) in LEAVES {
        let whole = dtype(whole);
        let read = whole.project_paths(&whole.leaf_paths());
        if whole.to_source().matches("a=").count() < 2 {
            assert_eq!(read.as_ref(), Some(&whole));
        }
        let paths = |it: &DType| it.parts().map(|(path, _)| path).collect::<Vec<_>>();
        assert_eq!(paths(&read.unwrap()), paths(&whole));
    }
}

#[test]
fn leaves_are_the_ends_of_the_paths_to_parts() {
    for (whole, leaves) in LEAVES {
        let whole = dtype(whole);
        let paths: Vec<_> = whole.parts().map(|(path, _)| path).collect();
        let ends = |path: &&FieldPath| !paths.iter().any(|it| it != *path && it.starts_with(path));
        assert_eq!(sources(paths.iter().filter(ends).cloned()), *leaves);
    }
}

#[test]
fn a_wide_and_a_deep_type() {
    let wide = DType::struct_(
        (0..20_000).map(|i| (i.to_string(), dtype("list(u8)"))),
        NonNullable,
    );
    assert_eq!(wide.leaf_paths().len(), 20_000);
    let same = DType::struct_((0..20_000).map(|_| ("a", dtype("list(u8)"))), NonNullable);
    assert_eq!(sources(same.leaf_paths()), "a.[]");
    let deep = (0..1000).fold(dtype("i32"), |it, _| DType::list(it, NonNullable));
    let lengths = deep.leaf_paths().into_iter().map(|it| it.parts().len());
    assert_eq!(lengths.collect::<Vec<_>>(), [1000]);
}
