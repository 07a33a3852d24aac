// SPDX-License-Identifier: Apache-2.0
// SPDX-FileCopyrightText: Copyright the Vortex contributors

//! The iterator over the parts of a type.

use std::collections::HashSet;
use vortex_logical_types::{DType, Nullability::NonNullable, Parts};

fn dtype(text: &str) -> DType {
    text.parse()
        .unwrap_or_else(|error| panic!("{text}: {error}"))
}

// Each type, and the paths of its parts separated by spaces.
const PARTS: &[(&str, &str)] = &[
    ("i32?", "."),
    ("{}", "."),
    (
        "{z={y=list(i32)}, a=u8, b=fixed_size_list({c=bool})[2]}",
        ". z z.y z.y.[] a b b.[] b.[].c",
    ),
    ("list(list({})?)", ". [] [].[]"),
    ("fixed_size_list({x=f32, y=f32})[0]?", ". [] [].x [].y"),
    ("map(utf8, {a=i32}, keys_sorted=true)", "."),
    (
        "{a=map(utf8, i8, keys_sorted=false), b=union(c={d=i32}), e=x.y[0x]({f=u8})}",
        ". a b e",
    ),
    // of the fields of a name the first counts
    ("{a=i32, a={b=u8}}", ". a"),
    ("{a={b=u8}, c=i8, a=i32, a={d=u8}}", ". a a.b c"),
    ("{a={b=u8, a=i8}, c={b=u8, a=i8}}", ". a a.b a.a c c.b c.a"),
    (
        "{\"a.b\"=list({\"[]\"=i32})}",
        ". \"a.b\" \"a.b\".[] \"a.b\".[].\"[]\"",
    ),
];

fn paths(parts: Parts<'_>) -> String {
    let texts: Vec<_> = parts.map(|(path, _)| path.to_source()).collect();
    texts.join(" ")
}

#[test]
fn parents_come_before_children_and_fields_in_order() {
    for (whole, parts) in PARTS {
        assert_eq!(paths(dtype(whole).parts()), *parts, "{whole}");
    }
}

#[test]
fn parts_are_what_paths_lead_to() {
    for (whole, _) in PARTS {
        let whole = dtype(whole);
        for (path, part) in whole.parts() {
            assert!(
                std::ptr::eq(path.resolve(&whole).unwrap(), part),
                "{whole} {path}"
            );
        }
        let different: HashSet<_> = whole.parts().map(|(path, _)| path).collect();
        assert_eq!(different.len(), whole.parts().count());
    }
}

#[test]
fn parts_are_visited_one_by_one() {
    let whole = dtype("{a={b=i32}, c=u8}");
    let mut parts = whole.parts();
    assert_eq!(parts.next().map(|(path, _)| path.is_root()), Some(true));
    let copy = parts.clone();
    parts.next();
    assert_eq!(
        (paths(copy), paths(parts.clone())),
        ("a a.b c".into(), "a.b c".into())
    );
    assert_eq!(parts.by_ref().count(), 2);
    assert!(parts.next().is_none() && parts.next().is_none());
    assert!(format!("{:?}", whole.parts()).starts_with("Parts"));
}

#[test]
fn a_wide_and_a_deep_type() {
    let wide = DType::struct_(
        (0..20_000).map(|i| (i.to_string(), dtype("list(u8)"))),
        NonNullable,
    );
    assert_eq!(wide.parts().count(), 40_001);
    let same = DType::struct_((0..20_000).map(|_| ("a", dtype("list(u8)"))), NonNullable);
    assert_eq!(same.parts().count(), 3);
    let deep = (0..1000).fold(dtype("i32"), |it, _| DType::list(it, NonNullable));
    assert_eq!(deep.parts().count(), 1001);
}
