// SPDX-License-Identifier: Apache-2.0
// SPDX-FileCopyrightText: Copyright the Vortex contributors

//! What differs between two types: worked examples, the list beside its definition on paths, and the list applied.

use std::collections::HashSet;
use vortex_logical_types::dtype_edits::push_field;
use vortex_logical_types::{
    DType, Difference, Field, FieldPath, FieldPathSet, Ignoring, StructFields,
};

const NOTHING: Ignoring = Ignoring {
    nullability: false,
    order: false,
};
const ORDER: Ignoring = Ignoring {
    order: true,
    ..NOTHING
};
const NULLABILITY: Ignoring = Ignoring {
    nullability: true,
    ..NOTHING
};
const BOTH: Ignoring = Ignoring {
    nullability: true,
    order: true,
};

fn dtype(text: &str) -> DType {
    text.parse()
        .unwrap_or_else(|error| panic!("{text}: {error}"))
}

// Two types, and their differences: `+` is added, `-` removed, `!` changed.
const DIFFERENCES: &[(&str, &str, &str)] = &[
    ("i32", "i32", ""),
    ("i32", "i32?", "! ."),
    ("i32", "list(i32)", "! ."),
    ("list(i32)", "list(u8)", "! []"),
    ("list(i32)", "list(u8)?", "! ."),
    ("fixed_size_list(i32)[2]", "fixed_size_list(u8)[2]", "! []"),
    ("fixed_size_list(i32)[2]", "fixed_size_list(u8)[3]", "! ."),
    ("list(i32)", "fixed_size_list(i32)[2]", "! ."),
    ("{a=i32, b={x=u8}}", "{b={x=i8, y=u8}}", "- a, ! b.x, + b.y"),
    ("{a=i32}", "{a=i32}?", "! ."),
    ("{a=i32, b=u8}", "{c=u8, b=i8, d=f32}", "- a, ! b, + c, + d"),
    ("{a=i32, b=u8}", "{c=u8, a=i32, b=u8}", "+ c"),
    // structs whose common fields are in another order are compared as a whole
    ("{a=i32, b=u8}", "{b=u8, a=i32}", "! ."),
    ("{s={a=i32, x=i8, b=u8}}", "{s={b=u8, y=i8, a=i32}}", "! s"),
    // structs in which a name repeats are compared as a whole
    ("{a=i32, a=u8}", "{a=i32, a=u8}", ""),
    ("{s={a=i32, a=u8}}", "{s={a=i32}}", "! s"),
    ("{s={a=i32, a=u8}}", "{s={a=u8, a=i32}}", "! s"),
    // no path leads into maps, unions and extensions
    (
        "map(utf8, {a=i32}, keys_sorted=false)",
        "map(utf8, {a=u8}, keys_sorted=false)",
        "! .",
    ),
    ("{u=union(a=i32)}", "{u=union(a=u8)}", "! u"),
    ("{}", "{a={b=i32}}", "+ a"),
    ("{a={b=i32}}", "{}", "- a"),
];

// Two types, what is ignored, and their differences.
const IGNORING: &[(&str, &str, Ignoring, &str)] = &[
    ("i32", "i32?", NULLABILITY, ""),
    ("i32", "u8?", NULLABILITY, "! ."),
    ("list({a=i32}?)", "list({a=i32?})?", NULLABILITY, ""),
    ("{a=i32, b=u8?}?", "{a=i32?, b=i8}", NULLABILITY, "! b"),
    ("{a=i32, b=u8?}?", "{b=u8, a=i32}", NULLABILITY, "! ."),
    ("{a=i32, b=u8}", "{b=u8, a=i32}", ORDER, ""),
    ("{a=i32, b=u8}", "{b=u16, c=i8, a=i32}", ORDER, "! b, + c"),
    ("{a=i32, b=u8}", "{b=u8, a=i32?}", ORDER, "! a"),
    ("{a=i32, a=u8}", "{a=u8, a=i32}", ORDER, "! ."),
    ("{a=i32, a=u8}", "{a=i32?, a=u8}", NULLABILITY, ""),
    (
        "{u=union(a=i32, b=u8)}",
        "{u=union(b=u8, a=i32)}",
        ORDER,
        "! u",
    ),
    ("{a=i32, b=list(u8)?}", "{b=list(u8?), a=i32?}?", BOTH, ""),
    (
        "map(utf8, {a=i32, b=u8}, keys_sorted=false)",
        "map(utf8, {b=u8, a=i32}, keys_sorted=false)",
        BOTH,
        "! .",
    ),
];

fn texts(found: &[Difference<'_>]) -> String {
    let text = found.iter().map(|it| {
        let sign = match (it.before, it.after) {
            (None, _) => '+',
            (_, None) => '-',
            _ => '!',
        };
        format!("{sign} {}", it.path.to_source())
    });
    text.collect::<Vec<_>>().join(", ")
}

#[test]
fn differences_of_each_kind() {
    for (before, after, expected) in DIFFERENCES {
        let found = texts(&dtype(before).differences(&dtype(after)));
        assert_eq!(found, *expected, "{before} {after}");
    }
    for (before, after, ignoring, expected) in IGNORING {
        let found = texts(&dtype(before).differences_ignoring(&dtype(after), *ignoring));
        assert_eq!(found, *expected, "{before} {after} {ignoring:?}");
    }
}

fn all() -> Vec<DType> {
    let texts = DIFFERENCES.iter().flat_map(|it| [it.0, it.1]);
    let texts = texts.chain(IGNORING.iter().flat_map(|it| [it.0, it.1]));
    texts
        .collect::<HashSet<_>>()
        .into_iter()
        .map(dtype)
        .collect()
}

fn repeats(fields: &StructFields) -> bool {
    let names: HashSet<_> = fields.names().iter().collect();
    names.len() < fields.nfields()
}

fn equal(ignoring: Ignoring, t: &DType, u: &DType) -> bool {
    t == u || (ignoring.nullability && t.eq_ignore_nullability(u))
}

fn by_name(ignoring: Ignoring, fs: &StructFields, gs: &StructFields) -> bool {
    let common = |fs: &StructFields, gs: &StructFields| -> Vec<String> {
        let names = fs
            .names()
            .iter()
            .filter(|it| gs.find(it.as_str()).is_some());
        names.map(ToString::to_string).collect()
    };
    !repeats(fs) && !repeats(gs) && (ignoring.order || common(fs, gs) == common(gs, fs))
}

// Whether two types are the same but for what is inside of them where a path leads.
fn alike(ignoring: Ignoring, t: &DType, u: &DType) -> bool {
    let shallow = ignoring.nullability || t.nullability() == u.nullability();
    match (t, u) {
        (DType::List(..), DType::List(..)) => shallow,
        (DType::FixedSizeList(_, j, _), DType::FixedSizeList(_, k, _)) => shallow && j == k,
        (DType::Struct(fs, _), DType::Struct(gs, _)) => {
            equal(ignoring, t, u) || (shallow && by_name(ignoring, fs, gs))
        }
        _ => equal(ignoring, t, u),
    }
}

#[test]
fn each_difference_is_one_by_its_definition() {
    let all = all();
    for before in &all {
        for after in &all {
            for ignoring in [NOTHING, ORDER, NULLABILITY, BOTH] {
                let found = before.differences_ignoring(after, ignoring);
                for it in &found {
                    assert_eq!(it.before, it.path.resolve(before));
                    assert_eq!(it.after, it.path.resolve(after));
                }
                let paths = before.parts().chain(after.parts()).map(|(path, _)| path);
                let paths: HashSet<FieldPath> = paths.collect();
                for path in &paths {
                    let there = |path: &FieldPath| match (path.resolve(before), path.resolve(after))
                    {
                        (Some(t), Some(u)) => alike(ignoring, t, u),
                        _ => false,
                    };
                    let above = (0..path.len())
                        .all(|n| there(&path.parts()[..n].iter().cloned().collect()));
                    let listed = found.iter().filter(|it| it.path == *path).count();
                    let expected = usize::from(above && !there(path));
                    assert_eq!(listed, expected, "{before} {after} {path} {ignoring:?}");
                }
            }
            assert_eq!(before.differences(after).is_empty(), before == after);
            let found = before.differences_ignoring(after, NULLABILITY);
            assert_eq!(found.is_empty(), before.eq_ignore_nullability(after));
        }
    }
}

// The type with the difference applied: a part that is added comes last.
fn applied(dtype: &DType, difference: &Difference<'_>) -> DType {
    let path = &difference.path;
    match (difference.before, difference.after) {
        (Some(_), Some(after)) => dtype.with_type_at(path, after).expect("a part"),
        (_, None) => {
            let paths: FieldPathSet = [path.clone()].into_iter().collect();
            dtype.without_paths(&paths).expect("a field")
        }
        (None, Some(after)) => {
            let parent = path.parent().expect("a field");
            let Some(Field::Name(name)) = path.parts().last() else {
                panic!("a name");
            };
            let DType::Struct(fields, n) = parent.resolve(dtype).expect("a struct") else {
                panic!("a struct");
            };
            let fields = push_field(fields, name.clone(), after.clone());
            let more = DType::Struct(fields, *n);
            dtype.with_type_at(&parent, &more).expect("a part")
        }
    }
}

// The type with the fields of each struct to which a path leads in the order of their names, if no name repeats in it.
fn in_order(dtype: &DType) -> DType {
    match dtype {
        DType::List(element, n) => DType::list(in_order(element), *n),
        DType::FixedSizeList(element, size, n) => {
            DType::fixed_size_list(in_order(element), *size, *n)
        }
        DType::Struct(fields, n) if !repeats(fields) => {
            let mut fields: Vec<_> = fields.iter().collect();
            fields.sort_by_key(|it| it.0.as_str());
            DType::struct_(
                fields
                    .into_iter()
                    .map(|(name, it)| (name.clone(), in_order(it))),
                *n,
            )
        }
        _ => dtype.clone(),
    }
}

#[test]
fn applied_differences_make_the_second_type() {
    let all = all();
    for before in &all {
        for after in &all {
            for ignoring in [NOTHING, ORDER] {
                let found = before.differences_ignoring(after, ignoring);
                let made = found
                    .iter()
                    .fold(before.clone(), |it, next| applied(&it, next));
                assert_eq!(
                    in_order(&made),
                    in_order(after),
                    "{before} {after} {ignoring:?}"
                );
            }
        }
    }
}

#[test]
fn wide_and_deep_types() {
    use vortex_logical_types::Nullability::NonNullable;
    let wide =
        |of: &str| DType::struct_((0..20_000).map(|i| (i.to_string(), dtype(of))), NonNullable);
    assert_eq!(wide("u8").differences(&wide("u8")).len(), 0);
    assert_eq!(wide("u8").differences(&wide("u16")).len(), 20_000);
    let deep = |of: &str| (0..1000).fold(dtype(of), |it, _| DType::list(it, NonNullable));
    assert_eq!(deep("u8").differences(&deep("i8"))[0].path.len(), 1000);
}
