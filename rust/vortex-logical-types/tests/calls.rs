// SPDX-License-Identifier: Apache-2.0
// SPDX-FileCopyrightText: Copyright the Vortex contributors

//! Calls that the crate has by hand, or that pass through what it has by hand, each on a value or two.

use std::borrow::Borrow;
use std::collections::{BTreeSet, HashSet};
use std::error::Error as _;
use std::fmt::Debug;
use std::hash::{DefaultHasher, Hash, Hasher};
use std::panic::{AssertUnwindSafe, catch_unwind};
use vortex_logical_types::Nullability::{NonNullable, Nullable};
use vortex_logical_types::{
    Below, DType, DecimalDType, DecimalType, Error, ErrorKind, ExtDTypeRef, Field, FieldMask,
    FieldName, FieldNames, FieldPath, FieldPathSet, ForeignExtDType, Kind, MergeConflict,
    Nullability, PType, StructFields, UnionVariants, VortexError, Widening, field_path,
};

fn dtype(text: &str) -> DType {
    text.parse()
        .unwrap_or_else(|error| panic!("{text}: {error}"))
}

fn path(text: &str) -> FieldPath {
    text.parse()
        .unwrap_or_else(|error| panic!("{text}: {error}"))
}

fn set(paths: &[&str]) -> FieldPathSet {
    paths.iter().map(|text| path(text)).collect()
}

fn texts(paths: impl IntoIterator<Item = impl Borrow<FieldPath>>) -> Vec<String> {
    let mut texts: Vec<_> = paths
        .into_iter()
        .map(|it| it.borrow().to_source())
        .collect();
    texts.sort();
    texts
}

fn fault<T: Debug, E: Into<Error>>(result: Result<T, E>) -> (u8, String) {
    let error: Error = result.expect_err("an error").into();
    // (A kind has the name of the error.)
    assert!(format!("{error:?}").starts_with(&format!("Vortex({}", error.kind())));
    (
        error.number().expect("an error of the library"),
        error.to_string(),
    )
}

#[test]
fn variants_and_constructors_are_those_of_vortex_array() {
    let union = |types: Vec<DType>| UnionVariants::new(["a", "b"].into(), types).unwrap();
    let tag = |storage| {
        DType::Extension(ExtDTypeRef::from_parts(
            "x.tag".into(),
            b"a\0b".to_vec(),
            storage,
        ))
    };
    let made = [
        (DType::Null, "null"),
        (DType::Bool(Nullable), "bool?"),
        (DType::Primitive(PType::F16, NonNullable), "f16"),
        (PType::U8.into(), "u8"),
        (
            DType::Decimal(DecimalDType::new(10, -2), Nullable),
            "decimal(10,-2)?",
        ),
        (DType::Utf8(NonNullable), "utf8"),
        (DType::Binary(Nullable), "binary?"),
        (DType::Variant(NonNullable), "variant"),
        (DType::list(dtype("i32?"), Nullable), "list(i32?)?"),
        (
            DType::fixed_size_list(PType::I32, u32::MAX, NonNullable),
            "fixed_size_list(i32)[4294967295]",
        ),
        (
            DType::map(dtype("utf8"), dtype("i8?"), true, NonNullable).unwrap(),
            "map(utf8, i8?, keys_sorted=true)",
        ),
        (
            DType::struct_([("a", dtype("i8")), ("", dtype("null"))], Nullable),
            "{a=i8, \"\"=null}?",
        ),
        (
            DType::Struct(
                StructFields::from_iter([(FieldName::from("a"), PType::I8)]),
                Nullable,
            ),
            "{a=i8}?",
        ),
        (DType::Struct(StructFields::default(), NonNullable), "{}"),
        (
            DType::Union(union(vec![dtype("i8"), dtype("utf8")]), NonNullable),
            "union(a=i8, b=utf8)",
        ),
        (tag(dtype("utf8")), "x.tag[0x610062](utf8)"),
        (
            ForeignExtDType::from_parts("x.y".into(), vec![], dtype("i8")).into(),
            "x.y[0x](i8)",
        ),
    ];
    for (made, text) in made {
        assert_eq!((made.to_source().as_str(), &made), (text, &dtype(text)));
    }
}

#[test]
fn names_are_texts() {
    let name = FieldName::from("a b");
    let (text, owned) = ("a b", String::from("a b"));
    assert!(
        [
            name == text,
            name == *text,
            *text == name,
            text == name,
            owned == name,
            name == owned
        ]
        .iter()
        .all(|it| *it)
    );
    assert_eq!(String::from(name.clone()), "a b");
    assert!(name != "a c" && *"a c" != name);
    let names = FieldNames::from(["a", "b"]);
    assert!(names != ["a", "c"] && names != &["b", "b"][..] && names != ["a"]);
    let others = [
        FieldNames::from(vec!["a", "b"]),
        FieldNames::from(&["a", "b"]),
        ["a", "b"].into_iter().collect(),
    ];
    assert!(others.iter().all(|other| *other == names));
    assert_eq!(
        FieldNames::from(&["a", "b"][..]),
        FieldNames::from(vec![FieldName::new("a"), "b".into()])
    );
    assert_eq!(names.find(FieldName::from("b")), Some(1));
    assert_eq!(names.find(String::from("c")), None);
    assert_eq!(
        HashSet::from([name]).get("a b").map(FieldName::as_str),
        Some("a b")
    );
}

#[test]
fn structs_and_unions_are_collections() {
    let whole = dtype("{a=i32, b=utf8?, a=f64}?");
    let DType::Struct(fields, Nullable) = &whole else {
        panic!("a nullable struct")
    };
    assert_eq!(
        fields
            .into_iter()
            .map(|(name, dtype)| format!("{name}={dtype}"))
            .collect::<Vec<_>>()
            .join(", "),
        { "a=i32, b=utf8?, a=f64" }
    );
    assert_eq!(
        fields.clone().into_iter().collect::<StructFields>(),
        *fields
    );
    assert_eq!(
        (fields.find("a"), fields.find(FieldName::from("b"))),
        (Some(0), Some(1))
    );
    assert_eq!(
        (fields.field("b").unwrap(), fields.field("c")),
        (&dtype("utf8?"), None)
    );
    assert_eq!(
        (fields.field_name(3), fields.field_by_index(usize::MAX)),
        (None, None)
    );
    assert_eq!(fields.indented(), "{\n  a=i32,\n  b=utf8?,\n  a=f64\n}");
    assert_eq!(
        (format!("{fields:#}"), format!("{whole:#}")),
        (fields.indented().into(), whole.to_string())
    );
    let variants = UnionVariants::try_new(
        ["a", "b"].into(),
        vec![dtype("i8"), dtype("utf8")],
        vec![5, 9],
    )
    .unwrap();
    assert_eq!(
        variants
            .iter()
            .last()
            .map(|(name, dtype)| format!("{name}={dtype}"))
            .as_deref(),
        Some("b=utf8")
    );
    assert_eq!((&variants).into_iter().len(), 2);
    assert_eq!(
        (variants.variant("b").unwrap(), variants.variant_by_index(2)),
        (&dtype("utf8"), None)
    );
}

#[test]
fn kinds_and_parts() {
    let list = dtype("fixed_size_list(i32?)[3]");
    assert_eq!(
        (list.kind(), list.as_fixed_size_opt()),
        (Kind::FixedSizeList, Some(3))
    );
    assert!(list.as_list_element_opt().is_none());
    assert_eq!(
        (dtype("i32?").as_ptype_opt(), dtype("utf8").as_ptype_opt()),
        (Some(PType::I32), None)
    );
    assert_eq!(
        (dtype("i64").element_size(), dtype("utf8").element_size()),
        (Some(8), None)
    );
    let map = dtype("map(utf8, i32?, keys_sorted=false)");
    assert_eq!(
        map.as_map_opt().unwrap().entries_dtype(),
        dtype("{key=utf8, value=i32?}")
    );
    for ptype in PType::ALL {
        assert_eq!(<&DType>::from(ptype), &DType::from(ptype));
    }
    assert!(Kind::Null < Kind::Extension && NonNullable < Nullable && PType::U8 < PType::F64);
    assert_eq!(
        (
            format!("{Nullable} {Nullable:#}"),
            format!("{NonNullable:#}")
        ),
        ("? Nullable".into(), "NonNullable".into())
    );
}

#[test]
fn nullability() {
    let one = dtype("{a=i32, b=utf8?}");
    assert_eq!(one.merge_nullability(&one), Some(one.clone()));
    assert_eq!(
        one.intersect_nullability(&dtype("{a=i32?, b=utf8?}?")),
        Some(one.clone())
    );
    assert_eq!(one.try_intersect_nullability(&dtype("{a=i32}")), Ok(None));
    assert_eq!(one.as_nullable().as_nonnullable(), one);
    assert_eq!(one.union_nullability(NonNullable), one);
    assert!(one.eq_ignore_nullability(&dtype("{a=i32?, b=utf8}?")));
    assert!(!one.eq_ignore_nullability(&dtype("{a=i32}")));
    assert!(one.eq_with_nullability_subset(&dtype("{a=i32?, b=utf8?}")));
    assert!(one.eq_with_nullability_superset(&dtype("{a=i32, b=utf8}")));
    assert!(!dtype("null").can_be_nonnullable());
    assert_eq!(
        (
            NonNullable | Nullable,
            bool::from(Nullable),
            Nullability::from(false)
        ),
        (Nullable, true, NonNullable)
    );
}

#[test]
fn a_part_is_replaced() {
    for (at, whole, new, replaced) in [
        (".", "{a=i32}", "utf8?", Some("utf8?")),
        ("a", "{a=i32, b=u8}?", "utf8?", Some("{a=utf8?, b=u8}?")),
        (
            "a.[].[]",
            "{a=list(fixed_size_list(i32)[3]?)}",
            "{x=utf8}",
            Some("{a=list(fixed_size_list({x=utf8})[3]?)}"),
        ),
        (
            "a",
            "{a=i32, b=u8, a=i32}",
            "bool",
            Some("{a=bool, b=u8, a=i32}"),
        ),
        ("b", "{a=i32}", "bool", None),
        ("a", "union(a=i32)", "bool", None),
        ("[]", "map(utf8, i32, keys_sorted=false)", "bool", None),
    ] {
        let found = dtype(whole).with_type_at(&path(at), &dtype(new));
        assert_eq!(found, replaced.map(dtype), "{whole}");
    }
}

#[test]
fn parts_are_left_out() {
    for (whole, paths, left) in [
        (
            "{a={b=i32, c=u8}?, d=utf8}?",
            &["a.b", "d"][..],
            Some("{a={c=u8}?}?"),
        ),
        (
            "{a={b=i32}?, d=utf8}",
            &["a.b", "x"],
            Some("{a={}?, d=utf8}"),
        ),
        ("{a=i32}?", &["a"], Some("{}?")),
        (
            "{a=list({b=i32, c=u8})?, f=fixed_size_list({b=i8})[3]?}",
            &["a.[].b", "f.[].b"],
            Some("{a=list({c=u8})?, f=fixed_size_list({})[3]?}"),
        ),
        ("{a=list(list(i32)), b=u8}", &["a.[].[]"], Some("{b=u8}")),
        ("{a=i32, b=u8, a={b=i8}}", &["a"], Some("{b=u8}")),
        (
            "{a=i32, b=u8, a={b=i8}}",
            &["a.b"],
            Some("{a=i32, b=u8, a={}}"),
        ),
        ("union(a=i32)", &["a", "[]"], Some("union(a=i32)")),
        ("{a=i32, b=u8}", &[], Some("{a=i32, b=u8}")),
        ("{a=i32}", &["."], None),
        ("list(list(i32))", &["a", "[].[]"], None),
    ] {
        let found = dtype(whole).without_paths(&set(paths));
        assert_eq!(found, left.map(dtype), "{whole}");
    }
}

fn merged(one: &str, other: &str, widening: Widening) -> Option<String> {
    let both = dtype(one).merge_columns(&dtype(other), widening);
    both.map(|it| it.to_source())
}

#[test]
fn columns_are_merged() {
    for (one, other, both) in [
        (
            "{a=i32, b=utf8}",
            "{c=u8, a=i32?}",
            "{a=i32?, b=utf8?, c=u8?}",
        ),
        ("{a=i32}", "{a=i32?}?", "{a=i32?}?"),
        ("{}", "{a=i8}", "{a=i8?}"),
        (
            "map(utf8, {a=i8}, keys_sorted=true)",
            "map(utf8, {}, keys_sorted=true)",
            "map(utf8, {a=i8?}, keys_sorted=true)",
        ),
        (
            "fixed_size_list(i8)[3]",
            "fixed_size_list(i8?)[3]",
            "fixed_size_list(i8?)[3]",
        ),
        ("{a=i8, a=u8}", "{a=i8?, a=u8}", "{a=i8?, a=u8}"),
        (
            "{l=list({a=i8})}",
            "{l=list({b=i8})?}",
            "{l=list({a=i8?, b=i8?})?}",
        ),
        (
            "{x=a.b[0x01]({a=i8})}",
            "{x=a.b[0x01]({a=i8?})}",
            "{x=a.b[0x01]({a=i8?})}",
        ),
        (
            "{a=i8, a={b=u8}}",
            "{a=i8, a={c=u8}}?",
            "{a=i8, a={b=u8?, c=u8?}}?",
        ),
        (
            "union(x@5={a=i8}, y@9=u8)",
            "union(x@5={b=i8}, y@9=u8?)",
            "union(x@5={a=i8?, b=i8?}, y@9=u8?)",
        ),
        (
            "{a=union(x=i8)}",
            "{a=union(y@3=utf8, x@0=i8?)?}",
            "{a=union(x@0=i8?, y@3=utf8)?}",
        ),
    ] {
        assert_eq!(merged(one, other, Widening::None).as_deref(), Some(both));
        assert_eq!(
            merged(one, other, Widening::Integers).as_deref(),
            Some(both)
        );
        assert_eq!(
            dtype(one).merge_conflict(&dtype(other), Widening::None),
            None
        );
    }
}

#[test]
fn files_can_be_read_as_tables() {
    for (file, table) in [
        ("{b=utf8, a=i32}", "{a=i32, b=utf8?, c=u8?}"),
        ("null", "list(i8)?"),
        ("{a=null}", "{a=x.y[0x](i8?)}"),
        ("list({})", "list({a=i8?})"),
        ("fixed_size_list(i8)[3]", "fixed_size_list(i8?)[3]"),
        (
            "map(i8, {}, keys_sorted=true)",
            "map(i8, {a=i8?}, keys_sorted=true)",
        ),
        (
            "map(i8, u8, keys_sorted=true)",
            "map(i8, u8, keys_sorted=false)",
        ),
        ("x.y[0x01]({a=i8})", "x.y[0x01]({a=i8, b=i8?})"),
        ("union(x@5={})", "union(y@9=u8, x@5={a=i8?})"),
        ("{a=i8, a={}}", "{a=i8?, a={b=u8?}}"),
    ] {
        let (file, table) = (dtype(file), dtype(table));
        for widening in [Widening::None, Widening::Integers] {
            assert!(file.reads_as(&table, widening) && file.reads_as(&file, widening));
            assert!(!table.reads_as(&file, widening));
        }
        assert_eq!(table.merge_columns(&file, Widening::None), Some(table));
    }
}

#[test]
fn files_that_cannot_be_read_as_tables_are_told() {
    for (one, other) in [
        ("f32", "f64"),
        ("u64", "i64"),
        ("decimal(5,2)", "decimal(7,3)"),
        ("null", "i32"),
        ("{a=i8?}", "{a=i8, b=i8?}"),
        ("{a=i8}", "{b=i8?}"),
        ("list(i8)", "fixed_size_list(i8)[1]"),
        ("fixed_size_list(i8)[1]", "fixed_size_list(i8)[2]"),
        ("x.y[0x](i8)", "x.y[0x00](i8)"),
        ("x.y[0x](i8)", "x.z[0x](i8)"),
        (
            "map({a=i8}, u8, keys_sorted=true)",
            "map({a=i8, b=i8?}, u8, keys_sorted=true)",
        ),
        ("union(x@5=i8)", "union(x@6=i8)"),
        ("union(x@5=i8)", "union(y@5=i8)"),
        ("{a=i8, a=u8}", "{a=u8, a=i8}"),
        ("{a=i8, a=i8}", "{a=i8}"),
    ] {
        let (one, other) = (dtype(one), dtype(other));
        for widening in [Widening::None, Widening::Integers] {
            assert!(!one.reads_as(&other, widening) && !other.reads_as(&one, widening));
        }
    }
}

#[test]
fn columns_that_cannot_be_merged_are_named() {
    for (one, other, path, left, right) in [
        (
            "{at=i64, customer={id=u64}}",
            "{customer={city=utf8, id=utf8}}",
            "customer.id",
            "u64",
            "utf8",
        ),
        ("i32", "i64?", ".", "i32", "i64?"),
        (
            "{l=list({a=i8})}",
            "{l=list({a=i16})}",
            "l.[].a",
            "i8",
            "i16",
        ),
        (
            "{a={b=i8, b=i8}}",
            "{a={b=i8, c=i8}}",
            "a",
            "{b=i8, b=i8}",
            "{b=i8, c=i8}",
        ),
        (
            "{a=fixed_size_list(i8)[3]}",
            "{a=fixed_size_list(i8)[4]}",
            "a",
            "fixed_size_list(i8)[3]",
            "fixed_size_list(i8)[4]",
        ),
        (
            "{a=union(x@0=i8, y@2=i8)}",
            "{a=union(x@0=i8, z@2=i8)}",
            "a",
            "union(x@0=i8, y@2=i8)",
            "union(x@0=i8, z@2=i8)",
        ),
        (
            "union(x={a=i8})",
            "union(x@1={a=i8})",
            ".",
            "union(x={a=i8})",
            "union(x@1={a=i8})",
        ),
        (
            "{a=union(x={b=i8})}",
            "{a=union(x={b=u8})}",
            "a",
            "union(x={b=i8})",
            "union(x={b=u8})",
        ),
        (
            "{a=i8, a=u8}",
            "{a=u8, a=i8}",
            ".",
            "{a=i8, a=u8}",
            "{a=u8, a=i8}",
        ),
        (
            "{a=x.y[0x](i8)}",
            "{a=x.y[0x00](i8)}",
            "a",
            "x.y[0x](i8)",
            "x.y[0x00](i8)",
        ),
    ] {
        let turned = merged(other, one, Widening::None);
        assert_eq!((merged(one, other, Widening::None), turned), (None, None));
        let (left, right) = (dtype(left), dtype(right));
        let text = format!(
            "{path} is {} in one type and {} in another",
            left.to_source(),
            right.to_source()
        );
        let conflict = MergeConflict {
            path: self::path(path),
            left,
            right,
            index: 1,
        };
        assert_eq!(conflict.to_string(), text);
        assert_eq!(
            dtype(one).merge_conflict(&dtype(other), Widening::None),
            Some(conflict)
        );
    }
}

#[test]
fn integers_are_widened_if_the_caller_says_so() {
    for (one, other, both) in [
        ("i32", "i64", "i64"),
        ("u8?", "i16", "i16?"),
        ("u8", "i8", "i16"),
        ("u32", "i32?", "i64?"),
        ("decimal(5,2)", "decimal(7,2)", "decimal(7,2)"),
        ("{a=i8, b=utf8}", "{a=u16}", "{a=i32, b=utf8?}"),
        (
            "list(union(x@1=i8))",
            "list(union(x@1=i16))",
            "list(union(x@1=i16))",
        ),
        ("x.y[0x](u8)", "x.y[0x](u64)", "x.y[0x](u64)"),
        (
            "map(i8, u8, keys_sorted=true)",
            "map(i8, u16, keys_sorted=true)",
            "map(i8, u16, keys_sorted=true)",
        ),
        (
            "map(i8, u8, keys_sorted=true)",
            "map(i16, u8, keys_sorted=true)",
            "map(i16, u8, keys_sorted=false)",
        ),
    ] {
        for (one, other) in [(one, other), (other, one)] {
            assert_eq!(merged(one, other, Widening::None), None);
            let found = merged(one, other, Widening::Integers);
            assert_eq!(found.map(|it| dtype(&it)), Some(dtype(both)));
            assert!(dtype(one).reads_as(&dtype(both), Widening::Integers));
        }
        let (one, other, both) = (dtype(one), dtype(other), dtype(both));
        let by_name = |it: &DType| it.reads_as(&both, Widening::None);
        assert!(!by_name(&one) || !by_name(&other));
        assert_eq!(one.merge_conflict(&other, Widening::Integers), None);
        assert!(one.merge_conflict(&other, Widening::None).is_some());
    }
    for (one, other) in [
        ("u64", "i8"),
        ("f32", "f64"),
        ("i32", "f64"),
        ("decimal(5,2)", "decimal(7,3)"),
        ("i32", "decimal(10,0)"),
    ] {
        for (one, other) in [(one, other), (other, one)] {
            assert_eq!(merged(one, other, Widening::Integers), None);
        }
    }
    let files = ["{id=i16}", "{id=u8, note=utf8}", "{id=i32?}"].map(dtype);
    assert_eq!(
        DType::merge_all(&files, Widening::Integers),
        Ok(Some(dtype("{id=i32?, note=utf8?}")))
    );
    assert_eq!(
        DType::merge_all(&files, Widening::None).map_err(|it| it.path),
        Err(path("id"))
    );
    assert_eq!(Widening::default(), Widening::None);
}

#[test]
fn all_schemas_are_merged() {
    let files = ["{a=i32, b=utf8}", "{b=utf8, a=i32}", "{b=utf8, c=f64}"].map(dtype);
    assert_eq!(
        DType::merge_all(&files, Widening::None),
        Ok(Some(dtype("{a=i32?, b=utf8, c=f64?}")))
    );
    assert_eq!(DType::merge_all([] as [DType; 0], Widening::None), Ok(None));
    assert_eq!(
        DType::merge_all([&files[0]], Widening::None),
        Ok(Some(files[0].clone()))
    );
    let mut taken = 0;
    let types = ["{a=i8}", "{b=i8}", "{b=i16}", "{c=i8}"].iter().map(|it| {
        taken += 1;
        dtype(it)
    });
    let conflict = DType::merge_all(types, Widening::None).unwrap_err();
    assert_eq!((taken, conflict.index, conflict.path), (3, 2, path("b")));
    assert_eq!(
        (conflict.left, conflict.right),
        (dtype("i8?"), dtype("i16"))
    );
}

fn hash_of(value: &impl Hash) -> u64 {
    let mut state = DefaultHasher::new();
    value.hash(&mut state);
    state.finish()
}

#[test]
fn equal_values_have_equal_hashes() {
    let (one, other) = (dtype("{a=i32, b=utf8?}"), dtype("{a=i32, b=utf8?}"));
    let types = HashSet::from([one.clone(), other, dtype("{a=i32?, b=utf8}")]);
    assert!(types.len() == 2 && types.contains(&one));
    // (A set with so many children that it has a hash map, which yields its paths in another order.)
    let names: Vec<String> = (0..100).map(|number| format!("n{number}")).collect();
    let there: FieldPathSet = names
        .iter()
        .map(|name| FieldPath::from_name(name.as_str()))
        .collect();
    let back: FieldPathSet = names
        .iter()
        .rev()
        .map(|name| FieldPath::from_name(name.as_str()))
        .collect();
    assert_eq!((&there, hash_of(&there)), (&back, hash_of(&back)));
    assert_ne!(hash_of(&set(&["a"])), hash_of(&set(&["a", "b"])));
    let masks = ["a", "a.[]", "a"].map(path);
    let masks = masks.into_iter().flat_map(|it| {
        [
            FieldMask::Exact(it.clone()),
            FieldMask::Prefix(it),
            FieldMask::All,
        ]
    });
    assert_eq!(masks.collect::<HashSet<_>>().len(), 5);
    let messages = ["i32", "i32?", "{a=i32}", "i32"].map(|it| dtype(it).to_proto());
    assert_eq!(HashSet::from(messages).len(), 3);
    let errors = ["i", "i", "decimal(0,0)"].map(|it| it.parse::<DType>().unwrap_err());
    assert_eq!(HashSet::from(errors).len(), 2);
}

#[test]
fn paths() {
    let steps = [Field::from("a"), Field::ElementType, Field::from("b c")];
    let it: FieldPath = steps.iter().collect();
    assert_eq!(
        (it.to_source().as_str(), it.to_string().as_str()),
        ("a.[].\"b c\"", "$a.[].$b c")
    );
    assert_eq!(
        (it.parts(), FieldPath::from(steps.to_vec())),
        (&steps[..], it.clone())
    );
    assert_eq!(
        (FieldPath::default().step_into(), it.clone().step_into()),
        (None, Some(path("[].\"b c\"")))
    );
    assert_eq!(
        (it.len(), it.iter().len(), it.clone().into_iter().len()),
        (3, 3, 3)
    );
    assert!(it.overlap(&path("a.[]")) && !it.overlap(&path("b")) && it.overlap(&it));
    assert!(it.starts_with_name("a") && !it.starts_with_name(String::from("b")));
    let whole = dtype("{a=list({\"b c\"=u32})?}");
    assert_eq!(
        (it.resolve(&whole), it.exists_in(&whole)),
        (Some(&dtype("u32")), true)
    );
    assert_eq!(
        (it.resolve(whole.clone()), path("b").exists_in(whole)),
        (Some(dtype("u32")), false)
    );
    let mut longer = path("a");
    longer.extend(["b", "c"]);
    assert_eq!(longer, path("a.b.c"));
    let error = "a..b".parse::<FieldPath>().unwrap_err();
    assert_eq!(
        (error.kind(), error.position()),
        (ErrorKind::Unreadable, Some(3))
    );
}

#[test]
fn paths_are_joined_and_ordered() {
    let ordered = [
        ".", "[]", "[].a", "a", "a.[]", "a.[].b", "a.b", "ab", "b", "\"é\"",
    ]
    .map(path);
    // (Whether the step to an element is before all names or behind them isn't said by what the original has.)
    let names: Vec<_> = ordered
        .iter()
        .filter(|it| it.parts().iter().all(Field::is_named))
        .collect();
    assert!(names.is_sorted() && names.windows(2).all(|two| two[0] < two[1]));
    assert_eq!(ordered.iter().collect::<BTreeSet<_>>().len(), ordered.len());
    for one in &ordered {
        for other in &ordered {
            let joined = one.join(other);
            assert!(joined.starts_with(one) && joined.iter().eq(one.iter().chain(other)));
            assert_eq!(
                one.starts_with(other),
                one.parts().starts_with(other.parts())
            );
            assert_eq!(one.cmp(other).is_eq(), one == other);
            assert!(!one.starts_with(other) || one >= other);
        }
        let last = one.parts().last().cloned();
        let again = one
            .parent()
            .zip(last)
            .map(|(parent, last)| parent.push(last));
        assert_eq!(again, (!one.is_root()).then(|| one.clone()));
    }
    assert_eq!(field_path!("a", [], "b c", []), path("a.[].\"b c\".[]"));
    assert_eq!(
        (field_path!(a.b), field_path!([]), field_path!("a",)),
        (path("a.b"), path("[]"), path("a"))
    );
    assert_eq!(
        (FieldPath::try_from("a.b"), field_path!()),
        (Ok(path("a.b")), FieldPath::root())
    );
}

#[test]
fn texts_of_primitive_types_and_kinds_are_read() {
    for ptype in PType::ALL {
        assert_eq!(
            (
                ptype.to_string().parse(),
                PType::try_from(&*ptype.to_string())
            ),
            (Ok(ptype), Ok(ptype))
        );
        assert_eq!(dtype(&ptype.to_string()), ptype.into());
    }
    for kind in Kind::ALL {
        assert_eq!(
            (kind.to_string().parse(), Kind::try_from(&*kind.to_string())),
            (Ok(kind), Ok(kind))
        );
    }
    assert_eq!(
        ("i256".parse(), "i8".parse()),
        (Ok(DecimalType::I256), Ok(DecimalType::I8))
    );
    let widths = [1, 2, 4, 8, 1, 2, 4, 8, 2, 4, 8];
    for (ptype, width) in PType::ALL.into_iter().zip(widths) {
        assert_eq!((ptype.byte_width(), ptype.bit_width()), (width, 8 * width));
    }
    for text in ["", "u", "u88", "U8", " u8", "lists"] {
        for error in [
            text.parse::<PType>().unwrap_err(),
            text.parse::<Kind>().unwrap_err(),
        ] {
            assert_eq!(
                (error.kind(), error.position()),
                (ErrorKind::Unreadable, Some(1))
            );
            assert!(
                error.to_string().ends_with(&format!(", not \"{text}\"")),
                "{error}"
            );
        }
    }
}

#[test]
fn sets() {
    let mut it = set(&["a.b", "x", "a", "a.[].c", "a"]);
    assert_eq!(
        (it.len(), texts(&it)),
        (
            4,
            vec!["a".into(), "a.[].c".into(), "a.b".into(), "x".into()]
        )
    );
    assert_eq!(
        (texts(it.cover()), texts(it.clone())),
        (vec!["a".to_owned(), "x".to_owned()], texts(it.cover()))
    );
    let copy = it.clone();
    it.extend([path("y"), path("z")]);
    it.extend(&copy);
    assert_eq!(
        (it.len(), copy.len(), copy.contains(&path("y"))),
        (6, 4, false)
    );
    assert_eq!(
        it.below(&path("a")),
        Some(Below {
            is_end: true,
            has_element: true,
            name_count: 1
        })
    );
    assert_eq!(
        it.below(&FieldPath::root()),
        Some(Below {
            is_end: false,
            has_element: false,
            name_count: 4
        })
    );
    assert_eq!(
        (it.names_below(&path("a")), it.names_below(&path("b"))),
        (Some(vec!["b".into()]), None)
    );
    assert_eq!(
        (
            FieldPathSet::new().below(&FieldPath::root()),
            FieldPathSet::default().len()
        ),
        (None, 0)
    );
    assert_eq!(
        texts(copy.unresolved(&dtype("{a=i32}"))),
        ["a.[].c", "a.b", "x"]
    );
    let whole = dtype("{a=list({c=u32, d=i8})?, y=i64}");
    assert_eq!(
        whole.project_paths(&set(&["a.[].c"])),
        Some(dtype("{a=list({c=u32})?}"))
    );
    assert_eq!(whole.project_paths(&set(&["b"])), None);
    assert_eq!(
        FieldPathSet::parse(["a", "b..c"]).unwrap_err().position(),
        Some(3)
    );
    assert_eq!(FieldPathSet::parse([""; 0]), Ok(FieldPathSet::new()));
}

#[test]
fn a_panic_of_an_iterator_loses_nothing() {
    let mut it = set(&["a"]);
    let paths = (0..3).map(|at| {
        if at < 2 {
            path(&format!("p{at}"))
        } else {
            panic!("the iterator's")
        }
    });
    assert!(catch_unwind(AssertUnwindSafe(|| it.extend(paths))).is_err());
    assert_eq!(texts(&it), ["a", "p0", "p1"]);
    let fields = (0..3).map(|at| {
        if at < 2 {
            (format!("f{at}"), dtype("i8"))
        } else {
            panic!("the iterator's")
        }
    });
    assert!(catch_unwind(AssertUnwindSafe(|| DType::struct_(fields, NonNullable))).is_err());
}

#[test]
fn masks() {
    let mask = FieldMask::Prefix(path("a.[]"));
    assert_eq!(
        (mask.path(), mask.starting_field()),
        (Some(&path("a.[]")), Ok(Some(&"a".into())))
    );
    assert_eq!(mask.clone().step_into(), Ok(FieldMask::Prefix(path("[]"))));
    assert_eq!(FieldMask::All.starting_field(), Err(VortexError::AllMask));
    assert_eq!(
        FieldMask::Exact(FieldPath::root()).step_into(),
        Err(VortexError::ExactRoot)
    );
    assert!(mask != FieldMask::All && FieldMask::All.matches_all() && !mask.matches_root());
}

/// Each error of a call that isn't about a message, with its number and the text that vortex-array has for it.
fn check(errors: impl IntoIterator<Item = (u8, &'static str, (u8, String))>) {
    for (number, text, told) in errors {
        assert_eq!(told, (number, text.to_owned()));
    }
}

#[test]
fn errors_of_numbers_have_numbers_and_texts() {
    let one = dtype("{a=i32, b=utf8, c=f64}");
    let nullable_key = DType::map(dtype("i8?"), PType::I8, false, Nullable);
    let wide = dtype("fixed_size_list(fixed_size_list(i64)[4294967295])[4294967295]");
    check([
        (
            1,
            "decimal precision must be between 1 and 76 (inclusive)",
            fault(DecimalDType::try_new(0, 0)),
        ),
        (
            2,
            "decimal precision 77 exceeds MAX_PRECISION 76",
            fault(DecimalDType::try_new(77, 0)),
        ),
        (
            3,
            "decimal scale 77 exceeds MAX_SCALE 76",
            fault(DecimalDType::try_new(76, 77)),
        ),
        (
            4,
            "decimal scale 6 is greater than precision 5",
            fault("{a=decimal(5,6)}".parse::<DType>()),
        ),
        (
            5,
            "Cannot convert DType into DecimalType",
            fault(DecimalDType::try_from(&one)),
        ),
        (
            6,
            "Cannot convert DType into PType",
            fault(PType::try_from(&one)),
        ),
        (
            7,
            "cannot convert ptype f16 to DecimalType",
            fault(DecimalType::try_from(PType::F16)),
        ),
        (9, "map key dtype must be non-nullable", fault(nullable_key)),
        (
            19,
            "element size is bigger than usize",
            fault(wide.try_element_size()),
        ),
    ]);
}

#[test]
fn errors_of_unions_have_numbers_and_texts() {
    let union = |names: &[&str], tags: &[u8]| {
        UnionVariants::try_new(names.into(), vec![DType::Null; names.len()], tags.to_vec())
    };
    let many: Vec<String> = (0..257).map(|number| format!("v{number}")).collect();
    let too_many = UnionVariants::new(many.into(), vec![DType::Null; 257]);
    check([
        (
            10,
            "union names and dtypes length mismatch",
            fault(UnionVariants::new(["a"].into(), vec![])),
        ),
        (
            11,
            "union names and type_ids length mismatch",
            fault(union(&["a"], &[])),
        ),
        (
            12,
            "union must have at least one variant",
            fault(union(&[], &[])),
        ),
        (
            13,
            "type_ids must be distinct",
            fault(union(&["a", "b"], &[1, 1])),
        ),
        (
            14,
            "union supports at most 256 consecutive variants",
            fault(too_many),
        ),
        (
            15,
            "union variant names must be distinct",
            fault("union(a=i8, a=i8)".parse::<DType>()),
        ),
    ]);
}

#[test]
fn errors_of_fields_have_numbers_and_texts() {
    let one = dtype("{a=i32, b=utf8, c=f64}");
    let fields = one.as_struct_fields();
    let exact = FieldMask::Exact(FieldPath::root());
    check([
        (
            16,
            "field 1 of the projection not found",
            fault(fields.project(&["a".into(), "x".into()])),
        ),
        (
            17,
            "index 3 out of bounds for struct with 3 fields",
            fault(fields.without_field(3)),
        ),
        (
            18,
            "Can't merge struct fields with duplicate names",
            fault(fields.disjoint_merge(fields)),
        ),
        (
            20,
            "Cannot step into exact root field path",
            fault(exact.step_into()),
        ),
        (
            21,
            "Cannot get starting field from All mask",
            fault(FieldMask::All.starting_field()),
        ),
    ]);
}

#[test]
fn errors_of_texts_say_what_was_expected() {
    let error = "{a=i32, b=int32}".parse::<DType>().unwrap_err();
    assert_eq!(
        error.to_string(),
        "unreadable at byte 11: expected a type, not \"int32\"; nearest: i32"
    );
    assert_eq!(
        (error.kind(), error.number()),
        (ErrorKind::Unreadable, None)
    );
    // (At the end of a text the position is one more than its length.)
    assert_eq!("{a=i8".parse::<DType>().unwrap_err().position(), Some(6));
    // (The type at byte 646 is inside 129 others.)
    let deep = format!("{}i8{}", "list(".repeat(129), ")".repeat(129));
    let error = deep.parse::<DType>().unwrap_err();
    assert_eq!(
        (error.kind(), error.position()),
        (ErrorKind::TooDeep, Some(646))
    );
    assert_eq!(
        error.to_string(),
        "unreadable at byte 646: expected at most 128 levels"
    );
    assert_eq!(
        dtype(&deep[5..deep.len() - 1]).to_source(),
        deep[5..deep.len() - 1]
    );
}

#[test]
fn errors_are_values() {
    let error = "decimal(0,0)".parse::<DType>().unwrap_err();
    assert_eq!(
        (error.kind(), error.number(), error.position()),
        (ErrorKind::PrecisionZero, Some(1), None)
    );
    assert_eq!(
        error.clone(),
        Error::from(VortexError::PrecisionZero { max: 76 })
    );
    assert!(
        error.source().is_none(),
        "an error of the library shows its own text"
    );
    for (place, kind) in ErrorKind::ALL.iter().enumerate() {
        assert_eq!(
            kind.number().map(usize::from),
            (place <= 36).then_some(place),
            "{kind}"
        );
    }
    assert_eq!(
        (ErrorKind::UnionEmpty.to_string(), ErrorKind::ALL.len()),
        ("UnionEmpty".to_owned(), 40)
    );
    let boxed: Box<dyn std::error::Error + Send + Sync> = error.into();
    let error = boxed.downcast::<Error>().unwrap();
    assert_eq!(
        std::thread::spawn(move || error.kind()).join().unwrap(),
        ErrorKind::PrecisionZero
    );
}
