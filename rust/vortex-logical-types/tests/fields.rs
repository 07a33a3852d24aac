// SPDX-License-Identifier: Apache-2.0
// SPDX-FileCopyrightText: Copyright the Vortex contributors

//! The fields of a struct with one more field, with another type of a field, and with other names.

use vortex_logical_types::{DType, Error, ErrorKind, FieldName, StructFields, VortexError};

fn dtype(text: &str) -> DType {
    text.parse()
        .unwrap_or_else(|error| panic!("{text}: {error}"))
}

fn fields(text: &str) -> StructFields {
    dtype(text).into_struct_fields()
}

#[test]
fn a_field_is_inserted_at_each_index() {
    let whole = fields("{a=i32, b=utf8?, a=u8}");
    let inserted = |index| whole.with_field_at(index, "b", dtype("list(f32)?"));
    assert_eq!(
        inserted(0),
        Ok(fields("{b=list(f32)?, a=i32, b=utf8?, a=u8}"))
    );
    assert_eq!(
        inserted(1),
        Ok(fields("{a=i32, b=list(f32)?, b=utf8?, a=u8}"))
    );
    assert_eq!(
        inserted(2),
        Ok(fields("{a=i32, b=utf8?, b=list(f32)?, a=u8}"))
    );
    assert_eq!(
        inserted(3),
        Ok(fields("{a=i32, b=utf8?, a=u8, b=list(f32)?}"))
    );
    assert_eq!(inserted(3), Ok(whole.push_field("b", dtype("list(f32)?"))));
    let refused = |index| Err(VortexError::IndexOutOfBounds { index, fields: 3 });
    assert_eq!(inserted(4), refused(4));
    assert_eq!(inserted(usize::MAX), refused(usize::MAX));
    assert_eq!(
        StructFields::empty().push_field("", dtype("null")),
        fields("{\"\"=null}")
    );
}

#[test]
fn what_is_inserted_can_be_removed() {
    let whole = fields("{a=i32, b=utf8?, a=u8}");
    for index in 0..=whole.nfields() {
        let more = whole.with_field_at(index, "c", dtype("{x=i8}")).unwrap();
        assert_eq!(more.without_field(index), Ok(whole.clone()));
        assert_eq!(more.find("c"), Some(index));
    }
}

#[test]
fn the_type_of_the_first_field_with_a_name_is_replaced() {
    for (whole, name, new, expected) in [
        ("{a=i32, b=utf8}", "a", "u8?", "{a=u8?, b=utf8}"),
        ("{a=i32, b=utf8}", "b", "null", "{a=i32, b=null}"),
        (
            "{a=i32, b=utf8}",
            "c",
            "{x=i8}",
            "{a=i32, b=utf8, c={x=i8}}",
        ),
        (
            "{a=i32, b=utf8, a=i8}",
            "a",
            "bool",
            "{a=bool, b=utf8, a=i8}",
        ),
        ("{}", "a", "i32", "{a=i32}"),
        ("{A=i32}", "a", "i8", "{A=i32, a=i8}"),
    ] {
        let made = fields(whole).with_field(name, dtype(new));
        assert_eq!(made, fields(expected), "{whole} {name} {new}");
        assert_eq!(made.field(name), Some(&dtype(new)));
    }
}

#[test]
fn fields_are_renamed_by_a_table() {
    let none: [(&str, &str); 0] = [];
    assert_eq!(
        fields("{a=i32}").with_fields_renamed(none),
        Ok(fields("{a=i32}"))
    );
    for (whole, renames, expected) in [
        (
            "{a=i32, b=utf8}",
            [("a", "x"), ("b", "y")],
            "{x=i32, y=utf8}",
        ),
        // the names are swapped
        (
            "{a=i32, b=utf8}",
            [("a", "b"), ("b", "a")],
            "{b=i32, a=utf8}",
        ),
        // each name is looked up once
        ("{a=i32}", [("a", "b"), ("b", "c")], "{b=i32}"),
        // the first pair counts
        ("{a=i32}", [("a", "b"), ("a", "c")], "{b=i32}"),
        // an old name that no field has
        (
            "{a=i32, b={a=u8}}",
            [("x", "y"), ("", "z")],
            "{a=i32, b={a=u8}}",
        ),
    ] {
        let renamed = fields(whole).with_fields_renamed(renames);
        assert_eq!(renamed, Ok(fields(expected)), "{whole} {renames:?}");
        let renamed = fields(whole).with_fields_renamed_allowing_repeats(renames);
        assert_eq!(renamed, fields(expected), "{whole} {renames:?}");
    }
}

#[test]
fn a_name_that_would_repeat_is_in_the_error() {
    for (whole, renames, name, allowed) in [
        (
            "{a=i32, b=utf8}",
            [("a", "b"), ("x", "y")],
            "b",
            "{b=i32, b=utf8}",
        ),
        (
            "{a=i32, b=utf8}",
            [("a", "c"), ("b", "c")],
            "c",
            "{c=i32, c=utf8}",
        ),
        // a name that repeated before
        (
            "{a=i32, b=utf8, a=u8}",
            [("b", "c"), ("x", "y")],
            "a",
            "{a=i32, c=utf8, a=u8}",
        ),
        // the first name that an earlier field has
        (
            "{a=i8, b=i16, c=i32, d=i64}",
            [("d", "a"), ("c", "b")],
            "b",
            "{a=i8, b=i16, b=i32, a=i64}",
        ),
    ] {
        let error = fields(whole).with_fields_renamed(renames).unwrap_err();
        assert_eq!(error.name, name, "{whole} {renames:?}");
        let error = Error::from(error);
        assert_eq!(
            (error.kind(), error.number()),
            (ErrorKind::DuplicateNames, Some(18))
        );
        assert_eq!(
            error.to_string(),
            format!("the name \"{name}\" would occur twice")
        );
        assert_eq!(error.position(), None);
        let renamed = fields(whole).with_fields_renamed_allowing_repeats(renames);
        assert_eq!(renamed, fields(allowed), "{whole} {renames:?}");
    }
}

#[test]
fn fields_are_renamed_by_a_function() {
    let whole = fields("{a=i32, b={a=u8}}");
    let made = whole.with_fields_renamed_by(|name| format!("{name}_{name}"));
    assert_eq!(made, Ok(fields("{a_a=i32, b_b={a=u8}}")));
    let error = whole.with_fields_renamed_by(|_| "c").unwrap_err();
    assert_eq!(error.name, "c");
}

#[test]
fn many_fields() {
    let names: Vec<String> = (0..20_000).map(|i| i.to_string()).collect();
    let many: StructFields = names
        .iter()
        .map(|name| (name.as_str(), dtype("u8")))
        .collect();
    let renames = names.iter().map(|name| (name.as_str(), format!("x{name}")));
    let made = many.with_fields_renamed(renames).unwrap();
    let expected: Vec<FieldName> = names.iter().map(|name| format!("x{name}").into()).collect();
    assert_eq!(made.names().as_slice(), expected);
}
