// SPDX-License-Identifier: Apache-2.0
// SPDX-FileCopyrightText: Copyright the Vortex contributors

//! The feature `serde`: types, paths and names are written and read as their texts.
#![cfg(feature = "serde")]

use serde_json::{from_str, from_value, json, to_value};
use vortex_logical_types::{
    DType, DecimalType, Field, FieldName, FieldNames, FieldPath, FieldPathSet, Kind, PType,
    field_path,
};

#[test]
fn values_are_written_as_texts_and_read_back() {
    let text = r#"{"a b"=list(i32?), t=vortex.date[0x04](i32)}"#;
    let dtype: DType = text.parse().unwrap();
    assert_eq!(to_value(&dtype).unwrap(), json!(text));
    assert_eq!(from_value::<DType>(json!(text)).unwrap(), dtype);
    let path = field_path!("a b", []);
    assert_eq!(to_value(&path).unwrap(), json!(r#""a b".[]"#));
    assert_eq!(from_value::<FieldPath>(json!(r#""a b".[]"#)).unwrap(), path);
    assert_eq!(
        to_value([Field::from("a"), Field::ElementType]).unwrap(),
        json!(["a", "[]"])
    );
    assert_eq!(
        from_value::<Field>(json!("[]")).unwrap(),
        Field::ElementType
    );
    assert_eq!(
        to_value(FieldNames::from(["a b", "c"])).unwrap(),
        json!(["a b", "c"])
    );
    assert_eq!(from_value::<FieldName>(json!("a b")).unwrap(), "a b");
    assert_eq!(
        from_value::<FieldNames>(json!(["a b", "c"])).unwrap(),
        ["a b", "c"]
    );
    let set = FieldPathSet::parse(["x", "a.b", "a"]).unwrap();
    assert_eq!(to_value(&set).unwrap(), json!(["a", "a.b", "x"]));
    assert_eq!(
        from_value::<FieldPathSet>(json!(["x", "a.b", "a"])).unwrap(),
        set
    );
    assert_eq!(
        to_value((PType::U8, DecimalType::I256, Kind::Map)).unwrap(),
        json!(["u8", "i256", "map"])
    );
    assert_eq!(
        from_value::<(PType, Kind)>(json!(["u8", "map"])).unwrap(),
        (PType::U8, Kind::Map)
    );
}

#[test]
fn texts_that_cannot_be_read_are_errors() {
    let error = from_str::<DType>(r#""int32""#).unwrap_err();
    assert!(
        error
            .to_string()
            .contains("unreadable at byte 1: expected a type, not \"int32\"; nearest: i32"),
        "{error}"
    );
    assert!(
        from_str::<Field>(r#""a.b""#)
            .unwrap_err()
            .to_string()
            .contains("expected one step")
    );
    assert!(from_str::<DType>("3").is_err() && from_str::<PType>(r#""U8""#).is_err());
}
