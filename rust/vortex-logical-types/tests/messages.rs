// SPDX-License-Identifier: Apache-2.0
// SPDX-FileCopyrightText: Copyright the Vortex contributors

//! Messages: what is read from them, and each of their faults with the text that vortex-array has for it.

use vortex_logical_types::{
    DType, DTypeSession, ErrorKind, FieldPath, MessageFault, PType, VortexError, field_path, pb,
};

fn message(kind: pb::DtypeType) -> pb::DType {
    pb::DType {
        dtype_type: Some(kind),
    }
}

fn of_text(text: &str) -> pb::DType {
    text.parse::<DType>().expect("a type").to_proto()
}

fn boxed(text: &str) -> Box<pb::DType> {
    Box::new(of_text(text))
}

fn list(element_type: Option<Box<pb::DType>>) -> pb::DType {
    message(pb::DtypeType::List(Box::new(pb::List {
        element_type,
        nullable: false,
    })))
}

fn map(key_type: Option<Box<pb::DType>>, value_type: Option<Box<pb::DType>>) -> pb::DType {
    let map = pb::Map {
        key_type,
        value_type,
        keys_sorted: false,
        nullable: false,
    };
    message(pb::DtypeType::Map(Box::new(map)))
}

fn decimal(precision: u32, scale: i32) -> pb::DType {
    message(pb::DtypeType::Decimal(pb::Decimal {
        precision,
        scale,
        nullable: false,
    }))
}

fn union(names: &[&str], tags: &[i32], types: usize) -> pb::DType {
    let names = names.iter().map(|name| (*name).into()).collect();
    let dtypes = vec![of_text("null"); types].into();
    message(pb::DtypeType::Union(pb::Union {
        names,
        dtypes,
        type_ids: tags.into(),
        nullable: false,
    }))
}

fn extension(
    id: &str,
    storage_dtype: Option<Box<pb::DType>>,
    metadata: Option<&[u8]>,
) -> pb::DType {
    let extension = pb::Extension {
        id: id.into(),
        storage_dtype,
        metadata: metadata.map(Into::into),
    };
    message(pb::DtypeType::Extension(Box::new(extension)))
}

#[test]
fn messages_have_faults() {
    let fixed = pb::FixedSizeList {
        element_type: None,
        size: 3,
        nullable: false,
    };
    let short = pb::Struct {
        names: vec!["a".into()].into(),
        dtypes: vec![].into(),
        nullable: false,
    };
    let number = pb::Primitive {
        ptype: 11,
        nullable: false,
    };
    let mut session = DTypeSession::new();
    session.allow_unknown();
    for (message, number, text) in [
        (
            decimal(77, 0),
            2,
            "decimal precision 77 exceeds MAX_PRECISION 76",
        ),
        (
            map(Some(boxed("utf8?")), Some(boxed("i8"))),
            9,
            "map key dtype must be non-nullable",
        ),
        (
            union(&["a"], &[], 0),
            10,
            "union names and dtypes length mismatch",
        ),
        (
            union(&["a"], &[], 1),
            11,
            "union names and type_ids length mismatch",
        ),
        (
            union(&[], &[], 0),
            12,
            "union must have at least one variant",
        ),
        (
            union(&["a", "b"], &[1, 1], 2),
            13,
            "type_ids must be distinct",
        ),
        (
            union(&["a", "a"], &[1, 2], 2),
            15,
            "union variant names must be distinct",
        ),
        (pb::DType { dtype_type: None }, 24, "Unrecognized DType"),
        (
            message(pb::DtypeType::Primitive(number)),
            25,
            "unknown primitive number",
        ),
        (decimal(256, 0), 26, "precision does not fit in u8"),
        (decimal(10, 128), 27, "scale does not fit in i8"),
        (list(None), 28, "Invalid list element type"),
        (
            message(pb::DtypeType::FixedSizeList(Box::new(fixed))),
            29,
            "Invalid fixed-size list element type",
        ),
        (map(None, Some(boxed("i8"))), 30, "Invalid map key type"),
        (map(Some(boxed("i8")), None), 31, "Invalid map value type"),
        (
            message(pb::DtypeType::Struct(short)),
            32,
            "struct names and dtypes length mismatch",
        ),
        (union(&["a"], &[256], 1), 33, "type_id does not fit in u8"),
        (
            extension("x.y", None, None),
            34,
            "Extension DType missing storage proto",
        ),
    ] {
        let error = DType::from_proto(&message, &session).unwrap_err();
        assert_eq!(
            (error.number(), error.to_string().as_str()),
            (number, text),
            "{message:?}"
        );
        assert_eq!(error.kind().number(), Some(number));
        let shown = format!("{error:?}");
        assert!(
            shown
                .trim_start_matches("Message(")
                .starts_with(&error.kind().to_string())
        );
    }
}

#[test]
fn messages_are_read_and_written() {
    let (unknown, kept) = (
        extension("x.tag", Some(boxed("utf8")), None),
        "x.tag[0x](utf8)".parse::<DType>().unwrap(),
    );
    let refused = DType::from_proto(&unknown, &DTypeSession::new()).unwrap_err();
    assert_eq!(
        refused,
        VortexError::Message(MessageFault::ExtensionUnregistered)
    );
    assert_eq!(refused.kind(), ErrorKind::ExtensionUnregistered);
    let mut session = DTypeSession::new();
    session.allow_unknown();
    assert_eq!(DType::from_proto(&unknown, &session), Ok(kept.clone()));
    // (An extension without metadata describes the same type as one with metadata of no bytes.)
    assert_eq!(
        kept.to_proto(),
        extension("x.tag", Some(boxed("utf8")), Some(&[]))
    );
    assert_ne!(kept.to_proto(), unknown);
    assert_eq!(pb::DType::try_from(&kept), Ok(kept.to_proto()));
    for (number, ptype) in (0..).zip(PType::ALL) {
        assert_eq!(
            (
                i32::from(pb::PType::from(ptype)),
                pb::PType::try_from(number).map(PType::from)
            ),
            (number, Ok(ptype))
        );
    }
    assert_eq!(pb::PType::try_from(11).unwrap_err().number(), 25);
}

#[test]
fn paths_are_read() {
    let part = |name: &str| pb::Field {
        field_type: Some(pb::FieldType::Name(name.into())),
    };
    let path = |parts: Vec<pb::Field>| pb::FieldPath { path: parts.into() };
    assert_eq!(
        FieldPath::try_from(&path(vec![part("a"), part("b c")])),
        Ok(field_path!("a", "b c"))
    );
    assert_eq!(FieldPath::from_proto(&path(vec![])), Ok(FieldPath::root()));
    let error =
        FieldPath::from_proto(&path(vec![part("a"), pb::Field { field_type: None }])).unwrap_err();
    assert_eq!(
        (error.number(), error.to_string().as_str()),
        (36, "FieldPath part missing type")
    );
}
