// SPDX-License-Identifier: Apache-2.0
// SPDX-FileCopyrightText: Copyright the Vortex contributors

//! The metadata of Arrow's fields, which is read and written beside a type.
#![cfg(feature = "arrow")]
#![allow(unsafe_code, reason = "a producer of Arrow's structs is C")]

mod arrow_fields;

use arrow_fields::Field;
use vortex_logical_types::arrow::FieldMetadata;
use vortex_logical_types::{DType, Error, ErrorKind};

fn dtype(text: &str) -> DType {
    text.parse()
        .unwrap_or_else(|error| panic!("{text}: {error}"))
}

/// Metadata of the field at a path with dots.
fn about(path: &str, key: &str, value: &str) -> FieldMetadata {
    let steps = path.split('.').filter(|step| !step.is_empty());
    FieldMetadata {
        path: steps.map(str::to_owned).collect(),
        key: key.into(),
        value: value.into(),
    }
}

/// A field with one pair of metadata, whose key is the name of the field.
fn field(format: &str, name: &'static str, children: Vec<Field>) -> Field {
    Field {
        pairs: vec![(name, "it")],
        ..arrow_fields::field(format, name, children)
    }
}

/// What is read of a field.
fn read(field: Field) -> Result<(DType, Vec<FieldMetadata>), Error> {
    DType::from_arrow_with_metadata(field.schema())
}

#[test]
fn the_metadata_of_each_field_is_read() -> Result<(), Error> {
    let pairs = vec![
        ("k", "1"),
        ("ARROW:extension:name", "x.tag"),
        ("", ""),
        ("k", "2"),
    ];
    let tagged = Field {
        pairs,
        ..field("u", "tagged", vec![])
    };
    let entries = field(
        "+s",
        "key_value",
        vec![field("u", "k", vec![]), field("i", "v", vec![])],
    );
    let codes = Field {
        values: Some(Box::new(field(
            "+s",
            "values",
            vec![field("i", "inner", vec![])],
        ))),
        ..field("c", "codes", vec![])
    };
    let runs = vec![field("i", "run_ends", vec![]), field("u", "values", vec![])];
    let columns = vec![
        tagged,
        field("+L", "list", vec![field("i", "element", vec![])]),
        field("+m", "map", vec![entries]),
        codes,
        field("+r", "runs", runs),
        field("+ud:3", "union", vec![field("b", "variant", vec![])]),
        field("i", "again", vec![]),
        field("+s", "again", vec![field("i", "hidden", vec![])]),
        Field {
            pairs: vec![],
            ..field("b", "none", vec![])
        },
    ];
    let table = Field {
        pairs: vec![("pandas", "{}")],
        ..field("+s", "", columns)
    };
    let (found, metadata) = read(table)?;
    let whole = "{tagged=x.tag[0x](utf8), list=list(i32), map=map(utf8, i32, keys_sorted=false), codes={inner=i32}, \
                 runs=utf8, union=union(variant@3=bool), again=i32, again={hidden=i32}, none=bool}";
    assert_eq!(found, dtype(whole));
    let wanted = [
        about("", "pandas", "{}"),
        about("tagged", "k", "1"),
        about("tagged", "", ""),
        about("tagged", "k", "2"),
        about("list", "list", "it"),
        about("list.item", "element", "it"),
        about("map", "map", "it"),
        about("map.entries", "key_value", "it"),
        about("map.entries.key", "k", "it"),
        about("map.entries.value", "v", "it"),
        about("codes", "codes", "it"),
        about("codes.inner", "inner", "it"),
        about("runs", "runs", "it"),
        about("union", "union", "it"),
        about("union.variant", "variant", "it"),
        about("again", "again", "it"),
    ];
    assert_eq!(metadata, wanted);
    // What was read can be written, and is read again.
    let written = found.to_arrow_with_metadata(&metadata)?;
    assert_eq!(DType::from_arrow(&written)?, found);
    let again = DType::from_arrow_with_metadata(&written)?;
    assert_eq!(again, (found, metadata));
    Ok(())
}

#[test]
fn metadata_is_written_in_the_order_of_the_fields() -> Result<(), Error> {
    let orders =
        dtype("{id=x.tag[0x01](u64), lines=list({sku=utf8}), when=vortex.date[0x04](i32)}?");
    let mut metadata = vec![
        about("lines.item.sku", "b", "2"),
        about("", "whole", ""),
        about("when", "zone", "\0\u{e4}"),
        about("id", "a", "1"),
        about("lines.item.sku", "a", "1"),
    ];
    let schema = orders.to_arrow_with_metadata(&metadata)?;
    // (Those of one field stay in their order.)
    metadata.sort_by_key(|one| {
        ["", "id", "lines", "when"]
            .map(|name| one.path.first().is_some_and(|it| it == name))
            .iter()
            .position(|is| *is)
    });
    let (found, read) = DType::from_arrow_with_metadata(&schema)?;
    assert_eq!((found, read), (orders.clone(), metadata));
    assert_eq!(DType::from_arrow_with_metadata(&orders.to_arrow()?)?.1, []);
    assert_eq!(
        DType::from_arrow_with_metadata(&orders.to_arrow_with_metadata(&[])?)?,
        (orders, vec![])
    );
    Ok(())
}

/// Each path of a type gets a key of its own, and each is read back.
#[test]
fn every_field_of_a_written_type_has_a_path() -> Result<(), Error> {
    let text = "{a=map({k=list(u8)}, fixed_size_list({x=f64, y=union(i=null, j=utf8)})[2]?, keys_sorted=true), b={}, c=fixed_size_list(u8)[16]}";
    let paths = [
        "",
        "a",
        "a.entries",
        "a.entries.key",
        "a.entries.key.k",
        "a.entries.key.k.item",
        "a.entries.value",
        "a.entries.value.item",
        "a.entries.value.item.x",
        "a.entries.value.item.y",
        "a.entries.value.item.y.i",
        "a.entries.value.item.y.j",
        "b",
        "c",
    ];
    let metadata = paths.map(|path| about(path, "path", path));
    let schema = dtype(text).to_arrow_with_metadata(&metadata)?;
    assert_eq!(
        DType::from_arrow_with_metadata(&schema)?,
        (dtype(text), metadata.to_vec())
    );
    Ok(())
}

#[test]
fn what_cannot_be_written_is_refused() {
    let orders = dtype("{a=list({\"b c\"=u8}), c=fixed_size_list(u8)[2], d=x.tag[0x](utf8)}");
    let keys =
        "the keys ARROW:extension:name and ARROW:extension:metadata are those of an extension type";
    for (one, text) in [
        (
            about("b", "k", ""),
            "column \"b\": the type has no such field, whose metadata is to be written",
        ),
        (
            about("a.b c", "k", ""),
            "column \"a.b c\": the type has no such field, whose metadata is to be written",
        ),
        // (These bytes are written as one value, and not as a list.)
        (
            about("c.item", "k", ""),
            "column \"c.item\": the type has no such field, whose metadata is to be written",
        ),
        (
            about("d", "ARROW:extension:name", "y"),
            &format!("column \"d\": {keys}"),
        ),
        (about("", "ARROW:extension:metadata", "y"), keys),
    ] {
        let error = orders
            .to_arrow_with_metadata(&[about("a", "k", ""), one])
            .unwrap_err();
        assert_eq!(
            (error.kind(), error.to_string().as_str()),
            (ErrorKind::Arrow, text)
        );
    }
    let error = dtype("{a=variant}")
        .to_arrow_with_metadata(&[])
        .unwrap_err();
    assert_eq!(
        error.to_string(),
        "column \"a\": a variant has no Arrow type"
    );
    assert_eq!(
        read(field("d:2,4", "odd", vec![])).unwrap_err().number(),
        Some(4)
    );
}

/// Names that are as long that the list would be too long: each key has the whole path of its field.
#[test]
fn a_list_that_would_be_too_long_is_refused() {
    let deepest = |keys| {
        let pairs = vec![("k", ""); keys];
        let deepest = Field {
            pairs,
            ..arrow_fields::field("i", "x", vec![])
        };
        let long = "n".repeat(10_000);
        let whole = (0..100).fold(deepest, |it, _| arrow_fields::field("+s", &long, vec![it]));
        arrow_fields::field("+s", "", vec![whole])
    };
    let error = read(deepest(2200)).unwrap_err();
    assert_eq!(error.kind(), ErrorKind::Arrow);
    let text = "the list of its metadata has more than 2147483648 bytes";
    assert_eq!(error.to_string(), text);
    assert_eq!(read(deepest(20)).map(|it| it.1.len()), Ok(20));
}
