// SPDX-License-Identifier: Apache-2.0
// SPDX-FileCopyrightText: Copyright the Vortex contributors

//! Which type is read of which schema of Arrow, which message a refusal has, and which schema is written of which type.
//! The schemas are in the flat form in which the crate passes them to the proved source (`c_arrow`).
#![cfg(feature = "arrow")]

use vortex_logical_types::DType;
use vortex_logical_types::c_arrow::{ArrowFault, ArrowNode, dtype_of, nodes_of};

/// A field: its format, its name, its flags, its number of children, and whether a dictionary follows.
type Field = (&'static str, &'static str, u64, usize, u32);

/// The schema of each of these fields that stands alone, and the type that is read of it.
#[rustfmt::skip]
const LEAVES: [(&str, u64, &str); 52] = [
    ("n", 0, "null"), ("n", 2, "null"), ("b", 2, "bool?"), ("b", 0, "bool"),
    ("c", 0, "i8"), ("C", 0, "u8"), ("s", 0, "i16"), ("S", 0, "u16"), ("i", 2, "i32?"), ("I", 0, "u32"),
    ("l", 0, "i64"), ("L", 0, "u64"), ("e", 0, "f16"), ("f", 0, "f32"), ("g", 6, "f64?"),
    ("u", 0, "utf8"), ("U", 2, "utf8?"), ("vu", 0, "utf8"), ("z", 0, "binary"), ("Z", 0, "binary"), ("vz", 2, "binary?"),
    ("w:16", 2, "fixed_size_list(u8)[16]?"), ("w:0", 0, "fixed_size_list(u8)[0]"),
    ("w:2147483647", 0, "fixed_size_list(u8)[2147483647]"),
    ("d:10,2", 0, "decimal(10,2)"), ("d:10,-2", 2, "decimal(10,-2)?"), ("d:40,2,256", 0, "decimal(40,2)"),
    ("d:9,0,32", 0, "decimal(9,0)"), ("d:9,0,64", 0, "decimal(9,0)"), ("d:38,38,128", 0, "decimal(38,38)"),
    ("tdD", 2, "vortex.date[0x04](i32?)"), ("tdm", 0, "vortex.date[0x02](i64)"),
    ("tts", 0, "vortex.time[0x03](i32)"), ("ttm", 0, "vortex.time[0x02](i32)"),
    ("ttu", 0, "vortex.time[0x01](i64)"), ("ttn", 0, "vortex.time[0x00](i64)"),
    ("tss:", 0, "vortex.timestamp[0x030000](i64)"), ("tsm:UTC", 2, "vortex.timestamp[0x020300555443](i64?)"),
    ("tsu:", 0, "vortex.timestamp[0x010000](i64)"), ("tsn:", 0, "vortex.timestamp[0x000000](i64)"),
    ("+s", 0, "{}"), ("+s", 2, "{}?"),
    ("d:76,-128", 0, "decimal(76,-128)"), ("d:010,02", 0, "decimal(10,2)"), ("tsn:Z", 0, "vortex.timestamp[0x0001005a](i64)"),
    ("d:76,76,256", 0, "decimal(76,76)"),
    ("tDs", 2, "arrow.duration[0x744473](i64?)"), ("tDn", 0, "arrow.duration[0x74446e](i64)"), ("tDm", 0, "arrow.duration[0x74446d](i64)"),
    ("tiM", 2, "arrow.interval[0x74694d](i32?)"), ("tiD", 0, "arrow.interval[0x746944](fixed_size_list(u8)[8])"),
    ("tin", 2, "arrow.interval[0x74696e](fixed_size_list(u8)[16]?)"),
];

/// The format of each of these fields that stands alone is refused with this message.
#[rustfmt::skip]
const NO_LEAVES: [(&str, &str); 34] = [
    ("tix", "the Arrow format \"tix\" has no type here"),
    ("tD", "the Arrow format \"tD\" has no type here"),
    ("tDD", "the Arrow format \"tDD\" has no type here"),
    ("", "the Arrow format \"\" has no type here"),
    ("nn", "the Arrow format \"nn\" has no type here"),
    ("w", "the Arrow format \"w\" has no type here"),
    ("w:", "the Arrow format \"w:\" has no type here"),
    ("w:-1", "the Arrow format \"w:-1\" has no type here"),
    ("w:2147483648", "the Arrow format \"w:2147483648\" has no type here"),
    ("w: 1", "the Arrow format \"w: 1\" has no type here"),
    ("d:256,0", "the Arrow format \"d:256,0\" has no type here"),
    ("d:10", "the Arrow format \"d:10\" has no type here"),
    ("d:10,", "the Arrow format \"d:10,\" has no type here"),
    ("d:10,2,", "the Arrow format \"d:10,2,\" has no type here"),
    ("d:10,2,16", "the Arrow format \"d:10,2,16\" has no type here"),
    ("d:10,2,256,", "the Arrow format \"d:10,2,256,\" has no type here"),
    ("d:+10,2", "the Arrow format \"d:+10,2\" has no type here"),
    ("d:10,--2", "the Arrow format \"d:10,--2\" has no type here"),
    ("d:-10,2", "the Arrow format \"d:-10,2\" has no type here"),
    ("d:10,-129", "the Arrow format \"d:10,-129\" has no type here"),
    ("d:10,128", "the Arrow format \"d:10,128\" has no type here"),
    ("tss", "the Arrow format \"tss\" has no type here"),
    ("tsD:", "the Arrow format \"tsD:\" has no type here"),
    ("ttD", "the Arrow format \"ttD\" has no type here"),
    ("tds", "the Arrow format \"tds\" has no type here"),
    ("+l", "the Arrow format \"+l\" needs exactly one child"),
    ("+w:3", "the Arrow format \"+w:3\" needs exactly one child"),
    ("+m", "the Arrow format \"+m\" needs exactly one child"),
    ("+r", "the Arrow format \"+r\" needs exactly two children"),
    ("+ud:1,", "the Arrow format \"+ud:1,\" has no type here"),
    ("+us:,1", "the Arrow format \"+us:,1\" has no type here"),
    ("+ud:128", "the Arrow format \"+ud:128\" has no type here"),
    ("+ud:-1", "the Arrow format \"+ud:-1\" has no type here"),
    ("+u:1", "the Arrow format \"+u:1\" has no type here"),
];

/// Each schema with children, and the type that is read of it.
#[rustfmt::skip]
const TREES: [(&[Field], &str); 22] = [
    (&[("+s", "root", 0, 2, 0), ("i", "a", 2, 0, 0), ("u", "b", 0, 0, 0)], "{a=i32?, b=utf8}"),
    (&[("+l", "", 2, 1, 0), ("i", "item", 2, 0, 0)], "list(i32?)?"),
    (&[("+L", "", 0, 1, 0), ("i", "x", 0, 0, 0)], "list(i32)"),
    (&[("+vl", "", 0, 1, 0), ("i", "x", 0, 0, 0)], "list(i32)"),
    (&[("+vL", "", 0, 1, 0), ("i", "x", 0, 0, 0)], "list(i32)"),
    (&[("+w:3", "", 2, 1, 0), ("i", "x", 0, 0, 0)], "fixed_size_list(i32)[3]?"),
    (&[("+m", "", 0, 1, 0), ("+s", "entries", 0, 2, 0), ("u", "key", 0, 0, 0), ("i", "value", 2, 0, 0)], "map(utf8, i32?, keys_sorted=false)"),
    (&[("+m", "", 6, 1, 0), ("+s", "entries", 2, 2, 0), ("u", "k", 0, 0, 0), ("i", "v", 2, 0, 0)], "map(utf8, i32?, keys_sorted=true)?"),
    (&[("+ud:5,9", "", 2, 2, 0), ("i", "a", 0, 0, 0), ("u", "b", 2, 0, 0)], "union(a@5=i32, b@9=utf8?)?"),
    (&[("+us:0,127", "", 0, 2, 0), ("i", "a", 0, 0, 0), ("u", "b", 0, 0, 0)], "union(a@0=i32, b@127=utf8)"),
    (&[("+r", "", 0, 2, 0), ("i", "run_ends", 0, 0, 0), ("u", "values", 2, 0, 0)], "utf8?"),
    (&[("+r", "", 2, 2, 0), ("i", "run_ends", 0, 0, 0), ("u", "values", 0, 0, 0)], "utf8?"),
    (&[("+r", "", 0, 2, 0), ("i", "run_ends", 0, 0, 0), ("u", "values", 0, 0, 0)], "utf8"),
    (&[("i", "", 0, 0, 1), ("u", "", 0, 0, 0)], "utf8"),
    (&[("i", "", 2, 0, 1), ("u", "", 0, 0, 0)], "utf8?"),
    (&[("C", "", 0, 0, 1), ("u", "", 2, 0, 0)], "utf8"),
    (&[("i", "", 2, 0, 1), ("i", "", 0, 0, 1), ("+l", "", 0, 1, 0), ("i", "item", 0, 0, 0)], "list(i32)?"),
    (&[("+s", "", 0, 1, 0), ("", "x", 0, 0, 0)], "?column \"x\": the Arrow format \"\" has no type here"),
    (&[("+s", "", 0, 1, 0), ("+l", "a", 0, 1, 0), ("tdX", "item", 0, 0, 0)], "?column \"a.item\": the Arrow format \"tdX\" has no type here"),
    (&[("+s", "", 0, 1, 0), ("+m", "a", 0, 1, 0), ("+s", "entries", 0, 2, 0), ("u", "key", 0, 0, 0), ("tdX", "value", 2, 0, 0)], "?column \"a.entries.value\": the Arrow format \"tdX\" has no type here"),
    (&[("+s", "", 0, 1, 0), ("u", "a", 0, 0, 1), ("u", "", 0, 0, 0)], "?column \"a\": the Arrow format \"u\" is no integer type, so it can't have a dictionary"),
    (&[("+s", "", 0, 1, 0), ("+m", "a", 0, 1, 0), ("+l", "entries", 0, 1, 0), ("u", "key", 0, 0, 0)], "?column \"a\": the Arrow format \"+m\" needs a struct of a key and a value as its child"),
];

/// Each type, and the message for a type that has no schema, or nothing if it is read back.
#[rustfmt::skip]
const TYPES: [(&str, &str); 27] = [
    ("null", ""), ("bool?", ""), ("{a=i8, b=u8?, c=i16, d=u16, e=i32, f=u32, g=i64, h=u64, i=f16, j=f32, k=f64}", ""),
    ("{a=utf8, a=binary?}?", ""), ("list(list(utf8?)?)", ""), ("fixed_size_list(u8)[2147483647]", ""),
    ("map(utf8, i32?, keys_sorted=true)?", ""), ("map(utf8, list(i32)?, keys_sorted=false)", ""),
    ("union(a@5=i32, b@127=utf8?)?", ""), ("decimal(38,-3)", ""), ("decimal(39,7)?", ""), ("decimal(76,76)", ""),
    ("vortex.date[0x04](i32?)", ""), ("vortex.time[0x00](i64)", ""), ("vortex.timestamp[0x020300555443](i64?)", ""),
    ("vortex.date[0x04](i64)", ""), ("vortex.timestamp[0x020300](i64?)", ""), ("x.tag[0x0102](utf8)", ""),
    ("x.tag[0x](vortex.date[0x04](i32?))", ""), ("{\"\"={}}", ""),
    ("variant", "a variant has no Arrow type"),
    ("{a=variant?}", "column \"a\": a variant has no Arrow type"),
    ("map(utf8, variant, keys_sorted=true)", "column \"entries.value\": a variant has no Arrow type"),
    ("x.a[0x](x.b[0x](i32))", "an extension type over another extension type has no Arrow type"),
    ("list(union(a@128=i32))", "column \"item\": a tag above 127 is no type id of Arrow"),
    ("fixed_size_list(u8)[2147483648]", "a fixed-size list in Arrow has at most 2147483647 elements"),
    ("{\"a\\x00\"=i32}", "column \"a\\x00\": a name, an id or a time zone with a NUL byte can't be written"),
];

/// The nodes and the texts of a schema.
type Flat = (Vec<ArrowNode>, Vec<u8>);

fn flattened(fields: &[Field]) -> Flat {
    let (mut nodes, mut texts) = Flat::default();
    for &(format, name, flags, child_count, has_dictionary) in fields {
        nodes.push(ArrowNode {
            flags,
            format_length: format.len(),
            name_length: name.len(),
            metadata_length: 0,
            child_count,
            has_dictionary,
            fault: 0,
        });
        texts.extend_from_slice(format.as_bytes());
        texts.extend_from_slice(name.as_bytes());
    }
    (nodes, texts)
}

/// The text of the type, or a question mark and the message.
fn shown((nodes, texts): &Flat) -> String {
    match dtype_of(nodes, texts) {
        Ok(dtype) => dtype.to_source(),
        Err(ArrowFault::Refused(refusal)) => {
            format!("?{}", refusal.message().expect("there is memory"))
        }
        Err(ArrowFault::Library(column, error)) => {
            let message = column.message(&error.to_string());
            format!("library: {}", message.expect("there is memory"))
        }
        Err(ArrowFault::TooDeep(_)) => "too deep".to_owned(),
        Err(ArrowFault::OutOfRange) => "out of range".to_owned(),
        Err(ArrowFault::OutOfMemory) => "out of memory".to_owned(),
    }
}

#[test]
fn leaves_are_read() {
    for (format, flags, text) in LEAVES {
        let root = [(format, "the root", flags, 0, 0)];
        assert_eq!(shown(&flattened(&root)), text, "{format}");
    }
}

#[test]
fn other_formats_are_refused() {
    for (format, message) in NO_LEAVES {
        let root = [(format, "the root", 0, 0, 0)];
        assert_eq!(shown(&flattened(&root)), format!("?{message}"));
    }
}

#[test]
fn fields_with_children_are_read() {
    for (fields, text) in TREES {
        assert_eq!(shown(&flattened(fields)), text);
    }
}

#[test]
fn types_are_written() {
    for (text, message) in TYPES {
        let dtype: DType = text.parse().expect("a type");
        match nodes_of(&dtype) {
            Ok((nodes, texts)) => {
                assert_eq!(dtype_of(&nodes, &texts).ok(), Some(dtype));
                assert_eq!(message, "", "{text} is written");
            }
            Err(ArrowFault::Refused(refusal)) => {
                assert_eq!(refusal.message().expect("there is memory"), message);
            }
            Err(fault) => panic!("{text}: {fault:?}"),
        }
    }
}

/// So many fields of this format around an i32, each the only child of the one before it, or if there are no children the
/// indices of a dictionary whose values the next field has.
fn around(count: usize, format: &'static str, children: usize) -> Flat {
    let field = (format, "x", 0, children, u32::from(children == 0));
    let mut fields = vec![field; count];
    fields.push(("i", "x", 0, 0, 0));
    flattened(&fields)
}

#[test]
fn levels_and_fields_are_bounded() {
    assert!(shown(&around(128, "+l", 1)).ends_with("))"));
    assert_eq!(shown(&around(129, "+l", 1)), "too deep");
    assert_eq!(shown(&around(299, "i", 0)), "i32");
    let deep = "?more than 300 fields are inside one another, at the Arrow format \"i\"";
    assert!(shown(&around(300, "i", 0)).ends_with(deep));
}

/// The metadata with the extension name `x.tag`, with the pair `a`, `b`, and with the bytes 1 and 2.
#[rustfmt::skip]
const METADATA: &[u8] = b"\x03\0\0\0\x14\0\0\0ARROW:extension:name\x05\0\0\0x.tag\x01\0\0\0a\x01\0\0\0b\x18\0\0\0ARROW:extension:metadata\x02\0\0\0\x01\x02";

/// An i32 with so many bytes of metadata, and these first bytes of it, and with this fault.
fn labelled(length: usize, fault: u32) -> Flat {
    let node = ArrowNode {
        flags: 2,
        format_length: 1,
        name_length: 0,
        metadata_length: length,
        child_count: 0,
        has_dictionary: 0,
        fault,
    };
    let metadata = &METADATA[..length.min(METADATA.len())];
    (vec![node], [b"i", metadata].concat())
}

#[test]
fn metadata_and_faults_are_read() {
    let whole = METADATA.len();
    assert_eq!(shown(&labelled(whole, 0)), "x.tag[0x0102](i32?)");
    assert_eq!(shown(&labelled(0, 0)), "i32?");
    let broken = "?the metadata isn't in Arrow's form, or has an extension key twice, at the Arrow format \"i\"";
    for length in 1..whole {
        assert_eq!(shown(&labelled(length, 0)), broken, "{length} bytes");
    }
    let released = "?the schema was released, at the Arrow format \"i\"";
    assert_eq!(shown(&labelled(0, 1)), released);
    assert_eq!(shown(&labelled(0, 7)), "out of range");
    assert_eq!(shown(&labelled(whole + 1, 0)), "out of range");
}
