// SPDX-License-Identifier: Apache-2.0
// SPDX-FileCopyrightText: Copyright the Vortex contributors

//! Texts of several lines, and what was found where a text can't be read.

use vortex_logical_types::{DType, Error, FieldPath};

/// Each text of a type, and the text that is written of that type.
#[rustfmt::skip]
const TYPES: [(&str, &str); 10] = [
    ("{\n  a = i32, # the id\n  b = list(utf8?)\n}\n", "{a=i32, b=list(utf8?)}"),
    ("\r\n# a schema\r\n{a=i32}\r\n", "{a=i32}"),
    ("i32 # a comment that the text ends", "i32"),
    ("{a # the name\n=i32}", "{a=i32}"),
    ("{a# the name\n=i32}", "{a=i32}"),
    ("{\"a#\\n\"=i32}", "{\"a#\\n\"=i32}"),
    ("map(\n\tutf8,\n\ti32,\n\tkeys_sorted = true\n)?", "map(utf8, i32, keys_sorted=true)?"),
    ("union(a@000=i32, b@01=utf8)", "union(a=i32, b=utf8)"),
    ("fixed_size_list(\nu8\n)[\n016\n]", "fixed_size_list(u8)[16]"),
    ("x.tag[ # no bytes\n0x](\nutf8\n)", "x.tag[0x](utf8)"),
];

/// Each text of a path, and the text that is written of that path.
const PATHS: [(&str, &str); 5] = [
    ("\n a.[].b # a path\n", "a.[].b"),
    ("$a.\"b c\"", "a.\"b c\""),
    (".", "."),
    ("\"\\x61\"", "a"),
    ("[].[]", "[].[]"),
];

/// Each text that stands for no type, the position of the fault, and the message.
#[rustfmt::skip]
const NO_TYPES: [(&str, usize, &str); 12] = [
    ("{a=int32}", 4, "expected a type, not \"int32\"; nearest: i32"),
    ("{a=\n  bigint}", 7, "expected a type, not \"bigint\"; nearest: i64"),
    ("list[i32]", 6, "expected 0x and the metadata of an extension, found `i`; a list is written list(T)"),
    ("list\n(i32)", 5, "expected `(`, found the end of a line"),
    ("decimal(1,-200)", 11, "expected a scale from -128 to 127, found `-200`"),
    ("[0x](u8)", 1, "expected a type, found `[`"),
    ("{a#b=i32}", 3, "expected the end of the name, found `#`; names with other characters stand in double quotes"),
    ("{a=i32", 7, "expected `,` or `}`, found the end of the text"),
    ("i32 i64", 5, "expected the end of the text, found `i`"),
    ("{\u{201c}a\u{201d}=i32}", 2, "expected a name, found `\u{201c}` (U+201C); names with other characters stand in double quotes"),
    ("", 1, "expected a type"),
    ("{\"a", 4, "expected a closing quote"),
];

/// Each text that stands for no path, the position of the first byte with which no path goes on, and the message.
#[rustfmt::skip]
const NO_PATHS: [(&str, usize, &str); 12] = [
    ("", 1, "expected a name"),
    ("a.", 3, "expected a name"),
    ("a..b", 3, "expected a name, found `.`; names with other characters stand in double quotes"),
    ("a b", 3, "expected the end of the text, found `b`"),
    ("a#b", 2, "expected the end of the name, found `#`; names with other characters stand in double quotes"),
    ("a[0]", 2, "expected the end of the text, found `[`; [] is a step of its own, for example in a.[].b"),
    ("a[]", 2, "expected the end of the text, found `[`; [] is a step of its own, for example in a.[].b"),
    ("a [0]", 3, "expected the end of the text, found `[`; [] is a step of its own, for example in a.[].b"),
    ("[0]", 1, "expected a name, found `[`; [] is a step of its own, for example in a.[].b"),
    ("a/b", 2, "expected the end of the text, found `/`; steps are joined by dots, for example a.[].b"),
    ("a\u{e9}[0]", 4, "expected the end of the text, found `[`; [] is a step of its own, for example in a.[].b"),
    ("$", 2, "expected a name"),
];

#[test]
fn texts_stand_for_types() {
    for (text, written) in TYPES {
        let read = text.parse::<DType>().map(|dtype| dtype.to_source());
        assert_eq!(read.as_deref(), Ok(written), "{text}");
    }
}

#[test]
fn texts_stand_for_paths() {
    for (text, written) in PATHS {
        let read = text.parse::<FieldPath>().map(|path| path.to_source());
        assert_eq!(read.as_deref(), Ok(written), "{text}");
    }
}

#[test]
fn messages_say_what_was_found() {
    for (text, position, message) in NO_TYPES {
        let message = message.to_owned();
        let wanted = Error::Unreadable { position, message };
        assert_eq!(text.parse::<DType>(), Err(wanted), "{text}");
    }
}

#[test]
fn messages_of_paths_say_what_was_found() {
    for (text, position, message) in NO_PATHS {
        let message = message.to_owned();
        let wanted = Error::Unreadable { position, message };
        assert_eq!(text.parse::<FieldPath>(), Err(wanted), "{text}");
    }
}
