// SPDX-License-Identifier: Apache-2.0
// SPDX-FileCopyrightText: Copyright the Vortex contributors

//! The forms of arguments and of answers, in the words of `docs/CONSOLE.md`, and the errors of the library.

/// A form of an argument or of an answer, or an error: how it is written, what it stands for, and an example, which is
/// empty if there is none.
pub struct Form(pub &'static str, pub &'static str, pub &'static str);

impl Form {
    /// Returns whether this is what a form is called: the whole of how it is written, one of several that are joined by
    /// commas, or its first word, with a colon behind it or without.
    pub fn is_called(&self, text: &str) -> bool {
        let first = self.0.split(' ').next().unwrap_or_default();
        self.0.split(", ").chain([self.0, first, first.trim_end_matches(':')]).any(|it| it == text)
    }
}

#[rustfmt::skip]
pub const ARGUMENTS: &[Form] = &[
    Form("NAME", r#"a name of letters, digits and _, or any text in double quotes; the escapes in quotes are \\, \", \', \t, \n, \r, and \x with two hexadecimal digits"#, r#""a b""#),
    Form("NAMES", "names separated by commas, or - for no name", r#"a,"b c""#),
    Form("N", "NonNullable or Nullable", "Nullable"),
    Form("W", "None or Integers: which numbers may be read as wider ones", "Integers"),
    Form("BOOL", "true or false", "true"),
    Form("I, COUNT, TAG, P, S, V", "a whole number", "12"),
    Form("TAGS", "tags separated by commas, or - for no tag", "5,9"),
    Form("HEX", "bytes: 0x and two hexadecimal digits for each byte, or 0x for no byte", "0x6162"),
    Form("PT", "a primitive type: u8 to u64, i8 to i64, f16, f32, f64", "u32"),
    Form("INT", "an integer type", "i64"),
    Form("DT", "a decimal storage type: i8, i16, i32, i64, i128 or i256", "i128"),
    Form("DI", "a decimal storage type other than i256", "i64"),
    Form("D", "a decimal type, with its precision and its scale", "decimal(10,-2)"),
    Form("ID", "the id of an extension type, written like a NAME; a dot in it needs no quotes", "x.tag"),
    Form("T, S, U, M, E", "a type: T is any type, S a struct, U a union, M a map, E an extension (help types lists the forms)", "list(i32)"),
    Form("PATH, STEP, MASK", "a path, a step of a path, or a mask (help paths lists the forms)", "a.[].b"),
    Form("MSG, PART", "a message of a type, or a part of the message of a path (help messages lists the forms)", "utf8 {}"),
    Form("SESSION", "strict, unknown and plugins, separated by commas; or @ and the name of a session", "unknown,x.tag"),
    Form("PLUGIN", "x.tag, x.text, x.word or kept", "x.tag"),
    Form("NATIVE", "a native type, with up to two of Option<..> and Vec<..> around it", "Option<&str>"),
];

#[rustfmt::skip]
pub const TYPES: &[Form] = &[
    Form("null, bool, utf8, binary, variant", "types without parts; a ? behind any type other than null makes it nullable", "utf8?"),
    Form("u8, u16, u32, u64, i8, i16, i32, i64, f16, f32, f64", "primitive types", "i32"),
    Form("decimal(P,S)", "decimals, with a precision and a scale", "decimal(10,2)"),
    Form("list(T), fixed_size_list(T)[COUNT]", "lists", "list(i32?)"),
    Form("map(T, T, keys_sorted=BOOL)", "maps, with the type of the keys and the type of the values", "map(utf8, i32, keys_sorted=true)"),
    Form("{NAME=T, ..}", "structs", "{a=i32, b=utf8?}"),
    Form("union(NAME=T, ..), union(NAME@TAG=T, ..)", "unions, with the tags 0, 1 and so on, or with the tags that are written", "union(a@5=i32, b@9=utf8)"),
    Form("ID[HEX](T)", "extensions, with an id, metadata and a storage type", "x.tag[0x6162](utf8)"),
];

#[rustfmt::skip]
pub const PATHS: &[Form] = &[
    Form("NAME, $NAME", "a step into a field", "a"),
    Form("[]", "a step into the elements of a list", "[]"),
    Form("STEP.STEP..", "a path", "a.[].b"),
    Form(".", "the root, the path without a step", "."),
    Form("all", "the mask that selects every path", "all"),
    Form("prefix PATH, exact PATH", "the mask that selects a path and all longer paths that begin with it, or only that path", "prefix a.b"),
];

#[rustfmt::skip]
pub const MESSAGES: &[Form] = &[
    Form("{}", "a message without its kind", "{}"),
    Form("null {}", "has no field", "null {}"),
    Form("bool {}, utf8 {}, binary {}, variant {}", "have the field nullable, which all messages below have too, except extension", "utf8 { nullable: true }"),
    Form("primitive {}", "has the field type, a number or a name", "primitive { type: I32 }"),
    Form("decimal {}", "has the fields precision and scale", "decimal { precision: 10 scale: 2 }"),
    Form("list {}, fixed_size_list {}", "have the field element_type; fixed_size_list has the field size too", "list { element_type { utf8 {} } }"),
    Form("map {}", "has the fields key_type, value_type and keys_sorted", "map { key_type { utf8 {} } value_type { bool {} } }"),
    Form("struct {}, union {}", "have the fields names and dtypes, once for each field or variant; union has the field type_ids too", r#"struct { names: "a" dtypes { utf8 {} } }"#),
    Form("extension {}", "has the fields id, storage_dtype and metadata", r#"extension { id: "x.tag" storage_dtype { utf8 {} } }"#),
    Form("path {}", "a part of the message of a path; its name is left out if the step has none", r#"path { name: "a" }"#),
];

#[rustfmt::skip]
pub const ANSWERS: &[Form] = &[
    Form("a value", "what the call returned, written like an argument; the fields of a struct, the variants of a union and the parts of a map are printed as a non-nullable type", "i32"),
    Form("none", "the call returned None", "find z {a=i32}"),
    Form("ok", "the call returns nothing, and it was made", "set s new"),
    Form("-", "an empty list", "names {}"),
    Form(r#""""#, "an empty text; a newline in a text is printed as \\n", r#"name_text """#),
    Form("refused N: TEXT", "the library returned the error with this number, or a type in the line can't be made; help N explains an error, and help errors lists all; behind the texts of 16 and 18 stands the name of the column, and behind that of 25 the number", "type decimal(0,0)"),
    Form("condition: TEXT", "the call has a precondition, these arguments don't meet it, and so it wasn't made", "as_nonnullable null"),
    Form("unreadable at N: expected TEXT", "the line can't be read; N is the byte at which reading failed, counted from 1", "type {a=i32"),
    Form("unknown: TEXT", "there is no set or no session with this name", "set nowhere iter"),
    Form("Less, Equal, Greater", "an ordering", "name_cmp a b"),
    Form("nothing 0", "an answer of set NAME below PATH: the set is empty, and PATH is the root", "set s below ."),
    Form("end N NAME..", "an answer of set NAME below PATH: PATH is in the set, and paths continue with N names, which follow; a name has a dot behind it if paths continue after it", "set s below a"),
    Form("[] N NAME..", "an answer of set NAME below PATH: a path continues with the element of a list; after it comes what comes after end", "set s below a"),
    Form("an empty line", "the line is empty, or only a comment", "# a comment"),
];

#[rustfmt::skip]
pub const COMMENTS: &[Form] = &[
    Form("#", "begins a comment, which ends with the line, unless it is in quotes", "type i32 # a comment"),
    Form("an empty line", "is answered by an empty line; so is a line with only a comment", "# a comment"),
    Form("a carriage return", "is ignored before the end of a line", ""),
];

#[rustfmt::skip]
pub const ERRORS: &[Form] = &[
    Form("0", "an allocation failed", ""),
    Form("1", "a decimal has the precision 0", "type decimal(0,0)"),
    Form("2", "a decimal's precision is above the greatest, which is 76 for a type", "type decimal(77,0)"),
    Form("3", "a decimal's scale is above the greatest, which is 76 for a type", "type decimal(76,77)"),
    Form("4", "a decimal's scale is above its precision", "type decimal(5,6)"),
    Form("5", "a type isn't a decimal", "to_decimal i32"),
    Form("6", "a type isn't a primitive type", "to_ptype utf8"),
    Form("7", "a primitive type can't store decimals", "decimal_type_from u8"),
    Form("8", "there are more or fewer bytes than the integer type has", "try_from_le_bytes u16 0x00"),
    Form("9", "the key of a map is nullable", "type map(utf8?, i32, keys_sorted=true)"),
    Form("10", "a union has more or fewer types than names", "union_try_new a,b 0,1 i32"),
    Form("11", "a union has more or fewer tags than names", "union_try_new a,b 0 i32 u8"),
    Form("12", "a union has no variant", "type union()"),
    Form("13", "two variants of a union have the same tag", "type union(a@1=i32, b@1=u8)"),
    Form("14", "a union has more than 256 variants", ""),
    Form("15", "two variants of a union have the same name", "type union(a=i32, a=u8)"),
    Form("16", "a projection asks for a name that no field has; the answer has its position in the projection, counted from 0, and the name", "project a,c {a=i32}"),
    Form("17", "a field's index isn't below the number of fields", "without_field 9 {a=i32}"),
    Form("18", "two structs that are merged have a name in common; the answer has the first such name", "disjoint_merge {a=i32} {a=u8}"),
    Form("19", "a value of the type, or of a part of it, is wider than 18446744073709551615 bytes", "element_size fixed_size_list(fixed_size_list(fixed_size_list(u8)[4294967295])[4294967295])[4294967295]"),
    Form("20", "a mask that selects only the root can't be stepped into", "mask_step_into exact ."),
    Form("21", "the mask that selects every path has no first step", "starting_field all"),
    Form("22", "a plugin doesn't accept the metadata or the storage type of an extension", "tag_new 0x21 utf8"),
    Form("23", "an extension has another id", "tag_downcast x.word[0x](utf8)"),
    Form("24", "a message has no kind", "read strict {}"),
    Form("25", "a message has a number that no primitive type has; the answer has the number", "read strict primitive { type: 99 }"),
    Form("26", "a message's precision is above 255", "read strict decimal { precision: 256 }"),
    Form("27", "a message's scale isn't from -128 to 127", "read strict decimal { precision: 1 scale: 128 }"),
    Form("28", "a list's message has no element type", "read strict list {}"),
    Form("29", "a fixed-size list's message has no element type", "read strict fixed_size_list {}"),
    Form("30", "a map's message has no key type", "read strict map {}"),
    Form("31", "a map's message has no value type", "read strict map { key_type { utf8 {} } }"),
    Form("32", "a struct's message has more or fewer types than names", r#"read strict struct { names: "a" }"#),
    Form("33", "a union's message has a tag that isn't from 0 to 255", r#"read strict union { names: "a" dtypes { utf8 {} } type_ids: 256 }"#),
    Form("34", "an extension's message has no storage type", r#"read strict extension { id: "x.tag" }"#),
    Form("35", "a session has no plugin for an extension's id, and doesn't keep unknown ids", r#"read strict extension { id: "x.tag" storage_dtype { utf8 {} } }"#),
    Form("36", "a part of a path's message has no kind", "read_path path {}"),
];
