// SPDX-License-Identifier: Apache-2.0
// SPDX-FileCopyrightText: Copyright the Vortex contributors

//! Messages of types and of paths in protobuf's text format: how they are read and written.

use crate::answer::{Answer, Joined};
use crate::argument::{Argument, named};
use crate::error::{Error, Result};
use crate::line::Line;
use crate::protobuf_text::{
    read_bool, read_bytes, read_signed, read_text, read_unsigned, write_quoted, write_quoted_bytes,
};
use std::fmt::Display;
use vortex_logical_types::fallible::{String as Text, Vec as List};
use vortex_logical_types::rattle_std::boxed;
use vortex_logical_types::{MAX_LEVELS, format_in, pb};

const A_KIND: &str = "a kind of type: null, bool, primitive, decimal, utf8, binary, list, fixed_size_list, map, struct, union, variant or extension";
const A_PTYPE: &str =
    "a primitive type (U8 to U64, I8 to I64, F16, F32, F64) or a number from -2147483648 to 2147483647";
const A_NUMBER: &str = "a number from -2147483648 to 2147483647";

/// The kinds of messages, each with its name, what keeps its message if it is in a box, and its fields in the order in which
/// they are written.
macro_rules! kinds {
    ($($kind:ident $name:literal $(in $keep:path)? { $($key:literal: $field:ident),* })*) => {
        /// Returns the message of a kind in which each field has its default.
        fn empty(name: &str) -> Result<Option<pb::DtypeType>> {
            Ok(Some(match name {
                $($name => {
                    let message = pb::$kind { $($field: Default::default()),* };
                    $(let message = $keep(message)?;)?
                    pb::DtypeType::$kind(message)
                })*
                _ => return Ok(None),
            }))
        }

        /// Returns the field of this name, unless the message has none.
        fn field<'a>(message: &'a mut pb::DtypeType, name: &str) -> Option<&'a mut dyn Value> {
            match (message, name) {
                $($((pb::DtypeType::$kind(it), $key) => Some(&mut it.$field),)*)*
                _ => None,
            }
        }

        /// Writes a message: its kind, and in braces its fields.
        fn write_message(message: &pb::DtypeType, out: &mut Text) -> Result<()> {
            match message {
                $(pb::DtypeType::$kind(_it) => {
                    out.push_str(concat!($name, " {"))?;
                    $(Value::write(&_it.$field, $key, out)?;)*
                })*
            }
            Ok(out.push_str(if out.ends_with('{') { "}" } else { " }" })?)
        }
    };
}
kinds! {
    Null "null" {}
    Bool "bool" { "nullable": nullable }
    Primitive "primitive" { "type": ptype, "nullable": nullable }
    Decimal "decimal" { "precision": precision, "scale": scale, "nullable": nullable }
    Utf8 "utf8" { "nullable": nullable }
    Binary "binary" { "nullable": nullable }
    List "list" in boxed::new { "element_type": element_type, "nullable": nullable }
    FixedSizeList "fixed_size_list" in boxed::new { "element_type": element_type, "size": size, "nullable": nullable }
    Map "map" in boxed::new { "key_type": key_type, "value_type": value_type, "keys_sorted": keys_sorted, "nullable": nullable }
    Struct "struct" { "names": names, "dtypes": dtypes, "nullable": nullable }
    Union "union" { "names": names, "dtypes": dtypes, "type_ids": type_ids, "nullable": nullable }
    Variant "variant" { "nullable": nullable }
    Extension "extension" in boxed::new { "id": id, "storage_dtype": storage_dtype, "metadata": metadata }
}

/// The value of a field.
trait Value {
    /// Reads the value behind the name of its field. It may have so many levels of messages.
    fn read(&mut self, field: &str, line: &mut Line<'_>, levels: u32) -> Result<()>;

    /// Writes the field, unless the value is the default.
    fn write(&self, field: &str, out: &mut Text) -> Result<()>;
}

/// The types of values: how each is read and kept, and how a field of it is written.
macro_rules! values {
    ($($kind:ty: |$it:ident, $field:ident, $line:ident, $levels:ident| $read:expr, |$out:ident| $write:expr;)*) => { $(
        impl Value for $kind {
            #[allow(unused_variables)]
            fn read(&mut self, $field: &str, $line: &mut Line<'_>, $levels: u32) -> Result<()> {
                let $it = self;
                $read;
                Ok(())
            }

            fn write(&self, $field: &str, $out: &mut Text) -> Result<()> {
                let $it = self;
                $write
            }
        }
    )* };
}
values! {
    bool: |it, field, line, _levels| *it = read_colon(line, read_bool)?, |out| write_if(*it, field, it, out);
    u32: |it, field, line, _levels| *it = read_colon(line, read_unsigned)?, |out| write_if(*it != 0, field, it, out);
    i32: |it, field, line, _levels|
        *it = read_colon(line, |line| if field == "type" { read_ptype(line) } else { read_signed(line, A_NUMBER) })?,
        |out| match pb::PType::from_number(*it) {
            Some(ptype) if field == "type" => write_if(*it != 0, field, format_in!("{ptype:?}")?, out),
            _ => write_if(*it != 0, field, it, out),
        };
    Text: |it, field, line, _levels| *it = read_colon(line, read_text)?,
        |out| if it.is_empty() { Ok(()) } else { write_text(field, it, out) };
    Option<List<u8>>: |it, field, line, _levels| *it = Some(read_colon(line, read_bytes)?),
        |out| it.iter().try_for_each(|bytes| {
            write!(out, " {field}: ")?;
            write_quoted_bytes(bytes, out)
        });
    Option<Box<pb::DType>>: |it, field, line, levels| {
        accept_colon(line);
        *it = Some(boxed::new(read_part(line, levels)?)?);
    }, |out| it.iter().try_for_each(|part| write_part(field, part, out));
    List<Text>: |it, field, line, _levels| read_colon(line, |line| add_items(line, it, read_text))?,
        |out| it.iter().try_for_each(|text| write_text(field, text, out));
    List<i32>: |it, field, line, _levels| read_colon(line, |line| add_items(line, it, |line| read_signed(line, A_NUMBER)))?,
        |out| it.iter().try_for_each(|number| write_if(true, field, number, out));
    List<pb::DType>: |it, field, line, levels| {
        accept_colon(line);
        add_items(line, it, |line| read_part(line, levels))?;
    }, |out| it.iter().try_for_each(|part| write_part(field, part, out));
}

/// Writes a field with this value if it is to be written.
fn write_if(is_written: bool, field: &str, value: impl Display, out: &mut Text) -> Result<()> {
    if is_written { Ok(write!(out, " {field}: {value}")?) } else { Ok(()) }
}

/// Writes a field with this text.
fn write_text(field: &str, text: &str, out: &mut Text) -> Result<()> {
    write!(out, " {field}: ")?;
    write_quoted(text, out)
}

/// Reads one item of a field that repeats, or a list of them, and adds what was read.
fn add_items<T>(
    line: &mut Line<'_>,
    items: &mut List<T>,
    mut item: impl FnMut(&mut Line<'_>) -> Result<T>,
) -> Result<()> {
    if !line.accepts("[") {
        return Ok(items.push(item(line)?)?);
    }
    line.skip_blanks();
    let mut is_first = true;
    while !line.accepts("]") {
        if !is_first && !line.accepts_comma() {
            return Err(line.expected_not("`,` or `]`", ""));
        }
        items.push(item(line)?)?;
        line.skip_blanks();
        is_first = false;
    }
    Ok(())
}

/// Reads a message in brackets, a level deeper.
fn read_part(line: &mut Line<'_>, levels: u32) -> Result<pb::DType> {
    let levels = levels.checked_sub(1).ok_or_else(|| line.expected("at most 128 levels"))?;
    let close = open(line)?;
    line.skip_blanks();
    if line.accepts(close) {
        return Ok(pb::DType { dtype_type: None });
    }
    let kind = read_kind(line, levels)?;
    end_field(line);
    line.skip_blanks();
    line.take(close)?;
    Ok(pb::DType { dtype_type: Some(kind) })
}

/// Writes a field with this message.
fn write_part(field: &str, part: &pb::DType, out: &mut Text) -> Result<()> {
    write!(out, " {field} {{")?;
    if let Some(kind) = &part.dtype_type {
        out.push(' ')?;
        write_message(kind, out)?;
        out.push(' ')?;
    }
    Ok(out.push('}')?)
}

/// Reads a kind, and its fields in brackets. Of several fields of one name the last counts, unless they repeat.
fn read_kind(line: &mut Line<'_>, levels: u32) -> Result<pb::DtypeType> {
    let position = line.position();
    let name = line.word(A_KIND)?;
    let mut message = empty(name)?.ok_or_else(|| Error::expected_word(position, A_KIND, name))?;
    accept_colon(line);
    let close = open(line)?;
    loop {
        line.skip_blanks();
        if line.accepts(close) {
            return Ok(message);
        }
        let position = line.position();
        let name = line.word("a field, or }")?;
        let field = field(&mut message, name);
        field.ok_or_else(|| Error::expected(position, "a field of this kind, or }"))?.read(name, line, levels)?;
        end_field(line);
    }
}

/// Reads the colon behind the name of a field, with the blanks around it, and then the value.
fn read_colon<T>(line: &mut Line<'_>, value: impl FnOnce(&mut Line<'_>) -> Result<T>) -> Result<T> {
    line.skip_blanks();
    line.take(":")?;
    line.skip_blanks();
    value(line)
}

/// Reads the colon before a message, which may be left out, with the blanks around it.
fn accept_colon(line: &mut Line<'_>) {
    line.accepts_after_blanks(":");
    line.skip_blanks();
}

/// Reads the opening bracket of a message, and returns the closing one.
fn open(line: &mut Line<'_>) -> Result<&'static str> {
    if line.accepts("<") { Ok(">") } else { line.take("{").map(|()| "}") }
}

/// Reads the comma or the semicolon that may follow a field, with the blanks before it, and returns whether one did.
fn end_field(line: &mut Line<'_>) -> bool {
    line.accepts_after_blanks(",") || line.accepts_after_blanks(";")
}

/// Reads the number of a primitive type, or its name.
fn read_ptype(line: &mut Line<'_>) -> Result<i32> {
    if !line.peek().is_some_and(|next| next.is_ascii_alphabetic()) {
        return read_signed(line, A_PTYPE);
    }
    let position = line.position();
    let word = line.word(A_PTYPE)?;
    let ptype = named((0..).map_while(pb::PType::from_number), word, |ptype| format_in!("{ptype:?}"))?;
    ptype.map(|ptype| ptype.number()).ok_or_else(|| Error::expected_word(position, A_PTYPE, word))
}

/// A message of a type: a kind, or `{}`.
impl Argument for pb::DType {
    fn read(line: &mut Line<'_>) -> Result<Self> {
        if line.accepts("{") {
            line.skip_blanks();
            line.take("}")?;
            return Ok(pb::DType { dtype_type: None });
        }
        Ok(pb::DType { dtype_type: Some(read_kind(line, MAX_LEVELS)?) })
    }
}

impl Answer for pb::DType {
    fn write(self, answer: &mut Text) -> Result<()> {
        match &self.dtype_type {
            Some(kind) => write_message(kind, answer),
            None => "{}".write(answer),
        }
    }
}

/// A message of a path: its parts up to the end of the line.
impl Argument for pb::FieldPath {
    fn read(line: &mut Line<'_>) -> Result<Self> {
        let mut path = List::new();
        while !line.is_at_end() {
            line.take("path")?;
            accept_colon(line);
            add_items(line, &mut path, read_path_part)?;
            if end_field(line) {
                line.skip_blanks();
            } else {
                line.separate()?;
            }
        }
        Ok(pb::FieldPath { path })
    }
}

/// Reads a part of a path in brackets. Of several names the last counts.
fn read_path_part(line: &mut Line<'_>) -> Result<pb::Field> {
    let close = open(line)?;
    line.skip_blanks();
    let mut field_type = None;
    while line.accepts("name") {
        field_type = Some(pb::FieldType::Name(read_colon(line, read_text)?));
        end_field(line);
        line.skip_blanks();
    }
    line.take(close)?;
    Ok(pb::Field { field_type })
}

impl Answer for pb::FieldPath {
    fn write(self, answer: &mut Text) -> Result<()> {
        Joined(" ", &self.path).write(answer)
    }
}

impl Answer for &pb::Field {
    fn write(self, answer: &mut Text) -> Result<()> {
        answer.push_str("path {")?;
        if let Some(pb::FieldType::Name(name)) = &self.field_type {
            write_text("name", name, answer)?;
            answer.push(' ')?;
        }
        Ok(answer.push('}')?)
    }
}
