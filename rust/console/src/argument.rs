// SPDX-License-Identifier: Apache-2.0
// SPDX-FileCopyrightText: Copyright the Vortex contributors

//! The arguments of commands, each of a type that says how it is read.

use crate::error::{Error, Result};
use crate::line::Line;
use vortex_logical_types::dtype_text::{decimal_parts, path_at, path_step_at, type_at};
use vortex_logical_types::fallible::{String as Text, Vec as List};
use vortex_logical_types::rattle_std::alloc::AllocError;
use vortex_logical_types::text_hints::path_help;
use vortex_logical_types::{
    DType, DecimalDType, DecimalType, ExtDTypeRef, ExtId, Field, FieldDType, FieldMask, FieldName, FieldNames,
    FieldPath, FieldPathSet, MapDType, Nullability, PType, StructFields, UnionVariants, Widening, format_in,
};

/// What is read from a line, after the blanks before it.
pub trait Argument: Sized {
    /// Reads it from the line.
    fn read(line: &mut Line<'_>) -> Result<Self>;
}

/// The last arguments of a line: a tuple of them, or `()`.
pub trait Arguments: Sized {
    /// Reads them, each with the blanks before it, and the end of the line.
    fn read(line: &mut Line<'_>) -> Result<Self>;
}

macro_rules! tuples {
    ($(($($kind:ident)*))*) => { $(
        #[allow(non_snake_case)]
        impl<$($kind: Argument),*> Arguments for ($($kind,)*) {
            fn read(line: &mut Line<'_>) -> Result<Self> {
                $(
                    line.separate()?;
                    let $kind = $kind::read(line)?;
                )*
                line.end()?;
                Ok(($($kind,)*))
            }
        }
    )* };
}
tuples! { () (A) (A B) (A B C) (A B C D) }

/// All arguments up to the end of the line.
impl<T: Argument> Argument for Vec<T> {
    fn read(line: &mut Line<'_>) -> Result<Self> {
        let mut all = List::new();
        while !line.is_at_end() {
            all.push(T::read(line)?)?;
            line.separate()?;
        }
        Ok(all.into_inner())
    }
}

/// Reads arguments that are joined by commas, or `-` for none.
fn read_joined<T>(line: &mut Line<'_>, item: impl Fn(&mut Line<'_>) -> Result<T>) -> Result<Vec<T>> {
    let mut joined = List::new();
    let mut is_left = !line.accepts("-");
    while is_left {
        joined.push(item(line)?)?;
        is_left = line.accepts_comma();
    }
    Ok(joined.into_inner())
}

/// The storage types of decimals.
const STORED: [DecimalType; 6] =
    [DecimalType::I8, DecimalType::I16, DecimalType::I32, DecimalType::I64, DecimalType::I128, DecimalType::I256];

/// Arguments of which each is read by an expression.
macro_rules! arguments {
    ($($kind:ty: |$line:ident| $read:expr;)*) => { $(
        impl Argument for $kind {
            fn read($line: &mut Line<'_>) -> Result<Self> {
                Ok($read)
            }
        }
    )* };
}
arguments! {
    DType: |line| line.read(type_at)?;
    FieldDType: |line| DType::read(line)?.into();
    StructFields: |line| read_kind(line, "a struct", DType::into_struct_fields_opt)?;
    UnionVariants: |line| read_kind(line, "a union", DType::into_union_variants_opt)?;
    MapDType: |line| read_kind(line, "a map", DType::into_map_opt)?;
    ExtDTypeRef: |line| read_kind(line, "an extension", |dtype| dtype.as_extension_opt().cloned())?;
    bool: |line| line.one_of("true or false")? == "true";
    Nullability: |line| Nullability::from(line.one_of("NonNullable or Nullable")? == "Nullable");
    Widening: |line| if line.one_of("None or Integers")? == "Integers" { Widening::Integers } else { Widening::None };
    FieldName: |line| line.name()?;
    FieldNames: |line| FieldNames::from(read_joined(line, FieldName::read)?);
    ExtId: |line| line.id()?;
    i128: |line| line.number("a number from -2^127 to 2^127 - 1")?;
    PType: |line| {
        let position = line.position();
        let word = line.word("a primitive type")?;
        named(PType::ALL, word, |ptype| format_in!("{ptype}"))?.ok_or_else(|| Error::expected_ptype(position, word))?
    };
    DecimalDType: |line| {
        if !line.accepts("decimal") {
            return Err(line.expected("a decimal"));
        }
        let (precision, scale) = line.read(decimal_parts)?;
        DecimalDType::try_new(precision, scale)?
    };
    DecimalType: |line| {
        const EXPECTED: &str = "a decimal's storage type";
        let position = line.position();
        let stored = named(STORED, line.word(EXPECTED)?, |stored| format_in!("{stored}"))?;
        stored.ok_or_else(|| Error::expected(position, EXPECTED))?
    };
    Field: |line| {
        let step = line.read(path_step_at)?;
        line.end_word("-+#")?;
        step
    };
    FieldPath: |line| {
        let path = line.read(path_at)?;
        let (expected, help) = match (line.peek(), path_help(line.rest().bytes().next())) {
            (None | Some(' ' | '\t' | '#'), _) if path.is_root() => return Ok(path),
            _ if path.is_root() => ("a blank", "; the root is . alone, any other path begins with a step"),
            (_, "") => return line.end_word("-+#").map(|()| path),
            (_, help) => ("a blank or a dot", help),
        };
        Err(line.expected_not(expected, help))?
    };
    FieldPathSet: |line| FieldPathSet::try_from_iter(Vec::<FieldPath>::read(line)?)?;
    FieldMask: |line| {
        let kind = line.one_of("all, prefix or exact")?;
        if kind == "all" {
            return Ok(FieldMask::All);
        }
        line.separate()?;
        let path = FieldPath::read(line)?;
        if kind == "prefix" { FieldMask::Prefix(path) } else { FieldMask::Exact(path) }
    };
    Tags: |line| Tags(read_joined(line, |line| Tag::read(line).map(|Tag(tag)| tag))?);
    Bytes: |line| Bytes(line.hexadecimals()?.into_inner());
}

/// Whole numbers, and those that stand for something, with what is expected of each. An index is counted from 0.
macro_rules! numbers {
    ($($number:ident)*; $($name:ident($of:ident): $what:literal;)*) => {
        $(pub struct $name(pub $of);)*

        arguments! {
            $($number: |line| line.number(format_args!("a number from {} to {}", $number::MIN, $number::MAX))?;)*
            $($name: |line| $name(line.number(format_args!(concat!($what, " from {} to {}"), $of::MIN, $of::MAX))?);)*
        }
    };
}
numbers! {
    u8 u16 u32 u64 i8 i16 i32 i64;
    Precision(u8): "a precision";
    Scale(i8): "a scale";
    Size(u32): "a size";
    Tag(u8): "a tag";
    Index(usize): "an index";
    Count(usize): "a count";
}

/// The tags of a union, joined by commas.
pub struct Tags(pub Vec<u8>);

/// Bytes in hexadecimal.
pub struct Bytes(pub Vec<u8>);

/// Returns that of these values whose text is the word.
pub fn named<T>(
    values: impl IntoIterator<Item = T>,
    word: &str,
    text: impl Fn(&T) -> Result<Text, AllocError>,
) -> Result<Option<T>> {
    for value in values {
        if text(&value)? == word {
            return Ok(Some(value));
        }
    }
    Ok(None)
}

/// Reads a type of one kind, of which `part` returns what it contains.
fn read_kind<T>(line: &mut Line<'_>, expected: &'static str, part: fn(DType) -> Option<T>) -> Result<T> {
    let position = line.position();
    part(DType::read(line)?).ok_or_else(|| Error::expected(position, expected))
}
