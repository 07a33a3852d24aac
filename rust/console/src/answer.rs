// SPDX-License-Identifier: Apache-2.0
// SPDX-FileCopyrightText: Copyright the Vortex contributors

//! The values that commands print, each of a type that says how it is written.

use crate::error::{Result, unless};
use std::cmp::Ordering;
use std::fmt::Display;
use std::ops::Deref;
use vortex_logical_types::dtype_text::{
    try_write_dtype, try_write_extension, try_write_fields, try_write_hex, try_write_id, try_write_map, try_write_name,
    try_write_path, try_write_step, try_write_union,
};
use vortex_logical_types::fallible::{String as Text, Vec as List};
use vortex_logical_types::{
    DType, DecimalDType, DecimalType, ExtDTypeRef, ExtId, Field, FieldMask, FieldName, FieldNames, FieldPath,
    MAX_LEVELS, MapDType, PType, StructFields, UnionVariants, format_in,
};

/// A value that is printed.
pub trait Answer {
    /// Appends the value to an answer.
    ///
    /// # Errors
    ///
    /// The condition that the console could read the value back: a type has at most 128 levels. `OutOfMemory` (0).
    fn write(self, answer: &mut Text) -> Result<()>;
}

/// How the values of each type are appended to an answer.
macro_rules! answers {
    ($($($kind:ty)|+: |$it:ident, $answer:ident| $write:expr;)*) => { $($(
        impl Answer for &$kind {
            fn write(self, $answer: &mut Text) -> Result<()> {
                let $it = self;
                Ok($write?)
            }
        }

        impl Answer for $kind {
            fn write(self, answer: &mut Text) -> Result<()> {
                Answer::write(&self, answer)
            }
        }
    )+)* };
}
answers! {
    bool | u8 | u16 | u32 | u64 | usize | i8 | i16 | i32 | i64 | i128 | Text | PType | DecimalDType | DecimalType:
        |it, answer| write!(answer, "{it}");
    Ordering: |it, answer| write!(answer, "{it:?}");
    (): |_it, answer| answer.push_str("ok");
    DType: |it, answer| { of_levels(levels(it))?; try_write_dtype(answer, it) };
    StructFields: |it, answer| { of_levels(levels_around(it.fields()))?; try_write_fields(answer, it) };
    UnionVariants: |it, answer| { of_levels(levels_around(it.variants()))?; try_write_union(answer, it) };
    MapDType: |it, answer| { of_levels(levels_around([it.key_dtype(), it.value_dtype()]))?; try_write_map(answer, it) };
    ExtDTypeRef: |it, answer| { of_levels(levels_around([it.storage_dtype()]))?; try_write_extension(answer, it) };
    ExtId: |it, answer| try_write_id(answer, it);
    FieldName: |it, answer| try_write_name(answer, it);
    FieldNames: |it, answer| Joined(",", it.iter()).write(answer);
    Field: |it, answer| try_write_step(answer, it);
    FieldPath: |it, answer| try_write_path(answer, it);
    FieldMask: |it, answer| match it {
        FieldMask::All => "all".write(answer),
        FieldMask::Prefix(path) => ("prefix", path).write(answer),
        FieldMask::Exact(path) => ("exact", path).write(answer),
    };
}

impl Answer for &str {
    fn write(self, answer: &mut Text) -> Result<()> {
        Ok(answer.push_str(self)?)
    }
}

/// Returns an error if a type of so many levels couldn't be read back.
fn of_levels(levels: u32) -> Result<()> {
    unless(levels <= MAX_LEVELS, "at most 128 levels")
}

/// Returns how many types are around the deepest part of a type.
fn levels(dtype: &DType) -> u32 {
    match dtype {
        DType::List(element, _) | DType::FixedSizeList(element, _, _) => levels_around([&**element]),
        DType::Map(map, _) => levels_around([map.key_dtype(), map.value_dtype()]),
        DType::Struct(fields, _) => levels_around(fields.fields()),
        DType::Union(variants, _) => levels_around(variants.variants()),
        DType::Extension(extension) => levels_around([extension.storage_dtype()]),
        _ => 0,
    }
}

/// Returns the levels of a type with these parts.
fn levels_around<'a>(parts: impl IntoIterator<Item = &'a DType>) -> u32 {
    parts.into_iter().map(levels).max().map_or(0, |levels| levels + 1)
}

/// Items that are joined by a separator, or `-` if there is none.
pub struct Joined<I>(pub &'static str, pub I);

impl<I: IntoIterator<Item: Answer>> Answer for Joined<I> {
    fn write(self, answer: &mut Text) -> Result<()> {
        let mut between = "";
        for item in self.1 {
            answer.push_str(between)?;
            item.write(answer)?;
            between = self.0;
        }
        Ok(answer.push_str(if between.is_empty() { "-" } else { "" })?)
    }
}

impl<T: Answer> Answer for Option<T> {
    fn write(self, answer: &mut Text) -> Result<()> {
        match self {
            Some(value) => value.write(answer),
            None => "none".write(answer),
        }
    }
}

/// Several values, which are separated by spaces.
macro_rules! tuples {
    ($(($first:ident $(, $rest:ident)*))*) => { $(
        #[allow(non_snake_case)]
        impl<$first: Answer $(, $rest: Answer)*> Answer for ($first, $($rest,)*) {
            fn write(self, answer: &mut Text) -> Result<()> {
                let ($first, $($rest,)*) = self;
                $first.write(answer)?;
                $(answer.push(' ')?; $rest.write(answer)?;)*
                Ok(())
            }
        }
    )* };
}
tuples! { (A, B) (A, B, C) (A, B, C, D) }

/// Bytes, which are written in hexadecimal.
pub struct Hex<T>(pub T);

impl<T: Deref<Target = [u8]>> Answer for Hex<T> {
    fn write(self, answer: &mut Text) -> Result<()> {
        Ok(try_write_hex(answer, &self.0)?)
    }
}

/// The text that the library prints of a value, on one line: with `\n` for a newline, and `""` if it is empty.
pub struct Shown<T>(pub T);

impl<T: Display> Answer for Shown<T> {
    fn write(self, answer: &mut Text) -> Result<()> {
        let text = format_in!("{}", self.0)?;
        if text.is_empty() { "\"\"".write(answer) } else { Joined("\\n", text.split('\n')).write(answer) }
    }
}

/// Returns the words that hold.
pub fn words<const N: usize>(words: [(&'static str, bool); N]) -> Joined<impl Iterator<Item = &'static str>> {
    Joined(" ", words.into_iter().filter(|(_, holds)| *holds).map(|(word, _)| word))
}

/// Returns the texts of values in the order of their bytes.
pub fn sorted(values: impl IntoIterator<Item: Answer>) -> Result<Joined<List<Text>>> {
    let mut texts = List::new();
    for value in values {
        texts.push(text_of(value)?)?;
    }
    texts.sort_unstable();
    Ok(Joined(" ", texts))
}

/// Returns the text of a value.
pub fn text_of(value: impl Answer) -> Result<Text> {
    let mut text = Text::new();
    value.write(&mut text)?;
    Ok(text)
}
