// SPDX-License-Identifier: Apache-2.0
// SPDX-FileCopyrightText: Copyright the Vortex contributors

//! Texts: types and paths from the texts that stand for them, and the texts of types and paths.

use super::{Error, or_abort};
use crate::dtype_base::{DecimalType, PType, VortexError, VortexResult};
use crate::dtype_paths::FieldPath;
use crate::dtype_text::{TextError, read_dtype, read_path, try_write_dtype, try_write_path};
use crate::dtype_types::{DType, Kind};
use crate::rattle_std::alloc::AllocError;
use crate::text_hints::{TextHint, hint_of, hint_of_path};
use std::fmt;
use std::str::FromStr;

impl DType {
    /// Returns the text of the type, from which [`FromStr`] reads the same type. It is the text that `Display` writes,
    /// except that names that need quotes have them, and that metadata is written in full.
    ///
    /// ```
    /// use vortex_logical_types::DType;
    ///
    /// let dtype: DType = r#"{ "unit price" = decimal(10, 2)?, at=vortex.date[0x04](i32) }"#.parse()?;
    /// assert_eq!(dtype.to_source(), r#"{"unit price"=decimal(10,2)?, at=vortex.date[0x04](i32)}"#);
    /// assert_eq!(dtype.to_string(), "{unit price=decimal(10,2)?, at=vortex.date[1B](i32)}");
    /// # Ok::<(), vortex_logical_types::Error>(())
    /// ```
    #[must_use]
    pub fn to_source(&self) -> String {
        or_abort(self.try_to_source())
    }

    /// Returns what `to_source` returns.
    ///
    /// # Errors
    ///
    /// - `OutOfMemory` (0): an allocation fails.
    pub fn try_to_source(&self) -> VortexResult<String> {
        let mut text = crate::fallible::String::new();
        try_write_dtype(&mut text, self)?;
        Ok(text.into())
    }
}

impl FieldPath {
    /// Returns the text of the path, from which [`FromStr`] reads the same path, such as `a.[].b`, or `.` for the root.
    ///
    /// ```
    /// use vortex_logical_types::{FieldPath, field_path};
    ///
    /// assert_eq!(field_path!("lines", [], "unit price").to_source(), r#"lines.[]."unit price""#);
    /// assert_eq!(FieldPath::root().to_source(), ".");
    /// ```
    #[must_use]
    pub fn to_source(&self) -> String {
        or_abort(self.try_to_source())
    }

    /// Returns what `to_source` returns.
    ///
    /// # Errors
    ///
    /// - `OutOfMemory` (0): an allocation fails.
    pub fn try_to_source(&self) -> VortexResult<String> {
        let mut text = crate::fallible::String::new();
        try_write_path(&mut text, self)?;
        Ok(text.into())
    }
}

/// Reads the type for which a text stands.
///
/// ```
/// use vortex_logical_types::{DType, PType};
///
/// assert_eq!(DType::from(PType::U64), "u64".parse()?);
/// let error = "{a=i32, b=int32}".parse::<DType>().unwrap_err();
/// assert_eq!(error.to_string(), r#"unreadable at byte 11: expected a type, not "int32"; nearest: i32"#);
/// # Ok::<(), vortex_logical_types::Error>(())
/// ```
///
/// # Errors
///
/// - `Unreadable`: the text isn't spelled like a type.
/// - `TooDeep`: the text spells a type that is nested more than 128 levels deep.
/// - The error of the library if the text is spelled like a type that isn't valid, for example `PrecisionZero` (1) for
///   `decimal(0,0)`.
/// - `OutOfMemory` (0): an allocation fails.
impl FromStr for DType {
    type Err = Error;

    fn from_str(text: &str) -> Result<Self, Error> {
        read_dtype(text).map_err(|error| unreadable(&error, text, hint_of))
    }
}

/// Reads the path for which a text stands: steps with a `.` between them, each a name or `[]`. The root is `.` alone.
///
/// ```
/// use vortex_logical_types::{FieldPath, field_path};
///
/// assert_eq!("lines.[].sku".parse::<FieldPath>()?, field_path!("lines", [], "sku"));
/// # Ok::<(), vortex_logical_types::Error>(())
/// ```
///
/// # Errors
///
/// - `Unreadable`: the text isn't spelled like a path. For example, of `a[0]` the message is ``expected the end of the text,
///   found `[`; [] is a step of its own, for example in a.[].b``.
/// - `OutOfMemory` (0): an allocation fails.
impl FromStr for FieldPath {
    type Err = Error;

    fn from_str(text: &str) -> Result<Self, Error> {
        read_path(text).map_err(|error| unreadable(&error, text, hint_of_path))
    }
}

// Returns the place and the message of an error of this text, or `None` if the error has no place.
type HintOf = fn(&TextError, &str) -> Result<Option<TextHint>, AllocError>;

// Returns the error of a text that can't be read, with what may have been meant.
fn unreadable(error: &TextError, text: &str, hint_of: HintOf) -> Error {
    match error {
        TextError::Refused(error) => Error::Vortex(*error),
        TextError::TooDeep { position } => Error::TooDeep {
            position: Some(*position),
        },
        TextError::OutOfMemory | TextError::Misread { .. } => match hint_of(error, text) {
            Ok(Some(hint)) => Error::Unreadable {
                position: hint.position,
                message: hint.message.into(),
            },
            Ok(None) | Err(_) => Error::Vortex(VortexError::OutOfMemory),
        },
    }
}

impl TryFrom<&str> for DType {
    type Error = Error;

    fn try_from(text: &str) -> Result<Self, Error> {
        text.parse()
    }
}

impl TryFrom<&str> for FieldPath {
    type Error = Error;

    fn try_from(text: &str) -> Result<Self, Error> {
        text.parse()
    }
}

// Returns that of these values whose `Display` is the text.
fn named<T: Copy + fmt::Display>(all: &[T], text: &str, expected: &str) -> Result<T, Error> {
    let found = all.iter().find(|value| value.to_string() == text);
    found.copied().ok_or_else(|| Error::Unreadable {
        position: 1,
        message: format!("expected {expected}, not {text:?}"),
    })
}

/// Reads the text that `Display` writes, such as `u8`.
///
/// ```
/// use vortex_logical_types::PType;
///
/// assert_eq!("u8".parse(), Ok(PType::U8));
/// assert!("U8".parse::<PType>().is_err());
/// ```
///
/// # Errors
///
/// - `Unreadable` at the position 1: the text isn't that of a primitive type.
impl FromStr for PType {
    type Err = Error;

    fn from_str(text: &str) -> Result<Self, Error> {
        named(
            &Self::ALL,
            text,
            "a primitive type (u8 to u64, i8 to i64, f16, f32 or f64)",
        )
    }
}

impl TryFrom<&str> for PType {
    type Error = Error;

    fn try_from(text: &str) -> Result<Self, Error> {
        text.parse()
    }
}

/// Reads the text that `Display` writes, such as `i128`.
///
/// # Errors
///
/// - `Unreadable` at the position 1: the text isn't that of a storage type of decimals.
impl FromStr for DecimalType {
    type Err = Error;

    fn from_str(text: &str) -> Result<Self, Error> {
        let all = [
            Self::I8,
            Self::I16,
            Self::I32,
            Self::I64,
            Self::I128,
            Self::I256,
        ];
        named(&all, text, "a storage type of decimals (i8 to i256)")
    }
}

/// Writes the kind in lower case, such as `fixed_size_list`.
impl fmt::Display for Kind {
    fn fmt(&self, f: &mut fmt::Formatter<'_>) -> fmt::Result {
        f.pad(match self {
            Self::Null => "null",
            Self::Bool => "bool",
            Self::Primitive => "primitive",
            Self::Decimal => "decimal",
            Self::Utf8 => "utf8",
            Self::Binary => "binary",
            Self::List => "list",
            Self::FixedSizeList => "fixed_size_list",
            Self::Map => "map",
            Self::Struct => "struct",
            Self::Union => "union",
            Self::Variant => "variant",
            Self::Extension => "extension",
        })
    }
}

/// Reads the text that `Display` writes, such as `list`.
///
/// ```
/// use vortex_logical_types::{DType, Kind};
///
/// assert_eq!("list(i8)".parse::<DType>()?.kind(), "list".parse::<Kind>()?);
/// # Ok::<(), vortex_logical_types::Error>(())
/// ```
///
/// # Errors
///
/// - `Unreadable` at the position 1: the text isn't that of a kind.
impl FromStr for Kind {
    type Err = Error;

    fn from_str(text: &str) -> Result<Self, Error> {
        named(&Self::ALL, text, "a kind of types, such as `list`")
    }
}

impl TryFrom<&str> for Kind {
    type Error = Error;

    fn try_from(text: &str) -> Result<Self, Error> {
        text.parse()
    }
}
