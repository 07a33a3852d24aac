// SPDX-License-Identifier: Apache-2.0
// SPDX-FileCopyrightText: Copyright the Vortex contributors

//! Errors: one type for those of the library and those of texts, and their kinds.

use super::RepeatedName;
use crate::dtype_base::VortexError;
use std::fmt;
use thiserror::Error as ThisError;

/// Why a text can't be read, or why another call failed. A program that does both has one type of errors:
///
/// ```
/// use vortex_logical_types::{DType, Error, ErrorKind, Nullability::NonNullable};
///
/// fn prices(value: &str) -> Result<DType, Error> {
///     Ok(DType::map(DType::Utf8(NonNullable), value.parse::<DType>()?, false, NonNullable)?)
/// }
/// assert_eq!(prices("decimal(10,2)")?.to_string(), "map(utf8, decimal(10,2), keys_sorted=false)");
/// let error = prices("decimal(10,2").unwrap_err();
/// assert_eq!((error.kind(), error.position()), (ErrorKind::Unreadable, Some(13)));
/// assert_eq!(prices("decimal(0,0)").unwrap_err().kind(), ErrorKind::PrecisionZero);
/// # Ok::<(), Error>(())
/// ```
#[derive(Debug, Clone, PartialEq, Eq, Hash, ThisError)]
#[non_exhaustive]
pub enum Error {
    /// An error of the library. A text that is spelled like a type which isn't valid, such as `decimal(3,9)`, is one.
    #[error(transparent)]
    Vortex(#[from] VortexError),
    /// Two fields of a struct would have the same name.
    #[error(transparent)]
    RepeatedName(#[from] RepeatedName),
    /// A text can't be read from this byte on. Positions are counted from 1. The position is one more than the length of
    /// the text if the text ends too early.
    #[error("unreadable at byte {position}: {message}")]
    Unreadable {
        /// The position of the byte.
        position: usize,
        /// What was expected there, and what was found.
        message: String,
    },
    /// A type is nested more than 128 levels deep. In a text, the type that is one too deep begins at this byte.
    #[error("{}", too_deep(*.position))]
    TooDeep {
        /// The position of the byte, counted from 1, or `None` if the type isn't one of a text.
        position: Option<usize>,
    },
    /// An Arrow field has no type here, or a type has no Arrow field.
    #[error("{message}")]
    Arrow {
        /// Which field or type it is, and why.
        message: String,
    },
    /// The library refuses the type of an Arrow field, or the type is nested too deeply.
    #[error("{message}")]
    ArrowField {
        /// Which field it is, and the text of the error. For example, it is `column "m": map key dtype must be non-nullable`.
        message: String,
        /// The error: `Vortex` or `TooDeep`. It decides on the kind and the number of this error.
        error: Box<Error>,
    },
}

fn too_deep(position: Option<usize>) -> String {
    match position {
        Some(position) => format!("unreadable at byte {position}: expected at most 128 levels"),
        None => "nested more than 128 levels deep".to_owned(),
    }
}

impl Error {
    /// Returns the kind of the error.
    #[must_use]
    pub fn kind(&self) -> ErrorKind {
        match self {
            Self::Vortex(error) => error.kind(),
            Self::RepeatedName(_) => ErrorKind::DuplicateNames,
            Self::Unreadable { .. } => ErrorKind::Unreadable,
            Self::TooDeep { .. } => ErrorKind::TooDeep,
            Self::Arrow { .. } => ErrorKind::Arrow,
            Self::ArrowField { error, .. } => error.kind(),
        }
    }

    /// Returns the number of the error, from 0 to 36, or `None` for an error that isn't one of the library.
    #[must_use]
    pub fn number(&self) -> Option<u8> {
        self.kind().number()
    }

    /// Returns the position of the byte from which a text can't be read on, counted from 1, or `None` if the error isn't
    /// about a place in a text.
    #[must_use]
    pub fn position(&self) -> Option<usize> {
        match self {
            Self::Vortex(_)
            | Self::RepeatedName(_)
            | Self::Arrow { .. }
            | Self::ArrowField { .. } => None,
            Self::Unreadable { position, .. } => Some(*position),
            Self::TooDeep { position } => *position,
        }
    }
}

impl VortexError {
    /// Returns the kind of the error.
    ///
    /// ```
    /// use vortex_logical_types::{DecimalDType, ErrorKind};
    ///
    /// assert_eq!(DecimalDType::try_new(0, 0).unwrap_err().kind(), ErrorKind::PrecisionZero);
    /// ```
    #[must_use]
    pub fn kind(&self) -> ErrorKind {
        ErrorKind::ALL[usize::from(self.number())]
    }
}

// Writes the enum of the kinds, and the list of all of them.
macro_rules! kinds {
    ($($(#[$doc:meta])* $kind:ident,)*) => {
        /// The kind of an error: one for each error of the library, in the order of their numbers, and one for each error
        /// of a text or of Arrow. Its `Display` is its name, for example `FieldNotFound`.
        #[derive(Debug, Clone, Copy, PartialEq, Eq, PartialOrd, Ord, Hash)]
        #[non_exhaustive]
        pub enum ErrorKind {
            $($(#[$doc])* $kind,)*
        }

        impl ErrorKind {
            /// All kinds, in their order.
            pub const ALL: &'static [Self] = &[$(Self::$kind),*];
        }
    };
}

kinds! {
    /// 0: an allocation failed, or a reference count is at its maximum.
    OutOfMemory,
    /// 1: the precision of a decimal is 0.
    PrecisionZero,
    /// 2: the precision of a decimal is above the greatest that is allowed.
    PrecisionTooLarge,
    /// 3: the scale of a decimal is above the greatest that is allowed.
    ScaleTooLarge,
    /// 4: the scale of a decimal is above its precision.
    ScaleAbovePrecision,
    /// 5: the type isn't a decimal type.
    NotDecimal,
    /// 6: the type isn't a primitive type.
    NotPrimitive,
    /// 7: the primitive type isn't a storage type of decimals.
    NotDecimalPType,
    /// 8: the number of bytes isn't the width of the integer that is read from them.
    BytesLength,
    /// 9: the key type of a map is nullable.
    MapKeyNullable,
    /// 10: a union has more or fewer types than names.
    UnionTypesLength,
    /// 11: a union has more or fewer tags than names.
    UnionTagsLength,
    /// 12: a union has no variants.
    UnionEmpty,
    /// 13: two variants of a union have the same tag.
    UnionTagsRepeat,
    /// 14: a union without tags has more than 256 variants.
    UnionTooMany,
    /// 15: two variants of a union have the same name.
    UnionNamesRepeat,
    /// 16: a selected name isn't the name of a field.
    FieldNotFound,
    /// 17: the index of a field isn't below the number of fields.
    IndexOutOfBounds,
    /// 18: two structs can't be merged, because a name occurs in both of them, or twice in one of them. Or fields can't be
    /// renamed, because two of them would have the same name ([`Error::RepeatedName`]).
    DuplicateNames,
    /// 19: the width of a value in bytes is above `usize::MAX`.
    WidthOverflow,
    /// 20: a field mask that selects only the root can't be stepped into.
    ExactRoot,
    /// 21: the field mask that selects all paths has no starting field.
    AllMask,
    /// 22: a plugin or vtable doesn't accept the metadata or the storage type of an extension.
    MetadataRefused,
    /// 23: an extension has another id than the one that it is taken for.
    ExtensionIdDiffers,
    /// 24: the message of a type has no kind.
    TypeMissing,
    /// 25: in a message, the number of a primitive type isn't from 0 to 10.
    PrimitiveNumber,
    /// 26: in a message, the precision of a decimal is above 255.
    PrecisionRange,
    /// 27: in a message, the scale of a decimal isn't from -128 to 127.
    ScaleRange,
    /// 28: in a message, a list has no element type.
    ListElementMissing,
    /// 29: in a message, a fixed-size list has no element type.
    FixedElementMissing,
    /// 30: in a message, a map has no key type.
    MapKeyMissing,
    /// 31: in a message, a map has no value type.
    MapValueMissing,
    /// 32: in a message, a struct has more or fewer types than names.
    StructLengths,
    /// 33: in a message, a tag of a union isn't from 0 to 255.
    TypeIdRange,
    /// 34: in a message, an extension has no storage type.
    StorageMissing,
    /// 35: in a message, an extension has an id that isn't registered, and unknown ids aren't kept.
    ExtensionUnregistered,
    /// 36: in the message of a path, a part has no kind.
    PathPartMissing,
    /// A text can't be read from a byte on.
    Unreadable,
    /// A type is nested more than 128 levels deep.
    TooDeep,
    /// An Arrow field has no type, or a type has no Arrow field.
    Arrow,
}

impl ErrorKind {
    /// Returns the number of the error, from 0 to 36, or `None` for an error of a text or of Arrow.
    ///
    /// ```
    /// use vortex_logical_types::ErrorKind;
    ///
    /// assert_eq!((ErrorKind::PrecisionTooLarge.number(), ErrorKind::TooDeep.number()), (Some(2), None));
    /// ```
    #[must_use]
    pub fn number(self) -> Option<u8> {
        match self {
            Self::Unreadable | Self::TooDeep | Self::Arrow => None,
            _ => Some(self as u8),
        }
    }
}

impl fmt::Display for ErrorKind {
    fn fmt(&self, f: &mut fmt::Formatter<'_>) -> fmt::Result {
        fmt::Debug::fmt(self, f)
    }
}
