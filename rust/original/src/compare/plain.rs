// SPDX-License-Identifier: Apache-2.0
// SPDX-FileCopyrightText: Copyright the Vortex contributors

//! Plain data, as which the results of the two sides are compared: the two have different types, but the same data.

use std::any::Any;
use std::cmp::Ordering;
use std::fmt::Debug;
use std::panic::{self, AssertUnwindSafe};
use std::sync::Arc;

use original::types::{PTYPES, Stop};
use vortex_array::dtype as theirs;
use vortex_array::dtype::proto::dtype as their_pb;
use vortex_logical_types::{self as ours, fallible, pb};

use crate::messages;
use crate::shape::Shape;

/// The steps of a path: a name, or none for the step into an element.
pub type Steps = Vec<Option<String>>;

/// A value that is plain data, or that plain data describes.
pub trait Plain {
    type Data: PartialEq + Debug;

    fn plain(&self) -> Self::Data;
}

/// Values that are plain data.
macro_rules! plain_data {
    ($($kind:ty)*) => {$(
        impl Plain for $kind {
            type Data = $kind;

            fn plain(&self) -> $kind {
                self.clone()
            }
        }
    )*};
}

plain_data! { () bool u8 i8 u16 i16 u32 i32 u64 i64 i128 usize String Shape Ordering pb::DType }

/// Values that one expression describes, which is the same for the types of both sides.
macro_rules! plain_values {
    ($($kind:ty, $($side:ty)?: $data:ty, $value:ident => $plain:expr;)*) => {
        $(plain_values!(@ $kind, $data, $value => $plain); $(plain_values!(@ $side, $data, $value => $plain);)?)*
    };
    (@ $kind:ty, $data:ty, $value:ident => $plain:expr) => {
        impl Plain for $kind {
            type Data = $data;

            fn plain(&self) -> $data {
                let $value = self;
                $plain
            }
        }
    };
}

plain_values! {
    str,: String, it => it.to_owned();
    fallible::String,: String, it => it.as_str().to_owned();
    ours::PType,: usize, it => *it as usize;
    theirs::PType,: usize, it => PTYPES.iter().position(|ptype| ptype == it).expect("a primitive type");
    ours::Nullability, theirs::Nullability: bool, it => it.is_nullable();
    ours::DecimalType, theirs::DecimalType: String, it => it.to_string();
    ours::DecimalDType, theirs::DecimalDType: (u8, i8), it => (it.precision(), it.scale());
    ours::ExtId, vortex_array::dtype::extension::ExtId: String, it => AsRef::<str>::as_ref(it).to_owned();
    ours::FieldName, theirs::FieldName: String, it => AsRef::<str>::as_ref(it).to_owned();
    ours::FieldNames, theirs::FieldNames: Vec<String>, it => it.iter().map(Plain::plain).collect();
    ours::Field, theirs::Field: Option<String>, it => it.as_name().map(str::to_owned);
    ours::FieldPath, theirs::FieldPath: Steps, it => it.parts().plain();
    ours::FieldDType,: Shape, it => it.value().plain();
    theirs::FieldDType,: Shape, it => it.value().expect("a type").plain();
    their_pb::DType,: pb::DType, it => messages::of_theirs(it);
}

/// What a mask is, in the order of its variants, and its path.
macro_rules! plain_masks {
    ($($kind:ty)*) => {$(
        impl Plain for $kind {
            type Data = (u8, Option<Steps>);

            fn plain(&self) -> Self::Data {
                match self {
                    Self::All => (0, None),
                    Self::Prefix(path) => (1, Some(path.plain())),
                    Self::Exact(path) => (2, Some(path.plain())),
                }
            }
        }
    )*};
}

plain_masks! { ours::FieldMask theirs::FieldMask }

impl<T: Plain + ?Sized> Plain for &T {
    type Data = T::Data;

    fn plain(&self) -> T::Data {
        (*self).plain()
    }
}

impl<T: Plain> Plain for Arc<T> {
    type Data = T::Data;

    fn plain(&self) -> T::Data {
        self.as_ref().plain()
    }
}

impl<T: Plain> Plain for ours::Arc<T> {
    type Data = T::Data;

    fn plain(&self) -> T::Data {
        (**self).plain()
    }
}

impl<T: Plain> Plain for Option<T> {
    type Data = Option<T::Data>;

    fn plain(&self) -> Self::Data {
        self.as_ref().map(T::plain)
    }
}

impl<T: Plain> Plain for [T] {
    type Data = Vec<T::Data>;

    fn plain(&self) -> Self::Data {
        self.iter().map(T::plain).collect()
    }
}

impl<T: Plain> Plain for Vec<T> {
    type Data = Vec<T::Data>;

    fn plain(&self) -> Self::Data {
        self[..].plain()
    }
}

impl<T: Plain> Plain for fallible::Vec<T> {
    type Data = Vec<T::Data>;

    fn plain(&self) -> Self::Data {
        self[..].plain()
    }
}

impl<T: Plain, U: Plain> Plain for (T, U) {
    type Data = (T::Data, U::Data);

    fn plain(&self) -> Self::Data {
        (self.0.plain(), self.1.plain())
    }
}

impl<T: Plain, U: Plain, V: Plain> Plain for (T, U, V) {
    type Data = (T::Data, U::Data, V::Data);

    fn plain(&self) -> Self::Data {
        (self.0.plain(), self.1.plain(), self.2.plain())
    }
}

impl<T: Plain, E: Refusal> Plain for Result<T, E> {
    type Data = Result<T::Data, u32>;

    fn plain(&self) -> Self::Data {
        self.as_ref().map(T::plain).map_err(E::number)
    }
}

/// The number of a panic: a condition wasn't met. (The errors of the library have the numbers 0 to 36.)
const CONDITION: u32 = 100;
/// The number of a text that can't be read.
pub const UNREADABLE: u32 = 101;
/// The number of an error that `original::errors` has no number for.
const UNKNOWN: u32 = 102;

/// Why a call returned nothing, as a number.
pub trait Refusal {
    fn number(&self) -> u32;
}

impl Refusal for ours::VortexError {
    fn number(&self) -> u32 {
        u32::from(ours::VortexError::number(self))
    }
}

impl Refusal for Stop {
    fn number(&self) -> u32 {
        let number = self.0.strip_prefix("refused ").and_then(|it| it.split(':').next()?.parse().ok());
        match number {
            Some(number) => number,
            None if self.0.starts_with("unreadable") => UNREADABLE,
            None => UNKNOWN,
        }
    }
}

impl Refusal for vortex_error::VortexError {
    fn number(&self) -> u32 {
        Stop::from(self).number()
    }
}

/// A call panicked.
pub struct Panicked;

impl Refusal for Panicked {
    fn number(&self) -> u32 {
        CONDITION
    }
}

impl From<Box<dyn Any + Send>> for Panicked {
    fn from(_: Box<dyn Any + Send>) -> Self {
        Panicked
    }
}

/// What a call returns, or that it panics because a condition isn't met.
pub fn caught<T>(call: impl FnOnce() -> T) -> Result<T, Panicked> {
    panic::catch_unwind(AssertUnwindSafe(call)).map_err(Panicked::from)
}
