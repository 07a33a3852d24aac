// SPDX-License-Identifier: Apache-2.0
// SPDX-FileCopyrightText: Copyright the Vortex contributors

//! Lists and texts whose allocations can fail: the parts of messages, and what vtables and some calls return. Each is made
//! of Rust's own by `into`, becomes Rust's own by `into`, is a slice or a `str` by `Deref`, and can be compared with
//! Rust's own. Neither copies anything.
//!
//! ```
//! use vortex_logical_types::{DType, fallible, pb};
//!
//! let names: fallible::Vec<fallible::String> = vec!["id".into(), "note".into()].into();
//! assert_eq!(names, ["id", "note"]);
//! let message = pb::Struct { names, dtypes: vec![].into(), nullable: false };
//! let names: Vec<fallible::String> = message.names.into();
//! assert_eq!(names.len(), 2);
//! ```

#[doc(inline)]
pub use crate::rattle_std::string::String;
#[doc(inline)]
pub use crate::rattle_std::vec::Vec;

use crate::memory::or_abort;
use std::borrow::Borrow;
use std::string::String as StdString;
use std::vec::Vec as StdVec;

/// Returns Rust's own list of the same elements.
impl<T> From<Vec<T>> for StdVec<T> {
    fn from(list: Vec<T>) -> Self {
        list.into_inner()
    }
}

/// Returns the list of copies of these elements.
impl<T: Clone> From<&[T]> for Vec<T> {
    fn from(list: &[T]) -> Self {
        list.to_vec().into()
    }
}

impl<T, const N: usize> From<[T; N]> for Vec<T> {
    fn from(list: [T; N]) -> Self {
        or_abort(Self::from_array(list))
    }
}

impl<T> FromIterator<T> for Vec<T> {
    fn from_iter<I: IntoIterator<Item = T>>(items: I) -> Self {
        StdVec::from_iter(items).into()
    }
}

/// Returns the empty list.
impl<T> Default for Vec<T> {
    fn default() -> Self {
        Self::new()
    }
}

impl<T: Clone> Clone for Vec<T> {
    fn clone(&self) -> Self {
        self.to_vec().into()
    }
}

impl<T> AsRef<[T]> for Vec<T> {
    fn as_ref(&self) -> &[T] {
        self
    }
}

impl<T> Borrow<[T]> for Vec<T> {
    fn borrow(&self) -> &[T] {
        self
    }
}

// Implements `==` of a list and another list.
macro_rules! equal_lists {
    ($([$($parameters:tt)*] $other:ty;)*) => {$(
        /// Returns whether the elements are equal, in order.
        impl<T: PartialEq<U>, U $($parameters)*> PartialEq<$other> for Vec<T> {
            fn eq(&self, other: &$other) -> bool {
                **self == other[..]
            }
        }
    )*};
}

equal_lists! {
    [] StdVec<U>;
    [] [U];
    [] &[U];
    [, const N: usize] [U; N];
    [, const N: usize] &[U; N];
}

/// Returns Rust's own text.
impl From<String> for StdString {
    fn from(text: String) -> Self {
        text.into_inner()
    }
}

/// Copies the text.
impl From<&str> for String {
    fn from(text: &str) -> Self {
        or_abort(Self::from_str(text))
    }
}

impl Clone for String {
    fn clone(&self) -> Self {
        self.as_str().into()
    }
}

impl AsRef<str> for String {
    fn as_ref(&self) -> &str {
        self
    }
}

// Implements `==` of two texts.
macro_rules! equal_texts {
    ($($left:ty, $right:ty;)*) => {$(
        /// Returns whether the two texts are equal.
        impl PartialEq<$right> for $left {
            fn eq(&self, other: &$right) -> bool {
                self[..] == other[..]
            }
        }
    )*};
}

equal_texts! {
    String, str;
    String, &str;
    String, StdString;
    StdString, String;
}
