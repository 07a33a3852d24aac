// SPDX-License-Identifier: Apache-2.0
// SPDX-FileCopyrightText: Copyright the Vortex contributors

//! Names: from texts and to texts, and compared with texts.

use crate::dtype_base::{FieldName, FieldNames};
use std::borrow::Borrow;
use std::sync::Arc;

impl AsRef<str> for FieldName {
    fn as_ref(&self) -> &str {
        self.as_str()
    }
}

/// A name has the order and the hash of its text, so that a map whose keys are names can be asked for a text:
///
/// ```
/// use std::collections::BTreeMap;
/// use vortex_logical_types::FieldName;
///
/// let widths = BTreeMap::from([(FieldName::from("id"), 8), (FieldName::from("note"), 40)]);
/// assert_eq!(widths.get("note"), Some(&40));
/// ```
impl Borrow<str> for FieldName {
    fn borrow(&self) -> &str {
        self.as_str()
    }
}

impl Borrow<str> for &FieldName {
    fn borrow(&self) -> &str {
        self.as_str()
    }
}

/// Copies the text.
impl From<&str> for FieldName {
    fn from(text: &str) -> Self {
        Self::new(text)
    }
}

/// Copies the text.
impl From<String> for FieldName {
    fn from(text: String) -> Self {
        Self::new(&text)
    }
}

/// Copies the text.
impl From<&String> for FieldName {
    fn from(text: &String) -> Self {
        Self::new(text)
    }
}

/// Copies the text.
impl From<Arc<str>> for FieldName {
    fn from(text: Arc<str>) -> Self {
        Self::new(&text)
    }
}

/// Returns a copy of the name, which shares its text.
impl From<&FieldName> for FieldName {
    fn from(name: &FieldName) -> Self {
        name.clone()
    }
}

/// Copies the text.
impl From<FieldName> for String {
    fn from(name: FieldName) -> Self {
        name.as_str().to_owned()
    }
}

/// Copies the text.
impl From<FieldName> for Arc<str> {
    fn from(name: FieldName) -> Self {
        name.as_str().into()
    }
}

// Implements `==` of two types that are both texts.
macro_rules! equal_texts {
    ($($left:ty, $right:ty;)*) => {$(
        /// Returns whether the two texts are equal.
        impl PartialEq<$right> for $left {
            fn eq(&self, other: &$right) -> bool {
                let (left, right): (&str, &str) = (self.as_ref(), other.as_ref());
                left == right
            }
        }
    )*};
}

equal_texts! {
    FieldName, str;
    FieldName, &str;
    FieldName, String;
    FieldName, &String;
    FieldName, &FieldName;
    &FieldName, FieldName;
    str, FieldName;
    &str, FieldName;
    String, FieldName;
}

/// Returns the empty list.
impl Default for FieldNames {
    fn default() -> Self {
        Self::empty()
    }
}

impl AsRef<[FieldName]> for FieldNames {
    fn as_ref(&self) -> &[FieldName] {
        self.as_slice()
    }
}

/// Returns the list of the names that an iterator yields, in order. An item may be a name or a text:
///
/// ```
/// use vortex_logical_types::FieldNames;
///
/// let names: FieldNames = (0..3).map(|number| format!("column_{number}")).collect();
/// assert_eq!(names, ["column_0", "column_1", "column_2"]);
/// ```
impl<N: Into<FieldName>> FromIterator<N> for FieldNames {
    fn from_iter<I: IntoIterator<Item = N>>(names: I) -> Self {
        Self::from(
            names
                .into_iter()
                .map(Into::into)
                .collect::<Vec<FieldName>>(),
        )
    }
}

/// Returns the list of these names. Doesn't copy them.
impl From<Vec<FieldName>> for FieldNames {
    fn from(names: Vec<FieldName>) -> Self {
        Self::from_vec(names.into())
    }
}

// Implements `From` for lists of names or texts.
macro_rules! from_lists {
    ($([$($parameters:tt)*] $list:ty;)*) => {$(
        /// Returns the list of these names, in order.
        impl<$($parameters)*> From<$list> for FieldNames {
            fn from(names: $list) -> Self {
                names.into_iter().collect()
            }
        }
    )*};
}

from_lists! {
    [] Vec<&str>;
    [] Vec<String>;
    [] Vec<Arc<str>>;
    [] &[FieldName];
    [const N: usize] [FieldName; N];
    [const N: usize] [&str; N];
}

/// Returns the list of the names with these texts, in order.
impl From<&[&str]> for FieldNames {
    fn from(texts: &[&str]) -> Self {
        texts.iter().copied().collect()
    }
}

/// Returns the list of the names with these texts, in order.
impl<const N: usize> From<&[&str; N]> for FieldNames {
    fn from(texts: &[&str; N]) -> Self {
        texts.iter().copied().collect()
    }
}

// Implements `==` of a list of names and another list.
macro_rules! equal_lists {
    ($([$($parameters:tt)*] $left:ty, $right:ty;)*) => {$(
        /// Returns whether the two lists have the same names in the same order.
        impl<$($parameters)*> PartialEq<$right> for $left {
            fn eq(&self, other: &$right) -> bool {
                self.as_slice().iter().eq(other.iter())
            }
        }
    )*};
}

equal_lists! {
    [] FieldNames, &FieldNames;
    [] &FieldNames, FieldNames;
    [] FieldNames, &[&str];
    [] &FieldNames, &[&str];
    [] FieldNames, &[FieldName];
    [] &FieldNames, &[FieldName];
    [const N: usize] FieldNames, [&str; N];
    [const N: usize] &FieldNames, [&str; N];
}
