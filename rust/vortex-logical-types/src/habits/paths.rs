// SPDX-License-Identifier: Apache-2.0
// SPDX-FileCopyrightText: Copyright the Vortex contributors

//! Paths: from names and texts, as collections of their steps, and into types and references to types.

use super::or_abort;
use crate::dtype_base::{FieldName, VortexResult};
use crate::dtype_paths::{Field, FieldPath};
use crate::dtype_types::DType;
use std::borrow::Borrow;
use std::cmp::Ordering;
use std::mem;
use std::slice;
use std::sync::Arc;
use std::vec;

/// Returns the step to the field with this name. The text is the name and not the text of a path, so `a.b` is one name.
impl From<&str> for Field {
    fn from(name: &str) -> Self {
        Self::Name(name.into())
    }
}

/// Returns the step to the field with this name.
impl From<String> for Field {
    fn from(name: String) -> Self {
        Self::Name(name.into())
    }
}

/// Returns the step to the field with this name.
impl From<Arc<str>> for Field {
    fn from(name: Arc<str>) -> Self {
        Self::Name(name.into())
    }
}

/// Returns the step to the field with this name.
impl From<&FieldName> for Field {
    fn from(name: &FieldName) -> Self {
        Self::Name(name.clone())
    }
}

impl From<&Field> for Field {
    fn from(field: &Field) -> Self {
        field.clone()
    }
}

impl FieldPath {
    /// Returns the path whose only step is the step to the field with this name.
    ///
    /// ```
    /// use vortex_logical_types::FieldPath;
    ///
    /// assert_eq!(FieldPath::from_name("id").to_string(), "$id");
    /// ```
    #[must_use]
    pub fn from_name(name: impl Into<FieldName>) -> Self {
        or_abort(Self::try_from_name(name.into()))
    }

    /// Returns the path with this one step.
    ///
    /// ```
    /// use vortex_logical_types::{Field, FieldPath};
    ///
    /// assert_eq!(FieldPath::from_field(Field::ElementType).to_string(), "[]");
    /// assert_eq!(FieldPath::from_field("id"), FieldPath::from_name("id"));
    /// ```
    #[must_use]
    pub fn from_field(field: impl Into<Field>) -> Self {
        or_abort(Self::try_from_field(field.into()))
    }

    /// Consumes the path and returns it with one more step at its end: a step to the field with this name, or the step
    /// to the element of a list.
    ///
    /// ```
    /// use vortex_logical_types::{Field, FieldPath};
    ///
    /// let path = FieldPath::from_name("lines").push(Field::ElementType).push("sku");
    /// assert_eq!(path.to_string(), "$lines.[].$sku");
    /// ```
    #[must_use]
    pub fn push(self, field: impl Into<Field>) -> Self {
        or_abort(self.try_push(field.into()))
    }

    /// Returns the path of the steps of this path followed by those of `other`.
    ///
    /// ```
    /// use vortex_logical_types::field_path;
    ///
    /// assert_eq!(field_path!("a", []).join(&field_path!("b")), field_path!("a", [], "b"));
    /// ```
    #[must_use]
    pub fn join(&self, other: &Self) -> Self {
        or_abort(self.try_join(other))
    }

    /// Returns what `join` returns.
    ///
    /// # Errors
    ///
    /// - `OutOfMemory` (0): an allocation fails.
    pub fn try_join(&self, other: &Self) -> VortexResult<Self> {
        Self::copied(self.parts().iter().chain(other.parts()))
    }

    /// Returns the path without its last step, or `None` for the root, which has no steps.
    ///
    /// ```
    /// use vortex_logical_types::{FieldPath, field_path};
    ///
    /// assert_eq!(field_path!("a", []).parent(), Some(field_path!("a")));
    /// assert_eq!(FieldPath::root().parent(), None);
    /// ```
    #[must_use]
    pub fn parent(&self) -> Option<Self> {
        or_abort(self.try_parent())
    }

    /// Returns what `parent` returns.
    ///
    /// # Errors
    ///
    /// - `OutOfMemory` (0): an allocation fails.
    pub fn try_parent(&self) -> VortexResult<Option<Self>> {
        match self.parts().split_last() {
            Some((_, parts)) => Self::copied(parts).map(Some),
            None => Ok(None),
        }
    }

    // Returns the path of copies of these steps.
    fn copied<'a>(parts: impl IntoIterator<Item = &'a Field>) -> VortexResult<Self> {
        let mut path = Self::root();
        for part in parts {
            path = path.try_push(part.try_clone()?)?;
        }
        Ok(path)
    }

    /// Returns whether `other` is a prefix of this path. Each path begins with the root and with itself.
    ///
    /// ```
    /// use vortex_logical_types::field_path;
    ///
    /// assert!(field_path!(a.b).starts_with(&field_path!(a)));
    /// assert!(!field_path!(ab).starts_with(&field_path!(a)));
    /// ```
    #[must_use]
    pub fn starts_with(&self, other: &Self) -> bool {
        self.parts().starts_with(other.parts())
    }

    /// Returns whether the first step of the path is the step to the field with this name. Returns `false` if it is
    /// another step, and for the root, which has no steps.
    ///
    /// ```
    /// use vortex_logical_types::{FieldPath, field_path};
    ///
    /// assert!(field_path!("a", []).starts_with_name("a"));
    /// assert!(!field_path!([], "a").starts_with_name("a"));
    /// assert!(!FieldPath::root().starts_with_name("a"));
    /// ```
    #[must_use]
    pub fn starts_with_name(&self, name: impl AsRef<str>) -> bool {
        self.parts().first().and_then(Field::as_name) == Some(name.as_ref())
    }

    /// Returns the number of steps.
    ///
    /// ```
    /// use vortex_logical_types::field_path;
    ///
    /// assert_eq!(field_path!("lines", [], "sku").len(), 3);
    /// ```
    #[must_use]
    pub fn len(&self) -> usize {
        self.parts().len()
    }

    /// Returns whether the path is the root, which has no steps, as `is_root` does.
    #[must_use]
    pub fn is_empty(&self) -> bool {
        self.is_root()
    }

    /// Returns an iterator over the steps, from the outermost to the innermost.
    ///
    /// ```
    /// use vortex_logical_types::{Field, field_path};
    ///
    /// let path = field_path!("a", [], "b");
    /// assert_eq!(path.iter().filter_map(Field::as_name).collect::<Vec<_>>(), ["a", "b"]);
    /// ```
    pub fn iter(&self) -> slice::Iter<'_, Field> {
        self.parts().iter()
    }

    /// Returns the type at this path in `dtype`, or `None` if there is none. A step to a name leads into a struct, to the
    /// type of the first field with that name. The step to the element leads into a list or a fixed-size list. No step
    /// leads into any other type. The returned type has its own nullability, even if a type around it is nullable.
    ///
    /// For a reference to a type, the call returns a reference to the part of it, and copies nothing. For a type, it
    /// returns a copy of the part, which shares what it contains.
    ///
    /// ```
    /// use vortex_logical_types::{DType, PType, field_path};
    ///
    /// let dtype: DType = "{a=list({b=u32})?}".parse()?;
    /// let path = field_path!("a", [], "b");
    /// assert_eq!(path.resolve(&dtype), Some(&DType::from(PType::U32)));
    /// assert_eq!(path.resolve(dtype), Some(DType::from(PType::U32)));
    /// # Ok::<(), vortex_logical_types::Error>(())
    /// ```
    pub fn resolve<T: Resolvable>(&self, dtype: T) -> Option<T> {
        dtype.resolved_at(self)
    }
}

impl FieldPath {
    /// Returns whether there is a type at this path in `dtype`, which may be a type or a reference to one.
    ///
    /// ```
    /// use vortex_logical_types::{DType, field_path};
    ///
    /// let dtype: DType = "{a=list({b=u32})?}".parse()?;
    /// assert!(field_path!("a", []).exists_in(&dtype));
    /// assert!(!field_path!(a.b).exists_in(dtype));
    /// # Ok::<(), vortex_logical_types::Error>(())
    /// ```
    pub fn exists_in(&self, dtype: impl Borrow<DType>) -> bool {
        self.exists_inside(dtype.borrow())
    }
}

/// A type or a reference to one, in which [`FieldPath::resolve`] finds the type at a path.
pub trait Resolvable: Sized + sealed::Sealed {
    /// Returns the type at the path, or `None` if there is none.
    fn resolved_at(self, path: &FieldPath) -> Option<Self>;
}

mod sealed {
    pub trait Sealed {}
    impl Sealed for crate::dtype_types::DType {}
    impl Sealed for &crate::dtype_types::DType {}
}

impl Resolvable for &DType {
    fn resolved_at(self, path: &FieldPath) -> Option<Self> {
        path.resolve_inside(self)
    }
}

impl Resolvable for DType {
    fn resolved_at(self, path: &FieldPath) -> Option<Self> {
        path.resolve_inside(&self).cloned()
    }
}

/// Returns the root.
impl Default for FieldPath {
    fn default() -> Self {
        Self::root()
    }
}

impl AsRef<[Field]> for FieldPath {
    fn as_ref(&self) -> &[Field] {
        self.parts()
    }
}

impl From<Field> for FieldPath {
    fn from(field: Field) -> Self {
        Self::from_field(field)
    }
}

impl From<Vec<Field>> for FieldPath {
    fn from(parts: Vec<Field>) -> Self {
        Self::from_vec(parts.into())
    }
}

impl From<&FieldPath> for FieldPath {
    fn from(path: &FieldPath) -> Self {
        path.clone()
    }
}

/// Collects steps into a path, from the outermost to the innermost. A step may be a name or a text:
///
/// ```
/// use vortex_logical_types::{FieldPath, field_path};
///
/// assert_eq!(["a", "b"].into_iter().collect::<FieldPath>(), field_path!(a.b));
/// ```
impl<F: Into<Field>> FromIterator<F> for FieldPath {
    fn from_iter<I: IntoIterator<Item = F>>(parts: I) -> Self {
        or_abort(Self::try_from_iter(parts.into_iter().map(Into::into)))
    }
}

/// Adds steps at the end of the path.
impl<F: Into<Field>> Extend<F> for FieldPath {
    fn extend<I: IntoIterator<Item = F>>(&mut self, parts: I) {
        let path = parts.into_iter().fold(mem::take(self), Self::push);
        *self = path;
    }
}

impl<'a> IntoIterator for &'a FieldPath {
    type Item = &'a Field;
    type IntoIter = slice::Iter<'a, Field>;

    fn into_iter(self) -> Self::IntoIter {
        self.iter()
    }
}

/// Yields a copy of each step. The names in them share their texts.
impl IntoIterator for FieldPath {
    type Item = Field;
    type IntoIter = vec::IntoIter<Field>;

    fn into_iter(self) -> Self::IntoIter {
        self.parts().to_vec().into_iter()
    }
}

impl PartialOrd for FieldPath {
    fn partial_cmp(&self, other: &Self) -> Option<Ordering> {
        Some(self.cmp(other))
    }
}

/// Compares the steps in their order, so that a path is less than the paths of which it is a prefix:
///
/// ```
/// use vortex_logical_types::{FieldPath, field_path};
///
/// let mut paths = [field_path!(b), field_path!(a.b), FieldPath::root(), field_path!(a)];
/// paths.sort();
/// assert_eq!(paths, [FieldPath::root(), field_path!(a), field_path!(a.b), field_path!(b)]);
/// ```
impl Ord for FieldPath {
    fn cmp(&self, other: &Self) -> Ordering {
        self.parts().cmp(other.parts())
    }
}

/// Returns the path of these steps. Names that are identifiers are written with a `.` between them. Any names are written
/// as texts with commas between them, where `[]` is the step to the element of a list.
///
/// ```
/// use vortex_logical_types::{FieldPath, field_path};
///
/// assert_eq!(field_path!(customer.city), "customer.city".parse()?);
/// assert_eq!(field_path!("lines", [], "unit price"), r#"lines.[]."unit price""#.parse()?);
/// assert_eq!(field_path!(), FieldPath::root());
/// # Ok::<(), vortex_logical_types::Error>(())
/// ```
#[macro_export]
macro_rules! field_path {
    (@step []) => { $crate::Field::ElementType };
    (@step $name:literal) => { $crate::Field::from($name) };
    () => { $crate::FieldPath::root() };
    ($first:ident $(. $rest:ident)*) => {
        <$crate::FieldPath as ::core::iter::FromIterator<_>>::from_iter(
            [::core::stringify!($first) $(, ::core::stringify!($rest))*]
        )
    };
    ($($step:tt),+ $(,)?) => {
        <$crate::FieldPath as ::core::iter::FromIterator<_>>::from_iter([$($crate::field_path!(@step $step)),+])
    };
}
