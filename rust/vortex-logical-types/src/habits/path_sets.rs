// SPDX-License-Identifier: Apache-2.0
// SPDX-FileCopyrightText: Copyright the Vortex contributors

//! Sets of paths: as collections, from texts, and what continues below a path.

use super::{Error, or_abort};
use crate::dtype_base::{FieldName, VortexResult};
use crate::dtype_paths::{FieldPath, FieldPathCursor, FieldPathSet};
use std::hash::{DefaultHasher, Hash, Hasher};
use std::ops::BitOr;
use std::vec;

/// How the paths of a set continue after a path: see [`FieldPathSet::below`].
#[derive(Debug, Clone, Copy, PartialEq, Eq, Hash)]
pub struct Below {
    /// Whether the path itself is in the set.
    pub is_end: bool,
    /// Whether a path of the set continues with the step into the element.
    pub has_element: bool,
    /// The number of names with which paths of the set continue.
    pub name_count: usize,
}

impl FieldPathSet {
    /// Returns the set of the paths that these texts stand for, in the form that `FromStr` of a path reads.
    ///
    /// ```
    /// use vortex_logical_types::{FieldPathSet, field_path};
    ///
    /// let set = FieldPathSet::parse(["customer.city", "lines.[].sku"])?;
    /// assert!(set.contains(&field_path!(customer.city)));
    /// assert!(FieldPathSet::parse(["a..b"]).is_err());
    /// # Ok::<(), vortex_logical_types::Error>(())
    /// ```
    ///
    /// # Errors
    ///
    /// - `Unreadable`: a text isn't spelled like a path. The position of the error is one in the first such text.
    /// - `OutOfMemory` (0): an allocation fails.
    pub fn parse<T: AsRef<str>>(texts: impl IntoIterator<Item = T>) -> Result<Self, Error> {
        let mut set = Self::new();
        for text in texts {
            set.try_insert(text.as_ref().parse()?)?;
        }
        Ok(set)
    }

    /// Returns the cover of the set: those paths of which no other path of the set is a prefix. Each path is returned
    /// once, in no particular order. `into_iter` of a set returns the same and consumes the set.
    ///
    /// ```
    /// use vortex_logical_types::{FieldPathSet, field_path};
    ///
    /// let set = FieldPathSet::parse(["a.b", "x", "a"])?;
    /// assert_eq!(set.cover().collect::<FieldPathSet>(), FieldPathSet::parse(["a", "x"])?);
    /// # Ok::<(), vortex_logical_types::Error>(())
    /// ```
    #[must_use]
    pub fn cover(&self) -> vec::IntoIter<FieldPath> {
        or_abort(self.try_cover())
    }

    /// Returns what `cover` returns.
    ///
    /// # Errors
    ///
    /// - `OutOfMemory` (0): an allocation fails.
    pub fn try_cover(&self) -> VortexResult<vec::IntoIter<FieldPath>> {
        self.try_clone()?.try_into_iter()
    }

    /// Returns how paths of the set continue after this path, or `None` if no path of the set begins with this path.
    ///
    /// ```
    /// use vortex_logical_types::{Below, FieldPathSet, field_path};
    ///
    /// let set = FieldPathSet::parse(["a", "a.[]", "a.b", "a.c.d"])?;
    /// assert_eq!(set.below(&field_path!(a)), Some(Below { is_end: true, has_element: true, name_count: 2 }));
    /// assert_eq!(set.below(&field_path!(b)), None);
    /// # Ok::<(), vortex_logical_types::Error>(())
    /// ```
    #[must_use]
    pub fn below(&self, path: &FieldPath) -> Option<Below> {
        self.cursor_at(path).map(|cursor| Below {
            is_end: cursor.is_end(),
            has_element: cursor.element().is_some(),
            name_count: cursor.names().len(),
        })
    }

    /// Returns the names with which paths of the set continue after this path, each once, in no particular order, or
    /// `None` if no path of the set begins with this path.
    ///
    /// ```
    /// use vortex_logical_types::{FieldPathSet, field_path};
    ///
    /// let set = FieldPathSet::parse(["a.b", "a.c.d"])?;
    /// let mut names = set.names_below(&field_path!(a)).expect("paths begin with a");
    /// names.sort();
    /// assert_eq!(names, ["b", "c"]);
    /// # Ok::<(), vortex_logical_types::Error>(())
    /// ```
    #[must_use]
    pub fn names_below(&self, path: &FieldPath) -> Option<Vec<FieldName>> {
        self.cursor_at(path)
            .map(|cursor| cursor.names().map(|(name, _)| name.clone()).collect())
    }

    // Returns the place in the set to which the path leads.
    fn cursor_at(&self, path: &FieldPath) -> Option<FieldPathCursor<'_>> {
        let root = self.cursor();
        let found = path
            .parts()
            .iter()
            .try_fold(root, |cursor, step| cursor.step(step))?;
        (!found.is_empty()).then_some(found)
    }
}

impl Default for FieldPathSet {
    fn default() -> Self {
        Self::new()
    }
}

/// Inserts the paths that an iterator yields. If an allocation fails, the program ends. `try_extend` returns an error.
///
/// ```
/// use vortex_logical_types::{FieldPathSet, field_path};
///
/// let mut set = FieldPathSet::new();
/// set.extend([field_path!(a), field_path!(a.b)]);
/// assert_eq!(set.len(), 2);
/// ```
impl Extend<FieldPath> for FieldPathSet {
    fn extend<I: IntoIterator<Item = FieldPath>>(&mut self, paths: I) {
        or_abort(self.try_extend(paths));
    }
}

/// Inserts copies of the paths that an iterator yields.
impl<'a> Extend<&'a FieldPath> for FieldPathSet {
    fn extend<I: IntoIterator<Item = &'a FieldPath>>(&mut self, paths: I) {
        or_abort(self.try_extend(paths.into_iter().cloned()));
    }
}

/// Collects paths into a set.
///
/// ```
/// use vortex_logical_types::{FieldPathSet, field_path};
///
/// let set: FieldPathSet = [field_path!(a), field_path!(b), field_path!(a)].into_iter().collect();
/// assert_eq!(set.len(), 2);
/// ```
impl FromIterator<FieldPath> for FieldPathSet {
    fn from_iter<I: IntoIterator<Item = FieldPath>>(paths: I) -> Self {
        or_abort(Self::try_from_iter(paths))
    }
}

/// Collects copies of paths into a set.
impl<'a> FromIterator<&'a FieldPath> for FieldPathSet {
    fn from_iter<I: IntoIterator<Item = &'a FieldPath>>(paths: I) -> Self {
        paths.into_iter().cloned().collect()
    }
}

impl<const N: usize> From<[FieldPath; N]> for FieldPathSet {
    fn from(paths: [FieldPath; N]) -> Self {
        paths.into_iter().collect()
    }
}

/// Yields all paths of the set, each once, in no particular order, as `iter` does.
impl<'a> IntoIterator for &'a FieldPathSet {
    type Item = &'a FieldPath;
    type IntoIter = vec::IntoIter<&'a FieldPath>;

    fn into_iter(self) -> Self::IntoIter {
        self.iter()
    }
}

/// Yields the cover of the set, as in vortex-array: those paths of which no other path of the set is a prefix. `iter`
/// returns all paths.
///
/// ```
/// use vortex_logical_types::{FieldPath, FieldPathSet, field_path};
///
/// let set = FieldPathSet::from([field_path!(a), field_path!(a.b)]);
/// assert_eq!(set.iter().count(), 2);
/// assert_eq!(set.into_iter().collect::<Vec<FieldPath>>(), [field_path!(a)]);
/// ```
impl IntoIterator for FieldPathSet {
    type Item = FieldPath;
    type IntoIter = vec::IntoIter<FieldPath>;

    fn into_iter(self) -> Self::IntoIter {
        Self::into_iter(self)
    }
}

/// Returns the set of the paths that are in one of the two sets or in both, as `union` does.
///
/// ```
/// use vortex_logical_types::FieldPathSet;
///
/// let (one, other) = (FieldPathSet::parse(["a", "b"])?, FieldPathSet::parse(["b", "c"])?);
/// assert_eq!(&one | &other, FieldPathSet::parse(["a", "b", "c"])?);
/// # Ok::<(), vortex_logical_types::Error>(())
/// ```
impl BitOr for &FieldPathSet {
    type Output = FieldPathSet;

    fn bitor(self, other: &FieldPathSet) -> FieldPathSet {
        self.union(other)
    }
}

/// Sets of the same paths have the same hash, whatever the order in which the paths were inserted.
impl Hash for FieldPathSet {
    fn hash<H: Hasher>(&self, state: &mut H) {
        // (The order in which a set yields its paths differs, so the hashes of the paths are added.)
        let sum = self.iter().fold(0_u64, |sum, path| {
            let mut one = DefaultHasher::new();
            path.hash(&mut one);
            sum.wrapping_add(one.finish())
        });
        state.write_u64(sum);
    }
}
