// SPDX-License-Identifier: Apache-2.0
// SPDX-FileCopyrightText: Copyright the Vortex contributors

//! A counted pointer as std's `Arc`, whose allocation can fail and be returned.

use crate::memory::or_abort;
use crate::rattle_std::alloc::AllocFailed;
use crate::rattle_std::rc::Rc;
use std::borrow::Borrow;
use std::cmp::Ordering;
use std::fmt;
use std::hash::{Hash, Hasher};
use std::ops::Deref;

/// A value that several owners share, for example the element type of a list: a copy of the list shares it. It is what
/// std's `Arc` is, and has [`Arc::try_new`] besides, for programs that go on if memory runs out.
///
/// ```
/// use vortex_logical_types::{Arc, DType, Nullability};
///
/// let texts = DType::List(Arc::new(DType::Utf8(Nullability::NonNullable)), Nullability::Nullable);
/// assert_eq!(texts.to_string(), "list(utf8)?");
/// ```
pub struct Arc<T>(Rc<T>);

impl<T> Arc<T> {
    /// Returns a pointer to this value. If memory runs out, the program ends. `try_new` returns the error instead.
    pub fn new(value: T) -> Self {
        or_abort(Arc::try_new(value))
    }

    /// Returns a pointer to this value.
    ///
    /// # Errors
    ///
    /// The allocation fails. The error contains the value.
    pub fn try_new(value: T) -> Result<Self, AllocFailed<T>> {
        Ok(Arc(Rc::new(value)?))
    }

    /// Returns the value if nobody else shares it.
    ///
    /// # Errors
    ///
    /// Somebody else shares the value. The error is the pointer.
    pub fn try_unwrap(this: Self) -> Result<T, Self> {
        Rc::try_unwrap(this.0).map_err(Arc)
    }

    /// Returns whether both point to the same value, and not only to equal ones.
    #[must_use]
    pub fn ptr_eq(this: &Self, other: &Self) -> bool {
        Rc::ptr_eq(&this.0, &other.0)
    }

    /// Returns the value if nobody else shares it, and otherwise a copy.
    #[must_use]
    pub fn unwrap_or_clone(this: Self) -> T
    where
        T: Clone,
    {
        Arc::try_unwrap(this).unwrap_or_else(|shared| (*shared).clone())
    }
}

impl<T> Clone for Arc<T> {
    fn clone(&self) -> Self {
        Arc(Clone::clone(&self.0))
    }
}

impl<T: Eq> PartialEq for Arc<T> {
    fn eq(&self, other: &Self) -> bool {
        self.0 == other.0
    }
}

impl<T: Eq> Eq for Arc<T> {}

impl<T: Ord> PartialOrd for Arc<T> {
    fn partial_cmp(&self, other: &Self) -> Option<Ordering> {
        Some(self.cmp(other))
    }
}

impl<T: Ord> Ord for Arc<T> {
    fn cmp(&self, other: &Self) -> Ordering {
        self.0.cmp(&other.0)
    }
}

impl<T: Hash> Hash for Arc<T> {
    fn hash<H: Hasher>(&self, state: &mut H) {
        self.0.hash(state);
    }
}

impl<T> Deref for Arc<T> {
    type Target = T;

    fn deref(&self) -> &T {
        &self.0
    }
}

impl<T> AsRef<T> for Arc<T> {
    fn as_ref(&self) -> &T {
        self
    }
}

impl<T> Borrow<T> for Arc<T> {
    fn borrow(&self) -> &T {
        self
    }
}

impl<T> From<T> for Arc<T> {
    fn from(value: T) -> Self {
        Arc::new(value)
    }
}

impl<T: fmt::Debug> fmt::Debug for Arc<T> {
    fn fmt(&self, f: &mut fmt::Formatter<'_>) -> fmt::Result {
        (**self).fmt(f)
    }
}

impl<T: fmt::Display> fmt::Display for Arc<T> {
    fn fmt(&self, f: &mut fmt::Formatter<'_>) -> fmt::Result {
        (**self).fmt(f)
    }
}
