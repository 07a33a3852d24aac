// SPDX-License-Identifier: Apache-2.0
// SPDX-FileCopyrightText: Copyright the Vortex contributors

//! Vectors, with allocations that can fail.
//!
//! ```
//! use vortex_logical_types::rattle_std::vec::Vec;
//!
//! let mut numbers = Vec::from_slice(&[3, 1])?;
//! numbers.push(2)?;
//! numbers.sort()?;
//! assert_eq!(numbers.as_slice(), [1, 2, 3]);
//! # Ok::<(), vortex_logical_types::rattle_std::alloc::AllocError>(())
//! ```
#![forbid(unsafe_code)]

use super::alloc::{AllocError, AllocFailed};
use super::boxed;
use super::iter_ext::FromIterator;
use std::cmp::Ordering;
use std::ops::{Deref, DerefMut};
use std::{fmt, mem, slice};

pub use std::vec::IntoIter;

/// A vector of Rust's library whose growth can fail. What needs no allocation it has from its slice or, by
/// [`into_inner`](Vec::into_inner), from Rust's vector.
#[derive(PartialEq, Eq, PartialOrd, Ord, Hash)]
pub struct Vec<T>(std::vec::Vec<T>);

impl<T> Vec<T> {
    /// Returns an empty vector. Doesn't allocate.
    pub const fn new() -> Self {
        Vec(std::vec::Vec::new())
    }

    /// Returns an empty vector with room for so many elements.
    ///
    /// # Errors
    ///
    /// `AllocError` if the allocation fails.
    #[inline]
    pub fn with_capacity(count: usize) -> Result<Self, AllocError> {
        boxed::vec_with_room(count).map(Vec).ok_or(AllocError)
    }

    /// Returns a vector of the elements of an array.
    ///
    /// # Errors
    ///
    /// `AllocError` if the allocation fails.
    pub fn from_array<const N: usize>(array: [T; N]) -> Result<Self, AllocError> {
        let mut items = Vec::with_capacity(N)?;
        items.0.extend(array);
        Ok(items)
    }

    /// Makes room for so many elements more.
    ///
    /// # Errors
    ///
    /// `AllocError` if an allocation fails.
    #[inline]
    pub fn reserve(&mut self, more: usize) -> Result<(), AllocError> {
        if more <= self.0.capacity() - self.0.len() {
            return Ok(());
        }
        self.0.try_reserve(more).map_err(|_| AllocError)
    }

    /// Appends an element.
    ///
    /// # Errors
    ///
    /// `AllocFailed` with the element if an allocation fails.
    #[inline]
    pub fn push(&mut self, item: T) -> Result<(), AllocFailed<T>> {
        if self.0.len() == self.0.capacity() && self.0.try_reserve(1).is_err() {
            return Err(AllocFailed(item));
        }
        self.0.push(item);
        Ok(())
    }

    /// Inserts an element at this position. Those from there on move to the back by one.
    ///
    /// # Errors
    ///
    /// `AllocFailed` with the element if an allocation fails.
    ///
    /// # Panics
    ///
    /// If the position is greater than the length.
    pub fn insert(&mut self, position: usize, item: T) -> Result<(), AllocFailed<T>> {
        if self.reserve(1).is_err() {
            return Err(AllocFailed(item));
        }
        self.0.insert(position, item);
        Ok(())
    }

    /// Appends an element, for which the vector has room.
    pub fn push_reserved(&mut self, item: T) {
        debug_assert!(self.0.len() < self.0.capacity(), "there is no room");
        self.0.push(item);
    }

    /// Removes the last element and returns it.
    pub fn pop(&mut self) -> Option<T> {
        self.0.pop()
    }

    /// Removes an element and returns it. Those behind it move to the front by one.
    ///
    /// # Panics
    ///
    /// If the index isn't less than the length.
    pub fn remove(&mut self, index: usize) -> T {
        self.0.remove(index)
    }

    /// Removes the elements from this length on.
    pub fn truncate(&mut self, len: usize) {
        self.0.truncate(len);
    }

    /// Removes all elements.
    pub fn clear(&mut self) {
        self.0.clear();
    }

    /// Removes the elements for which the function returns `false`.
    pub fn retain<F: FnMut(&T) -> bool>(&mut self, keeps: F) {
        self.0.retain(keeps);
    }

    /// Sorts the elements. Equal elements stay in their order.
    ///
    /// # Errors
    ///
    /// `AllocError` if an allocation fails.
    pub fn sort(&mut self) -> Result<(), AllocError>
    where
        T: Ord,
    {
        self.sort_by(T::cmp)
    }

    /// Sorts the elements by a comparison. Equal elements stay in their order.
    ///
    /// The positions are sorted first, by the elements and then by themselves. (Rust's stable `sort_by` ends the program
    /// if it can't allocate, and its `sort_unstable_by` needs no memory.)
    ///
    /// # Errors
    ///
    /// `AllocError` if an allocation fails.
    pub fn sort_by<F: FnMut(&T, &T) -> Ordering>(
        &mut self,
        mut compare: F,
    ) -> Result<(), AllocError> {
        let mut order = Vec::with_capacity(self.0.len())?;
        order.0.extend(0..self.0.len());
        order.sort_unstable_by(|&a, &b| compare(&self.0[a], &self.0[b]).then(a.cmp(&b)));
        for start in 0..order.len() {
            // Each place of a cycle gets the element from the next place of it.
            let mut place = start;
            while order[place] != start {
                let from = mem::replace(&mut order[place], place);
                self.0.swap(place, from);
                place = from;
            }
            order[place] = place;
        }
        Ok(())
    }

    /// Returns the elements.
    pub fn as_slice(&self) -> &[T] {
        &self.0
    }

    /// Returns the vector of Rust's library.
    pub fn into_inner(self) -> std::vec::Vec<T> {
        self.0
    }
}

impl<T: Copy> Vec<T> {
    /// Returns a vector of so many copies of an element.
    ///
    /// # Errors
    ///
    /// `AllocError` if the allocation fails.
    pub fn from_elem(item: T, count: usize) -> Result<Self, AllocError> {
        let mut items = Vec::with_capacity(count)?;
        items.0.resize(count, item);
        Ok(items)
    }

    /// Returns a vector of copies of the elements.
    ///
    /// # Errors
    ///
    /// `AllocError` if the allocation fails.
    pub fn from_slice(slice: &[T]) -> Result<Self, AllocError> {
        let mut items = Vec::with_capacity(slice.len())?;
        items.0.extend_from_slice(slice);
        Ok(items)
    }

    /// Appends copies of the elements.
    ///
    /// # Errors
    ///
    /// `AllocError` if an allocation fails.
    #[inline]
    pub fn extend_from_slice(&mut self, slice: &[T]) -> Result<(), AllocError> {
        self.reserve(slice.len())?;
        self.0.extend_from_slice(slice);
        Ok(())
    }

    /// Removes the elements from this length on, or appends copies of the element up to this length.
    ///
    /// # Errors
    ///
    /// `AllocError` if an allocation fails.
    #[inline]
    pub fn resize(&mut self, len: usize, item: T) -> Result<(), AllocError> {
        self.reserve(len.saturating_sub(self.0.len()))?;
        self.0.resize(len, item);
        Ok(())
    }
}

impl<T> Deref for Vec<T> {
    type Target = [T];

    fn deref(&self) -> &[T] {
        &self.0
    }
}

impl<T> DerefMut for Vec<T> {
    fn deref_mut(&mut self) -> &mut [T] {
        &mut self.0
    }
}

impl<T: fmt::Debug> fmt::Debug for Vec<T> {
    fn fmt(&self, f: &mut fmt::Formatter<'_>) -> fmt::Result {
        self.0.fmt(f)
    }
}

impl<T> From<std::vec::Vec<T>> for Vec<T> {
    fn from(items: std::vec::Vec<T>) -> Self {
        Vec(items)
    }
}

impl<T> FromIterator<T> for Vec<T> {
    fn from_iter<I: IntoIterator<Item = T>>(items: I) -> Result<Self, AllocError> {
        let items = items.into_iter();
        let mut all = Vec::with_capacity(items.size_hint().0)?;
        for item in items {
            all.push(item)?;
        }
        Ok(all)
    }
}

impl<T> IntoIterator for Vec<T> {
    type Item = T;
    type IntoIter = IntoIter<T>;

    fn into_iter(self) -> IntoIter<T> {
        self.0.into_iter()
    }
}

impl<'a, T> IntoIterator for &'a Vec<T> {
    type Item = &'a T;
    type IntoIter = slice::Iter<'a, T>;

    fn into_iter(self) -> slice::Iter<'a, T> {
        self.0.iter()
    }
}

impl<'a, T> IntoIterator for &'a mut Vec<T> {
    type Item = &'a mut T;
    type IntoIter = slice::IterMut<'a, T>;

    fn into_iter(self) -> slice::IterMut<'a, T> {
        self.0.iter_mut()
    }
}
