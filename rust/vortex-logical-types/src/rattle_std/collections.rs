// SPDX-License-Identifier: Apache-2.0
// SPDX-FileCopyrightText: Copyright the Vortex contributors

//! Maps and sets, with allocations that can fail.
//!
//! ```
//! use vortex_logical_types::rattle_std::collections::HashMap;
//!
//! let mut widths = HashMap::new();
//! assert_eq!(widths.insert("u64", 8)?, None);
//! assert_eq!(widths.get("u64"), Some(&8));
//! # Ok::<(), vortex_logical_types::rattle_std::alloc::AllocError>(())
//! ```
#![forbid(unsafe_code)]

use super::alloc::{AllocError, AllocFailed};
use super::iter_ext::FromIterator;
use std::collections;
use std::hash::Hash;
use std::ops::Deref;

pub mod btree_map;

pub use btree_map::BTreeMap;

/// The iterators of hash maps, which are Rust's.
pub mod hash_map {
    pub use std::collections::hash_map::*;
}

/// A hash set of Rust's library, made with allocations that can fail. It has Rust's random seeds.
#[derive(Debug)]
pub struct HashSet<T>(collections::HashSet<T>);

impl<T> Deref for HashSet<T> {
    type Target = collections::HashSet<T>;

    fn deref(&self) -> &Self::Target {
        &self.0
    }
}

impl<T: Eq + Hash> FromIterator<T> for HashSet<T> {
    fn from_iter<I: IntoIterator<Item = T>>(items: I) -> Result<Self, AllocError> {
        let items = items.into_iter();
        let mut set = collections::HashSet::new();
        set.try_reserve(items.size_hint().0)
            .map_err(|_| AllocError)?;
        for item in items {
            set.try_reserve(1).map_err(|_| AllocError)?;
            set.insert(item);
        }
        Ok(HashSet(set))
    }
}

/// A hash map of Rust's library whose growth can fail. It has Rust's random seeds.
#[derive(Debug)]
pub struct HashMap<K, V>(collections::HashMap<K, V>);

impl<K: Eq + Hash, V> HashMap<K, V> {
    /// Returns an empty map. Doesn't allocate.
    pub fn new() -> Self {
        HashMap(collections::HashMap::new())
    }

    /// Returns an empty map with room for so many entries.
    ///
    /// # Errors
    ///
    /// `AllocError` if the allocation fails.
    pub fn with_capacity(count: usize) -> Result<Self, AllocError> {
        let mut map = HashMap::new();
        map.0.try_reserve(count).map_err(|_| AllocError)?;
        Ok(map)
    }

    /// Maps the key to the value, and returns the value that it was mapped to before. The key that was there stays.
    ///
    /// # Errors
    ///
    /// `AllocFailed` with the key and the value if an allocation fails.
    pub fn insert(&mut self, key: K, value: V) -> Result<Option<V>, AllocFailed<(K, V)>> {
        match self.0.try_reserve(1) {
            Ok(()) => Ok(self.0.insert(key, value)),
            Err(_) => Err(AllocFailed((key, value))),
        }
    }
}

impl<K, V> Deref for HashMap<K, V> {
    type Target = collections::HashMap<K, V>;

    fn deref(&self) -> &Self::Target {
        &self.0
    }
}
