// SPDX-License-Identifier: Apache-2.0
// SPDX-FileCopyrightText: Copyright the Vortex contributors

//! Ordered maps, with allocations that can fail, and their iterators. (`BTreeMap` of Rust's library ends the program if
//! it can't allocate.)
//!
//! ```
//! use vortex_logical_types::rattle_std::collections::BTreeMap;
//!
//! let mut widths = BTreeMap::new();
//! assert_eq!(widths.insert(64, "u64"), Ok(None));
//! assert_eq!(widths.insert(8, "u8"), Ok(None));
//! assert_eq!(widths.iter().next(), Some((&8, &"u8")));
//! ```

use super::super::alloc::AllocFailed;
use super::super::boxed;
use std::collections::TryReserveError;
use std::mem;

/// How many entries a node has at most. A full node is split into two halves around the entry in its middle.
const MOST: usize = 31;

/// An ordered map. A lookup and an insertion take logarithmic time. Up to 31 entries are in one block of memory, and more
/// are in a B-tree.
#[derive(Debug)]
pub struct BTreeMap<K, V>(Form<K, V>);

#[derive(Debug)]
enum Form<K, V> {
    /// The entries in the order of their keys.
    Few(Vec<(K, V)>),
    Many(Box<Tree<K, V>>),
}

#[derive(Debug)]
struct Tree<K, V> {
    root: Node<K, V>,
    len: usize,
}

/// A part of a tree: entries in the order of their keys. A leaf has no children. Another node has one child more than it
/// has entries, and the keys of the child at `i` are between those of the entries at `i - 1` and `i`.
#[derive(Debug)]
struct Node<K, V> {
    entries: Vec<(K, V)>,
    children: Vec<Node<K, V>>,
}

impl<K: Ord, V> BTreeMap<K, V> {
    /// Returns an empty map. Doesn't allocate.
    pub const fn new() -> Self {
        BTreeMap(Form::Few(Vec::new()))
    }

    /// Returns the number of entries.
    pub fn len(&self) -> usize {
        match &self.0 {
            Form::Few(entries) => entries.len(),
            Form::Many(tree) => tree.len,
        }
    }

    /// Returns whether there are no entries.
    pub fn is_empty(&self) -> bool {
        self.len() == 0
    }

    /// Returns the value to which the key is mapped.
    #[inline]
    pub fn get(&self, key: &K) -> Option<&V> {
        match &self.0 {
            Form::Few(entries) if entries.is_empty() => None,
            Form::Few(entries) => Some(&entries[position(entries, key).ok()?].1),
            Form::Many(tree) => tree.root.get(key),
        }
    }

    /// Maps the key to the value, and returns the value that it was mapped to before. The key that was there stays.
    ///
    /// # Errors
    ///
    /// `AllocFailed` with the key and the value if an allocation fails. The entries are then unchanged.
    pub fn insert(&mut self, key: K, value: V) -> Result<Option<V>, AllocFailed<(K, V)>> {
        let entries = match &mut self.0 {
            Form::Few(entries) => entries,
            Form::Many(tree) => return tree.insert(key, value),
        };
        match position(entries, &key) {
            Ok(at) => Ok(Some(mem::replace(&mut entries[at].1, value))),
            Err(at) if entries.len() < MOST => {
                if entries.try_reserve(1).is_err() {
                    return Err(AllocFailed((key, value)));
                }
                entries.insert(at, (key, value));
                Ok(None)
            }
            Err(_) => {
                let tree = Tree {
                    root: Node::empty(),
                    len: MOST,
                };
                let Ok(mut tree) = boxed::new(tree) else {
                    return Err(AllocFailed((key, value)));
                };
                tree.root.entries = mem::take(entries);
                self.0 = Form::Many(tree);
                self.insert(key, value)
            }
        }
    }

    /// Returns an iterator over the entries, in the order of their keys.
    pub const fn iter(&self) -> Iter<'_, K, V> {
        Iter {
            map: self,
            next: 0,
            last: None,
        }
    }

    /// Returns an iterator over the values, in the order of their keys.
    pub const fn values(&self) -> Values<'_, K, V> {
        Values(self.iter())
    }
}

impl<'a, K: Ord, V> IntoIterator for &'a BTreeMap<K, V> {
    type Item = (&'a K, &'a V);
    type IntoIter = Iter<'a, K, V>;

    fn into_iter(self) -> Self::IntoIter {
        self.iter()
    }
}

impl<K: Ord, V> Tree<K, V> {
    /// Inserts as the map does. Full nodes on the way are split first, which changes no entry, so an allocation that fails
    /// after that leaves the entries unchanged.
    fn insert(&mut self, key: K, value: V) -> Result<Option<V>, AllocFailed<(K, V)>> {
        if self.root.entries.len() == MOST && self.split_root().is_err() {
            return Err(AllocFailed((key, value)));
        }
        let mut node = &mut self.root;
        loop {
            match position(&node.entries, &key) {
                Ok(at) => return Ok(Some(mem::replace(&mut node.entries[at].1, value))),
                Err(at) if node.children.is_empty() => {
                    if node.entries.try_reserve(1).is_err() {
                        return Err(AllocFailed((key, value)));
                    }
                    node.entries.insert(at, (key, value));
                    self.len += 1;
                    return Ok(None);
                }
                Err(at) if node.children[at].entries.len() == MOST => {
                    if node.split_child(at).is_err() {
                        return Err(AllocFailed((key, value)));
                    }
                }
                Err(at) => node = &mut node.children[at],
            }
        }
    }

    /// Makes the root the child of a new root, and splits it.
    fn split_root(&mut self) -> Result<(), TryReserveError> {
        let mut above = Node::empty();
        above.children.try_reserve(2)?;
        above
            .children
            .push(mem::replace(&mut self.root, Node::empty()));
        self.root = above;
        self.root.split_child(0)
    }
}

impl<K: Ord, V> Node<K, V> {
    const fn empty() -> Self {
        Node {
            entries: Vec::new(),
            children: Vec::new(),
        }
    }

    /// Splits the child at this position, which is full. The entry in its middle comes between the two halves. Everything
    /// is allocated before anything moves.
    fn split_child(&mut self, at: usize) -> Result<(), TryReserveError> {
        self.entries.try_reserve(1)?;
        self.children.try_reserve(1)?;
        let (left, mut right) = (&mut self.children[at], Node::empty());
        right.entries.try_reserve(MOST)?;
        if !left.children.is_empty() {
            right.children.try_reserve(MOST + 1)?;
            right.children.extend(left.children.drain(MOST / 2 + 1..));
        }
        right.entries.extend(left.entries.drain(MOST / 2 + 1..));
        let between = left.entries.remove(MOST / 2);
        self.entries.insert(at, between);
        self.children.insert(at + 1, right);
        Ok(())
    }

    fn get(&self, key: &K) -> Option<&V> {
        let mut node = self;
        loop {
            match position(&node.entries, key) {
                Ok(at) => return Some(&node.entries[at].1),
                Err(at) => node = node.children.get(at)?,
            }
        }
    }

    /// Returns the first entry whose key is greater than this one, or the first of all.
    fn first_above(&self, key: Option<&K>) -> Option<&(K, V)> {
        let (mut node, mut found) = (self, None);
        loop {
            let at = key.map_or(0, |key| {
                position(&node.entries, key).map_or_else(|at| at, |at| at + 1)
            });
            found = node.entries.get(at).or(found);
            match node.children.get(at) {
                Some(child) => node = child,
                None => return found,
            }
        }
    }
}

/// Returns the position of the key among entries, or the position at which it belongs.
fn position<K: Ord, V>(entries: &[(K, V)], key: &K) -> Result<usize, usize> {
    entries.binary_search_by(|(other, _)| other.cmp(key))
}

/// An iterator over the entries of an ordered map, in the order of their keys.
#[derive(Debug)]
pub struct Iter<'a, K, V> {
    map: &'a BTreeMap<K, V>,
    /// If the entries are in one block, the position of the next.
    next: usize,
    /// The key of the last entry that was yielded. In a tree the next is found by it.
    last: Option<&'a K>,
}

impl<'a, K: Ord, V> Iterator for Iter<'a, K, V> {
    type Item = (&'a K, &'a V);

    fn next(&mut self) -> Option<Self::Item> {
        let (key, value) = match &self.map.0 {
            Form::Few(entries) => entries.get(self.next)?,
            Form::Many(tree) => tree.root.first_above(self.last)?,
        };
        self.next += 1;
        self.last = Some(key);
        Some((key, value))
    }
}

/// An iterator over the values of an ordered map, in the order of their keys.
#[derive(Debug)]
pub struct Values<'a, K, V>(Iter<'a, K, V>);

impl<'a, K: Ord, V> Iterator for Values<'a, K, V> {
    type Item = &'a V;

    fn next(&mut self) -> Option<Self::Item> {
        Some(self.0.next()?.1)
    }
}
