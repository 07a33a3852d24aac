// SPDX-License-Identifier: Apache-2.0
// SPDX-FileCopyrightText: Copyright the Vortex contributors

//! What was compared: how often each call was, how many answers differed, and how many different types there were.

use std::collections::{BTreeMap, HashSet};
use std::fmt::Debug;
use std::hash::{DefaultHasher, Hash, Hasher};

use crate::shape::Shape;

/// How many differences of a call are printed.
const SHOWN: u64 = 3;

/// How many different types one thread remembers. Beyond that it doesn't count them.
const REMEMBERED: usize = 2_000_000;

#[derive(Default)]
pub struct Count {
    pub compared: u64,
    pub different: u64,
}

#[derive(Default)]
pub struct Report {
    pub counts: BTreeMap<String, Count>,
    pub types: HashSet<u64>,
    /// The round that is being made.
    pub round: u64,
}

impl Report {
    /// Compares what a call returned here and in the original.
    pub fn same<T: PartialEq + Debug>(&mut self, call: &str, ours: T, theirs: T, about: impl FnOnce() -> String) {
        let count = match self.counts.get_mut(call) {
            Some(count) => count,
            None => self.counts.entry(call.to_owned()).or_default(),
        };
        count.compared += 1;
        if ours != theirs {
            count.different += 1;
            if count.different <= SHOWN {
                println!(
                    "difference: {call} in round {} of {}: {ours:?}, and the original {theirs:?}",
                    self.round,
                    about()
                );
            }
        }
    }

    /// Remembers that a type was compared.
    pub fn remember(&mut self, shape: &Shape) {
        if self.types.len() < REMEMBERED {
            self.types.insert(hash_of(shape));
        }
    }

    /// Adds what another thread counted.
    pub fn and(mut self, other: Report) -> Report {
        for (call, it) in other.counts {
            let count = self.counts.entry(call).or_default();
            count.compared += it.compared;
            count.different += it.different;
        }
        self.types.extend(other.types);
        self
    }

    /// How many answers were compared.
    pub fn compared(&self) -> u64 {
        self.counts.values().map(|it| it.compared).sum()
    }

    /// Prints the counts, and returns how many answers differed.
    pub fn end(&self, seed: u64, seconds: f64) -> u64 {
        for (call, it) in &self.counts {
            println!("{:>12} {:>6}  {call}", it.compared, it.different);
        }
        let different = self.counts.values().map(|it| it.different).sum();
        if let Some((call, least)) = self.counts.iter().min_by_key(|(_, it)| it.compared) {
            println!("{} calls, each compared at least {} times ({call})", self.counts.len(), least.compared);
        }
        println!("{} different types at least; seed {seed}; {seconds:.0} s", self.types.len());
        println!("{} compared, {different} different", self.compared());
        different
    }
}

/// The hash of a value by std's SipHash.
pub fn hash_of<T: Hash + ?Sized>(value: &T) -> u64 {
    let mut state = DefaultHasher::new();
    value.hash(&mut state);
    state.finish()
}
