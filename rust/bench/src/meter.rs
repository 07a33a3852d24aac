// SPDX-License-Identifier: Apache-2.0
// SPDX-FileCopyrightText: Copyright the Vortex contributors

//! How an operation is measured.

use std::hint::black_box;

use crate::clock::thread_cpu_time;

/// How long a round is to take, in nanoseconds.
const ROUND_TIME: u64 = 3_000_000;
/// The greatest number of doublings of the iterations.
const DOUBLINGS: usize = 32;
const ROUNDS: usize = 15;

/// Measures the cases that were asked for.
pub struct Meter {
    wanted: Vec<String>,
    tell: fn(&str, [f64; 2]),
    /// Each operation is done once, and isn't measured.
    is_trial: bool,
}

impl Meter {
    /// Each of `wanted` is a prefix of the names of cases; if there is none, all cases are wanted. Prints a line for each
    /// case: its name, and the nanoseconds of processor time of one operation, the least and the median of the rounds.
    pub fn new(wanted: Vec<String>) -> Self {
        let tell = |name: &str, [least, median]: [f64; 2]| println!("{name} {least:.1} {median:.1}");
        Self { wanted, tell, is_trial: false }
    }

    /// Does the operation of each case once, and tells the case.
    #[cfg(test)]
    pub fn trying(tell: fn(&str, [f64; 2])) -> Self {
        Self { wanted: Vec::new(), tell, is_trial: true }
    }

    /// Whether a case with this prefix may have been asked for.
    pub fn wants_some(&self, beginning: &str) -> bool {
        let is_either = |it: &String| it.starts_with(beginning) || beginning.starts_with(it.as_str());
        self.wanted.is_empty() || self.wanted.iter().any(is_either)
    }

    /// Measures an operation, given the number of the iteration and the sum of the results before it.
    pub fn each(&self, what: &str, of: &str, mut operation: impl FnMut(usize, usize) -> usize) {
        let repeat = |(), times| (0..times).fold(0usize, |sum, i| sum.wrapping_add(operation(i, sum)));
        self.measure(&format!("{what}{of}"), |_| (), repeat);
    }

    /// Measures an operation that consumes what `prepare` returns.
    pub fn consuming<T>(&self, what: &str, of: &str, prepare: impl Fn() -> T, mut operation: impl FnMut(T) -> usize) {
        let inputs = |times| (0..times).map(|_| prepare()).collect::<Vec<T>>();
        let repeat = |mut inputs: Vec<T>, _| {
            let mut sum = 0usize;
            while let Some(input) = inputs.pop() {
                sum = sum.wrapping_add(operation(input));
            }
            sum
        };
        self.measure(&format!("{what}{of}"), inputs, repeat);
    }

    /// Measures so many iterations, done by `repeat` of what `prepare` returns, and tells what they took.
    pub fn measure<T>(&self, name: &str, prepare: impl Fn(usize) -> T, mut repeat: impl FnMut(T, usize) -> usize) {
        if !self.wanted.is_empty() && !self.wanted.iter().any(|it| name.starts_with(it.as_str())) {
            return;
        }
        if self.is_trial {
            black_box(repeat(prepare(1), 1));
            return (self.tell)(name, [0.0; 2]);
        }
        let mut round = |times| {
            let input = prepare(times);
            let start = thread_cpu_time();
            // used, so that the answer has to be worked out
            black_box(repeat(input, times));
            thread_cpu_time() - start
        };
        let times = (0..DOUBLINGS).map(|doublings| 1 << doublings).find(|times| round(*times) >= ROUND_TIME);
        let times = times.unwrap_or(1 << DOUBLINGS);
        #[allow(clippy::cast_precision_loss)]
        let mut rounds = [(); ROUNDS].map(|()| round(times) as f64 / times as f64);
        rounds.sort_unstable_by(f64::total_cmp);
        (self.tell)(name, [rounds[0], rounds[ROUNDS / 2]]);
    }
}
