// SPDX-License-Identifier: Apache-2.0
// SPDX-FileCopyrightText: Copyright the Vortex contributors

//! How an operation of the original and the same operation of the crate are measured beside each other.

use std::fmt::Display;
use std::hint::black_box;

use original::clock::thread_cpu_time;

/// How long a round is to take, in nanoseconds.
const ROUND_TIME: u64 = 2_000_000;
/// The rounds of each side. Of an operation that alone takes more than a hundred rounds' time there are `FEW`.
const ROUNDS: usize = 15;
const FEW: usize = 3;
/// Both sides must have the same sum of results after so many operations.
const COMPARED: usize = 4;

/// A case with the nanoseconds that one operation takes on each side, the least of all rounds.
pub struct Row {
    pub family: &'static str,
    pub of: String,
    pub theirs: f64,
    pub ours: f64,
}

impl Row {
    pub fn name(&self) -> String {
        if self.of.is_empty() { self.family.to_owned() } else { format!("{}/{}", self.family, self.of) }
    }

    /// How many times as long as the original the crate takes.
    pub fn ratio(&self) -> f64 {
        self.ours / self.theirs
    }
}

/// One side of a case: does an operation so often, and returns the nanoseconds and the sum of the results.
pub trait Side: FnMut(usize) -> (u64, usize) {}

impl<T: FnMut(usize) -> (u64, usize)> Side for T {}

/// The operation with the number of each iteration.
pub fn each(mut operation: impl FnMut(usize) -> usize) -> impl Side {
    move |times| {
        let start = thread_cpu_time();
        let sum = (0..times).fold(0usize, |sum, i| sum.wrapping_add(operation(i)));
        // (It is used, so that it has to be computed.)
        (thread_cpu_time() - start, black_box(sum))
    }
}

/// The operation on what `prepare` returns, whose time isn't measured.
pub fn consuming<T>(prepare: impl Fn() -> T, mut operation: impl FnMut(T) -> usize) -> impl Side {
    move |times| {
        let mut inputs: Vec<T> = (0..times).map(|_| prepare()).collect();
        let (start, mut sum) = (thread_cpu_time(), 0usize);
        while let Some(input) = inputs.pop() {
            sum = sum.wrapping_add(operation(input));
        }
        (thread_cpu_time() - start, black_box(sum))
    }
}

/// Measures an operation that is written alike for both sides. In it `dtype` is the module of the side, and the pattern
/// is bound to what that side works on in the iteration of this number.
macro_rules! alike {
    ($meter:expr, $family:expr, $of:expr, $i:ident, $given:pat = $theirs:expr, $ours:expr; $operation:expr) => {
        $meter.case(
            $family,
            $of,
            crate::meter::each(|$i| {
                #[allow(unused_imports)]
                use vortex_array::dtype;
                let $given = $theirs;
                $operation
            }),
            crate::meter::each(|$i| {
                #[allow(unused_imports)]
                use vortex_logical_types as dtype;
                let $given = $ours;
                $operation
            }),
        )
    };
}
pub(crate) use alike;

/// Measures the cases that were asked for, and keeps what they took.
pub struct Meter {
    wanted: Vec<String>,
    pub rows: Vec<Row>,
}

impl Meter {
    /// Each of `wanted` is the begin of the names of cases; if there is none, all cases are wanted.
    pub fn new(wanted: Vec<String>) -> Self {
        Self { wanted, rows: Vec::new() }
    }

    /// Measures a case, whose two sides have to find the same, and prints its line.
    pub fn case(&mut self, family: &'static str, of: impl Display, mut theirs: impl Side, mut ours: impl Side) {
        let mut row = Row { family, of: of.to_string(), theirs: f64::INFINITY, ours: f64::INFINITY };
        let name = row.name();
        if !self.wanted.is_empty() && !self.wanted.iter().any(|it| name.starts_with(it.as_str())) {
            return;
        }
        let ((first, found), (_, wanted)) = (ours(COMPARED), theirs(COMPARED));
        assert_eq!(found, wanted, "{name}: the two sides find different things");
        let times = [times_of(&mut theirs), times_of(&mut ours)];
        let is_long = first / COMPARED as u64 > 100 * ROUND_TIME || theirs(1).0 > 100 * ROUND_TIME;
        for _ in 0..if is_long { FEW } else { ROUNDS } {
            row.theirs = row.theirs.min(theirs(times[0]).0 as f64 / times[0] as f64);
            row.ours = row.ours.min(ours(times[1]).0 as f64 / times[1] as f64);
        }
        println!("{name},{:.1},{:.1},{:.2}", row.theirs, row.ours, row.ratio());
        self.rows.push(row);
    }
}

/// How many operations take a round.
fn times_of(side: &mut impl Side) -> usize {
    (0..32).map(|doublings| 1 << doublings).find(|times| side(*times).0 >= ROUND_TIME).unwrap_or(1 << 32)
}
