// SPDX-License-Identifier: Apache-2.0
// SPDX-FileCopyrightText: Copyright the Vortex contributors

//! Measures the crate. Each argument is a prefix of the names of cases, and without one all cases are measured:
//!
//! ```sh
//! cargo run --profile bench -p vortex-logical-types-bench -- find copy
//! ```
//!
//! It prints a line for each case, such as `find/mixed/wide/1000 54.2 57.0`: the nanoseconds of processor time of one
//! operation, the least and the median of fifteen rounds. A round is a loop of about 3 ms, in which each result is dropped.
//!
//! `cases`, `fixture` and `meter` name vortex-array's calls, which the crate has too. `rust/original` compiles these files
//! a second time over vortex-array itself.

mod cases;
mod clock;
mod fixture;
mod library;
mod meter;
mod queries;

use std::env;

fn main() {
    let arguments: Vec<String> = env::args().skip(1).collect();
    if arguments.iter().any(|it| it.starts_with('-')) {
        return println!("bench [PREFIX..]: measures the cases whose names begin with one of these, or all");
    }
    measure(&meter::Meter::new(arguments));
}

fn measure(meter: &meter::Meter) {
    cases::all(meter);
    if meter.wants_some("project_") {
        queries::all(meter);
    }
}

#[cfg(test)]
mod tests {
    use std::collections::BTreeSet;
    use std::sync::Mutex;

    static DONE: Mutex<BTreeSet<String>> = Mutex::new(BTreeSet::new());

    #[test]
    fn the_cases_are_those_of_the_table() {
        super::measure(&super::meter::Meter::trying(|name, _| {
            assert!(DONE.lock().unwrap().insert(name.to_owned()), "{name} is measured twice");
        }));
        let rows = include_str!("../../../docs/benchmarks.csv").lines().skip(1);
        let table: BTreeSet<String> = rows.filter_map(|row| Some(row.split_once(',')?.0.to_owned())).collect();
        assert_eq!(*DONE.lock().unwrap(), table);
    }
}
