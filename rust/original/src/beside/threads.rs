// SPDX-License-Identifier: Apache-2.0
// SPDX-FileCopyrightText: Copyright the Vortex contributors

//! Threads that call both sides with the same types, paths and sets.

use std::hint::black_box;
use std::sync::Barrier;
use std::thread;
use std::time::Instant;

use vortex_array::dtype as theirs;
use vortex_logical_types as ours;

use crate::fixture::{Paths, Types, column, path_of_ours};
use crate::looks::used;

const COUNTS: [usize; 4] = [1, 2, 4, 8];
/// How long one thread alone takes about, in nanoseconds.
const TIME: f64 = 40_000_000.0;
const ROUNDS: usize = 5;

/// The calls that so many threads make in a microsecond together, the most of all rounds.
fn rate(threads: usize, times: usize, operation: &(impl Fn(usize) -> usize + Sync)) -> f64 {
    let start = Barrier::new(threads + 1);
    let took = thread::scope(|scope| {
        let all: Vec<_> = (0..threads)
            .map(|thread| {
                let start = &start;
                scope.spawn(move || {
                    start.wait();
                    let begun = Instant::now();
                    black_box((0..times).fold(thread, |sum, i| sum.wrapping_add(operation(i))));
                    (begun, Instant::now())
                })
            })
            .collect();
        start.wait();
        let times: Vec<_> = all.into_iter().map(|it| it.join().expect("a thread that ends")).collect();
        let (first, last) = (times.iter().map(|it| it.0).min(), times.iter().map(|it| it.1).max());
        last.expect("a thread").duration_since(first.expect("a thread")).as_nanos() as f64
    });
    (threads * times) as f64 * 1000.0 / took
}

fn rates(operation: &(impl Fn(usize) -> usize + Sync)) -> [f64; 4] {
    let times = (TIME / 1000.0 * rate(1, 1000, operation)).max(1.0) as usize;
    COUNTS.map(|threads| (0..ROUNDS).map(|_| rate(threads, times / threads + 1, operation)).fold(0.0, f64::max))
}

fn row(what: &str, theirs: impl Fn(usize) -> usize + Sync, ours: impl Fn(usize) -> usize + Sync) {
    assert_eq!(
        (0..4).map(&ours).sum::<usize>(),
        (0..4).map(&theirs).sum(),
        "{what}: the two sides find different things"
    );
    for (side, rates) in [("vortex-array", rates(&theirs)), ("this crate", rates(&ours))] {
        let cells: Vec<String> = rates.iter().map(|it| format!("{it:.3}")).collect();
        println!("| {what} | {side} | {} |", cells.join(" | "));
    }
}

/// Prints a table of how many calls per microsecond one to eight threads make together.
pub fn all() {
    println!("| Call | Of | 1 thread | 2 threads | 4 threads | 8 threads |\n|---|---|---|---|---|---|");
    let it = Types::columns(100);
    let same = Types::columns(100);
    let name = column(70);
    let theirs = |i| it.theirs(i).as_struct_fields().find(&name).unwrap_or(7);
    row("find among 100 columns", theirs, |i| it.ours(i).as_struct_fields().find(&name).unwrap_or(7));
    let path = Paths::read("column_70");
    let theirs = |i| usize::from(path.theirs(i).exists_in(it.theirs(i).clone()));
    row("exists_in, one step", theirs, |i| usize::from(path.ours(i).exists_in(it.ours(i))));
    row(
        "== of 100 columns",
        |i| usize::from(it.theirs(i) == same.theirs(i)),
        |i| usize::from(it.ours(i) == same.ours(i)),
    );
    row("clone and drop", |i| used(it.theirs(i).clone()), |i| used(it.ours(i).clone()));
    let theirs = |i| path.theirs(i).resolve(it.theirs(i).clone()).map_or(7, used);
    row("resolve, one step", theirs, |i| path.ours(i).resolve(it.ours(i)).cloned().map_or(7, used));
    let theirs = |i| used(it.theirs(i).as_nullable());
    row("as_nullable of 100 columns", theirs, |i| used(it.ours(i).as_nullable()));
    let names: Vec<String> = (0..10).map(column).collect();
    let theirs_names: Vec<theirs::FieldName> = names.iter().map(|it| theirs::FieldName::from(it.as_str())).collect();
    let theirs = |i| it.theirs(i).as_struct_fields().project(&theirs_names).map_or(7, |it| it.nfields());
    let names: Vec<ours::FieldName> = names.iter().map(Into::into).collect();
    let ours = |i| it.ours(i).as_struct_fields().project(&names).map_or(7, |it| it.nfields());
    row("project 10 of 100 columns", theirs, ours);
    let paths: Vec<ours::FieldPath> = (0..10).map(|at| ours::FieldPath::from_name(column(at))).collect();
    let theirs_paths: Vec<theirs::FieldPath> = paths.iter().map(path_of_ours).collect();
    let theirs = |_| theirs_paths.iter().cloned().collect::<theirs::FieldPathSet>().iter().count();
    row("build a set of 10 paths", theirs, |_| paths.iter().cloned().collect::<ours::FieldPathSet>().len());
}
