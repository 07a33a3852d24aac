// SPDX-License-Identifier: Apache-2.0
// SPDX-FileCopyrightText: Copyright the Vortex contributors

//! Compares the Rust crate of this repository with the original in one process: random values go to both by function
//! calls, and the answers are compared. Where the original has no such call, or differs on purpose
//! (docs/DIFFERENCES.md), the answer comes from the models (src/shared/models.rs).

mod fields;
mod generate;
mod messages;
mod names;
mod numbers;
mod paths;
mod plain;
mod plugins;
mod random;
mod report;
mod round;
mod sets;
mod shape;
mod texts;
#[rustfmt::skip]
#[path = "../../../vortex-logical-types/examples/vortex_array/translate.rs"]
mod translate;
mod types;

use std::env;
use std::panic::{self, AssertUnwindSafe};
use std::process::ExitCode;
use std::thread;
use std::time::{Duration, Instant};

use random::Random;
use report::Report;
use round::Round;

const USAGE: &str = "\
compare [--seconds S] [--count N] [--seed S] [--jobs N] [--round R] [--spoil]

    --seconds S   ends after so many seconds; after 10 if neither this nor --count is given
    --count N     ends after N comparisons
    --seed S      the seed of the random values; 0 if it isn't given
    --jobs N      runs N threads, each with other rounds
    --round R     makes this round alone, and shows where the original panics
    --spoil       gives the two sides different values in one round of eight, so that each call has to differ

It prints how often each call was compared and how often the answers differed. If any differ, it ends with status 1.";

/// What the arguments say.
pub struct Options {
    seconds: Option<f64>,
    count: Option<u64>,
    seed: u64,
    jobs: u64,
    round: Option<u64>,
    spoils: bool,
}

fn options() -> Option<Options> {
    let mut options = Options { seconds: None, count: None, seed: 0, jobs: 1, round: None, spoils: false };
    let mut arguments = env::args().skip(1);
    while let Some(name) = arguments.next() {
        if name == "--spoil" {
            options.spoils = true;
            continue;
        }
        let value = arguments.next()?;
        match name.as_str() {
            "--seconds" => options.seconds = Some(value.parse().ok()?),
            "--count" => options.count = Some(value.parse().ok()?),
            "--seed" => options.seed = value.parse().ok()?,
            "--jobs" => options.jobs = value.parse().ok().filter(|it| *it > 0)?,
            "--round" => options.round = Some(value.parse().ok()?),
            _ => return None,
        }
    }
    if options.count.is_none() {
        options.seconds = options.seconds.or(Some(10.0));
    }
    Some(options)
}

/// One round: types, and what is called on them.
fn make(round: &mut Round) {
    let shape = generate::shape(&mut round.random);
    let other = generate::like(&mut round.random, &shape);
    let (a, b) = (round.pair(shape), round.pair(other));
    types::of_one(round, &a);
    types::of_two(round, &a, &b);
    types::merged(round, &a, &b);
    texts::of_type(round, &a);
    texts::too_deep(round);
    numbers::all(round);
    names::of_two(round);
    names::of_lists(round);
    types::constructors(round);
    let leaf = generate::leaf(&mut round.random);
    let leaf = round.pair(leaf);
    types::of_one(round, &leaf);
    with_parts(round);
    let [p, q] = [(); 2].map(|()| {
        let steps = generate::path(&mut round.random, &a.shape);
        round.path(steps)
    });
    paths::of_one(round, &p);
    paths::of_two(round, &p, &q);
    paths::in_type(round, &p, &a);
    paths::in_type(round, &q, &a);
    paths::of_masks(round, &p, &q);
    paths::of_names(round);
    texts::of_path(round, &p);
    sets::of_type(round, &a);
    messages::of_type(round, &a);
    messages::of_any(round);
    messages::of_path(round);
    plugins::of_session(round);
    plugins::of_typed(round);
}

/// The calls on a type of each kind that has parts, and on it with one that is nearly the same.
fn with_parts(round: &mut Round) {
    let kinds = [generate::list, generate::fixed_size_list, generate::map, generate::union, generate::extension];
    let [list, sized, map, union, extension] = kinds.map(|kind| {
        let shape = kind(&mut round.random, 2, &mut 4);
        let other = generate::like(&mut round.random, &shape);
        [shape, other].map(|shape| round.pair_of(shape, |random| kind(random, 2, &mut 4)))
    });
    let [one, other] = [10, 3].map(|mut left| {
        let shape = generate::structure(&mut round.random, 3, &mut left);
        round.pair_of(shape, |random| generate::structure(random, 2, &mut 4))
    });
    let like = generate::like(&mut round.random, &one.shape);
    let like = round.pair(like);
    types::of_one(round, &list[0]);
    types::of_one(round, &sized[0]);
    fields::of_map(round, &map[0], &map[1]);
    fields::of_union(round, &union[0], &union[1]);
    plugins::of_extension(round, &extension[0], &extension[1]);
    let second = if round.random.bool() { &other } else { &like };
    fields::of_struct(round, &one, second);
    types::merged(round, &one, &other);
    sets::of_type(round, &one);
}

/// Makes rounds: of several threads, each makes those whose number is its own, modulo how many there are.
fn run(options: &Options, job: u64) -> Report {
    let (mut report, begun) = (Report::default(), Instant::now());
    let count = options.count.map(|it| it.div_ceil(options.jobs));
    for turn in 0.. {
        let number = options.round.unwrap_or(job + turn * options.jobs);
        report.round = number;
        let is_spoiled = options.spoils && turn % 8 == 0;
        let result = panic::catch_unwind(AssertUnwindSafe(|| {
            make(&mut Round { random: Random::new(options.seed, number), report: &mut report, is_spoiled });
        }));
        report.same("a round without a panic", result.is_ok(), true, || "any call".to_owned());
        let is_late = options.seconds.is_some_and(|it| begun.elapsed() >= Duration::from_secs_f64(it));
        if options.round.is_some() || is_late || count.is_some_and(|it| report.compared() >= it) {
            break;
        }
    }
    report
}

/// Makes the rounds of all threads, and returns what they counted together.
fn run_all(options: &Options) -> Report {
    thread::scope(|scope| {
        let jobs = if options.round.is_some() { 1 } else { options.jobs };
        let threads: Vec<_> = (0..jobs).map(|job| scope.spawn(move || run(options, job))).collect();
        let reports = threads.into_iter().map(|it| it.join().expect("a thread that catches panics"));
        reports.reduce(Report::and).expect("a thread")
    })
}

fn main() -> ExitCode {
    let Some(options) = options() else {
        eprintln!("{USAGE}");
        return ExitCode::from(2);
    };
    if options.round.is_none() {
        // (a panic is an answer)
        panic::set_hook(Box::new(|_| {}));
    }
    let begun = Instant::now();
    let different = run_all(&options).end(options.seed, begun.elapsed().as_secs_f64());
    ExitCode::from(u8::from(different > 0))
}
