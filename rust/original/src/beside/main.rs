// SPDX-License-Identifier: Apache-2.0
// SPDX-FileCopyrightText: Copyright the Vortex contributors

//! Measures the Rust crate of this repository beside the original, in one process: what an engine does with the schema
//! of a table. Both sides of a case have to find the same.

mod fields;
mod fixture;
mod looks;
mod messages;
mod meter;
mod paths;
mod sets;
mod threads;
#[allow(dead_code)]
#[rustfmt::skip]
#[path = "../../../vortex-logical-types/examples/vortex_array/translate.rs"]
mod translate;

use std::collections::BTreeMap;
use std::env;

use meter::{Meter, Row};

const USAGE: &str = "\
beside [PREFIX..]     measures the cases whose names begin so, or all
beside --threads      measures how many calls one to eight threads make

Each case is a line: its name, the nanoseconds of processor time that one operation takes in vortex-array and in this
crate, the least of fifteen rounds, and the second divided by the first. Behind the cases are two tables: the families
of cases, and the cases that are measured with 10 to 10,000 columns.";

const COUNTS: [usize; 4] = [10, 100, 1000, 10_000];

/// How many of how many columns are kept.
const PROJECTIONS: [(usize, usize); 6] = [(3, 10), (10, 100), (3, 1000), (100, 1000), (100, 10_000), (1000, 1000)];

fn measure(meter: &mut Meter) {
    for count in COUNTS {
        fields::made(meter, count);
    }
    fields::made_small(meter);
    for count in COUNTS {
        fields::found(meter, count);
        fields::read(meter, count);
        looks::of_two(meter, count);
    }
    looks::of_one(meter);
    looks::of_kinds(meter);
    paths::resolved(meter);
    for depth in [1, 3, 10] {
        paths::of_one(meter, depth);
    }
    paths::of_many(meter);
    for count in COUNTS {
        sets::all(meter, count);
    }
    for (most, count) in PROJECTIONS {
        fields::projected_to(meter, most, count);
    }
    fields::projected_nested(meter);
    for count in [10, 1000] {
        fields::without(meter, count);
    }
    for count in COUNTS {
        messages::all(meter, count);
    }
    messages::nested(meter);
}

/// The geometric mean.
fn mean(ratios: &[f64]) -> f64 {
    (ratios.iter().map(|it| it.ln()).sum::<f64>() / ratios.len() as f64).exp()
}

/// Prints the mean, the least and the greatest ratio of each family, the greatest mean first, and the mean of all cases.
fn families(rows: &[Row]) {
    let mut of: BTreeMap<&str, Vec<f64>> = BTreeMap::new();
    for row in rows {
        of.entry(row.family).or_default().push(row.ratio());
    }
    let mut of: Vec<_> = of.into_iter().map(|(family, ratios)| (mean(&ratios), family, ratios)).collect();
    of.sort_by(|one, other| other.0.total_cmp(&one.0));
    println!("\n| Family | Cases | Mean | Least | Greatest |\n|---|---|---|---|---|");
    for (mean, family, mut ratios) in of {
        ratios.sort_by(f64::total_cmp);
        let (least, greatest) = (ratios[0], ratios[ratios.len() - 1]);
        println!("| {family} | {} | {mean:.2} | {least:.2} | {greatest:.2} |", ratios.len());
    }
    let all: Vec<f64> = rows.iter().map(Row::ratio).collect();
    let [fast, slow] = [1.0, 2.0].map(|border| all.iter().filter(|it| **it <= border).count());
    println!("\nThe geometric mean of the {} cases is {:.2}.", all.len(), mean(&all));
    println!("At most 1: {fast}. Above 2: {}.", all.len() - slow);
}

/// A number of nanoseconds with its unit.
fn time(nanoseconds: f64) -> String {
    match nanoseconds {
        it if it < 100.0 => format!("{it:.1} ns"),
        it if it < 1000.0 => format!("{it:.0} ns"),
        it if it < 100_000.0 => format!("{:.1} µs", it / 1000.0),
        it if it < 1_000_000.0 => format!("{:.0} µs", it / 1000.0),
        it => format!("{:.1} ms", it / 1_000_000.0),
    }
}

/// Prints the cases that are there for each number of columns, each with the crate's time and vortex-array's.
fn engine(rows: &[Row]) {
    println!("\n| Operation | 10 columns | 100 columns | 1,000 columns | 10,000 columns |\n|---|---|---|---|---|");
    let first = format!("{}", COUNTS[0]);
    for row in rows.iter().filter(|row| row.of.split('/').next_back() == Some(first.as_str())) {
        let form = row.of.strip_suffix(first.as_str()).unwrap_or_default();
        let of = |count: usize| rows.iter().find(|it| it.family == row.family && it.of == format!("{form}{count}"));
        let cells: Vec<_> =
            COUNTS.into_iter().filter_map(of).map(|it| format!("{} : {}", time(it.ours), time(it.theirs))).collect();
        if cells.len() == COUNTS.len() {
            let name = format!("{} {}", row.family, form.replace('/', " "));
            println!("| {} | {} |", name.trim_end(), cells.join(" | "));
        }
    }
}

fn main() {
    let arguments: Vec<String> = env::args().skip(1).collect();
    if arguments == ["--threads"] {
        return threads::all();
    }
    if arguments.iter().any(|it| it.starts_with('-')) {
        return println!("{USAGE}");
    }
    let mut meter = Meter::new(arguments);
    measure(&mut meter);
    families(&meter.rows);
    engine(&meter.rows);
}
