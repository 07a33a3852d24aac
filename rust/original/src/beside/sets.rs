// SPDX-License-Identifier: Apache-2.0
// SPDX-FileCopyrightText: Copyright the Vortex contributors

//! Sets of paths of two forms: names below one parent, and names below ten parents each of which is below one of ten.

use std::hint::black_box;

use vortex_array::dtype as theirs;
use vortex_logical_types as ours;

use crate::fixture::{Turns, column, mixed, path_of_ours};
use crate::meter::{Meter, alike, consuming, each};

fn flat(at: usize) -> String {
    format!("parent.{}", column(at))
}

fn nested(at: usize) -> String {
    format!("a_{}.b_{}.c_{}", at / 100, at / 10 % 10, at % 10)
}

pub fn all(meter: &mut Meter, count: usize) {
    of_form(meter, &format!("flat/{count}"), count, flat);
    of_form(meter, &format!("nested/{count}"), count, nested);
}

fn of_form(meter: &mut Meter, of: &str, count: usize, form: fn(usize) -> String) {
    let read = |at: usize| form(mixed(at, count)).parse::<ours::FieldPath>().expect("a path");
    let ours_paths: Vec<ours::FieldPath> = (0..count).map(read).collect();
    let theirs_paths: Vec<theirs::FieldPath> = ours_paths.iter().map(path_of_ours).collect();
    let (theirs_set, ours_set): (theirs::FieldPathSet, ours::FieldPathSet) =
        (theirs_paths.iter().cloned().collect(), ours_paths.iter().collect());
    let theirs =
        |paths: Vec<theirs::FieldPath>| black_box(theirs::FieldPathSet::from_iter(paths)).iter().take(1).count();
    let ours = |paths: Vec<ours::FieldPath>| usize::from(!black_box(ours::FieldPathSet::from_iter(paths)).is_empty());
    let given = (|| theirs_paths.clone(), || ours_paths.clone());
    meter.case("set build and drop", of, consuming(given.0, theirs), consuming(given.1, ours));
    // (The paths that are looked for were made separately.)
    let sought: Vec<ours::FieldPath> = (0..count).map(read).collect();
    let absent: Vec<ours::FieldPath> = (0..count).map(|at| format!("{}_", form(at)).parse().expect("a path")).collect();
    for (family, sought) in [("set contains, hit", sought), ("set contains, miss", absent)] {
        let theirs_sought: Vec<theirs::FieldPath> = sought.iter().map(path_of_ours).collect();
        let (mut turns, mut our_turns) = (Turns::new(), Turns::new());
        alike!(meter, family, of, _i, (set, path) = (&theirs_set, &theirs_sought[turns.below(count)]),
            (&ours_set, &sought[our_turns.below(count)]); usize::from(set.contains(path)));
    }
    alike!(meter, "set members", of, _i, set = black_box(&theirs_set), black_box(&ours_set);
        set.iter().map(|it| it.parts().len()).sum());
    let theirs = |set: theirs::FieldPathSet| set.into_iter().map(|it| it.parts().len()).sum();
    let ours = |set: ours::FieldPathSet| set.into_iter().map(|it| it.len()).sum();
    meter.case("set cover", of, consuming(|| theirs_set.clone(), theirs), consuming(|| ours_set.clone(), ours));
    meter.case("set len", of, each(|_| black_box(&theirs_set).iter().count()), each(|_| black_box(&ours_set).len()));
    let theirs = |_| black_box(black_box(&theirs_set).clone()).iter().take(1).count();
    let ours = |_| usize::from(!black_box(black_box(&ours_set).clone()).is_empty());
    meter.case("set clone", of, each(theirs), each(ours));
}
