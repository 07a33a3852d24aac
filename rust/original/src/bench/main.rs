// SPDX-License-Identifier: Apache-2.0
// SPDX-FileCopyrightText: Copyright the Vortex contributors

//! Measures vortex-array on the cases of `rust/bench`, whose sources say what each is. It takes the same arguments and
//! prints the same lines.
//!
//! It leaves out `project_paths` and `project_by_hand`, which the original doesn't have, merges of extensions, which it
//! has no door for, and the covers of large path sets, which it finds by comparing all paths. It merges by hand.

#[path = "../../../bench/src/cases.rs"]
mod cases;
#[path = "../../../bench/src/fixture.rs"]
mod fixture;
mod library;
#[path = "../../../bench/src/meter.rs"]
mod meter;

use std::env;

use original::clock;

fn main() {
    cases::all(&meter::Meter::new(env::args().skip(1).collect()));
}
