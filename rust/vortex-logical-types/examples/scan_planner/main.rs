// SPDX-License-Identifier: Apache-2.0
// SPDX-FileCopyrightText: Copyright the Vortex contributors

//! Prints the plan of a scan: which columns of each file it opens, and what it reads of them. The planner is erased from
//! `crates/scan_planner`, which has its contracts.
//!
//! The argument is a file of lines such as `file {id=u64, name=utf8}`, `select name` and `filter id`. Without an
//! argument the plans of `star.txt` and `events.txt` are printed.

mod planned;

use planned::planned;
use std::error::Error;

include!(concat!(env!("OUT_DIR"), "/planner.rs"));

fn main() -> Result<(), Box<dyn Error>> {
    if let Some(file) = std::env::args().nth(1) {
        print!("{}", planned(&std::fs::read_to_string(file)?)?);
    } else {
        let (star, events) = (include_str!("star.txt"), include_str!("events.txt"));
        print!("{}\n{}", planned(star)?, planned(events)?);
    }
    Ok(())
}
