// SPDX-License-Identifier: Apache-2.0
// SPDX-FileCopyrightText: Copyright the Vortex contributors

//! The demo on the standard streams. `run` is erased from `crates/dtype_demo`, which says what is read and printed.

use std::io::{BufWriter, stdin, stdout};
use std::process::ExitCode;

include!(concat!(env!("OUT_DIR"), "/demo.rs"));

fn main() -> ExitCode {
    let mut output = BufWriter::new(stdout().lock());
    match dtype_demo::run(&mut stdin().lock(), &mut output) {
        Ok(()) => ExitCode::SUCCESS,
        Err(fault) => {
            eprintln!("{fault}");
            ExitCode::FAILURE
        }
    }
}
