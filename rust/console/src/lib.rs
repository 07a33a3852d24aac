// SPDX-License-Identifier: Apache-2.0
// SPDX-FileCopyrightText: Copyright the Vortex contributors

//! A program that makes calls of the library on values that are written as text: each line is a command with its
//! arguments, and is answered by a line. `docs/CONSOLE.md` says how commands and answers are written. It is a library, because
//! `python -m vortex_logical_types` runs it, too.
//!
//! Begin with `table.rs`, in which the commands stand, and with `console.rs`, which answers a line.

mod answer;
mod argument;
mod commands;
mod console;
mod error;
mod forms;
mod help;
mod line;
mod protobuf;
mod protobuf_text;
mod run;
mod streams;
mod table;
mod terminal;
#[cfg(test)]
#[path = "../tests/unit/mod.rs"]
mod unit;

use clap::Parser;
use run::{Failure, Run};
use std::ffi::OsString;
use std::io::{self, BufWriter, ErrorKind, Write};
use std::path::PathBuf;

/// What `--version` prints behind the program's name.
const VERSION: &str = concat!(env!("CARGO_PKG_VERSION"), ", of the types of vortex-array 0.89.0");

const AFTER_HELP: &str = "\
The commands are answered first, then the lines of the files. If there are neither, the lines of standard input are
answered. The command help lists the commands, and exit ends the console.

Exit status:
  0  every line was answered, even by an error of the library
  1  a line couldn't be read, or named a set or a session that isn't there
  2  an argument is wrong, or a file can't be opened
  3  an input can't be read, or the answers can't be written

Environment:
  HISTORY  the file that keeps the lines of a terminal, ~/.dtype_console_history if it isn't set; none if it is empty";

/// Answers commands on types, paths and messages, one on each line.
#[derive(Debug, Parser)]
#[command(name = "console", version = VERSION, after_help = AFTER_HELP)]
struct Options {
    /// Answers this command; it may be given several times
    #[arg(short = 'c', value_name = "COMMAND", allow_hyphen_values = true)]
    commands: Vec<OsString>,

    /// Writes each line above its answer
    #[arg(long)]
    echo: bool,

    /// Stops at the first line that can't be read, or that names a set or a session that isn't there
    #[arg(long)]
    strict: bool,

    /// Answers the lines of this file; - is standard input
    #[arg(value_name = "FILE")]
    files: Vec<PathBuf>,
}

/// Runs the console with these arguments, of which the first is the name of the program, and returns its exit status.
#[must_use]
pub fn run(arguments: impl IntoIterator<Item = OsString>) -> u8 {
    let mut has_unread = false;
    let done = match Options::try_parse_from(arguments) {
        Ok(options) => answer(&options, &mut has_unread),
        Err(error) if error.use_stderr() => {
            let _ = error.print();
            return 2;
        }
        Err(help) => streams::check_open(1).and_then(|()| help.print()).map_err(Failure::from),
    };
    match done {
        // (nobody reads the answers any more, as behind `head`)
        Err(failure) if failure.error.kind() != ErrorKind::BrokenPipe => {
            let _ = writeln!(io::stderr(), "console: {failure}");
            failure.status
        }
        _ => u8::from(has_unread),
    }
}

/// Answers what the options ask for, and tells whether a line couldn't be read.
fn answer(options: &Options, has_unread: &mut bool) -> Result<(), Failure> {
    streams::check_open(1)?;
    let mut run = Run::new(options, BufWriter::with_capacity(65_536, io::stdout().lock()));
    let answered = run.answer_all();
    *has_unread = run.has_unread;
    // (what was answered before a failure is written, too)
    run.flush()?;
    answered
}
