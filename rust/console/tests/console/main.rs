// SPDX-License-Identifier: Apache-2.0
// SPDX-FileCopyrightText: Copyright the Vortex contributors

//! Runs the console as people and scripts do.

mod help;
#[path = "../rows/mod.rs"]
mod rows;
mod runs;
mod sizes;
mod terminal;
mod transcript;

use std::io::Write;
use std::path::{Path, PathBuf};
use std::process::{Command, Output, Stdio};
use std::thread;

/// Returns the program with these arguments.
fn console(arguments: &[&str]) -> Command {
    let mut command = Command::new(env!("CARGO_BIN_EXE_console"));
    command.args(arguments).current_dir(env!("CARGO_TARGET_TMPDIR"));
    command
}

/// Returns the status, the output and the errors of the program that is given these bytes.
fn run(arguments: &[&str], given: &[u8]) -> (i32, String, String) {
    let piped = Stdio::piped;
    let mut child = console(arguments).stdin(piped()).stdout(piped()).stderr(piped()).spawn().unwrap();
    let mut input = child.stdin.take().unwrap();
    let ended = thread::scope(|scope| {
        // (the program may end before it has read all)
        scope.spawn(move || drop(input.write_all(given)));
        child.wait_with_output().unwrap()
    });
    told(ended)
}

/// Returns the status, the output and the errors of a program that has ended.
fn told(ended: Output) -> (i32, String, String) {
    let text = |bytes| String::from_utf8(bytes).unwrap();
    (ended.status.code().unwrap(), text(ended.stdout), text(ended.stderr))
}

/// Returns the answer to a line.
fn answer(line: &str) -> String {
    run(&["-c", line], b"").1
}

/// Returns the path of a file of the project.
fn project(file: &str) -> PathBuf {
    Path::new(env!("CARGO_MANIFEST_DIR")).join("../..").join(file)
}

/// Returns the text of a file of the project.
fn text_of(file: &str) -> String {
    std::fs::read_to_string(project(file)).unwrap_or_else(|error| panic!("{file}: {error}"))
}
