// SPDX-License-Identifier: Apache-2.0
// SPDX-FileCopyrightText: Copyright the Vortex contributors

//! The console at a terminal.

#![cfg(target_os = "linux")]

use crate::console;
use nix::fcntl::OFlag;
use nix::pty::{grantpt, posix_openpt, ptsname_r, unlockpt};
use std::fs::{File, OpenOptions};
use std::io::{Read, Write};
use std::path::Path;

/// Returns what the console writes to a terminal at which these lines are typed, each after a prompt, and its status.
/// `history` is the file that keeps them.
fn at_terminal(history: &str, typed: &[&str]) -> (String, i32) {
    let mut terminal = posix_openpt(OFlag::O_RDWR | OFlag::O_NOCTTY).unwrap();
    grantpt(&terminal).unwrap();
    unlockpt(&terminal).unwrap();
    let other: File = OpenOptions::new().read(true).write(true).open(ptsname_r(&terminal).unwrap()).unwrap();
    let mut command = console(&[]);
    command.env("HISTORY", history).env("TERM", "xterm").stdin(other.try_clone().unwrap());
    let mut child = command.stdout(other.try_clone().unwrap()).stderr(other).spawn().unwrap();
    drop(command);
    let (mut shown, mut lines, mut buffer) = (String::new(), typed.iter(), [0; 4096]);
    // (reading fails when the console has ended)
    while let Ok(count @ 1..) = terminal.read(&mut buffer) {
        shown += &String::from_utf8_lossy(&buffer[..count]);
        let asked = (shown.matches(PROMPT).count() + lines.len()).saturating_sub(typed.len());
        for line in lines.by_ref().take(asked) {
            terminal.write_all(line.as_bytes()).unwrap();
        }
    }
    (shown.replace("\r\n", "\n"), child.wait().unwrap().code().unwrap())
}

/// How a terminal shows a prompt: the cursor stands behind it.
const PROMPT: &str = "> \r\x1b[2C";

#[test]
fn a_terminal_has_a_prompt_and_an_end() {
    let (shown, status) = at_terminal("", &["bytes_type\r", "help find\r", "exit\r"]);
    let (first, rest) = shown.split_once('\n').unwrap();
    assert!(first.contains("help lists the commands, exit ends"), "{first}");
    for told in ["bytes_type\x1b[?2004l\nu8\n", "\nfind NAME S: "] {
        assert!(rest.contains(told), "{told:?} isn't in {rest:?}");
    }
    assert_eq!((status, rest.matches(PROMPT).count()), (0, 3));
}

#[test]
fn ctrl_d_ends_it_and_ctrl_c_gives_up_a_line() {
    let (shown, status) = at_terminal("", &["cover .a\r", "bytes_type\x03", "\x04"]);
    assert!(shown.contains("\nunreadable at 8: expected a blank, found `a`;"), "{shown:?}");
    assert!(!shown.contains("u8"), "{shown:?}");
    assert_eq!((status, shown.matches(PROMPT).count()), (1, 3));
}

#[test]
fn lines_are_kept_and_names_completed() {
    let history = Path::new(env!("CARGO_TARGET_TMPDIR")).join("history");
    let _ = std::fs::remove_file(&history);
    let history = history.to_str().unwrap();
    let (shown, _) = at_terminal(history, &["bytes_\t\r", "help comm\t\r", "\x04"]);
    assert!(shown.contains("\nu8\n") && shown.contains("\ncomments: "), "{shown:?}");
    let (shown, _) = at_terminal(history, &["\x1b[A\x1b[A\r", "exit\r"]);
    assert!(shown.contains("\nu8\n"), "{shown:?}");
}
