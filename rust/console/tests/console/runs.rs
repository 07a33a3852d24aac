// SPDX-License-Identifier: Apache-2.0
// SPDX-FileCopyrightText: Copyright the Vortex contributors

//! Arguments, files and streams, and the status with which the program ends.

use crate::{answer, console, run, told};
use std::fs::{self, File, OpenOptions};
use std::io::{BufRead, BufReader, Write};
use std::process::{Command, Stdio};
use std::sync::mpsc;
use std::thread;
use std::time::{Duration, Instant};

const FIND: &str = "find b {a=i32, b=u8}";
const BLANK: &str =
    "unreadable at 8: expected a blank, found `a`; the root is . alone, any other path begins with a step\n";
const REFUSED: &str = "refused 1: decimal precision must be between 1 and 76 (inclusive)\n";

/// Returns a folder of files with lines.
fn files() -> std::path::PathBuf {
    let folder = std::path::Path::new(env!("CARGO_TARGET_TMPDIR")).join("lines");
    fs::create_dir_all(&folder).unwrap();
    fs::write(folder.join("lines"), format!("{FIND}\nbytes_type\n")).unwrap();
    fs::write(folder.join("crlf"), format!("{FIND}\r\n\r\n# a comment\r\nbytes_type\r\n")).unwrap();
    fs::write(folder.join("wrong"), format!("cover .a\n{FIND}\n")).unwrap();
    fs::write(folder.join("ends"), format!("{FIND}\nexit\nbytes_type\n")).unwrap();
    folder
}

#[test]
fn arguments_and_inputs_have_their_answers_and_status() {
    files();
    let wrong_then_right = format!("{BLANK}1\n");
    let echoed = format!("> {FIND}\n1\n\n# a comment\n> bytes_type\nu8\n");
    // The arguments, what is given, the status and the output. If the status is 2, an error is told.
    let tests: [(&[&str], &[u8], i32, &str); 24] = [
        (&["-c", FIND], b"", 0, "1\n"),
        (&["-c", FIND, "-c", "bytes_type"], b"", 0, "1\nu8\n"),
        (
            &["-c", "-c", "lines/lines"],
            b"",
            1,
            "unreadable at 1: expected a command; help lists all, # begins a comment\n1\nu8\n",
        ),
        (&["-c", "type decimal(0,0)"], b"", 0, REFUSED),
        (&["-c", "as_nonnullable null"], b"", 0, "condition: needs a type that can be non-nullable\n"),
        (&["-c", "cover .a"], b"", 1, BLANK),
        (&["-c", "set t iter"], b"", 1, "unknown: no set t; there are none\n"),
        (&["-c", "read @t utf8 {}"], b"", 1, "unknown: no session t; there are none\n"),
        (&["-c", "cover .a", "-c", FIND], b"", 1, &wrong_then_right),
        (&["--strict", "-c", "cover .a", "-c", FIND], b"", 1, BLANK),
        (&["--strict", "-c", "type decimal(0,0)", "-c", FIND], b"", 0, &format!("{REFUSED}1\n")),
        (&["--strict", "lines/wrong"], b"", 1, BLANK),
        (&["lines/wrong"], b"", 1, &wrong_then_right),
        (&["lines/lines"], b"", 0, "1\nu8\n"),
        (&["lines/crlf"], b"", 0, "1\n\n\nu8\n"),
        (&["--echo", "lines/crlf"], b"", 0, &echoed),
        (&["lines/ends", "lines/lines"], b"", 0, "1\n"),
        (&["lines/lines", "nothing", "lines/lines"], b"", 2, "1\nu8\n"),
        (&["-c"], b"", 2, ""),
        (&["--ehco"], b"", 2, ""),
        (&["-"], b"bytes_type\n", 0, "u8\n"),
        (&["-c", FIND, "-", "lines/lines"], b"bytes_type", 0, "1\nu8\n1\nu8\n"),
        (&[], b"bytes_type\nquit\nbytes_type\n", 0, "u8\n"),
        (&[], b"\xff\n", 1, "unreadable at 1: expected UTF-8\n"),
    ];
    for (arguments, given, status, output) in tests {
        let found = run(arguments, given);
        assert_eq!((found.0, found.1.as_str()), (status, output), "{arguments:?}: {}", found.2);
        assert_eq!(status == 2, !found.2.is_empty(), "{arguments:?}: {}", found.2);
    }
}

#[test]
fn a_file_that_is_not_there_is_named() {
    let (status, shown, told) = run(&["nothing"], b"");
    assert_eq!((status, shown.as_str()), (2, ""));
    assert_eq!(told, "console: nothing: No such file or directory (os error 2)\n");
}

#[test]
fn help_and_version_are_printed() {
    let (status, shown, _) = run(&["--version"], b"");
    assert_eq!(
        (status, shown),
        (0, format!("console {}, of the types of vortex-array 0.89.0\n", env!("CARGO_PKG_VERSION")))
    );
    let (status, shown, _) = run(&["--help"], b"");
    assert_eq!(status, 0);
    for word in ["Usage: console", "-c <COMMAND>", "--echo", "--strict", "[FILE]", "--version", "  3  "] {
        assert!(shown.contains(word), "{word}: {shown}");
    }
}

/// A line of each topic, and how many lines may take how long. (300,000 took 0.5 seconds on an idle machine.)
const MANY: [&str; 6] = [
    FIND,
    "cover a.b x a a.c",
    "type {a=list({b=u32})?, f=fixed_size_list(u8)[2]}",
    "resolve a.[].b {a=list({b=u32})?}",
    "write {a=list(i32?)}",
    "merge_nullability {a=i32} {a=i32?}",
];
const TIMES: usize = if cfg!(debug_assertions) { 5_000 } else { 50_000 };
const SOON: Duration = Duration::from_secs(20);

#[test]
fn many_lines_are_answered_soon() {
    let lines = (MANY.join("\n") + "\n").repeat(TIMES);
    let begun = Instant::now();
    let (status, shown, _) = run(&[], lines.as_bytes());
    assert_eq!((status, shown.lines().count()), (0, MANY.len() * TIMES));
    assert!(begun.elapsed() < SOON, "{:?}", begun.elapsed());
}

#[test]
fn a_line_is_answered_before_the_next_is_given() {
    let mut child = console(&[]).stdin(Stdio::piped()).stdout(Stdio::piped()).spawn().unwrap();
    let (mut input, output) = (child.stdin.take().unwrap(), child.stdout.take().unwrap());
    // (the answer comes although the next line has begun)
    input.write_all(b"bytes_type\nbyt").unwrap();
    let (answers, answered) = mpsc::channel();
    thread::spawn(move || answers.send(BufReader::new(output).lines().next()));
    assert_eq!(answered.recv_timeout(SOON).expect("an answer").unwrap().unwrap(), "u8");
    input.write_all(b"es_type\nexit\n").unwrap();
    assert!(child.wait().unwrap().success());
}

#[test]
#[cfg(target_os = "linux")]
fn streams_that_fail_end_it_with_a_status_of_their_own() {
    files();
    let full = || OpenOptions::new().write(true).open("/dev/full").unwrap();
    let no_space = "console: standard output: No space left on device (os error 28)\n";
    for arguments in [&["-c", "type i32"][..], &["-c", "type i32\nexit\n"], &["--help"], &["--version"]] {
        let ended = told(console(arguments).stdout(full()).output().unwrap());
        assert_eq!(ended, (3, String::new(), no_space.to_owned()), "{arguments:?}");
    }
    let folder = "Is a directory (os error 21)";
    assert_eq!(run(&["-c", FIND, ".", "lines/lines"], b""), (3, "1\n".to_owned(), format!("console: .: {folder}\n")));
    let ended = told(console(&[]).stdin(File::open("/").unwrap()).output().unwrap());
    assert_eq!(ended, (3, String::new(), format!("console: standard input: {folder}\n")));
    let closed = |redirection: &str| {
        let line = format!("{} -c bytes_type - {redirection}", env!("CARGO_BIN_EXE_console"));
        told(Command::new("sh").args(["-c", &line]).stdin(Stdio::null()).output().unwrap())
    };
    let closed_stream = "Bad file descriptor (os error 9)";
    assert_eq!(closed(">&-"), (3, String::new(), format!("console: standard output: {closed_stream}\n")));
    assert_eq!(closed("<&-"), (3, "u8\n".to_owned(), format!("console: standard input: {closed_stream}\n")));
    assert_eq!(closed("</dev/null >/dev/null"), (0, String::new(), String::new()));
}

#[test]
fn nobody_needs_to_read_all_answers() {
    let mut child = console(&[]).stdin(Stdio::piped()).stdout(Stdio::piped()).stderr(Stdio::piped()).spawn().unwrap();
    drop(child.stdout.take());
    // (so many lines that the program writes answers before it has read all)
    let _ = child.stdin.take().unwrap().write_all("bytes_type\n".repeat(200_000).as_bytes());
    assert_eq!(told(child.wait_with_output().unwrap()), (0, String::new(), String::new()));
}

#[test]
fn no_type_is_made_that_cannot_be_read() {
    let deepest = format!("{}i32{}", "list(".repeat(128), ")".repeat(128));
    assert_eq!(answer(&format!("type {deepest}")), format!("{deepest}\n"));
    for line in [
        format!("list Nullable {deepest}"),
        format!("fixed_size_list Nullable 1 {deepest}"),
        format!("map Nullable true i32 {deepest}"),
        format!("struct Nullable a {deepest}"),
        format!("extension x.y 0x {deepest}"),
        format!("deserialize unknown x.y 0x {deepest}"),
        format!("tag_new 0x {deepest}"),
        format!("union_new a {deepest}"),
        format!("map_try_new true i32 {deepest}"),
        format!("struct_new a {deepest}"),
    ] {
        assert_eq!(answer(&line), "condition: at most 128 levels\n", "{line:.30}");
    }
}
