// SPDX-License-Identifier: Apache-2.0
// SPDX-FileCopyrightText: Copyright the Vortex contributors

//! The tests in `c/tests` over the static library that Cargo built: each call, each allocation refused in turn,
//! schemas of Arrow, threads and random calls. They run under valgrind and with the sanitizers, too.

use crate::common::{
    SANITIZERS, WARNINGS, compiled, counts, has, room, sources, succeeds, under_valgrind,
};
use std::fs;
use std::path::Path;
use std::process::Command;

const CALLS: [&str; 2] = ["tests/calls.c", "tests/heap.c"];
const ARROW: [&str; 3] = ["tests/arrow.c", "tests/schemas.c", "tests/heap.c"];
const CHECKS_OF_CALLS: u32 = 1718;
const CHECKS_OF_ARROW: u32 = 1129;

#[test]
fn each_call_returns_what_it_should() {
    let program = compiled("calls", &["cc"], &["-std=c11", "-O1"], &CALLS);
    counts(&mut Command::new(program), CHECKS_OF_CALLS);
}

#[test]
fn each_refused_allocation_is_an_error() {
    let options = [&["-std=c99"], &SANITIZERS[..]].concat();
    let program = compiled("calls_sanitized", &["cc"], &options, &CALLS);
    counts(Command::new(program).arg("refused"), CHECKS_OF_CALLS + 1000);
}

#[test]
fn calls_use_no_memory_that_is_not_theirs() {
    if has("valgrind", "memory that isn't theirs") {
        let program = compiled("calls_for_valgrind", &["cc"], &["-std=c11", "-g"], &CALLS);
        counts(&mut under_valgrind(program), CHECKS_OF_CALLS);
    }
}

/// How many mistakes `kinds.c` can make.
const MISTAKES: u32 = 9;

#[test]
fn programs_that_mix_up_kinds_are_not_compiled() {
    let c = &["cc", "-std=c99"][..];
    let cpp = &["g++", "-x", "c++", "-std=c++11"][..];
    let with_cpp = has("g++", "a mistake in C++").then_some(cpp);
    for compiler in [c].into_iter().chain(with_cpp) {
        for mistake in 0..=MISTAKES {
            let mut compile = Command::new(compiler[0]);
            compile.args(&compiler[1..]).args(WARNINGS);
            compile.arg(format!("-DMIXED={mistake}"));
            compile.args(["-c", "-o", "/dev/null"]);
            compile.arg(sources().join("tests/kinds.c"));
            let output = compile.output().expect("a compiler");
            assert_eq!(output.status.success(), mistake == 0, "{compile:?}");
        }
    }
}

#[test]
fn cpp_makes_the_same_calls() {
    if has("g++", "C++") {
        let compiler = ["g++", "-x", "c++", "-std=c++11"];
        let object = room().join("calls_in_cpp.o");
        let mut compile = Command::new(compiler[0]);
        compile
            .args(&compiler[1..])
            .arg("-c")
            .arg(sources().join(CALLS[0]));
        succeeds(compile.arg("-o").arg(&object));
        let object = object.display().to_string();
        let program = compiled(
            "calls_from_cpp",
            &["cc"],
            &["-std=c11"],
            &[&object, CALLS[1]],
        );
        counts(&mut Command::new(program), CHECKS_OF_CALLS);
    }
}

#[test]
fn schemas_of_arrow_are_types_and_types_are_schemas() {
    let program = compiled("arrow", &["cc"], &["-std=c11", "-O2", "-g"], &ARROW);
    counts(&mut Command::new(&program), CHECKS_OF_ARROW);
    counts(Command::new(&program).args(["random", "100000"]), 100_000);
    if has("valgrind", "memory of schemas") {
        counts(&mut under_valgrind(program), CHECKS_OF_ARROW);
    }
}

#[test]
fn changed_schemas_of_arrow_are_refused() {
    let options = [&["-std=c99"], &SANITIZERS[..]].concat();
    let program = compiled("arrow_sanitized", &["cc"], &options, &ARROW);
    counts(Command::new(&program).arg("refused"), CHECKS_OF_ARROW + 500);
    counts(Command::new(program).args(["mutated", "20000"]), 20_000);
}

#[test]
fn schemas_of_arrow_are_walked_and_made_again() {
    // (functions of the test stand for those of the library, so nothing of the library is linked)
    let files = [&["tests/arrow_walk.c", "arrow.c"], &ARROW[1..]].concat();
    let options = [&["-std=c99", "-pthread"], &SANITIZERS[..]].concat();
    let program = compiled("arrow_walk", &["cc"], &options, &files);
    let count = if cfg!(debug_assertions) { 2000 } else { 10_000 };
    counts(Command::new(program).arg(count.to_string()), 5 * count);
}

#[test]
fn threads_hand_objects_to_one_another() {
    let files = ["tests/threads.c", "tests/heap.c"];
    let options = ["-std=c11", "-O1", "-g", "-pthread"];
    let program = compiled("threads", &["cc"], &options, &files);
    counts(&mut Command::new(&program), 1);
    if has("valgrind", "races of threads") {
        let mut command = Command::new("valgrind");
        command.args(["-q", "--tool=helgrind", "--error-exitcode=9"]);
        counts(command.arg(program).arg("50"), 1);
    }
}

#[test]
fn random_calls_leave_nothing_behind() {
    if !has("python3", "random calls") {
        return;
    }
    let top = Path::new(env!("CARGO_MANIFEST_DIR")).join("../..");
    let mut generator = Command::new("python3");
    generator.args(["tools/bindings/bindings", "--calls"]);
    let calls = succeeds(generator.current_dir(top));
    fs::write(room().join("random_calls.h"), calls).expect("the file can be written");
    let include = format!("-I{}", room().display());
    let options = [&["-std=c11", "-O1", include.as_str()], &SANITIZERS[..]].concat();
    let files = ["tests/random.c", "tests/heap.c"];
    let program = compiled("random", &["cc"], &options, &files);
    counts(Command::new(program).args(["400000", "1"]), 100);
}
