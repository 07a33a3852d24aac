// SPDX-License-Identifier: Apache-2.0
// SPDX-FileCopyrightText: Copyright the Vortex contributors

//! Installs the libraries once, and compiles and runs programs in C over them.

use std::env;
use std::ffi::OsStr;
use std::fs;
use std::path::{Path, PathBuf};
use std::process::{Command, Output};
use std::sync::OnceLock;

/// The options by which a C compiler reports what it finds.
pub const WARNINGS: [&str; 4] = ["-Wall", "-Wextra", "-pedantic", "-Werror"];

/// The options for the sanitizers of a C compiler.
pub const SANITIZERS: [&str; 3] = [
    "-g",
    "-fsanitize=address,undefined",
    "-fno-sanitize-recover=all",
];

/// Returns the folder of the files of these tests.
pub fn room() -> PathBuf {
    let room = Path::new(env!("CARGO_TARGET_TMPDIR")).join("capi");
    fs::create_dir_all(&room).expect("the folder can be made");
    room
}

/// Returns the prefix below which these tests have installed the libraries.
pub fn prefix() -> &'static Path {
    static PREFIX: OnceLock<PathBuf> = OnceLock::new();
    PREFIX.get_or_init(|| {
        let prefix = room().join("installed");
        let mut install = Command::new(env!("CARGO_BIN_EXE_install-capi"));
        succeeds(install.arg("--prefix").arg(&prefix));
        prefix
    })
}

/// Returns the static library.
pub fn archive() -> PathBuf {
    prefix().join("lib/libvortex_logical_types.a")
}

/// Returns the shared library.
pub fn shared() -> PathBuf {
    prefix().join("lib/libvortex_logical_types.so")
}

/// Returns the folder of the C sources.
pub fn sources() -> PathBuf {
    Path::new(env!("CARGO_MANIFEST_DIR")).join("../../c")
}

/// Returns the program that the compiler makes of these files of the folder `c` and of the static library.
pub fn compiled(name: &str, compiler: &[&str], options: &[&str], files: &[&str]) -> PathBuf {
    let program = room().join(name);
    let mut command = Command::new(compiler[0]);
    command.args(&compiler[1..]).args(WARNINGS).args(options);
    command.args(files.iter().map(|file| sources().join(file)));
    command.arg(archive()).arg("-o").arg(&program);
    succeeds(&mut command);
    program
}

/// Runs a test in C, whose last line is `N passed, M failed`, and returns N. It must be at least `least`, and M 0.
pub fn counts(command: &mut Command, least: u32) {
    let said = succeeds(command);
    let result = said.lines().next_back().unwrap_or_default();
    let passed = result.strip_suffix(" passed, 0 failed");
    let passed: Option<u32> = passed.and_then(|count| count.parse().ok());
    assert!(passed >= Some(least), "{command:?} prints {result}");
}

/// Runs a command, and returns what it prints. It must succeed.
pub fn succeeds(command: &mut Command) -> String {
    let output = command.output();
    let Output {
        status,
        stdout,
        stderr,
    } = output.unwrap_or_else(|error| panic!("{command:?}: {error}"));
    let said = String::from_utf8_lossy(&stdout).into_owned();
    let errors = String::from_utf8_lossy(&stderr);
    assert!(status.success(), "{command:?}: {status}\n{said}\n{errors}");
    said
}

/// Returns whether a program is on the path. If it isn't, a line says what is left out.
pub fn has(program: &str, what: &str) -> bool {
    let path = env::var_os("PATH").unwrap_or_default();
    let is_there = env::split_paths(&path).any(|folder| folder.join(program).is_file());
    if !is_there {
        println!("{what} is left out, because {program} isn't on the path");
    }
    is_there
}

/// Returns the command that runs a program under valgrind, which fails at an error and at memory that is never freed.
pub fn under_valgrind(program: impl AsRef<OsStr>) -> Command {
    let mut command = Command::new("valgrind");
    command.args(["-q", "--error-exitcode=9", "--leak-check=full"]);
    command.arg("--show-leak-kinds=all").arg(program);
    command
}
