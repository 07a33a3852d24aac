// SPDX-License-Identifier: Apache-2.0
// SPDX-FileCopyrightText: Copyright the Vortex contributors

//! Installs the libraries for C, the header, and the files for pkg-config and `CMake` below a prefix.

use std::env;
use std::error::Error;
use std::ffi::OsStr;
use std::fs;
use std::path::{Path, PathBuf};
use std::process::{Command, ExitCode};

type Result<T> = std::result::Result<T, Box<dyn Error>>;

const HELP: &str = "\
install-capi --prefix FOLDER  installs the libraries for C, the header, and the files for pkg-config and CMake into
                              FOLDER/lib and FOLDER/include";

const ARCHIVE: &str = "libvortex_logical_types.a";

// The functions of the header, a line each, and those of the heap, which a program may define itself.
const FUNCTIONS: &str = include_str!(concat!(env!("OUT_DIR"), "/functions"));
const HEAP: &str = "rattle_alloc\nrattle_realloc\nrattle_dealloc\n";

fn main() -> ExitCode {
    let arguments: Vec<String> = env::args().skip(1).collect();
    let [option, prefix] = arguments.as_slice() else {
        eprintln!("{HELP}");
        return ExitCode::from(2);
    };
    if option != "--prefix" {
        eprintln!("{HELP}");
        return ExitCode::from(2);
    }
    match install(Path::new(prefix)) {
        Ok(()) => ExitCode::SUCCESS,
        Err(error) => {
            eprintln!("install-capi: {error}");
            ExitCode::FAILURE
        }
    }
}

fn install(prefix: &Path) -> Result<()> {
    let program = env::current_exe()?;
    let built = program.parent().ok_or("this program is in no folder")?;
    copy(&built.join("capi"), prefix)?;
    let archive = prefix.join("lib").join(ARCHIVE);
    if cfg!(target_os = "linux") {
        hide(&archive)?;
    }
    println!("installed {}", archive.display());
    Ok(())
}

// Copies a folder. A link to a file in it stays a link, and of a link to another file the file is copied.
fn copy(from: &Path, to: &Path) -> Result<()> {
    fs::create_dir_all(to)?;
    for entry in fs::read_dir(from)? {
        let (here, place) = (entry?.path(), PathBuf::from(to));
        let place = place.join(here.file_name().unwrap_or(OsStr::new("")));
        if here.is_dir() {
            copy(&here, &place)?;
            continue;
        }
        if place.is_symlink() || place.exists() {
            fs::remove_file(&place)?;
        }
        match fs::read_link(&here) {
            Ok(link) if link.parent() == Some(Path::new("")) => {
                std::os::unix::fs::symlink(link, &place)?;
            }
            _ => {
                fs::copy(&here, &place).map_err(|error| format!("{}: {error}", here.display()))?;
            }
        }
    }
    Ok(())
}

// Makes the static library of one object, in which only the functions of the header and of the heap are visible. What they
// don't need, and most of Rust's standard library is that, goes.
fn hide(archive: &Path) -> Result<()> {
    let file = |name: &str| archive.with_extension(name);
    let (names, roots, all, one) = (file("names"), file("roots"), file("all.o"), file("o"));
    fs::write(&names, format!("{FUNCTIONS}{HEAP}"))?;
    let asked = FUNCTIONS.lines().map(|name| format!("-u {name}\n"));
    fs::write(&roots, asked.collect::<String>())?;
    let mut link = Command::new("ld");
    link.args(["-r", "--gc-sections"]).arg(at(&roots));
    link.arg("-o").arg(&all).arg(archive);
    // (The unwinder would else be asked of libgcc_s.)
    link.args(Some(env!("VLT_UNWINDER")).filter(|path| !path.is_empty()));
    run(&mut link)?;
    // (Sections with bitcode are for the linker of Rust.)
    let mut localize = Command::new("objcopy");
    localize.args(["--strip-unneeded", "-R", ".llvmbc", "-R", ".llvmcmd"]);
    localize.arg(format!("--keep-global-symbols={}", names.display()));
    run(localize.arg(&all).arg(&one))?;
    fs::remove_file(archive)?;
    run(Command::new("ar").arg("rcsD").arg(archive).arg(&one))?;
    for file in [names, roots, all, one] {
        fs::remove_file(file)?;
    }
    Ok(())
}

// The option by which a linker reads more options from a file.
fn at(file: &Path) -> String {
    format!("@{}", file.display())
}

fn run(command: &mut Command) -> Result<()> {
    let name = command.get_program().to_string_lossy().into_owned();
    let status = command.status();
    let status = status.map_err(|error| format!("{name} doesn't run: {error}"))?;
    match status.success() {
        true => Ok(()),
        false => Err(format!("{name} ended with {status}").into()),
    }
}
