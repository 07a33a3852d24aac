// SPDX-License-Identifier: Apache-2.0
// SPDX-FileCopyrightText: Copyright the Vortex contributors

//! Prints what is taken away from the sources of the library, or writes its Rust files.

use erase::{Error, LIBRARIES, Layout, Result, erase, write_modules};
use std::path::{Path, PathBuf};
use std::process::{Command, ExitCode};

const HELP: &str = "\
erase [--crates FOLDER] --removed [CRATE..]      prints what is taken away, with file and line
erase [--crates FOLDER] --into FOLDER [CRATE..]  writes the Rust files, formatted, and modules.rs, which declares them
erase --differences                              prints which forms mean something else in Rust, and what is done

FOLDER of --crates has the crates of Rattle sources, and is `crates` otherwise. Without names of crates, those of the
library are erased. With `--over vortex_logical_types` the named crates are erased as modules of a crate above it.";

// What the arguments ask for.
struct Options {
    crates: PathBuf,
    over: Option<String>,
    output: Output,
    names: Vec<String>,
}

// What is printed or written.
enum Output {
    Removed,
    Into(PathBuf),
    Differences,
}

fn main() -> ExitCode {
    let Some(options) = options(std::env::args().skip(1)) else {
        eprintln!("{HELP}");
        return ExitCode::from(2);
    };
    match run(&options) {
        Ok(()) => ExitCode::SUCCESS,
        Err(error) => {
            eprintln!("erase: {error}");
            ExitCode::FAILURE
        }
    }
}

fn options(mut arguments: impl Iterator<Item = String>) -> Option<Options> {
    let mut crates = PathBuf::from("crates");
    let mut over = None;
    let mut outputs = Vec::new();
    let mut names = Vec::new();
    while let Some(argument) = arguments.next() {
        match argument.as_str() {
            "--crates" => crates = arguments.next()?.into(),
            "--over" => over = Some(arguments.next()?),
            "--into" => outputs.push(Output::Into(arguments.next()?.into())),
            "--removed" => outputs.push(Output::Removed),
            "--differences" => outputs.push(Output::Differences),
            name if name.starts_with('-') => return None,
            _ => names.push(argument),
        }
    }
    let output = outputs.pop()?;
    outputs.is_empty().then_some(Options { crates, over, output, names })
}

fn run(options: &Options) -> Result<()> {
    if let Output::Differences = options.output {
        print!("{}", erase::differences());
        return Ok(());
    }
    let names: Vec<&str> = match options.names.is_empty() {
        true => LIBRARIES.to_vec(),
        false => options.names.iter().map(String::as_str).collect(),
    };
    let layout = match &options.over {
        Some(below) => Layout::above(&options.crates, &names, below, &LIBRARIES),
        None => Layout::one_crate(&options.crates, &names),
    };
    let erased = erase(&layout)?;
    if let Output::Into(folder) = &options.output {
        erased.write(folder)?;
        write_modules(folder, &names, &folder.join("modules.rs"))?;
        let files = erased.files.iter().map(|file| folder.join(&file.path));
        return format(folder, &files.collect::<Vec<_>>());
    }
    for removal in &erased.removed {
        println!("{removal}\n");
    }
    Ok(())
}

// Formats the files. Parameters that went leave signatures that fit on one line.
fn format(folder: &Path, files: &[PathBuf]) -> Result<()> {
    let formatted = Command::new("rustfmt").args(["--edition", "2024"]).args(files).status();
    match formatted {
        Ok(status) if status.success() => Ok(()),
        Ok(status) => Err(Error::new(folder, 0, format!("rustfmt ended with {status}"))),
        Err(error) => Err(Error::new(folder, 0, format!("rustfmt doesn't run: {error}"))),
    }
}
