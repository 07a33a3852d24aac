// SPDX-License-Identifier: Apache-2.0
// SPDX-FileCopyrightText: Copyright the Vortex contributors

//! Takes the contracts away from Rattle sources. Rattle is Rust with contracts that a checker proves, so what is left is
//! Rust, over a standard library in which an allocation can fail.
//!
//! [`erase`] reads the sources of some crates and returns the Rust files. It works on tokens. Each rule, in `rules`, asks
//! for changes of a source, and a change says which rule asked for it, so that [`Erased::removed`] lists everything that
//! was taken away. A form of the language that no rule knows is an error with its file and its line.

mod check;
mod edits;
mod error;
mod file;
mod index;
mod items;
mod layout;
mod lexer;
mod modules;
mod rules;
mod tables;

pub use edits::Removal;
pub use error::{Error, Result};
pub use layout::{Layout, Source};
pub use modules::{LIBRARIES, write_modules};
pub use tables::conditions::conditions;
pub use tables::silent::differences;

use edits::{Edits, apply};
use file::File;
use index::{Index, is_law_file};
use rules::{Context, by_hand, forms, imports};
use std::path::{Path, PathBuf};

/// A Rust file: where it lies, and its text.
#[derive(Debug, Clone)]
pub struct RustFile {
    /// Where it lies below the folder of the modules, for example `dtype_types/dtype/text.rs`.
    pub path: PathBuf,
    /// The text.
    pub text: String,
}

/// The Rust files of some crates, and what was taken away.
#[derive(Debug, Clone, Default)]
pub struct Erased {
    /// The files.
    pub files: Vec<RustFile>,
    /// What was taken away or replaced, in the order of the files.
    pub removed: Vec<Removal>,
}

/// Erases the crates of the layout that are to be written.
///
/// # Errors
///
/// A source can't be read, or has a form that no rule knows.
pub fn erase(layout: &Layout) -> Result<Erased> {
    let mut files = Vec::new();
    for source in &layout.sources {
        for path in sources_in(&source.folder)? {
            if is_of_tests(&source.folder, &path) {
                continue;
            }
            files.push(File::read(&source.name, &source.folder, &path)?);
        }
    }
    erase_files(layout, &files)
}

/// Erases sources that are given as texts, each with its crate and its place in the `src` of the crate.
///
/// # Errors
///
/// A source has a form that no rule knows.
pub fn erase_texts(layout: &Layout, sources: &[(&str, &str, &str)]) -> Result<Erased> {
    let mut files = Vec::new();
    for (krate, inner, text) in sources {
        let path = PathBuf::from(inner);
        files.push(File::new(krate, path.clone(), path, (*text).to_owned())?);
    }
    erase_files(layout, &files)
}

// The module `tests` at the top of a crate, which `rules::contracts` takes out of the root.
fn is_of_tests(folder: &Path, path: &Path) -> bool {
    let inner = path.strip_prefix(folder).unwrap_or(path);
    inner.with_extension("").components().next() == Path::new("tests").components().next()
}

fn erase_files(layout: &Layout, files: &[File]) -> Result<Erased> {
    let index = Index::new(files)?;
    by_hand::check(&index)?;
    let mut erased = Erased::default();
    for file in files {
        if !layout.is_written(&file.krate) {
            continue;
        }
        if is_law_file(file) {
            erased.removed.push(laws_removed(file));
            continue;
        }
        let context = Context { file, index: &index, layout };
        one(context, &mut erased)?;
    }
    Ok(erased)
}

// Erases one source.
fn one(context: Context<'_>, erased: &mut Erased) -> Result<()> {
    let file = context.file;
    let mut edits = Edits::default();
    rules::all(context, &mut edits)?;
    let others = edits.ordered(file)?;
    let mut more = Edits::from(others.clone());
    forms::second(context, &others, &mut more)?;
    let others = more.ordered(file)?;
    let mut more = Edits::from(others.clone());
    imports::apply(context, &others, &mut more)?;
    let all = more.ordered(file)?;
    let text = check::tidy(&apply(&file.text, &all));
    check::left(context, &text)?;
    erased.removed.extend(edits::removals(file, &all));
    let path = Path::new(&file.krate).join(file.inner.with_extension("rs"));
    erased.files.push(RustFile { path, text });
    Ok(())
}

// A file of laws goes as a whole.
fn laws_removed(file: &File) -> Removal {
    Removal {
        place: format!("{}:1", file.path.display()),
        rule: "laws",
        old: file.text.trim().to_owned(),
        new: String::new(),
    }
}

/// Returns the sources in a folder and in the folders inside it, in the order of their paths.
///
/// # Errors
///
/// A folder can't be read.
pub fn sources_in(folder: &Path) -> Result<Vec<PathBuf>> {
    let mut found = Vec::new();
    let entries = std::fs::read_dir(folder).map_err(|error| Error::io(folder, &error))?;
    for entry in entries {
        let path = entry.map_err(|error| Error::io(folder, &error))?.path();
        if path.is_dir() {
            found.extend(sources_in(&path)?);
        } else if path.extension().is_some_and(|extension| extension == "rt") {
            found.push(path);
        }
    }
    found.sort();
    Ok(found)
}
