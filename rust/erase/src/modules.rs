// SPDX-License-Identifier: Apache-2.0
// SPDX-FileCopyrightText: Copyright the Vortex contributors

//! What is written: the Rust files, and a file that declares their modules.

use crate::Erased;
use crate::error::{Error, Result};
use std::fmt::Write as _;
use std::fs;
use std::path::Path;

/// The crates of the library, in the order of their dependencies.
pub const LIBRARIES: [&str; 12] = [
    "dtype_base",
    "dtype_types",
    "dtype_messages",
    "dtype_native",
    "dtype_paths",
    "dtype_projection",
    "dtype_edits",
    "dtype_text",
    "dtype_merging",
    "vortex_dtype",
    "text_hints",
    "c_arrow",
];

// The modules are public for the workspace's other members, and users take the names from the root. A trait that only
// contracts name is imported like one whose methods are called, and a parameter that only contracts name is passed, so
// both can be left without a use. So can one of the two forms of a call that only another module uses. The sources are
// written for Rattle's checker, whose style isn't Clippy's.
const ALLOWED: &str = "\
#[doc(hidden)]
#[forbid(unsafe_code)]
#[allow(dead_code, unused_imports, unused_variables)]
#[allow(clippy::complexity, clippy::pedantic, clippy::perf, clippy::style)]
#[allow(clippy::manual_unwrap_or_default)]";

impl Erased {
    /// Writes the Rust files below this folder.
    ///
    /// # Errors
    ///
    /// A file can't be written.
    pub fn write(&self, folder: &Path) -> Result<()> {
        for file in &self.files {
            let path = folder.join(&file.path);
            let parent = path.parent().unwrap_or(folder);
            fs::create_dir_all(parent).map_err(|error| Error::io(parent, &error))?;
            fs::write(&path, &file.text).map_err(|error| Error::io(&path, &error))?;
        }
        Ok(())
    }
}

/// Writes a file that declares the modules of these crates, whose Rust files lie below `folder`. It names them by their
/// paths from its own folder if they lie below it, so that all can be moved together.
///
/// # Errors
///
/// The file can't be written.
pub fn write_modules(folder: &Path, names: &[&str], file: &Path) -> Result<()> {
    let mut text = String::new();
    let own = file.parent().unwrap_or(folder);
    let from_own = folder.strip_prefix(own).unwrap_or(folder);
    for name in names {
        let is_library = folder.join(name).join("lib.rs").is_file();
        let root = if is_library { "lib.rs" } else { "main.rs" };
        let root = from_own.join(name).join(root).display().to_string();
        let written = write!(text, "{ALLOWED}\n#[path = {root:?}]\npub mod {name};\n");
        debug_assert!(written.is_ok());
    }
    fs::write(file, text).map_err(|error| Error::io(file, &error))
}
