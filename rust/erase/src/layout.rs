// SPDX-License-Identifier: Apache-2.0
// SPDX-FileCopyrightText: Copyright the Vortex contributors

//! Where the sources lie, and where their modules are in Rust.

use std::path::{Path, PathBuf};

/// A crate of Rattle sources.
#[derive(Debug, Clone)]
pub struct Source {
    /// Its name, for example `dtype_base`.
    pub name: String,
    /// Where its sources lie.
    pub folder: PathBuf,
    /// Where its items are in Rust, for example `crate::dtype_base`.
    pub module: String,
    /// Whether its Rust files are written. Otherwise they are in another Rust crate, and only their names matter.
    pub is_written: bool,
}

/// Where the sources lie, and where their modules are in Rust.
#[derive(Debug, Clone)]
pub struct Layout {
    /// The crates.
    pub sources: Vec<Source>,
    /// The path of the module `rattle_std`.
    pub std: String,
    /// The path of the macros of `rattle_std`.
    pub macros: String,
}

impl Layout {
    /// Returns the layout of a Rust crate with these crates as its modules.
    #[must_use]
    pub fn one_crate(crates: &Path, names: &[&str]) -> Self {
        let sources = names.iter().map(|name| source(crates, name, "crate", true));
        Layout { sources: sources.collect(), std: "crate::rattle_std".to_owned(), macros: "crate".to_owned() }
    }

    /// Returns the layout of a Rust crate with these crates as its modules, over another Rust crate, which is called
    /// `below` and has the modules of `libraries`.
    #[must_use]
    pub fn above(crates: &Path, names: &[&str], below: &str, libraries: &[&str]) -> Self {
        let written = names.iter().map(|name| source(crates, name, "crate", true));
        let others = libraries.iter().map(|name| source(crates, name, below, false));
        Layout {
            sources: written.chain(others).collect(),
            std: format!("{below}::rattle_std"),
            macros: below.to_owned(),
        }
    }

    /// Returns whether the Rust files of this crate are written.
    #[must_use]
    pub fn is_written(&self, krate: &str) -> bool {
        let source = self.sources.iter().find(|source| source.name == krate);
        source.is_some_and(|source| source.is_written)
    }

    /// Returns the path in Rust of a crate that a source of the crate `own` names, or `None` if it isn't one of these.
    #[must_use]
    pub fn module(&self, own: &str, name: &str) -> Option<&str> {
        let name = if name == "crate" { own } else { name };
        let source = self.sources.iter().find(|source| source.name == name);
        source.map(|source| source.module.as_str())
    }
}

fn source(crates: &Path, name: &str, root: &str, is_written: bool) -> Source {
    Source {
        name: name.to_owned(),
        folder: crates.join(name).join("src"),
        module: format!("{root}::{name}"),
        is_written,
    }
}
