// SPDX-License-Identifier: Apache-2.0
// SPDX-FileCopyrightText: Copyright the Vortex contributors

use std::fmt;
use std::path::{Path, PathBuf};

/// Why a source can't be erased: the file, the line, and what is there. For example,
/// `crates/a/src/lib.rt:12: a bracket that isn't closed`.
#[derive(Debug, Clone, PartialEq, Eq)]
pub struct Error {
    path: PathBuf,
    line: usize,
    message: String,
}

/// The result of a call that reads or erases a source.
pub type Result<T> = std::result::Result<T, Error>;

impl Error {
    /// Returns the error with this message about this line, counted from 1. Line 0 stands for the whole file.
    pub fn new(path: &Path, line: usize, message: impl Into<String>) -> Self {
        Error { path: path.to_path_buf(), line, message: message.into() }
    }

    /// Returns the error for a file or folder that can't be read or written.
    #[must_use]
    pub fn io(path: &Path, error: &std::io::Error) -> Self {
        Error::new(path, 0, error.to_string())
    }

    /// Returns the line of the error, counted from 1, or 0 if the error is about the whole file.
    #[must_use]
    pub fn line(&self) -> usize {
        self.line
    }
}

impl fmt::Display for Error {
    fn fmt(&self, f: &mut fmt::Formatter<'_>) -> fmt::Result {
        match self.line {
            0 => write!(f, "{}: {}", self.path.display(), self.message),
            line => write!(f, "{}:{line}: {}", self.path.display(), self.message),
        }
    }
}

impl std::error::Error for Error {}
