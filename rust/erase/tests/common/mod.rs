// SPDX-License-Identifier: Apache-2.0
// SPDX-FileCopyrightText: Copyright the Vortex contributors

//! Erases short sources.

use erase::{Erased, Error, LIBRARIES, Layout, Result, erase_texts};
use std::path::Path;

/// Erases sources, each with its crate and its place.
pub fn erase_all(sources: &[(&str, &str, &str)]) -> Result<Erased> {
    let layout = Layout::one_crate(Path::new("crates"), &LIBRARIES);
    erase_texts(&layout, sources)
}

/// Returns the Rust of the root file of `dtype_base`.
#[allow(dead_code, reason = "each file of tests uses its part of this module")]
pub fn rust(source: &str) -> Result<String> {
    let erased = erase_all(&[("dtype_base", "lib.rt", source)])?;
    let file = erased.files.into_iter().next();
    Ok(file.map_or_else(String::new, |file| file.text))
}

/// Returns the error about the root file of `dtype_base`.
#[allow(dead_code, reason = "each file of tests uses its part of this module")]
pub fn refused(source: &str) -> Option<Error> {
    rust(source).err()
}
