// SPDX-License-Identifier: Apache-2.0
// SPDX-FileCopyrightText: Copyright the Vortex contributors

//! Erases the library of the flat form of messages into `OUT_DIR`, over the Rust crate.

use erase::{erase, write_modules, Layout, LIBRARIES};
use std::env;
use std::error::Error;
use std::path::PathBuf;

const FLAT: [&str; 1] = ["c_nodes"];

fn main() -> Result<(), Box<dyn Error>> {
    let crates = PathBuf::from(env::var("CARGO_MANIFEST_DIR")?).join("../crates");
    let out = PathBuf::from(env::var("OUT_DIR")?);
    let layout = Layout::above(&crates, &FLAT, "vortex_logical_types", &LIBRARIES);
    for source in &layout.sources {
        println!("cargo:rerun-if-changed={}", source.folder.display());
    }
    erase(&layout)?.write(&out.join("erased"))?;
    Ok(write_modules(&out.join("erased"), &FLAT, &out.join("flat.rs"))?)
}
