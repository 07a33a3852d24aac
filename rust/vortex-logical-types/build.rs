// SPDX-License-Identifier: Apache-2.0
// SPDX-FileCopyrightText: Copyright the Vortex contributors

//! Erases the Rattle sources of the libraries, of the demo and of the planner of scans into `OUT_DIR`, and writes the
//! files by which `src` and `examples` name their modules. A published crate has the erased sources in place of this
//! script (`tools/shared/rust_package.py`).

use erase::{LIBRARIES, Layout, erase, write_modules};
use std::env;
use std::error::Error;
use std::path::PathBuf;

const DEMO: [&str; 1] = ["dtype_demo"];
const PLANNER: [&str; 1] = ["scan_planner"];

fn main() -> Result<(), Box<dyn Error>> {
    let here = PathBuf::from(env::var("CARGO_MANIFEST_DIR")?);
    let out = PathBuf::from(env::var("OUT_DIR")?);
    let crates = here.join("../../crates");
    let folder = out.join("erased");
    let libraries = Layout::one_crate(&crates, &LIBRARIES);
    let demo = Layout::above(&crates, &DEMO, "vortex_logical_types", &LIBRARIES);
    let planner = Layout::above(&crates, &PLANNER, "vortex_logical_types", &LIBRARIES);
    for layout in [libraries, demo, planner] {
        for source in layout.sources.iter().filter(|source| source.is_written) {
            println!("cargo:rerun-if-changed={}", source.folder.display());
        }
        erase(&layout)?.write(&folder)?;
    }
    write_modules(&folder, &LIBRARIES, &out.join("libraries.rs"))?;
    write_modules(&folder, &DEMO, &out.join("demo.rs"))?;
    write_modules(&folder, &PLANNER, &out.join("planner.rs"))?;
    Ok(())
}
