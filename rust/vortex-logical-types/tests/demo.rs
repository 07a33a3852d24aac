// SPDX-License-Identifier: Apache-2.0
// SPDX-FileCopyrightText: Copyright the Vortex contributors

//! The demo prints what the stored output of the proved demo has.

use std::error::Error;
use std::io::Write;
use std::path::{Path, PathBuf};
use std::process::{Command, Stdio};
use std::{fs, thread};

// A file of the demo's crate, or `None` in a published crate, which doesn't have it.
fn stored(name: &str) -> Option<PathBuf> {
    let path = Path::new(env!("CARGO_MANIFEST_DIR"))
        .join("../../crates/dtype_demo")
        .join(name);
    path.is_file().then_some(path)
}

#[test]
fn prints_the_stored_output() -> Result<(), Box<dyn Error>> {
    let (Some(input), Some(output)) = (stored("stdin"), stored("stdout")) else {
        return Ok(());
    };
    let mut demo = Command::new(env!("CARGO_BIN_EXE_dtype_demo"))
        .stdin(Stdio::piped())
        .stdout(Stdio::piped())
        .spawn()?;
    let mut to_demo = demo.stdin.take().ok_or("the demo has no input")?;
    let writer =
        thread::spawn(move || -> std::io::Result<()> { to_demo.write_all(&fs::read(input)?) });
    let printed = demo.wait_with_output()?;
    writer.join().map_err(|_| "the writer panicked")??;
    assert!(printed.status.success());
    assert_eq!(
        String::from_utf8(printed.stdout)?,
        fs::read_to_string(output)?
    );
    Ok(())
}
