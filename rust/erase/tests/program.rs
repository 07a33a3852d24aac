// SPDX-License-Identifier: Apache-2.0
// SPDX-FileCopyrightText: Copyright the Vortex contributors

//! The program, over a crate of one file.

use std::error::Error;
use std::fs;
use std::path::PathBuf;
use std::process::{Command, Output};

const SOURCE: &str = "\
pub fn f(
    alloc: Global,
    x: u8,
) -> u8
    ensures { result ≡ x }
{
    x
}
";

// A folder of crates with this source, under a name of the test's own.
fn crates(name: &str, source: &str) -> Result<PathBuf, Box<dyn Error>> {
    let folder = PathBuf::from(env!("CARGO_TARGET_TMPDIR")).join(name);
    fs::create_dir_all(folder.join("one/src"))?;
    fs::write(folder.join("one/src/lib.rt"), source)?;
    Ok(folder)
}

fn erase(arguments: &[&str]) -> Result<Output, Box<dyn Error>> {
    Ok(Command::new(env!("CARGO_BIN_EXE_erase")).args(arguments).output()?)
}

#[test]
fn prints_what_is_removed() -> Result<(), Box<dyn Error>> {
    let folder = crates("removed", SOURCE)?;
    let folder = folder.to_string_lossy();
    let printed = erase(&["--crates", &folder, "--removed", "one"])?;
    let file = format!("{folder}/one/src/lib.rt");
    let wanted =
        format!("{file}:2: allocator\n- alloc: Global,\n\n{file}:5: contracts\n- ensures {{ result ≡ x }}\n\n");
    assert_eq!(String::from_utf8(printed.stdout)?, wanted);
    assert!(printed.status.success());
    Ok(())
}

#[test]
fn writes_formatted_files() -> Result<(), Box<dyn Error>> {
    let folder = crates("into", SOURCE)?;
    let into = folder.join("rust");
    let (folder, to) = (folder.to_string_lossy(), into.to_string_lossy());
    let printed = erase(&["--crates", &folder, "--into", &to, "one"])?;
    assert!(printed.status.success(), "{}", String::from_utf8(printed.stderr)?);
    let written = fs::read_to_string(into.join("one/lib.rs"))?;
    assert_eq!(written, "pub fn f(x: u8) -> u8 {\n    x\n}\n");
    let modules = fs::read_to_string(into.join("modules.rs"))?;
    assert!(modules.ends_with("\n#[path = \"one/lib.rs\"]\npub mod one;\n"));
    Ok(())
}

#[test]
fn says_where_a_form_is_not_known() -> Result<(), Box<dyn Error>> {
    let folder = crates("refused", "fn f() {}\n\nextern crate a;\n")?;
    let folder = folder.to_string_lossy();
    let printed = erase(&["--crates", &folder, "--removed", "one"])?;
    let wanted = format!("erase: {folder}/one/src/lib.rt:3: expected an item, found `extern`\n");
    assert_eq!(String::from_utf8(printed.stderr)?, wanted);
    assert_eq!(printed.status.code(), Some(1));
    Ok(())
}

#[test]
fn says_how_it_is_called() -> Result<(), Box<dyn Error>> {
    for arguments in [&[][..], &["--other"], &["--removed", "--into", "a"], &["--into"]] {
        let printed = erase(arguments)?;
        assert_eq!(printed.status.code(), Some(2), "{arguments:?}");
        assert!(String::from_utf8(printed.stderr)?.contains("--removed"));
    }
    Ok(())
}

#[test]
fn prints_the_differences() -> Result<(), Box<dyn Error>> {
    let printed = erase(&["--differences"])?;
    assert!(printed.status.success());
    assert!(String::from_utf8(printed.stdout)?.contains("`usize` has 64 bits\n    "));
    Ok(())
}
