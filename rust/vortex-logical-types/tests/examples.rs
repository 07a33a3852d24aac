// SPDX-License-Identifier: Apache-2.0
// SPDX-FileCopyrightText: Copyright the Vortex contributors

//! What the programs in `examples` print. (`scan_planner.rs` has the example of that name.)

use std::path::PathBuf;
use std::process::Command;
use std::{env, io};

// The folder into which Cargo builds the examples along with the tests.
fn built() -> io::Result<PathBuf> {
    let test = env::current_exe()?;
    let target = test.ancestors().nth(2);
    let target = target.ok_or_else(|| io::Error::other("a test isn't in a folder `deps`"))?;
    Ok(target.join("examples"))
}

#[test]
fn each_example_prints_what_it_should() -> io::Result<()> {
    for (name, wanted) in [
        ("merge_files", include_str!("../examples/merge_files.txt")),
        ("registry", include_str!("../examples/registry.txt")),
        (
            "schema",
            "customer.city = utf8?\n{customer={city=utf8?}, lines=list({sku=utf8})}\n",
        ),
        (
            "extension",
            "example.price[0x455552](decimal(10,2))\ntrue\nextension metadata or storage refused\n",
        ),
    ] {
        let program = built()?.join(name);
        assert!(
            program.exists(),
            "build {name} before: cargo build --examples"
        );
        let ran = Command::new(program).output()?;
        assert!(ran.status.success(), "{name}: {}", ran.status);
        assert_eq!(String::from_utf8_lossy(&ran.stdout), wanted, "{name}");
    }
    Ok(())
}
