// SPDX-License-Identifier: Apache-2.0
// SPDX-FileCopyrightText: Copyright the Vortex contributors

//! What happens when a value has too many owners, which only this module can pretend. The rest is tested from outside, by
//! `rattle_std.rs`, `threads.rs` and `pointer_model.rs` of the tests.
#![forbid(unsafe_code)]

use super::{MAX_OWNERS, Rc};
use std::env;
use std::mem::forget;
use std::process::Command;
use std::sync::atomic::Ordering;

/// Is set in the process that is to end.
const CHILD: &str = "CLONES_TOO_OFTEN";

#[test]
fn too_many_owners_end_the_program() {
    let first = Rc::new(1).expect("there is memory");
    first.counted().owners.store(MAX_OWNERS, Ordering::Relaxed);
    // (there may be one more: the count is tested before it is counted up)
    forget(Clone::clone(&first));
    if env::var_os(CHILD).is_some() {
        forget(Clone::clone(&first));
        return;
    }
    forget(first);
    let test = "rattle_std::rc::tests::too_many_owners_end_the_program";
    let program = env::current_exe().expect("the program of this test");
    let status = Command::new(program)
        .args(["--exact", test, "--quiet"])
        .env(CHILD, "1")
        .status();
    let status = status.expect("the program runs");
    assert!(!status.success());
    #[cfg(unix)]
    assert_eq!(
        std::os::unix::process::ExitStatusExt::signal(&status),
        Some(6)
    );
}
