// SPDX-License-Identifier: Apache-2.0
// SPDX-FileCopyrightText: Copyright the Vortex contributors

//! Whether a standard stream was open when the program began.
//!
//! Rust's runtime opens `/dev/null` in place of a closed stream before `main` begins, so that the answers to
//! `console >&-` would be lost without an error. On Linux, a function that runs before the runtime keeps which streams are
//! closed. On other systems each stream counts as open.

use std::io;
use std::sync::atomic::{AtomicBool, Ordering};

/// Whether standard input and standard output were closed.
static WAS_CLOSED: [AtomicBool; 2] = [AtomicBool::new(false), AtomicBool::new(false)];

/// Returns an error if standard input (0) or standard output (1) was closed when the program began.
pub fn check_open(stream: usize) -> io::Result<()> {
    if WAS_CLOSED[stream].load(Ordering::Relaxed) {
        #[cfg(target_os = "linux")]
        return Err(io::Error::from_raw_os_error(libc::EBADF));
    }
    Ok(())
}

#[cfg(target_os = "linux")]
#[allow(unsafe_code)]
mod before_main {
    use super::{Ordering, WAS_CLOSED};

    // SAFETY: the linker collects pointers to functions in this section, and the C runtime calls each once before `main`.
    // The function needs nothing of Rust's runtime.
    #[used]
    #[unsafe(link_section = ".init_array")]
    static KEEP_CLOSED: extern "C" fn() = keep_closed;

    extern "C" fn keep_closed() {
        for (stream, was_closed) in (0..).zip(&WAS_CLOSED) {
            // SAFETY: the call reads the flags of a descriptor, and fails if there is none.
            let flags = unsafe { libc::fcntl(stream, libc::F_GETFD) };
            was_closed.store(flags == -1, Ordering::Relaxed);
        }
    }
}
