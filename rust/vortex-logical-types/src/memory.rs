// SPDX-License-Identifier: Apache-2.0
// SPDX-FileCopyrightText: Copyright the Vortex contributors

//! What the forms of calls do that end the program if memory runs out.

use std::alloc::{Layout, handle_alloc_error};

/// Returns what a call made that can only lack memory. If memory ran out, ends the program as Rust's own collections do.
pub(crate) fn or_abort<T, E>(result: Result<T, E>) -> T {
    match result {
        Ok(made) => made,
        Err(_) => handle_alloc_error(Layout::new::<u8>()),
    }
}
