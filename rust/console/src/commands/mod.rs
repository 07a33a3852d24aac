// SPDX-License-Identifier: Apache-2.0
// SPDX-FileCopyrightText: Copyright the Vortex contributors

//! The commands, each with the code that answers it.

pub mod extensions;
pub mod nested;
pub mod numbers;
pub mod paths;
pub mod sessions;
pub mod sets;
pub mod types;

/// What the tables of commands are made with.
mod prelude {
    pub(super) use crate::answer::{Hex, Joined, Shown, sorted, text_of, words};
    pub(super) use crate::console::{Call, Console};
    pub(super) use crate::error::{Error, Result, unless};
    pub(super) use crate::table::{Row, rows};
    pub(super) use vortex_logical_types::rattle_std::iter_ext::IterExt;
    pub(super) use vortex_logical_types::*;
}
