// SPDX-License-Identifier: Apache-2.0
// SPDX-FileCopyrightText: Copyright the Vortex contributors

//! What a Rust program expects of the types of a crate, beside what the proved sources have: conversions, collections,
//! comparisons with references and texts, errors of one type. Each file has one subject.

mod differences;
mod dtype;
mod errors;
mod extensions;
pub mod fallible;
mod fields;
mod masks;
mod merging;
mod messages;
mod names;
mod native;
mod parts;
mod path_sets;
mod paths;
#[cfg(feature = "serde")]
mod serde;
mod sessions;
mod structs;
mod text;
mod threads;
pub mod time;

pub use errors::{Error, ErrorKind};
pub use fields::RepeatedName;
pub use merging::MergeConflict;
pub use parts::Parts;
pub use path_sets::Below;
pub use paths::Resolvable;
pub use sessions::{BrokenLaw, check_plugin};

use crate::memory::or_abort;
use std::fmt;

// Writes a value without the flags of the formatter, for example for the `{:#}` of a type, which is its `{}`.
pub(crate) fn plain(value: &impl fmt::Display, f: &mut fmt::Formatter<'_>) -> fmt::Result {
    write!(f, "{value}")
}
