// SPDX-License-Identifier: Apache-2.0
// SPDX-FileCopyrightText: Copyright the Vortex contributors

//! What the programs of this folder share: models of what the original doesn't answer, this library's errors for the
//! original's, the plugins, and a reader of the texts of types and paths.

pub mod by_hand;
pub mod clock;
pub mod errors;
pub mod models;
pub mod plugins;
pub mod reader;
pub mod types;
