// SPDX-License-Identifier: Apache-2.0
// SPDX-FileCopyrightText: Copyright the Vortex contributors

//! The libraries for C that Cargo built, as they are installed.

mod calls;
mod common;
mod libraries;
