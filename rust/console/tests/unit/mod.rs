// SPDX-License-Identifier: Apache-2.0
// SPDX-FileCopyrightText: Copyright the Vortex contributors

//! Tests of the console without its streams.

#[path = "../memory/mod.rs"]
mod memory;
#[rustfmt::skip]
#[path = "../../../vortex-logical-types/tests/refusing/mod.rs"]
mod refusing;
#[path = "../rows/mod.rs"]
mod rows;
