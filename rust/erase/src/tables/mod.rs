// SPDX-License-Identifier: Apache-2.0
// SPDX-FileCopyrightText: Copyright the Vortex contributors

//! What is decided by hand, call by call or form by form.

pub mod conditions;
pub mod silent;
pub mod std;
