// SPDX-License-Identifier: Apache-2.0
// SPDX-FileCopyrightText: Copyright the Vortex contributors

//! The library for C: the exported functions, erased, and the functions of the header, which call the layer of C over them.

#[cfg(not(unix))]
compile_error!("a slice has to be passed as C passes a pointer and a length, which isn't so here");

mod c_objects;
// (A harness of tests asks for blocks that are aligned to more bytes than those of the library.)
#[cfg(not(test))]
#[allow(unsafe_code)]
mod heap;

#[allow(unsafe_code, clippy::missing_safety_doc, clippy::unused_unit)]
pub mod layer {
    include!(concat!(env!("OUT_DIR"), "/layer.rs"));
}

include!(concat!(env!("OUT_DIR"), "/modules.rs"));
include!(concat!(env!("OUT_DIR"), "/exports.rs"));
