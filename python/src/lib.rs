// SPDX-License-Identifier: Apache-2.0
// SPDX-FileCopyrightText: Copyright the Vortex contributors

//! The classes of the Python package `vortex_logical_types` that are written in Rust, one in each file. The package has
//! its enumerations, exceptions and named tuples in Python, and this library imports them.
#![deny(unsafe_code)]
// (The macros of PyO3 0.17 put an `impl` into a function.)
#![allow(non_local_definitions)]

mod arguments;
#[allow(unsafe_code)]
mod arrow;
mod arrow_field;
mod dtype;
mod errors;
mod field_mask;
mod field_path;
mod field_path_set;
mod imported;
mod message;

use pyo3::prelude::*;
use std::ffi::OsString;

include!(concat!(env!("OUT_DIR"), "/flat.rs"));

/// Runs the console with these arguments, of which the first is the name of the program, and returns its exit status.
#[pyfunction]
fn console(py: Python<'_>, arguments: Vec<OsString>) -> u8 {
    py.allow_threads(|| vortex_logical_types_console::run(arguments))
}

/// Adds the classes to the module.
#[pymodule]
fn _native(_py: Python<'_>, module: &PyModule) -> PyResult<()> {
    module.add_function(wrap_pyfunction!(console, module)?)?;
    module.add_class::<dtype::DType>()?;
    module.add_class::<field_mask::FieldMask>()?;
    module.add_class::<field_path::FieldPath>()?;
    module.add_class::<field_path_set::FieldPathSet>()?;
    module.add_class::<message::Message>()
}
