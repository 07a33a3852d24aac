// SPDX-License-Identifier: Apache-2.0
// SPDX-FileCopyrightText: Copyright the Vortex contributors

//! The objects of the package that are written in Python.

use pyo3::once_cell::GILOnceCell;
use pyo3::prelude::*;
use pyo3::types::PyTuple;

/// An object of a module, which is imported when it is first asked for.
pub struct Imported {
    module: &'static str,
    name: &'static str,
    object: GILOnceCell<PyObject>,
}

impl Imported {
    const fn new(module: &'static str, name: &'static str) -> Self {
        Imported { module, name, object: GILOnceCell::new() }
    }

    /// Returns the object.
    pub fn get<'p>(&'p self, py: Python<'p>) -> PyResult<&'p PyAny> {
        if self.object.get(py).is_none() {
            // (If another thread was faster, its object is the same.)
            let _ = self.object.set(py, py.import(self.module)?.getattr(self.name)?.into());
        }
        Ok(self.object.get(py).expect("it was just set").as_ref(py))
    }

    /// Returns whether the object is a class that another object is of.
    pub fn is_class_of(&'static self, it: &PyAny) -> PyResult<bool> {
        it.is_instance(self.get(it.py())?.downcast()?)
    }

    /// Returns an item of the object, which is a tuple.
    pub fn item<'p>(&'p self, py: Python<'p>, index: usize) -> PyResult<&'p PyAny> {
        self.get(py)?.downcast::<PyTuple>()?.get_item(index)
    }
}

const ENUMS: &str = "vortex_logical_types._enums";
const ERRORS: &str = "vortex_logical_types._errors";
const PARTS: &str = "vortex_logical_types._parts";

pub static ELEMENT: Imported = Imported::new(ENUMS, "ELEMENT");
pub static ERROR_KIND: Imported = Imported::new(ENUMS, "ErrorKind");
pub static KINDS: Imported = Imported::new(ENUMS, "KINDS");
pub static PTYPE: Imported = Imported::new(ENUMS, "PType");
pub static PTYPES: Imported = Imported::new(ENUMS, "PTYPES");
pub static TIME_UNIT: Imported = Imported::new(ENUMS, "TimeUnit");
pub static TIME_UNITS: Imported = Imported::new(ENUMS, "TIME_UNITS");
pub static FIELD_NOT_FOUND: Imported = Imported::new(ERRORS, "FieldNotFound");
pub static INDEX_OUT_OF_BOUNDS: Imported = Imported::new(ERRORS, "IndexOutOfBounds");
pub static LIBRARY_ERROR: Imported = Imported::new(ERRORS, "LibraryError");
pub static MERGE_CONFLICT: Imported = Imported::new(ERRORS, "MergeConflict");
pub static OUT_OF_MEMORY: Imported = Imported::new(ERRORS, "OutOfMemory");
pub static UNREADABLE: Imported = Imported::new(ERRORS, "Unreadable");
pub static BELOW: Imported = Imported::new(PARTS, "Below");
pub static DIFFERENCE: Imported = Imported::new(PARTS, "Difference");
pub static FLAT_MESSAGE: Imported = Imported::new(PARTS, "FlatMessage");
pub static NODE: Imported = Imported::new(PARTS, "Node");
pub static NODES_OF: Imported = Imported::new(PARTS, "nodes_of");
pub static VIEW: Imported = Imported::new(PARTS, "View");
pub static SET: Imported = Imported::new("collections.abc", "Set");
