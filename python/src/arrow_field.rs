// SPDX-License-Identifier: Apache-2.0
// SPDX-FileCopyrightText: Copyright the Vortex contributors

//! Types with the metadata of Arrow's fields.

use crate::arguments::{bytes, items, texts, wrong};
use crate::arrow::capsule_of;
use crate::errors::Made;
use pyo3::prelude::*;
use pyo3::types::{PyBytes, PyList, PyTuple};
use vortex_logical_types::arrow::{ArrowSchema, FieldMetadata};

/// What `DType.to_arrow` returns: a type that was written, which other libraries read as a schema or as a field.
#[pyclass(frozen, module = "vortex_logical_types")]
pub struct ArrowField {
    pub schema: ArrowSchema,
}

#[pymethods]
impl ArrowField {
    /// Returns the field in a capsule that pyarrow, polars and others read.
    #[pyo3(text_signature = "($self)")]
    fn __arrow_c_schema__<'p>(&self, py: Python<'p>) -> Made<&'p PyAny> {
        capsule_of(py, self.schema.try_clone()?)
    }
}

/// Returns the metadata of an argument: an iterable of tuples of a path, a key and a value.
pub fn metadata_of(it: &PyAny) -> Made<Vec<FieldMetadata>> {
    let wanted = "tuples of a path, a key and a value";
    let one = |(at, item): (usize, PyResult<&PyAny>)| {
        let (item, name) = (item?, format!("metadata[{at}]"));
        match item.downcast::<PyTuple>() {
            Ok(parts) if parts.len() == 3 => Ok(FieldMetadata {
                path: texts(parts.get_item(0)?, &format!("{name}[0]"))?.into_iter().map(str::to_owned).collect(),
                key: bytes(parts.get_item(1)?, format_args!("{name}[1]"))?.to_vec(),
                value: bytes(parts.get_item(2)?, format_args!("{name}[2]"))?.to_vec(),
            }),
            _ => Err(wrong(name, "a tuple of a path, a key and a value", item).into()),
        }
    };
    items(it, "metadata", wanted)?.enumerate().map(one).collect()
}

/// Returns the list of tuples for metadata.
pub fn list_of<'p>(py: Python<'p>, metadata: &[FieldMetadata]) -> &'p PyList {
    let one = |it: &FieldMetadata| {
        let path = PyTuple::new(py, &it.path);
        (path, PyBytes::new(py, &it.key), PyBytes::new(py, &it.value)).to_object(py)
    };
    PyList::new(py, metadata.iter().map(one).collect::<Vec<_>>())
}
