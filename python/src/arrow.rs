// SPDX-License-Identifier: Apache-2.0
// SPDX-FileCopyrightText: Copyright the Vortex contributors

//! Types from and to Arrow's C data interface, as Python passes its structs: in capsules, or by their addresses. The library
//! reads the structs, and makes them.
//!
//! All code of this crate that isn't safe is here. It trusts two things that Python's and Arrow's interfaces promise: a
//! capsule with the name of a struct has the pointer to one, and a struct is what Arrow describes, which nobody changes or
//! releases during the call.

use crate::arguments::wrong;
use crate::errors::{Failure, Made};
use pyo3::prelude::*;
use pyo3::types::{PyCapsule, PyTuple};
use std::ffi::{c_char, c_int, c_void, CStr};
use std::ptr;
use vortex_logical_types::arrow::{ArrowSchema, FieldMetadata};
use vortex_logical_types::{DType, Error};

const SCHEMA: &CStr = c"arrow_schema";
const STREAM: &CStr = c"arrow_array_stream";

/// The struct of a table, of which only the schema is asked for.
#[repr(C)]
struct ArrowArrayStream {
    get_schema: Option<unsafe extern "C" fn(*mut ArrowArrayStream, *mut ArrowSchema) -> c_int>,
    get_next: *mut c_void,
    get_last_error: Option<unsafe extern "C" fn(*mut ArrowArrayStream) -> *const c_char>,
    release: *mut c_void,
    private_data: *mut c_void,
}

/// Returns the type of what an object exports, or of a capsule.
pub fn dtype_of(source: &PyAny) -> Made<DType> {
    read(source, "source", DType::from_arrow)
}

/// Returns the same, and the metadata of the fields.
pub fn dtype_and_metadata_of(source: &PyAny) -> Made<(DType, Vec<FieldMetadata>)> {
    read(source, "source", DType::from_arrow_with_metadata)
}

/// Returns the schema of a type with metadata, in the forms of what an object exports, or of a capsule.
pub fn schema_like(original: &PyAny, dtype: &DType, metadata: &[FieldMetadata]) -> Made<ArrowSchema> {
    read(original, "like", |schema| dtype.to_arrow_like(schema, metadata))
}

/// Returns what a call reads of the schema that an argument with this name exports, or of a capsule.
fn read<T>(source: &PyAny, argument: &str, call: impl Fn(&ArrowSchema) -> Result<T, Error>) -> Made<T> {
    for (method, name) in
        [("__arrow_c_schema__", SCHEMA), ("__arrow_c_array__", SCHEMA), ("__arrow_c_stream__", STREAM)]
    {
        if source.hasattr(method)? {
            let capsule = schema_in(source.call_method0(method)?);
            let wanted = || format!("a capsule named {}", name.to_string_lossy());
            let pointer = pointer_in(capsule, name)?;
            let pointer = pointer.ok_or_else(|| wrong(format_args!("{argument}.{method}()"), &wanted(), capsule))?;
            return read_behind(source.py(), pointer, name, call);
        }
    }
    for name in [SCHEMA, STREAM] {
        if let Some(pointer) = pointer_in(schema_in(source), name)? {
            return read_behind(source.py(), pointer, name, call);
        }
    }
    let wanted = "an object with __arrow_c_schema__, __arrow_c_array__ or __arrow_c_stream__, or a capsule of one";
    Err(wrong(argument, wanted, source).into())
}

/// Returns the capsule with the schema of an array, which is exported as a pair of two capsules, or the object itself.
fn schema_in(it: &PyAny) -> &PyAny {
    match it.downcast::<PyTuple>() {
        Ok(pair) if pair.len() == 2 => pair.get_item(0).unwrap_or(it),
        _ => it,
    }
}

/// Returns the pointer in a capsule with this name, or `None` if the object is none.
fn pointer_in(it: &PyAny, name: &CStr) -> PyResult<Option<*mut c_void>> {
    match it.downcast::<PyCapsule>() {
        Ok(capsule) if capsule.name()? == Some(name) && capsule.is_valid() => Ok(Some(capsule.pointer())),
        _ => Ok(None),
    }
}

/// Returns what a call reads of the schema, or of that of the stream, in a capsule. The capsule keeps what is in it.
fn read_behind<T>(
    py: Python<'_>,
    pointer: *mut c_void,
    name: &CStr,
    call: impl Fn(&ArrowSchema) -> Result<T, Error>,
) -> Made<T> {
    match name == SCHEMA {
        // SAFETY: a capsule with this name has the pointer.
        true => Ok(call(unsafe { &*pointer.cast() })?),
        false => Ok(call(&schema_of(py, pointer.cast())?)?),
    }
}

/// Returns the type of the struct at an address.
pub fn dtype_at(address: i64) -> Made<DType> {
    let schema = address as *const ArrowSchema;
    if address <= 0 || !schema.is_aligned() {
        let text = format!("address must be a multiple of {} above 0, not {address}", align_of::<ArrowSchema>());
        return Err(Failure::out_of_range(text));
    }
    // SAFETY: the caller passes the address of a struct, as the method's documentation asks for.
    Ok(DType::from_arrow(unsafe { &*schema })?)
}

/// Asks a stream for its schema. (Other threads may run meanwhile, because the call may wait for one.)
fn schema_of(py: Python<'_>, stream: *mut ArrowArrayStream) -> Made<ArrowSchema> {
    // SAFETY: a capsule has the pointer, and the functions of a stream take the stream.
    unsafe {
        if (*stream).release.is_null() {
            return Err(Failure::arrow("the Arrow stream was released"));
        }
        let Some(get_schema) = (*stream).get_schema else {
            return Err(Failure::arrow("the Arrow stream has no get_schema"));
        };
        let mut schema = ArrowSchema::empty();
        let (at, out) = (stream as usize, &raw mut schema as usize);
        let code = py.allow_threads(move || get_schema(at as *mut ArrowArrayStream, out as *mut ArrowSchema));
        if code == 0 {
            return Ok(schema);
        }
        let mut text = format!("the Arrow stream has no schema (error {code})");
        let said = (*stream).get_last_error.map_or(ptr::null(), |get_last_error| get_last_error(stream));
        if !said.is_null() {
            text += &format!(": {}", CStr::from_ptr(said).to_string_lossy());
        }
        Err(Failure::arrow(text))
    }
}

/// Returns a capsule with a schema, which is released with the capsule unless it was moved out.
pub fn capsule_of(py: Python<'_>, schema: ArrowSchema) -> Made<&PyAny> {
    Ok(PyCapsule::new(py, schema, Some(SCHEMA.into()))?)
}
