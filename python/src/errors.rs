// SPDX-License-Identifier: Apache-2.0
// SPDX-FileCopyrightText: Copyright the Vortex contributors

//! Errors, and the exceptions that they become.

use crate::c_nodes::{NodeFault, WriteFault};
use crate::imported::{self, Imported};
use pyo3::prelude::*;
use std::borrow::Cow;
use vortex_logical_types::{Error, ErrorKind, VortexError};

/// What a call returns that can fail.
pub type Made<T> = Result<T, Failure>;

/// Why a call failed.
pub enum Failure {
    /// The library's error.
    Library(Error),
    /// The library's error that no field has a name, with the name.
    NotFound(VortexError, String),
    /// The package refuses the arguments: the value of the `ErrorKind`, and why.
    Refused(&'static str, Cow<'static, str>),
    /// Python raised an exception.
    Raised(PyErr),
}

impl Failure {
    /// Returns the error that an argument is out of its range.
    pub fn out_of_range(text: impl Into<Cow<'static, str>>) -> Self {
        Failure::Refused("out_of_range", text.into())
    }

    /// Returns the error that the precondition of a call isn't met.
    pub fn precondition(text: impl Into<Cow<'static, str>>) -> Self {
        Failure::Refused("precondition", text.into())
    }

    /// Returns the error that what a call would make is nested too deeply.
    pub fn too_deep() -> Self {
        Failure::Refused("too_deep", "a type or a message would be nested more than 128 levels deep".into())
    }

    /// Returns the error that a stream of Arrow has no schema.
    pub fn arrow(text: impl Into<Cow<'static, str>>) -> Self {
        Failure::Refused("arrow", text.into())
    }

    fn exception(self, py: Python<'_>) -> PyResult<PyErr> {
        let (class, kind, text, position) = match self {
            Failure::Raised(error) => return Ok(error),
            Failure::Refused(kind, text) => (&imported::LIBRARY_ERROR, kind.into_py(py), text.into(), None),
            Failure::NotFound(error, name) => {
                (&imported::FIELD_NOT_FOUND, error.number().into_py(py), format!("{error}: {name}"), None)
            }
            Failure::Library(error) => {
                let kind = match (error.number(), error.kind()) {
                    (Some(number), _) => number.into_py(py),
                    (None, ErrorKind::TooDeep) => "too_deep".into_py(py),
                    (None, ErrorKind::Arrow) => "arrow".into_py(py),
                    _ => "unreadable".into_py(py),
                };
                (class_of(&error), kind, error.to_string(), error.position())
            }
        };
        let kind = imported::ERROR_KIND.get(py)?.call1((kind,))?;
        Ok(PyErr::from_value(match position {
            Some(position) => class.get(py)?.call1((kind, text, position))?,
            None => class.get(py)?.call1((kind, text))?,
        }))
    }
}

/// Returns the class of exceptions for an error of the library.
fn class_of(error: &Error) -> &'static Imported {
    match error.kind() {
        ErrorKind::OutOfMemory => &imported::OUT_OF_MEMORY,
        ErrorKind::FieldNotFound => &imported::FIELD_NOT_FOUND,
        ErrorKind::IndexOutOfBounds => &imported::INDEX_OUT_OF_BOUNDS,
        _ if error.position().is_some() => &imported::UNREADABLE,
        _ => &imported::LIBRARY_ERROR,
    }
}

impl From<Failure> for PyErr {
    fn from(failure: Failure) -> PyErr {
        Python::with_gil(|py| failure.exception(py).unwrap_or_else(|error| error))
    }
}

impl From<PyErr> for Failure {
    fn from(error: PyErr) -> Self {
        Failure::Raised(error)
    }
}

impl From<Error> for Failure {
    fn from(error: Error) -> Self {
        Failure::Library(error)
    }
}

impl From<VortexError> for Failure {
    fn from(error: VortexError) -> Self {
        Failure::Library(error.into())
    }
}

impl From<NodeFault> for Failure {
    fn from(fault: NodeFault) -> Self {
        match fault {
            NodeFault::OutOfMemory => VortexError::OutOfMemory.into(),
            NodeFault::NotUtf8 => Failure::Refused("not_utf8", "a name or an id of the message isn't UTF-8".into()),
            NodeFault::TooDeep => Failure::too_deep(),
            NodeFault::OutOfRange => Failure::out_of_range("the nodes and texts aren't those of one message"),
        }
    }
}

impl From<WriteFault> for Failure {
    fn from(fault: WriteFault) -> Self {
        match fault {
            WriteFault::OutOfMemory => VortexError::OutOfMemory.into(),
            WriteFault::TooDeep => Failure::too_deep(),
            WriteFault::OutOfRange => Failure::out_of_range("a message has more than 4,294,967,295 names, tags, types or bytes"),
        }
    }
}
