// SPDX-License-Identifier: Apache-2.0
// SPDX-FileCopyrightText: Copyright the Vortex contributors

//! Arguments. Each function takes an argument and the name of its parameter, and returns what the library takes. For an
//! argument of another type it returns a `TypeError` that begins with this name, such as `names[1] must be a str, not
//! int`.

use crate::errors::Made;
use crate::field_path::FieldPath;
use crate::field_path_set::FieldPathSet;
use crate::imported::{Imported, ELEMENT};
use pyo3::exceptions::{PyIndexError, PyOverflowError, PyTypeError, PyValueError};
use pyo3::prelude::*;
use pyo3::types::{PyBool, PyByteArray, PyBytes, PyIterator, PyString};
use pyo3::{PyClass, PyTypeInfo};
use std::fmt::Display;
use std::ops::Deref;
use vortex_logical_types::{self as library, Field, VortexResult, Widening};

/// An argument that may be left out. (`Option` would take Python's `None` for one that is left out.)
#[derive(Clone, Copy)]
pub struct Optional<'p>(pub Option<&'p PyAny>);

pub const LEFT_OUT: Optional<'static> = Optional(None);

impl<'p> FromPyObject<'p> for Optional<'p> {
    fn extract(it: &'p PyAny) -> PyResult<Self> {
        Ok(Optional(Some(it)))
    }
}

/// A class whose objects can be read from a text, which is taken in place of an object.
pub trait FromText: PyClass {
    fn from_text(text: &str) -> Made<Self>;
    fn try_clone(&self) -> VortexResult<Self>;
}

/// An object of a class, or what was read from a text.
pub enum Given<'p, T: PyClass> {
    Object(PyRef<'p, T>),
    Read(T),
}

impl<T: PyClass> Deref for Given<'_, T> {
    type Target = T;

    fn deref(&self) -> &T {
        match self {
            Given::Object(it) => it,
            Given::Read(it) => it,
        }
    }
}

/// Returns the error for an argument that should have been what `wanted` says.
pub fn wrong(name: impl Display, wanted: &str, it: &PyAny) -> PyErr {
    match it.get_type().getattr("__name__") {
        Ok(class) => PyTypeError::new_err(format!("{name} must be {wanted}, not {class}")),
        Err(error) => error,
    }
}

/// Returns an object of a class.
pub fn object<'p, T: PyClass + 'static>(it: &'p PyAny, name: impl Display) -> PyResult<PyRef<'p, T>> {
    match it.downcast::<PyCell<T>>() {
        Ok(cell) => Ok(cell.try_borrow()?),
        Err(_) => Err(wrong(name, &format!("a {}", T::NAME), it)),
    }
}

/// Returns an object of a class, or what its text stands for.
pub fn given<'p, T: FromText + 'static>(it: &'p PyAny, name: impl Display) -> Made<Given<'p, T>> {
    if let Ok(cell) = it.downcast::<PyCell<T>>() {
        return Ok(Given::Object(cell.try_borrow().map_err(PyErr::from)?));
    }
    match it.downcast::<PyString>() {
        Ok(text) => Ok(Given::Read(T::from_text(text.to_str()?)?)),
        Err(_) => Err(wrong(name, &format!("a {} or a str", T::NAME), it).into()),
    }
}

/// Returns a copy of an object of a class, or what its text stands for.
pub fn owned<T: FromText + 'static>(it: &PyAny, name: impl Display) -> Made<T> {
    match given::<T>(it, name)? {
        Given::Object(it) => Ok(it.try_clone()?),
        Given::Read(it) => Ok(it),
    }
}

/// Returns the value of a member of an enumeration.
pub fn member(it: &PyAny, class: &'static Imported, name: impl Display) -> PyResult<usize> {
    match class.is_class_of(it)? {
        true => it.getattr("value")?.extract(),
        false => Err(wrong(name, &format!("a {}", class.get(it.py())?.getattr("__name__")?), it)),
    }
}

/// Returns a text. A lone surrogate in it is a `UnicodeEncodeError`.
pub fn text(it: &PyAny, name: impl Display) -> PyResult<&str> {
    match it.downcast::<PyString>() {
        Ok(text) => text.to_str(),
        Err(_) => Err(wrong(name, "a str", it)),
    }
}

/// Returns the bytes of an object that has a buffer, for example a `bytearray`.
pub fn bytes(it: &PyAny, name: impl Display) -> PyResult<&[u8]> {
    if let Ok(bytes) = it.downcast::<PyBytes>() {
        return Ok(bytes.as_bytes());
    }
    match it.py().import("builtins")?.getattr("memoryview")?.call1((it,)) {
        Ok(view) => view.call_method0("tobytes")?.extract(),
        Err(error) if error.is_instance_of::<PyTypeError>(it.py()) => Err(wrong(name, "bytes", it)),
        Err(error) => Err(error),
    }
}

/// Returns a truth value, which is false if it is left out. Other objects aren't taken for one, because `nullable="no"`
/// would be true.
pub fn flag(Optional(it): Optional<'_>, name: impl Display) -> PyResult<bool> {
    match it.map(|it| it.downcast::<PyBool>().map_err(|_| wrong(name, "a bool", it))) {
        Some(flag) => Ok(flag?.is_true()),
        None => Ok(false),
    }
}

/// Returns which numbers may be read as wider ones: none if the argument is left out.
pub fn widening(Optional(it): Optional<'_>) -> PyResult<Widening> {
    match it.map(|it| text(it, "widening")).transpose()? {
        None | Some("none") => Ok(Widening::None),
        Some("integers") => Ok(Widening::Integers),
        Some(other) => Err(PyValueError::new_err(format!("widening must be 'none' or 'integers', not {other:?}"))),
    }
}

/// Returns a whole number. A number that is too large is cut to the greatest or the least.
pub fn number(it: &PyAny, name: impl Display) -> PyResult<i64> {
    match it.extract::<i64>() {
        Err(error) if error.is_instance_of::<PyOverflowError>(it.py()) => {
            Ok(if it.lt(0)? { i64::MIN } else { i64::MAX })
        }
        Err(error) if error.is_instance_of::<PyTypeError>(it.py()) => Err(wrong(name, "an int", it)),
        number => number,
    }
}

/// Returns an index, or an `IndexError` if it is negative.
pub fn position(it: &PyAny, name: impl Display) -> PyResult<usize> {
    usize::try_from(number(it, &name)?)
        .map_err(|_| PyIndexError::new_err(format!("{name} must be at least 0, not {it}")))
}

/// Returns an iterator over the items of an iterable. A text, bytes or a path are no iterable of items here.
pub fn items<'p>(it: &'p PyAny, name: impl Display, wanted: &str) -> PyResult<&'p PyIterator> {
    let is_text = PyString::is_type_of(it) || PyBytes::is_type_of(it) || PyByteArray::is_type_of(it);
    match it.iter() {
        Ok(items) if !is_text && !FieldPath::is_type_of(it) => Ok(items),
        Err(error) if !error.is_instance_of::<PyTypeError>(it.py()) => Err(error),
        _ => Err(wrong(name, &format!("an iterable of {wanted}"), it)),
    }
}

/// Returns the texts of an iterable.
pub fn texts<'p>(it: &'p PyAny, name: &str) -> PyResult<Vec<&'p str>> {
    items(it, name, "str")?.enumerate().map(|(at, item)| text(item?, format_args!("{name}[{at}]"))).collect()
}

/// Returns a step of a path: a name, or `ELEMENT`.
pub fn step(it: &PyAny, name: impl Display) -> Made<Field> {
    match it.downcast::<PyString>() {
        Ok(text) => Ok(Field::try_from_text(text.to_str()?)?),
        Err(_) if it.is(ELEMENT.get(it.py())?) => Ok(Field::ElementType),
        Err(_) => Err(wrong(name, "a str or ELEMENT", it).into()),
    }
}

/// Returns the paths of an iterable. Each may be given as a text.
pub fn paths(it: &PyAny, name: &str) -> Made<Vec<library::FieldPath>> {
    if let Ok(set) = it.downcast::<PyCell<FieldPathSet>>() {
        return Ok(set.borrow().members()?);
    }
    let path = |at: usize, item| Ok(owned::<FieldPath>(item, format_args!("{name}[{at}]"))?.path);
    items(it, name, "FieldPath and str")?.enumerate().map(|(at, item)| path(at, item?)).collect()
}
