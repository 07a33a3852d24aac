// SPDX-License-Identifier: Apache-2.0
// SPDX-FileCopyrightText: Copyright the Vortex contributors

use crate::arguments::{given, items, number, owned, step, text, wrong, FromText, Optional, LEFT_OUT};
use crate::dtype::DType;
use crate::errors::{Failure, Made};
use crate::imported::ELEMENT;
use pyo3::basic::CompareOp;
use pyo3::exceptions::PyIndexError;
use pyo3::prelude::*;
use pyo3::types::{PyIterator, PyList, PySlice, PyString, PyTuple};
use pyo3::PyTypeInfo;
use std::hash::{DefaultHasher, Hash, Hasher};
use vortex_logical_types::{self as library, pb, Error, Field, VortexResult};

/// A path into a type. `FieldPath("a.[].b")` reads a text in the form of the console, in which the root is `.`, and
/// `FieldPath(path)` copies a path. A text that isn't spelled like a path raises `Unreadable` (`UNREADABLE`), whose
/// `position` is the byte, counted from 1, at which something else was expected.
///
/// A path is a sequence of steps, each of them a name or `ELEMENT`. `/` appends one step, and a slice is a path:
///
/// >>> path = FieldPath("orders") / ELEMENT / "a.b"
/// >>> path, path[-1], path.parent(), path[1:]
/// (FieldPath('orders.[]."a.b"'), 'a.b', FieldPath('orders.[]'), FieldPath('[]."a.b"'))
///
/// Paths are compared step by step: `ELEMENT` is less than each name, and names are compared by their bytes in UTF-8. A
/// path is always true in an `if`, also the root.
#[pyclass(frozen, subclass, weakref, module = "vortex_logical_types")]
#[pyo3(text_signature = "(source='.')")]
pub struct FieldPath {
    pub path: library::FieldPath,
}

impl From<library::FieldPath> for FieldPath {
    fn from(path: library::FieldPath) -> Self {
        FieldPath { path }
    }
}

impl FromText for FieldPath {
    fn from_text(text: &str) -> Made<Self> {
        Ok(text.parse::<library::FieldPath>()?.into())
    }

    fn try_clone(&self) -> VortexResult<Self> {
        Ok(self.path.try_clone()?.into())
    }
}

/// Returns a step as Python has it.
pub fn shown_step<'p>(py: Python<'p>, step: &Field) -> PyResult<&'p PyAny> {
    match step.as_name() {
        Some(name) => Ok(PyString::new(py, name)),
        None => ELEMENT.get(py),
    }
}

impl FieldPath {
    fn of_steps<'s>(steps: impl IntoIterator<Item = &'s Field>) -> VortexResult<Self> {
        let steps: VortexResult<Vec<Field>> = steps.into_iter().map(Field::try_clone).collect();
        Ok(library::FieldPath::try_from_iter(steps?)?.into())
    }

    fn steps<'p>(&self, py: Python<'p>) -> PyResult<&'p PyTuple> {
        let steps: PyResult<Vec<&PyAny>> = self.path.parts().iter().map(|step| shown_step(py, step)).collect();
        Ok(PyTuple::new(py, steps?))
    }
}

#[pymethods]
impl FieldPath {
    #[new]
    #[args(source = "LEFT_OUT")]
    fn new(source: Optional<'_>) -> Made<Self> {
        match source.0 {
            None => Ok(library::FieldPath::root().into()),
            Some(source) => owned(source, "source"),
        }
    }

    /// Returns the root, which is the path without steps.
    #[staticmethod]
    #[pyo3(text_signature = "()")]
    fn root() -> Self {
        library::FieldPath::root().into()
    }

    /// Returns the path of one step, which is the step to the field with this name. The name may contain any
    /// characters. For example, the path of the name `a.b` has one step, and not two.
    #[staticmethod]
    #[pyo3(text_signature = "(name)")]
    fn from_name(name: &PyAny) -> Made<Self> {
        let step = Field::try_from_text(text(name, "name")?)?;
        Ok(library::FieldPath::try_from_field(step)?.into())
    }

    /// Returns the path of these steps. A step is a name or `ELEMENT`.
    ///
    /// >>> FieldPath.from_steps(["a", ELEMENT, "b c"])
    /// FieldPath('a.[]."b c"')
    #[staticmethod]
    #[pyo3(text_signature = "(steps)")]
    fn from_steps(steps: &PyAny) -> Made<Self> {
        if let Ok(path) = steps.extract::<PyRef<'_, FieldPath>>() {
            return Ok(path.path.try_clone()?.into());
        }
        let given = items(steps, "steps", "steps")?.enumerate();
        let steps: Made<Vec<Field>> = given.map(|(at, item)| step(item?, format_args!("steps[{at}]"))).collect();
        Ok(library::FieldPath::try_from_iter(steps?)?.into())
    }

    /// Returns the path that the message of a path describes. `parts` has the name in each part of the message, or
    /// None for a part without a kind. Raises `LibraryError` (`PATH_PART_MISSING`, 36) if a part has no kind.
    ///
    /// >>> FieldPath.from_proto(["a", "b"])
    /// FieldPath('a.b')
    #[staticmethod]
    #[pyo3(text_signature = "(parts)")]
    fn from_proto(parts: &PyAny) -> Made<Self> {
        let mut path = Vec::new();
        for (at, item) in items(parts, "parts", "str and None")?.enumerate() {
            let item = item?;
            let name = match item.is_none() {
                true => None,
                false if PyString::is_type_of(item) => Some(text(item, "parts")?.into()),
                false => return Err(wrong(format_args!("parts[{at}]"), "a str or None", item).into()),
            };
            path.push(pb::Field { field_type: name.map(pb::FieldType::Name) });
        }
        let message = pb::FieldPath { path: path.into() };
        Ok(library::FieldPath::from_proto(&message)?.into())
    }

    fn __len__(&self) -> usize {
        self.path.parts().len()
    }

    fn __bool__(&self) -> bool {
        true
    }

    /// Returns the step with this index, which is counted from the end if it is negative. Returns a path for a slice.
    /// Raises `IndexError` if the path has no such step.
    fn __getitem__(&self, py: Python<'_>, index: &PyAny) -> Made<PyObject> {
        let (steps, count) = (self.path.parts(), self.path.parts().len());
        if let Ok(slice) = index.downcast::<PySlice>() {
            let range = slice.indices(count.try_into().unwrap_or(std::os::raw::c_long::MAX))?;
            let indices = (0..range.slicelength).map(|at| range.start + at * range.step);
            return Ok(Self::of_steps(indices.map(|at| &steps[at as usize]))?.into_py(py));
        }
        let asked = number(index, "index")?;
        let at = if asked < 0 { asked.saturating_add(count as i64) } else { asked };
        match usize::try_from(at).ok().and_then(|at| steps.get(at)) {
            Some(step) => Ok(shown_step(py, step)?.into()),
            None if count == 0 => Err(PyIndexError::new_err("the root has no steps").into()),
            None => {
                let text = format!("index must be from -{count} to {}, not {index}", count - 1);
                Err(PyIndexError::new_err(text).into())
            }
        }
    }

    fn __iter__<'p>(&self, py: Python<'p>) -> PyResult<&'p PyIterator> {
        PyAny::iter(self.steps(py)?)
    }

    /// The steps of the path, from the root on, each of them a name or `ELEMENT`.
    #[getter]
    fn parts<'p>(&self, py: Python<'p>) -> PyResult<&'p PyList> {
        Ok(PyList::new(py, self.steps(py)?))
    }

    /// Whether the path is the root, which has no steps.
    #[getter]
    fn is_root(&self) -> bool {
        self.path.is_root()
    }

    /// Returns the path without its last step, or None if the path is the root, which has no steps.
    #[pyo3(text_signature = "($self)")]
    fn parent(&self) -> Made<Option<Self>> {
        Ok(self.path.try_parent()?.map(Self::from))
    }

    /// Returns the path with one more step at its end: a step to the field with this name, or `ELEMENT` for the step to
    /// the element of a list.
    ///
    /// >>> FieldPath("a").push("b.c")
    /// FieldPath('a."b.c"')
    #[pyo3(text_signature = "($self, step)")]
    fn push(&self, step: &PyAny) -> Made<Self> {
        let step = self::step(step, "step")?;
        Ok(self.path.try_clone()?.try_push(step)?.into())
    }

    fn __truediv__(&self, py: Python<'_>, step: &PyAny) -> Made<PyObject> {
        match PyString::is_type_of(step) || step.is(ELEMENT.get(py)?) {
            true => Ok(self.push(step)?.into_py(py)),
            false => Ok(py.NotImplemented()),
        }
    }

    /// Returns the path of the steps of this path followed by those of `other`. So `path.join("a.b")` appends two
    /// steps.
    ///
    /// >>> FieldPath("a").join("b.c")
    /// FieldPath('a.b.c')
    #[pyo3(text_signature = "($self, other)")]
    fn join(&self, other: &PyAny) -> Made<Self> {
        Ok(self.path.try_join(&given::<FieldPath>(other, "other")?.path)?.into())
    }

    /// Returns whether the path begins with the steps of `other`, that is, whether `other` is a prefix of it. Each path
    /// begins with the root and with itself.
    ///
    /// >>> FieldPath("a.b").starts_with("a"), FieldPath("a.b").starts_with("b")
    /// (True, False)
    #[pyo3(text_signature = "($self, other)")]
    fn starts_with(&self, other: &PyAny) -> Made<bool> {
        Ok(self.path.starts_with(&given::<FieldPath>(other, "other")?.path))
    }

    /// Returns the path without its first step, or None if the path is the root, which has no steps.
    ///
    /// >>> FieldPath("a.b").step_into()
    /// FieldPath('b')
    #[pyo3(text_signature = "($self)")]
    fn step_into(&self) -> Made<Option<Self>> {
        Ok(self.path.try_clone()?.step_into().map(Self::from))
    }

    /// Returns true if the first step of the path is the step to the field with this name. Returns false if it is the
    /// step to another field, or if the path is the root. Raises `LibraryError` (`PRECONDITION`) if the first step is
    /// the step to the element.
    #[pyo3(text_signature = "($self, name)")]
    fn starts_with_name(&self, name: &PyAny) -> Made<bool> {
        let name = text(name, "name")?;
        match self.path.parts().first() {
            Some(Field::ElementType) => Err(Failure::precondition("the path begins with the step to the element")),
            _ => Ok(self.path.starts_with_name(name)),
        }
    }

    /// Returns the type at the path in the type `dtype`. The root leads to the whole type, a name to the first field
    /// with this name in a struct, and the element to the element type of a list or of a fixed-size list. No step leads
    /// into a type of another kind. The nullability of the types on the way doesn't matter. Returns None if there is no
    /// type at the path.
    ///
    /// >>> FieldPath("a.[].b").resolve("{a=list({b=utf8?})}")
    /// DType('utf8?')
    #[pyo3(text_signature = "($self, dtype)")]
    fn resolve(&self, dtype: &PyAny) -> Made<Option<DType>> {
        DType::copied(self.path.resolve(&given::<DType>(dtype, "dtype")?.dtype))
    }

    /// Returns whether there is a type at the path in the type `dtype`. The docstring of `resolve` explains where a
    /// path leads.
    #[pyo3(text_signature = "($self, dtype)")]
    fn exists_in(&self, dtype: &PyAny) -> Made<bool> {
        Ok(self.path.exists_in(&given::<DType>(dtype, "dtype")?.dtype))
    }

    /// Returns whether one of the two paths is a prefix of the other, which is also true of equal paths.
    ///
    /// >>> FieldPath("a.b").overlap("a"), FieldPath("a.b").overlap("a.c")
    /// (True, False)
    #[pyo3(text_signature = "($self, other)")]
    fn overlap(&self, other: &PyAny) -> Made<bool> {
        Ok(self.path.overlap(&given::<FieldPath>(other, "other")?.path))
    }

    fn __richcmp__(&self, other: PyRef<'_, Self>, op: CompareOp) -> bool {
        op.matches(self.path.cmp(&other.path))
    }

    fn __hash__(&self) -> u64 {
        let mut state = DefaultHasher::new();
        self.path.hash(&mut state);
        state.finish()
    }

    /// Returns the text of the path in the form of the console. `FieldPath` reads it as the same path.
    #[pyo3(text_signature = "($self)")]
    pub fn to_source(&self) -> Made<String> {
        Ok(self.path.try_to_source()?)
    }

    fn __str__(&self) -> String {
        self.path.to_string()
    }

    fn __repr__<'p>(&self, py: Python<'p>) -> Made<String> {
        Ok(format!("FieldPath({})", PyString::new(py, &self.to_source()?).repr()?))
    }
}
