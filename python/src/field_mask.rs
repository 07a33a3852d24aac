// SPDX-License-Identifier: Apache-2.0
// SPDX-FileCopyrightText: Copyright the Vortex contributors

use crate::arguments::{owned, text, wrong};
use crate::errors::Made;
use crate::field_path::{shown_step, FieldPath};
use pyo3::basic::CompareOp;
use pyo3::exceptions::PyValueError;
use pyo3::prelude::*;
use pyo3::types::PyString;
use std::hash::{DefaultHasher, Hash, Hasher};
use vortex_logical_types as library;

/// A selection of paths: all paths, a path with every path below it, or one path alone.
///
/// >>> FieldMask.prefix("a.b").step_into(), FieldMask.all().matches_all, FieldMask.exact("a").matches_root
/// (FieldMask.prefix('b'), True, False)
///
/// `FieldMask(kind, path)` is the mask of this kind, which is `all`, `prefix` or `exact`. It raises `ValueError` if there
/// is no such kind, and `TypeError` if a path is passed for `all`, or none for another kind.
///
/// Two masks are equal if they have the same kind and the same path. So `FieldMask.all()` isn't equal to
/// `FieldMask.prefix(".")`, although both select every path.
#[pyclass(frozen, subclass, weakref, module = "vortex_logical_types")]
#[pyo3(text_signature = "(kind, path=None)")]
pub struct FieldMask {
    mask: library::FieldMask,
}

impl From<library::FieldMask> for FieldMask {
    fn from(mask: library::FieldMask) -> Self {
        FieldMask { mask }
    }
}

#[pymethods]
impl FieldMask {
    #[new]
    fn new(kind: &PyAny, path: Option<&PyAny>) -> Made<Self> {
        match (text(kind, "kind")?, path) {
            ("all", None) => Ok(Self::all()),
            ("all", Some(path)) => Err(wrong("path", "None for the mask of all paths", path).into()),
            ("prefix", Some(path)) => Self::prefix(path),
            ("exact", Some(path)) => Self::exact(path),
            ("prefix" | "exact", None) => {
                Err(wrong("path", "a FieldPath or a str", kind.py().None().as_ref(kind.py())).into())
            }
            _ => {
                let text = format!("kind must be all, prefix or exact, not {}", kind.repr()?);
                Err(PyValueError::new_err(text).into())
            }
        }
    }

    /// Returns the mask that selects every path.
    #[staticmethod]
    #[pyo3(text_signature = "()")]
    fn all() -> Self {
        library::FieldMask::All.into()
    }

    /// Returns the mask that selects the path and every path that begins with it.
    #[staticmethod]
    #[pyo3(text_signature = "(path)")]
    fn prefix(path: &PyAny) -> Made<Self> {
        Ok(library::FieldMask::Prefix(owned::<FieldPath>(path, "path")?.path).into())
    }

    /// Returns the mask that selects only the path.
    #[staticmethod]
    #[pyo3(text_signature = "(path)")]
    fn exact(path: &PyAny) -> Made<Self> {
        Ok(library::FieldMask::Exact(owned::<FieldPath>(path, "path")?.path).into())
    }

    /// The kind of the mask: `all`, `prefix` or `exact`.
    #[getter]
    fn kind(&self) -> &'static str {
        match self.mask {
            library::FieldMask::All => "all",
            library::FieldMask::Prefix(_) => "prefix",
            library::FieldMask::Exact(_) => "exact",
        }
    }

    /// The path of the mask, or None if the mask is the one of `all`, which has no path. The path of the mask that
    /// `prefix` makes of the root is the root, although this mask also selects every path.
    #[getter]
    fn path(&self) -> Made<Option<FieldPath>> {
        Ok(self.mask.path().map(library::FieldPath::try_clone).transpose()?.map(FieldPath::from))
    }

    /// Returns the mask of what this mask selects below the first step of its path:
    ///
    /// - For the mask of `all`, it is the mask of `all`.
    /// - For a mask of `prefix`, it is the mask that `prefix` makes of the path without its first step. If the path has
    ///   at most one step, it is the mask of `all`.
    /// - For a mask of `exact`, it is the mask that `exact` makes of the path without its first step.
    ///
    /// Raises `LibraryError` (`EXACT_ROOT`, 20) if the mask selects only the root.
    ///
    /// >>> FieldMask.exact("a.b").step_into()
    /// FieldMask.exact('b')
    #[pyo3(text_signature = "($self)")]
    fn step_into(&self) -> Made<Self> {
        Ok(self.mask.try_clone()?.step_into()?.into())
    }

    /// Returns the first step of the path of the mask, which is a name or `ELEMENT`, or None if the path is the root.
    /// Raises `LibraryError` (`ALL_MASK`, 21) if the mask is the one of `all`, which has no path.
    ///
    /// >>> FieldMask.prefix("a.b").starting_field()
    /// 'a'
    #[pyo3(text_signature = "($self)")]
    fn starting_field<'p>(&self, py: Python<'p>) -> Made<Option<&'p PyAny>> {
        Ok(self.mask.starting_field()?.map(|step| shown_step(py, step)).transpose()?)
    }

    /// Whether the mask selects every path. The mask of `all` and the mask that `prefix` makes of the root select every
    /// path.
    #[getter]
    fn matches_all(&self) -> bool {
        self.mask.matches_all()
    }

    /// Whether the mask selects the root. The mask of `all` and the masks whose path is the root select the root.
    #[getter]
    fn matches_root(&self) -> bool {
        self.mask.matches_root()
    }

    fn __richcmp__(&self, py: Python<'_>, other: PyRef<'_, Self>, op: CompareOp) -> PyObject {
        match op {
            CompareOp::Eq => (self.mask == other.mask).into_py(py),
            CompareOp::Ne => (self.mask != other.mask).into_py(py),
            _ => py.NotImplemented(),
        }
    }

    fn __hash__(&self) -> u64 {
        let mut state = DefaultHasher::new();
        self.mask.hash(&mut state);
        state.finish()
    }

    fn __repr__(&self, py: Python<'_>) -> Made<String> {
        let path = self.path()?.map(|path| path.to_source()).transpose()?;
        let shown = path.map_or(Ok(""), |path| PyString::new(py, &path).repr()?.to_str())?;
        Ok(format!("FieldMask.{}({shown})", self.kind()))
    }
}
