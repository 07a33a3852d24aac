// SPDX-License-Identifier: Apache-2.0
// SPDX-FileCopyrightText: Copyright the Vortex contributors

//! A set changes, so nothing of Python is called while it is borrowed: arguments are read before, and results are made
//! after that.

use crate::arguments::{given, owned, paths, wrong, Given, Optional, LEFT_OUT};
use crate::dtype::DType;
use crate::errors::Made;
use crate::field_path::FieldPath;
use crate::imported::{BELOW, SET};
use pyo3::basic::CompareOp;
use pyo3::exceptions::PyKeyError;
use pyo3::prelude::*;
use pyo3::types::{PyDict, PyFrozenSet, PyIterator, PyList, PySet, PyString, PyTuple};
use pyo3::PyTypeInfo;
use vortex_logical_types::{self as library, VortexResult};

/// A set of paths, for example `FieldPathSet(["a.b", FieldPath.root()])`. Iterating over it yields each of its paths
/// once, in no particular order.
///
/// It is a `collections.abc.MutableSet`, so it isn't hashable. As with Python's own sets, operators take sets, of which
/// each member has to be a `FieldPath`, and methods take any iterables of paths, also of paths as texts:
///
/// >>> paths = FieldPathSet(["a", "b.c"])
/// >>> paths <= {FieldPath("a"), FieldPath("b.c"), FieldPath("d")}, paths.issubset(["a"])
/// (True, False)
/// >>> paths | FieldPathSet(["a.x"]), paths.difference(["a"])
/// (FieldPathSet(['a', 'a.x', 'b.c']), FieldPathSet(['b.c']))
///
/// These are operations on the paths themselves. For example, the sets of `a` and of `a.x` are disjoint, although each
/// field that `a.x` leads to is part of the one that `a` leads to.
///
/// Each method reads a path that is passed as a text as `FieldPath(text)` reads it. A text that isn't spelled like a
/// path raises `Unreadable` (`UNREADABLE`), and the set is unchanged.
///
/// To insert a path takes about the same time in a set of any size. To remove some takes as long as to make the set of
/// those that are left.
#[pyclass(subclass, weakref, module = "vortex_logical_types")]
#[pyo3(text_signature = "(paths=())")]
pub struct FieldPathSet {
    pub paths: library::FieldPathSet,
}

impl From<library::FieldPathSet> for FieldPathSet {
    fn from(paths: library::FieldPathSet) -> Self {
        FieldPathSet { paths }
    }
}

/// A set of paths, or another set whose members are paths. (An operator returns `NotImplemented` for any other object.)
struct Operand<'p>(Given<'p, FieldPathSet>);

impl<'p> FromPyObject<'p> for Operand<'p> {
    fn extract(it: &'p PyAny) -> PyResult<Self> {
        if let Ok(set) = it.downcast::<PyCell<FieldPathSet>>() {
            return Ok(Operand(Given::Object(set.try_borrow()?)));
        }
        if !PySet::is_type_of(it) && !PyFrozenSet::is_type_of(it) && !SET.is_class_of(it)? {
            return Err(wrong("other", "a set", it));
        }
        let path = |path: PyResult<&'p PyAny>| Ok(path?.extract::<PyRef<'_, FieldPath>>()?.path.clone());
        let paths: PyResult<Vec<_>> = it.iter()?.map(path).collect();
        Ok(Operand(Given::Read(set_of(paths?)?)))
    }
}

fn set_of(paths: Vec<library::FieldPath>) -> Made<FieldPathSet> {
    Ok(library::FieldPathSet::try_from_iter(paths)?.into())
}

/// Returns a set, or the set of the paths of an iterable.
fn set_given<'p>(it: &'p PyAny, name: &str) -> Made<Given<'p, FieldPathSet>> {
    match it.downcast::<PyCell<FieldPathSet>>() {
        Ok(set) => Ok(Given::Object(set.try_borrow().map_err(PyErr::from)?)),
        Err(_) => Ok(Given::Read(set_of(paths(it, name)?)?)),
    }
}

/// Returns the sets of several arguments. (Those that are no sets are read before a set is borrowed.)
fn sets_given(others: &PyTuple) -> Made<Vec<Given<'_, FieldPathSet>>> {
    let is_set = |it: &PyAny| FieldPathSet::is_type_of(it);
    let read = |it| if is_set(it) { Ok(None) } else { set_given(it, "others").map(Some) };
    let read: Made<Vec<_>> = others.iter().map(read).collect();
    others.iter().zip(read?).map(|(it, read)| read.map_or_else(|| set_given(it, "others"), Ok)).collect()
}

/// Returns the paths as a list.
fn list(py: Python<'_>, paths: VortexResult<Vec<library::FieldPath>>) -> Made<&PyList> {
    let objects: PyResult<Vec<_>> = paths?.into_iter().map(|path| Py::new(py, FieldPath::from(path))).collect();
    Ok(PyList::new(py, objects?))
}

impl FieldPathSet {
    /// Returns copies of the members.
    pub fn members(&self) -> VortexResult<Vec<library::FieldPath>> {
        self.paths.try_iter()?.map(library::FieldPath::try_clone).collect()
    }

    /// Returns the set of those members that pass the test.
    fn those(&self, test: impl Fn(&library::FieldPath) -> bool) -> VortexResult<FieldPathSet> {
        let members: VortexResult<Vec<_>> =
            self.paths.try_iter()?.filter(|path| test(path)).map(|path| path.try_clone()).collect();
        Ok(library::FieldPathSet::try_from_iter(members?)?.into())
    }

    /// Removes the path, and returns whether the set contained it.
    fn take(&mut self, path: &FieldPath) -> VortexResult<bool> {
        let is_there = self.paths.contains(&path.path);
        if is_there {
            *self = self.those(|it| *it != path.path)?;
        }
        Ok(is_there)
    }

    fn united(&self, other: &Self) -> VortexResult<Self> {
        Ok(self.paths.try_union(&other.paths)?.into())
    }

    fn common(&self, other: &Self) -> VortexResult<Self> {
        self.those(|path| other.paths.contains(path))
    }

    fn without(&self, other: &Self) -> VortexResult<Self> {
        self.those(|path| !other.paths.contains(path))
    }

    fn apart(&self, other: &Self) -> VortexResult<Self> {
        self.without(other)?.united(&other.without(self)?)
    }

    /// Returns the texts of the members, in order.
    fn texts(&self) -> VortexResult<Vec<String>> {
        let mut texts: Vec<String> =
            self.paths.try_iter()?.map(library::FieldPath::try_to_source).collect::<VortexResult<_>>()?;
        texts.sort();
        Ok(texts)
    }
}

/// Puts what is computed of a set and another in the place of the set. (They may be the same object.)
fn replace(
    set: &PyCell<FieldPathSet>,
    other: Operand<'_>,
    compute: fn(&FieldPathSet, &FieldPathSet) -> VortexResult<FieldPathSet>,
) -> Made<()> {
    let made = compute(&set.borrow(), &other.0)?;
    drop(other);
    *set.borrow_mut() = made;
    Ok(())
}

#[pymethods]
impl FieldPathSet {
    /// Returns the empty set, which `__init__` fills, as with Python's own sets.
    #[new]
    #[args(_arguments = "*", _named = "**")]
    fn new(_arguments: &PyTuple, _named: Option<&PyDict>) -> Self {
        library::FieldPathSet::new().into()
    }

    #[args(paths = "LEFT_OUT")]
    #[pyo3(text_signature = "($self, paths=())")]
    fn __init__(slf: &PyCell<Self>, paths: Optional<'_>) -> Made<()> {
        let made = set_of(paths.0.map_or(Ok(Vec::new()), |it| self::paths(it, "paths"))?)?;
        *slf.borrow_mut() = made;
        Ok(())
    }

    /// Inserts the path. If the set contains the path already, nothing changes.
    #[pyo3(text_signature = "($self, path)")]
    fn insert(slf: &PyCell<Self>, path: &PyAny) -> Made<()> {
        let path = owned::<FieldPath>(path, "path")?.path;
        Ok(slf.borrow_mut().paths.try_insert(path)?)
    }

    /// Inserts the path, as `insert` does.
    #[pyo3(text_signature = "($self, path)")]
    fn add(slf: &PyCell<Self>, path: &PyAny) -> Made<()> {
        Self::insert(slf, path)
    }

    /// Inserts the paths, in order. All of them are taken from `paths` before the first is inserted. If memory runs
    /// out, the call raises `OutOfMemory` (0), and the paths that it inserted before stay in the set.
    #[pyo3(text_signature = "($self, paths)")]
    fn extend(slf: &PyCell<Self>, paths: &PyAny) -> Made<()> {
        let paths = self::paths(paths, "paths")?;
        Ok(slf.borrow_mut().paths.try_extend(paths)?)
    }

    /// Inserts the paths of each of these iterables, as `extend` does. All are taken from them before the first is
    /// inserted.
    #[args(paths = "*")]
    #[pyo3(text_signature = "($self, *paths)")]
    fn update(slf: &PyCell<Self>, paths: &PyTuple) -> Made<()> {
        let paths: Made<Vec<_>> = paths.iter().map(|it| self::paths(it, "paths")).collect();
        Ok(slf.borrow_mut().paths.try_extend(paths?.into_iter().flatten())?)
    }

    /// Removes the path, if the set contains it.
    #[pyo3(text_signature = "($self, path)")]
    fn discard(slf: &PyCell<Self>, path: &PyAny) -> Made<()> {
        let path = given::<FieldPath>(path, "path")?;
        slf.borrow_mut().take(&path)?;
        Ok(())
    }

    /// Removes the path. Raises `KeyError` if the set doesn't contain it.
    #[pyo3(text_signature = "($self, path)")]
    fn remove(slf: &PyCell<Self>, path: &PyAny) -> Made<()> {
        let given = given::<FieldPath>(path, "path")?;
        match slf.borrow_mut().take(&given)? {
            true => Ok(()),
            false => Err(PyKeyError::new_err(PyObject::from(path)).into()),
        }
    }

    /// Removes one of the paths, and returns it. Raises `KeyError` if the set is empty.
    #[pyo3(text_signature = "($self)")]
    fn pop(slf: &PyCell<Self>) -> Made<FieldPath> {
        let mut members = slf.borrow().members()?;
        let path = members.pop().ok_or_else(|| PyKeyError::new_err("the set is empty"))?;
        *slf.borrow_mut() = set_of(members)?;
        Ok(path.into())
    }

    /// Removes all paths.
    #[pyo3(text_signature = "($self)")]
    fn clear(&mut self) {
        self.paths = library::FieldPathSet::new();
    }

    /// Returns whether the set contains the path. It contains nothing but paths, so for an object that is neither a
    /// path nor a text the call returns false. Raises `Unreadable` (`UNREADABLE`) for a text that isn't spelled like a
    /// path.
    fn __contains__(slf: &PyCell<Self>, path: &PyAny) -> Made<bool> {
        if !PyString::is_type_of(path) && !FieldPath::is_type_of(path) {
            return Ok(false);
        }
        let path = given::<FieldPath>(path, "path")?;
        Ok(slf.borrow().paths.contains(&path.path))
    }

    fn __len__(&self) -> usize {
        self.paths.len()
    }

    fn __richcmp__(slf: &PyCell<Self>, other: Operand<'_>, op: CompareOp) -> bool {
        let (one, other) = (&slf.borrow().paths, &other.0.paths);
        match op {
            CompareOp::Eq => one == other,
            CompareOp::Ne => one != other,
            CompareOp::Le => one.is_subset(other),
            CompareOp::Lt => one.is_subset(other) && !other.is_subset(one),
            CompareOp::Ge => other.is_subset(one),
            CompareOp::Gt => other.is_subset(one) && !one.is_subset(other),
        }
    }

    fn __or__(slf: &PyCell<Self>, other: Operand<'_>) -> Made<Self> {
        Ok(slf.borrow().united(&other.0)?)
    }

    fn __ror__(slf: &PyCell<Self>, other: Operand<'_>) -> Made<Self> {
        Ok(other.0.united(&slf.borrow())?)
    }

    fn __ior__(slf: &PyCell<Self>, other: Operand<'_>) -> Made<()> {
        replace(slf, other, Self::united)
    }

    fn __and__(slf: &PyCell<Self>, other: Operand<'_>) -> Made<Self> {
        Ok(slf.borrow().common(&other.0)?)
    }

    fn __rand__(slf: &PyCell<Self>, other: Operand<'_>) -> Made<Self> {
        Ok(other.0.common(&slf.borrow())?)
    }

    fn __iand__(slf: &PyCell<Self>, other: Operand<'_>) -> Made<()> {
        replace(slf, other, Self::common)
    }

    fn __sub__(slf: &PyCell<Self>, other: Operand<'_>) -> Made<Self> {
        Ok(slf.borrow().without(&other.0)?)
    }

    fn __rsub__(slf: &PyCell<Self>, other: Operand<'_>) -> Made<Self> {
        Ok(other.0.without(&slf.borrow())?)
    }

    fn __isub__(slf: &PyCell<Self>, other: Operand<'_>) -> Made<()> {
        replace(slf, other, Self::without)
    }

    fn __xor__(slf: &PyCell<Self>, other: Operand<'_>) -> Made<Self> {
        Ok(slf.borrow().apart(&other.0)?)
    }

    fn __rxor__(slf: &PyCell<Self>, other: Operand<'_>) -> Made<Self> {
        Ok(other.0.apart(&slf.borrow())?)
    }

    fn __ixor__(slf: &PyCell<Self>, other: Operand<'_>) -> Made<()> {
        replace(slf, other, Self::apart)
    }

    /// Returns the set of the paths that are in this set or in one of the others.
    #[args(others = "*")]
    #[pyo3(text_signature = "($self, *others)")]
    fn union(slf: &PyCell<Self>, others: &PyTuple) -> Made<Self> {
        let others = sets_given(others)?;
        let mut united: Self = slf.borrow().paths.try_clone()?.into();
        for other in &others {
            united = united.united(other)?;
        }
        Ok(united)
    }

    /// Returns the set of those paths of this set that are in each of the others.
    #[args(others = "*")]
    #[pyo3(text_signature = "($self, *others)")]
    fn intersection(slf: &PyCell<Self>, others: &PyTuple) -> Made<Self> {
        let others = sets_given(others)?;
        let made = slf.borrow().those(|path| others.iter().all(|other| other.paths.contains(path)))?;
        Ok(made)
    }

    /// Returns the set of those paths of this set that are in none of the others.
    #[args(others = "*")]
    #[pyo3(text_signature = "($self, *others)")]
    fn difference(slf: &PyCell<Self>, others: &PyTuple) -> Made<Self> {
        let others = sets_given(others)?;
        let made = slf.borrow().those(|path| !others.iter().any(|other| other.paths.contains(path)))?;
        Ok(made)
    }

    /// Returns the set of the paths that are in one of the two sets and not in both.
    #[pyo3(text_signature = "($self, other)")]
    fn symmetric_difference(slf: &PyCell<Self>, other: &PyAny) -> Made<Self> {
        let other = set_given(other, "other")?;
        let made = slf.borrow().apart(&other)?;
        Ok(made)
    }

    /// Returns whether each path of this set is in `other` too. The paths themselves are compared, and not what they
    /// select. For example, the set of `a.b` isn't a subset of the set of `a`.
    #[pyo3(text_signature = "($self, other)")]
    fn issubset(slf: &PyCell<Self>, other: &PyAny) -> Made<bool> {
        let other = set_given(other, "other")?;
        Ok(slf.borrow().paths.is_subset(&other.paths))
    }

    /// Returns whether each path of `other` is in this set too, as `issubset` compares them.
    #[pyo3(text_signature = "($self, other)")]
    fn issuperset(slf: &PyCell<Self>, other: &PyAny) -> Made<bool> {
        let other = set_given(other, "other")?;
        Ok(slf.borrow().paths.is_superset(&other.paths))
    }

    /// Returns whether no path is in both sets. The paths themselves are compared, and not what they select. For
    /// example, the sets of `a` and of `a.b` are disjoint.
    #[pyo3(text_signature = "($self, other)")]
    fn isdisjoint(slf: &PyCell<Self>, other: &PyAny) -> Made<bool> {
        let other = set_given(other, "other")?;
        Ok(slf.borrow().paths.is_disjoint(&other.paths))
    }

    /// Returns the paths of the set as a list. Each path is in the list once, in no particular order.
    #[pyo3(name = "members", text_signature = "($self)")]
    fn listed<'p>(slf: &'p PyCell<Self>, py: Python<'p>) -> Made<&'p PyList> {
        let members = slf.borrow().members();
        list(py, members)
    }

    fn __iter__<'p>(slf: &'p PyCell<Self>, py: Python<'p>) -> Made<&'p PyIterator> {
        Ok(PyAny::iter(Self::listed(slf, py)?)?)
    }

    /// Returns the cover of the set, as a list. The cover contains those paths of the set of which no other path of the
    /// set is a prefix. Each path is in the list once, in no particular order.
    ///
    /// >>> sorted(FieldPathSet(["a", "a.b", "c.d"]).cover())
    /// [FieldPath('a'), FieldPath('c.d')]
    #[pyo3(text_signature = "($self)")]
    fn cover<'p>(slf: &'p PyCell<Self>, py: Python<'p>) -> Made<&'p PyList> {
        let cover = slf.borrow().paths.try_cover()?;
        list(py, Ok(cover.collect()))
    }

    /// Returns the list of those paths of the set that don't exist in the type `dtype`. Each path is in the list once,
    /// in no particular order.
    ///
    /// >>> FieldPathSet(["a", "a.b", "c"]).unresolved("{a={b=i8}}")
    /// [FieldPath('c')]
    #[pyo3(text_signature = "($self, dtype)")]
    fn unresolved<'p>(slf: &'p PyCell<Self>, py: Python<'p>, dtype: &PyAny) -> Made<&'p PyList> {
        let dtype = given::<DType>(dtype, "dtype")?;
        let paths = slf.borrow().paths.try_unresolved(&dtype.dtype)?.iter().map(|path| path.try_clone()).collect();
        list(py, paths)
    }

    /// Returns how paths of the set continue after `path`, or None if no path of the set begins with `path`.
    ///
    /// >>> FieldPathSet(["a.b", "a.c.d"]).below("a")
    /// Below(is_end=False, has_element=False, name_count=2)
    #[pyo3(text_signature = "($self, path)")]
    fn below<'p>(slf: &'p PyCell<Self>, py: Python<'p>, path: &PyAny) -> Made<Option<&'p PyAny>> {
        let path = given::<FieldPath>(path, "path")?;
        let below = slf.borrow().paths.below(&path.path);
        Ok(below.map(|it| BELOW.get(py)?.call1((it.is_end, it.has_element, it.name_count))).transpose()?)
    }

    /// Returns the list of the names with which paths of the set continue after `path`, or None if no path of the set
    /// begins with `path`. Each name is in the list once, in no particular order.
    ///
    /// >>> sorted(FieldPathSet(["a.b", "a.c.d"]).names_below("a"))
    /// ['b', 'c']
    #[pyo3(text_signature = "($self, path)")]
    fn names_below(slf: &PyCell<Self>, path: &PyAny) -> Made<Option<Vec<String>>> {
        let path = given::<FieldPath>(path, "path")?;
        let names = slf.borrow().paths.names_below(&path.path);
        Ok(names.map(|names| names.into_iter().map(String::from).collect()))
    }

    fn __repr__(slf: &PyCell<Self>, py: Python<'_>) -> Made<String> {
        let texts = slf.borrow().texts()?;
        Ok(format!("FieldPathSet({})", PyList::new(py, texts).repr()?))
    }
}
