// SPDX-License-Identifier: Apache-2.0
// SPDX-FileCopyrightText: Copyright the Vortex contributors

use crate::arguments::{
    bytes, flag, given, items, member, number, object, owned, paths, position, text, texts, widening, wrong, FromText,
    Optional, LEFT_OUT,
};
use crate::arrow;
use crate::arrow_field::{self, ArrowField};
use crate::errors::{Failure, Made};
use crate::field_path::FieldPath;
use crate::field_path_set::FieldPathSet;
use crate::imported::{DIFFERENCE, KINDS, MERGE_CONFLICT, PTYPE, PTYPES, TIME_UNIT, TIME_UNITS, VIEW};
use crate::message::{session, Message};
use pyo3::basic::CompareOp;
use pyo3::exceptions::{PyKeyError, PyTypeError};
use pyo3::once_cell::GILOnceCell;
use pyo3::prelude::*;
use pyo3::types::{PyBytes, PyIterator, PyList, PyMapping, PyString, PyTuple};
use pyo3::PyTypeInfo;
use std::hash::{DefaultHasher, Hash, Hasher};
use vortex_logical_types::time::{Date, Time, TimeUnit, Timestamp};
use vortex_logical_types::{self as library, DecimalDType, ExtDTypeRef, ExtId, FieldName, Ignoring, Kind, MAX_LEVELS};
use vortex_logical_types::{
    MergeConflict, Nullability, PType, RepeatedName, StructFields, UnionVariants, VortexError, VortexResult,
};

/// A logical type. `DType("{a=list(i32?)}")` reads a text in the form of the library's console, and `DType(dtype)`
/// copies a type.
///
/// A struct is a collection of its fields, each a pair of a name and a type:
///
/// >>> orders = DType("{id=u64, customer={city=utf8?}}")
/// >>> orders["id"], "city" in orders, "city" in orders["customer"], len(orders)
/// (DType('u64'), False, True, 2)
/// >>> [name for name, dtype in orders if dtype.kind is Kind.STRUCT]
/// ['customer']
///
/// What is asked of a type of another kind has one rule. A property that only types of one kind have, such as `names`
/// or `element`, is None. A method that only types of one kind have, such as `field` or `find_variant`, raises
/// `LibraryError` (`PRECONDITION`). `len`, `in`, `[]` and iteration raise `TypeError` for a type that isn't a struct.
/// For example, `DType("i32").names` is None, and `len(DType("i32"))` raises `TypeError`. A type is always true in an
/// `if`, also a struct without fields.
///
/// `view` returns the parts of a type of any kind as an object for `match`.
///
/// A type without parts, such as `i32`, has 0 levels, and every other type has one more than the deepest of its parts.
/// For example, `list(list(i32))` has 2 levels. No type has more than 128.
///
/// A text from which no type can be made raises an error:
///
/// - `Unreadable` (`UNREADABLE`) if the text isn't spelled like a type. Its `position` is the byte, counted from 1, at
///   which something else was expected.
/// - `Unreadable` (`TOO_DEEP`) if types are nested more than 128 levels deep in the text, with the position of the
///   first that is too deep
/// - the `LibraryError` of `decimal`, `map_` or `union` if they refuse the parts that the text spells, such as
///   `PRECISION_ZERO` (1) for `decimal(0,0)`. A union in a text can't have too few tags, so `UNION_TAGS_LENGTH` (11)
///   doesn't come.
#[pyclass(frozen, mapping, subclass, weakref, module = "vortex_logical_types")]
#[pyo3(text_signature = "(source)")]
pub struct DType {
    pub dtype: library::DType,
    /// The parts as Python has them, so that each of them stays the same object. They are made when they are first
    /// asked for.
    parts: GILOnceCell<Py<PyTuple>>,
}

impl From<library::DType> for DType {
    fn from(dtype: library::DType) -> Self {
        DType { dtype, parts: GILOnceCell::new() }
    }
}

impl FromText for DType {
    fn from_text(text: &str) -> Made<Self> {
        Ok(text.parse::<library::DType>()?.into())
    }

    fn try_clone(&self) -> VortexResult<Self> {
        Ok(self.dtype.try_clone()?.into())
    }
}

/// Returns whether the type has at most this many levels.
fn fits(dtype: &library::DType, levels: u32) -> bool {
    let part_fits = |part: &library::DType| levels > 0 && fits(part, levels - 1);
    match dtype {
        library::DType::List(element, _) | library::DType::FixedSizeList(element, _, _) => part_fits(element),
        library::DType::Map(map, _) => part_fits(map.key_dtype()) && part_fits(map.value_dtype()),
        library::DType::Struct(fields, _) => fields.fields().all(part_fits),
        library::DType::Union(variants, _) => variants.variants().all(part_fits),
        library::DType::Extension(extension) => part_fits(extension.storage_dtype()),
        _ => true,
    }
}

/// Returns a copy of the type, which becomes a part of another one.
fn part(it: &PyAny, name: impl std::fmt::Display) -> Made<library::DType> {
    let part = owned::<DType>(it, name)?.dtype;
    if fits(&part, MAX_LEVELS - 1) {
        Ok(part)
    } else {
        Err(Failure::too_deep())
    }
}

/// Returns the names and the types in a mapping, or in the pairs of an iterable.
fn parts(it: &PyAny, name: &str) -> Made<Vec<(FieldName, library::DType)>> {
    let mut parts = Vec::new();
    for (at, pair) in pairs(it, name, "a pair of a str and a DType")?.into_iter().enumerate() {
        let field = FieldName::try_new(text(pair.get_item(0)?, format_args!("{name}[{at}][0]"))?)?;
        parts.push((field, part(pair.get_item(1)?, format_args!("{name}[{at}][1]"))?));
    }
    Ok(parts)
}

/// Returns the items of a mapping, or the pairs of an iterable.
fn pairs<'p>(it: &'p PyAny, name: &str, wanted: &str) -> Made<Vec<&'p PyAny>> {
    let given = match it.downcast::<PyMapping>() {
        Ok(mapping) => mapping.items()?,
        Err(_) => it,
    };
    let mut pairs = Vec::new();
    for (at, pair) in items(given, name, "pairs")?.enumerate() {
        let pair = pair?;
        if !(PyTuple::is_type_of(pair) || PyList::is_type_of(pair)) || pair.len()? != 2 {
            return Err(wrong(format_args!("{name}[{at}]"), wanted, pair).into());
        }
        pairs.push(pair);
    }
    Ok(pairs)
}

/// Returns the old and the new names in a mapping, or in the pairs of an iterable.
fn renames(it: &PyAny, name: &str) -> Made<Vec<(FieldName, FieldName)>> {
    let of_names = |pair: &PyAny, at: usize, side: usize| {
        Ok::<_, Failure>(FieldName::try_new(text(pair.get_item(side)?, format_args!("{name}[{at}][{side}]"))?)?)
    };
    let one = |(at, pair)| Ok((of_names(pair, at, 0)?, of_names(pair, at, 1)?));
    pairs(it, name, "a pair of two str")?.into_iter().enumerate().map(one).collect()
}

/// Returns the unit of an argument, and the nullability of another.
fn unit_given(unit: &PyAny, nullable: Optional<'_>) -> PyResult<(TimeUnit, Nullability)> {
    Ok((TimeUnit::ALL[member(unit, &TIME_UNIT, "unit")?], nullability(nullable)?))
}

/// Returns the type of dates, times or timestamps in this unit, which the library refuses for some units.
fn in_unit<T: Into<library::DType>>(unit: TimeUnit, made: VortexResult<T>) -> Made<DType> {
    match made {
        Err(VortexError::MetadataRefused) => Err(Failure::out_of_range(format!("unit must be another than {unit}"))),
        made => Ok(made?.into().into()),
    }
}

/// Returns the nullability of an argument.
fn nullability(nullable: Optional<'_>) -> PyResult<Nullability> {
    Ok(Nullability::from(flag(nullable, "nullable")?))
}

impl DType {
    /// Returns a copy of a type that the library lends.
    pub fn copied(dtype: Option<&library::DType>) -> Made<Option<DType>> {
        Ok(dtype.map(library::DType::try_clone).transpose()?.map(DType::from))
    }

    fn struct_fields(&self) -> Made<&StructFields> {
        self.dtype.as_struct_fields_opt().ok_or_else(|| self.is_no("struct"))
    }

    /// Returns the struct of these fields, with the outer nullability of this type.
    fn with_fields(&self, fields: StructFields) -> Made<Self> {
        Ok(library::DType::Struct(fields, self.dtype.nullability()).into())
    }

    fn union_variants(&self) -> Made<&UnionVariants> {
        self.dtype.as_union_variants_opt().ok_or_else(|| self.is_no("union"))
    }

    fn is_no(&self, wanted: &str) -> Failure {
        Failure::precondition(format!("expected a {wanted}, not a type of the kind {}", self.dtype.kind()))
    }

    /// Returns the parts: the element type of a list, the key type and the value type of a map, the pairs of a struct
    /// or a union, or the storage type of an extension.
    fn parts<'p>(&'p self, py: Python<'p>) -> Made<&'p PyTuple> {
        if let Some(parts) = self.parts.get(py) {
            return Ok(parts.as_ref(py));
        }
        let object = |dtype: &library::DType| Ok(DType::from(dtype.try_clone()?).into_py(py));
        let pair = |(name, dtype): (&FieldName, _)| Ok((name.as_str(), object(dtype)?).into_py(py));
        let parts: VortexResult<Vec<PyObject>> = match &self.dtype {
            library::DType::List(part, _) | library::DType::FixedSizeList(part, _, _) => {
                [&**part].map(object).into_iter().collect()
            }
            library::DType::Map(map, _) => [map.key_dtype(), map.value_dtype()].map(object).into_iter().collect(),
            library::DType::Struct(fields, _) => fields.pairs().map(pair).collect(),
            library::DType::Union(variants, _) => variants.names().iter().zip(variants.variants()).map(pair).collect(),
            library::DType::Extension(extension) => [extension.storage_dtype()].map(object).into_iter().collect(),
            _ => Ok(Vec::new()),
        };
        // (Another thread, or a finalizer, may have been faster.)
        let _ = self.parts.set(py, PyTuple::new(py, parts?).into());
        self.parts(py)
    }

    /// Returns the part with this index if the type is of one of two kinds.
    fn part<'p>(&'p self, py: Python<'p>, kinds: [Kind; 2], index: usize) -> Made<Option<&'p PyAny>> {
        match kinds.contains(&self.dtype.kind()) {
            true => Ok(Some(self.parts(py)?.get_item(index)?)),
            false => Ok(None),
        }
    }

    /// Returns the pairs of a struct or of a union.
    fn pairs<'p>(&'p self, py: Python<'p>, kind: Kind) -> Made<Option<&'p PyList>> {
        match self.dtype.kind() == kind {
            true => Ok(Some(PyList::new(py, self.parts(py)?))),
            false => Ok(None),
        }
    }

    /// Returns the fields, or a `TypeError` if the type isn't a struct.
    fn collection(&self) -> PyResult<&StructFields> {
        let error = || PyTypeError::new_err(format!("a type of the kind {} has no fields", self.dtype.kind()));
        self.dtype.as_struct_fields_opt().ok_or_else(error)
    }
}

#[pymethods]
impl DType {
    #[new]
    fn new(source: &PyAny) -> Made<Self> {
        owned(source, "source")
    }

    /// Returns the null type, which is always nullable.
    #[staticmethod]
    #[pyo3(text_signature = "()")]
    fn null() -> Self {
        library::DType::Null.into()
    }

    /// Returns the type of booleans. The type is nullable if `nullable` is true.
    #[staticmethod]
    #[args(nullable = "LEFT_OUT")]
    #[pyo3(text_signature = "(nullable=False)")]
    fn bool_(nullable: Optional<'_>) -> Made<Self> {
        Ok(library::DType::Bool(nullability(nullable)?).into())
    }

    /// Returns the type of this primitive type, for example `i32`. The type is nullable if `nullable` is true.
    #[staticmethod]
    #[args(nullable = "LEFT_OUT")]
    #[pyo3(text_signature = "(ptype, nullable=False)")]
    fn primitive(ptype: &PyAny, nullable: Optional<'_>) -> Made<Self> {
        let ptype = PType::ALL[member(ptype, &PTYPE, "ptype")?];
        Ok(library::DType::Primitive(ptype, nullability(nullable)?).into())
    }

    /// Returns the decimal type of this precision and this scale. The precision is how many digits a value has at most,
    /// and the scale is how many of them are behind the point. The type is nullable if `nullable` is true.
    ///
    /// >>> DType.decimal(10, 2)
    /// DType('decimal(10,2)')
    ///
    /// Raises `LibraryError`. If several of these are so, it is the first of them:
    ///
    /// - `OUT_OF_RANGE` if the precision isn't from 0 to 255, or if the scale isn't from -128 to 127
    /// - `PRECISION_ZERO` (1) if the precision is 0
    /// - `PRECISION_TOO_LARGE` (2) if the precision is above 76
    /// - `SCALE_TOO_LARGE` (3) if the scale is above 76
    /// - `SCALE_ABOVE_PRECISION` (4) if the scale is above the precision
    #[staticmethod]
    #[args(nullable = "LEFT_OUT")]
    #[pyo3(text_signature = "(precision, scale, nullable=False)")]
    fn decimal(precision: &PyAny, scale: &PyAny, nullable: Optional<'_>) -> Made<Self> {
        let (digits, behind) = (number(precision, "precision")?, number(scale, "scale")?);
        let nullability = nullability(nullable)?;
        let out_of = |name, range, it| Failure::out_of_range(format!("{name} must be from {range}, not {it}"));
        let digits = u8::try_from(digits).map_err(|_| out_of("precision", "0 to 255", precision))?;
        let behind = i8::try_from(behind).map_err(|_| out_of("scale", "-128 to 127", scale))?;
        Ok(library::DType::Decimal(DecimalDType::try_new(digits, behind)?, nullability).into())
    }

    /// Returns the type of UTF-8 strings. The type is nullable if `nullable` is true.
    #[staticmethod]
    #[args(nullable = "LEFT_OUT")]
    #[pyo3(text_signature = "(nullable=False)")]
    fn utf8(nullable: Optional<'_>) -> Made<Self> {
        Ok(library::DType::Utf8(nullability(nullable)?).into())
    }

    /// Returns the type of byte strings. The type is nullable if `nullable` is true.
    #[staticmethod]
    #[args(nullable = "LEFT_OUT")]
    #[pyo3(text_signature = "(nullable=False)")]
    fn binary(nullable: Optional<'_>) -> Made<Self> {
        Ok(library::DType::Binary(nullability(nullable)?).into())
    }

    /// Returns the variant type. Each of its values carries its own type. The type is nullable if `nullable` is true.
    #[staticmethod]
    #[args(nullable = "LEFT_OUT")]
    #[pyo3(text_signature = "(nullable=False)")]
    fn variant(nullable: Optional<'_>) -> Made<Self> {
        Ok(library::DType::Variant(nullability(nullable)?).into())
    }

    /// Returns the list type with this element type. Its values are lists of any length. The list type is nullable if
    /// `nullable` is true. Raises `LibraryError` (`TOO_DEEP`) if the element type has 128 levels.
    #[staticmethod]
    #[args(nullable = "LEFT_OUT")]
    #[pyo3(text_signature = "(element, nullable=False)")]
    fn list_(element: &PyAny, nullable: Optional<'_>) -> Made<Self> {
        let (element, nullability) = (part(element, "element")?, nullability(nullable)?);
        Ok(library::DType::try_list(element, nullability)?.into())
    }

    /// Returns the fixed-size list type with this element type. Its values are lists of exactly `size` elements. The
    /// list type is nullable if `nullable` is true. Raises `LibraryError`: `OUT_OF_RANGE` if the size isn't from 0 to
    /// 2**32 - 1, or `TOO_DEEP` if the element type has 128 levels.
    ///
    /// >>> DType.fixed_size_list("f32", 3)
    /// DType('fixed_size_list(f32)[3]')
    #[staticmethod]
    #[args(nullable = "LEFT_OUT")]
    #[pyo3(text_signature = "(element, size, nullable=False)")]
    fn fixed_size_list(element: &PyAny, size: &PyAny, nullable: Optional<'_>) -> Made<Self> {
        let (element, count) = (part(element, "element")?, number(size, "size")?);
        let nullability = nullability(nullable)?;
        let count = u32::try_from(count)
            .map_err(|_| Failure::out_of_range(format!("size must be from 0 to 4294967295, not {size}")))?;
        Ok(library::DType::try_fixed_size_list(element, count, nullability)?.into())
    }

    /// Returns the map type with these key and value types. `keys_sorted` declares that the keys of each map are
    /// sorted, which nothing checks. The map type is nullable if `nullable` is true. Raises `LibraryError`: `TOO_DEEP`
    /// if one of the two types has 128 levels, and otherwise `MAP_KEY_NULLABLE` (9) if the key type is nullable.
    ///
    /// >>> DType.map_("utf8", "i32?")
    /// DType('map(utf8, i32?, keys_sorted=false)')
    #[staticmethod]
    #[args(keys_sorted = "LEFT_OUT", nullable = "LEFT_OUT")]
    #[pyo3(text_signature = "(key, value, keys_sorted=False, nullable=False)")]
    fn map_(key: &PyAny, value: &PyAny, keys_sorted: Optional<'_>, nullable: Optional<'_>) -> Made<Self> {
        let (key, value) = (part(key, "key")?, part(value, "value")?);
        let (keys_sorted, nullability) = (flag(keys_sorted, "keys_sorted")?, nullability(nullable)?);
        Ok(library::DType::map(key, value, keys_sorted, nullability)?.into())
    }

    /// Returns the struct type of these fields, in order, which are a mapping of names to types, or pairs of a name and
    /// a type. The struct type is nullable if `nullable` is true. Raises `LibraryError` (`TOO_DEEP`) if the type of a
    /// field has 128 levels.
    ///
    /// >>> DType.struct({"a": "i8"}) == DType.struct([("a", DType("i8"))])
    /// True
    #[staticmethod]
    #[args(nullable = "LEFT_OUT")]
    #[pyo3(text_signature = "(fields, nullable=False)")]
    fn r#struct(fields: &PyAny, nullable: Optional<'_>) -> Made<Self> {
        let (fields, nullability) = (parts(fields, "fields")?, nullability(nullable)?);
        Ok(library::DType::struct_(fields, nullability).into())
    }

    /// Returns the union type with these variants, in order, which are a mapping of names to types, or pairs of a name
    /// and a type. `tags` has the tag of each variant, one byte for each, for example `bytes([5, 9])`. Without `tags`
    /// the tags are 0, 1, 2 and so on. The union type is nullable if `nullable` is true.
    ///
    /// >>> DType.union({"a": "i8", "b": "utf8"}, tags=bytes([5, 9]))
    /// DType('union(a@5=i8, b@9=utf8)')
    ///
    /// Raises `LibraryError`. If several of these are so, it is the first of them:
    ///
    /// - `TOO_DEEP` if the type of a variant has 128 levels
    /// - `UNION_TOO_MANY` (14) if there are more than 256 variants without tags
    /// - `UNION_TAGS_LENGTH` (11) if there are more or fewer tags than variants
    /// - `UNION_EMPTY` (12) if there are no variants
    /// - `UNION_TAGS_REPEAT` (13) if a tag occurs twice
    /// - `UNION_NAMES_REPEAT` (15) if a name occurs twice
    #[staticmethod]
    #[args(nullable = "LEFT_OUT", tags = "None")]
    #[pyo3(text_signature = "(variants, nullable=False, tags=None)")]
    fn r#union(variants: &PyAny, nullable: Optional<'_>, tags: Option<&PyAny>) -> Made<Self> {
        let (variants, nullability) = (parts(variants, "variants")?, nullability(nullable)?);
        let (names, dtypes): (Vec<FieldName>, Vec<library::DType>) = variants.into_iter().unzip();
        let variants = match tags {
            Some(tags) => UnionVariants::try_new(names.into(), dtypes, bytes(tags, "tags")?.to_vec())?,
            None => UnionVariants::new(names.into(), dtypes)?,
        };
        Ok(library::DType::Union(variants, nullability).into())
    }

    /// Returns the extension type with this id, this metadata and this storage type. It is nullable if the storage type
    /// is. Raises `LibraryError` (`TOO_DEEP`) if the storage type has 128 levels.
    ///
    /// >>> DType.extension("app.color", b"rgb", "u32")
    /// DType('app.color[0x726762](u32)')
    #[staticmethod]
    #[pyo3(text_signature = "(id, metadata, storage)")]
    fn extension(id: &PyAny, metadata: &PyAny, storage: &PyAny) -> Made<Self> {
        let (id, metadata) = (ExtId::try_new(text(id, "id")?)?, bytes(metadata, "metadata")?);
        let storage = part(storage, "storage")?;
        Ok(library::DType::Extension(ExtDTypeRef::from_parts(id, metadata.to_vec(), storage)).into())
    }

    /// Returns the type of dates: the extension `vortex.date` over `i32` for days, or over `i64` for milliseconds. The
    /// type is nullable if `nullable` is true. Raises `LibraryError` (`OUT_OF_RANGE`) for another unit.
    ///
    /// >>> DType.date(TimeUnit.DAYS, nullable=True)
    /// DType('vortex.date[0x04](i32?)')
    #[staticmethod]
    #[args(nullable = "LEFT_OUT")]
    #[pyo3(text_signature = "(unit, nullable=False)")]
    fn date(unit: &PyAny, nullable: Optional<'_>) -> Made<Self> {
        let (unit, nullability) = unit_given(unit, nullable)?;
        in_unit(unit, Date::try_new(unit, nullability))
    }

    /// Returns the type of times of a day: the extension `vortex.time` over `i32` for seconds and milliseconds, or over
    /// `i64` for microseconds and nanoseconds. The type is nullable if `nullable` is true. Raises `LibraryError`
    /// (`OUT_OF_RANGE`) for days.
    #[staticmethod]
    #[args(nullable = "LEFT_OUT")]
    #[pyo3(text_signature = "(unit, nullable=False)")]
    fn time(unit: &PyAny, nullable: Optional<'_>) -> Made<Self> {
        let (unit, nullability) = unit_given(unit, nullable)?;
        in_unit(unit, Time::try_new(unit, nullability))
    }

    /// Returns the type of timestamps, the extension `vortex.timestamp` over `i64`, with a time zone such as
    /// `Europe/Berlin` or `+01:00`. The empty text stands for no time zone. The type is nullable if `nullable` is true.
    /// Raises `LibraryError` (`OUT_OF_RANGE`) for days, and for a time zone of more than 65,535 bytes.
    ///
    /// >>> paid = DType.timestamp(TimeUnit.MICROSECONDS, "UTC")
    /// >>> paid.time_unit, paid.time_zone
    /// (<TimeUnit.MICROSECONDS: 1>, 'UTC')
    #[staticmethod]
    #[args(zone = "LEFT_OUT", nullable = "LEFT_OUT")]
    #[pyo3(text_signature = "(unit, zone='', nullable=False)")]
    fn timestamp(unit: &PyAny, zone: Optional<'_>, nullable: Optional<'_>) -> Made<Self> {
        let zone = zone.0.map_or(Ok(""), |zone| text(zone, "zone"))?;
        let (unit, nullability) = unit_given(unit, nullable)?;
        let zone_given = (!zone.is_empty()).then(|| zone.into());
        match unit {
            TimeUnit::Days => in_unit::<library::DType>(unit, Err(VortexError::MetadataRefused)),
            _ if zone.len() > usize::from(u16::MAX) => Err(Failure::out_of_range("zone has more than 65535 bytes")),
            _ => in_unit(unit, Timestamp::try_new_with_tz(unit, zone_given, nullability)),
        }
    }

    /// The kind of the type.
    #[getter]
    fn kind<'p>(&self, py: Python<'p>) -> PyResult<&'p PyAny> {
        KINDS.item(py, self.dtype.kind() as usize)
    }

    /// Returns the parts of the type, as an object of one of the classes in `View`.
    ///
    /// >>> DType("list(i32)?").view()
    /// View.List(element=DType('i32'), nullable=True)
    ///
    /// With `match` (from Python 3.10 on), a program can look into a type:
    ///
    ///     match dtype.view():
    ///         case View.List(element) | View.FixedSizeList(element):
    ///             ...
    ///         case View.Struct(fields):
    ///             ...
    #[pyo3(text_signature = "($self)")]
    fn view<'p>(&'p self, py: Python<'p>) -> Made<&'p PyAny> {
        let (parts, nullable) = (self.parts(py)?, self.is_nullable());
        let part = |index| parts.get_item(index);
        let (class, parts): (&str, Py<PyTuple>) = match &self.dtype {
            library::DType::Null => ("Null", ().into_py(py)),
            library::DType::Bool(_) => ("Bool", (nullable,).into_py(py)),
            library::DType::Primitive(_, _) => ("Primitive", (self.ptype(py)?, nullable).into_py(py)),
            library::DType::Decimal(it, _) => ("Decimal", (it.precision(), it.scale(), nullable).into_py(py)),
            library::DType::Utf8(_) => ("Utf8", (nullable,).into_py(py)),
            library::DType::Binary(_) => ("Binary", (nullable,).into_py(py)),
            library::DType::List(_, _) => ("List", (part(0)?, nullable).into_py(py)),
            library::DType::FixedSizeList(_, size, _) => ("FixedSizeList", (part(0)?, *size, nullable).into_py(py)),
            library::DType::Map(it, _) => ("Map", (part(0)?, part(1)?, it.keys_sorted(), nullable).into_py(py)),
            library::DType::Struct(_, _) => ("Struct", (parts, nullable).into_py(py)),
            library::DType::Union(_, _) => ("Union", (parts, self.tags(py), nullable).into_py(py)),
            library::DType::Variant(_) => ("Variant", (nullable,).into_py(py)),
            library::DType::Extension(_) => ("Extension", (self.id(), self.metadata(py), part(0)?).into_py(py)),
        };
        Ok(VIEW.get(py)?.getattr(class)?.call1(parts.as_ref(py))?)
    }

    /// Whether the type is nullable, so that its values may be null. The null type is always nullable, and an extension
    /// is nullable if its storage type is.
    #[getter]
    fn is_nullable(&self) -> bool {
        self.dtype.is_nullable()
    }

    /// Whether the type can be made non-nullable. The null type can't, and an extension can't if its storage type
    /// can't. Every other type can.
    #[getter]
    fn can_be_nonnullable(&self) -> bool {
        self.dtype.can_be_nonnullable()
    }

    /// Returns the type with the outer nullability that `nullable` states: nullable if it is true, and non-nullable if
    /// it is false. The types inside it keep their nullabilities. For an extension, the outer nullability is that of
    /// its storage type. Raises `LibraryError` (`PRECONDITION`) if `nullable` is false and the type can't be made
    /// non-nullable, which `can_be_nonnullable` tests.
    #[pyo3(text_signature = "($self, nullable)")]
    fn with_nullability(&self, nullable: &PyAny) -> Made<Self> {
        match flag(Optional(Some(nullable)), "nullable")? {
            true => self.as_nullable(),
            false => self.as_nonnullable(),
        }
    }

    /// Returns the type, made nullable. The types inside it keep their nullabilities.
    #[pyo3(text_signature = "($self)")]
    fn as_nullable(&self) -> Made<Self> {
        Ok(self.dtype.try_as_nullable()?.into())
    }

    /// Returns the type, made non-nullable. The types inside it keep their nullabilities. Raises `LibraryError`
    /// (`PRECONDITION`) if the type can't be made non-nullable, which `can_be_nonnullable` tests.
    #[pyo3(text_signature = "($self)")]
    fn as_nonnullable(&self) -> Made<Self> {
        if !self.dtype.can_be_nonnullable() {
            return Err(Failure::precondition(format!("the type {} can't be made non-nullable", self.dtype)));
        }
        Ok(self.dtype.try_as_nonnullable()?.into())
    }

    /// Returns the type, which is nullable if it was nullable or if `nullable` is true. The types inside it keep their
    /// nullabilities.
    ///
    /// >>> DType("i8?").union_nullability(False)
    /// DType('i8?')
    #[pyo3(text_signature = "($self, nullable)")]
    fn union_nullability(&self, nullable: &PyAny) -> Made<Self> {
        Ok(self.dtype.try_union_nullability(nullability(Optional(Some(nullable)))?)?.into())
    }

    /// The primitive type, or None for a type that isn't primitive.
    #[getter]
    fn ptype<'p>(&self, py: Python<'p>) -> PyResult<Option<&'p PyAny>> {
        match &self.dtype {
            library::DType::Primitive(ptype, _) => Ok(Some(PTYPES.item(py, *ptype as usize)?)),
            _ => Ok(None),
        }
    }

    /// The precision and the scale of a decimal type, or None for another type. The precision is from 1 to 76. The
    /// scale isn't above the precision, and it may be negative.
    #[getter]
    fn decimal_parts(&self) -> Option<(u8, i8)> {
        self.dtype.as_decimal_opt().map(|decimal| (decimal.precision(), decimal.scale()))
    }

    /// The element type of a list or of a fixed-size list, or None for another type.
    #[getter]
    fn element<'p>(&'p self, py: Python<'p>) -> Made<Option<&'p PyAny>> {
        self.part(py, [Kind::List, Kind::FixedSizeList], 0)
    }

    /// The size of a fixed-size list, which is how many elements each of its values has, or None for another type.
    #[getter]
    fn fixed_size(&self) -> Option<u32> {
        match &self.dtype {
            library::DType::FixedSizeList(_, size, _) => Some(*size),
            _ => None,
        }
    }

    /// The key type of a map, or None for another type.
    #[getter]
    fn key<'p>(&'p self, py: Python<'p>) -> Made<Option<&'p PyAny>> {
        self.part(py, [Kind::Map; 2], 0)
    }

    /// The value type of a map, or None for another type.
    #[getter]
    fn value<'p>(&'p self, py: Python<'p>) -> Made<Option<&'p PyAny>> {
        self.part(py, [Kind::Map; 2], 1)
    }

    /// Whether the keys of each map are declared to be sorted, which nothing checks, or None for another type.
    #[getter]
    fn keys_sorted(&self) -> Option<bool> {
        self.dtype.as_map_opt().map(library::MapDType::keys_sorted)
    }

    /// Returns the type of the entries of a map, which is the non-nullable struct with the fields `key` and `value`.
    /// Raises `LibraryError` (`PRECONDITION`) if the type isn't a map.
    ///
    /// >>> DType("map(utf8, i32?, keys_sorted=false)").entries()
    /// DType('{key=utf8, value=i32?}')
    #[pyo3(text_signature = "($self)")]
    fn entries(&self) -> Made<Self> {
        Ok(self.dtype.as_map_opt().ok_or_else(|| self.is_no("map"))?.try_entries_dtype()?.into())
    }

    /// The storage type of an extension, which is the type in which its values are stored, or None for another type.
    #[getter]
    fn storage<'p>(&'p self, py: Python<'p>) -> Made<Option<&'p PyAny>> {
        self.part(py, [Kind::Extension; 2], 0)
    }

    /// The id of an extension, or None for another type.
    #[getter]
    fn id(&self) -> Option<&str> {
        self.dtype.as_extension_opt().map(|extension| extension.id().as_str())
    }

    /// The metadata of an extension, which may have no bytes, or None for another type.
    #[getter]
    fn metadata<'p>(&self, py: Python<'p>) -> Option<&'p PyBytes> {
        self.dtype.as_extension_opt().map(|extension| PyBytes::new(py, extension.metadata_bytes()))
    }

    /// The unit of a date, a time or a timestamp. It is None for every type that `date`, `time` and `timestamp` don't
    /// return, for example for one of these extensions with metadata of another form.
    #[getter]
    fn time_unit<'p>(&self, py: Python<'p>) -> PyResult<Option<&'p PyAny>> {
        // (The library reads timestamps of days too, which no value has.)
        let unit = self.dtype.time_unit().filter(|unit| *unit != TimeUnit::Days || self.dtype.time_zone().is_none());
        unit.map(|unit| TIME_UNITS.item(py, unit as usize)).transpose()
    }

    /// The time zone of a timestamp, which is the empty text if it has none. It is None for every type that `timestamp`
    /// doesn't return.
    #[getter]
    fn time_zone(&self) -> Option<&str> {
        self.dtype.time_zone().filter(|_| self.dtype.time_unit() != Some(TimeUnit::Days))
    }

    /// Returns the number of bytes that each value of the type takes:
    ///
    /// - A value of the null type takes 0 bytes, a Boolean takes 1 byte, and a number takes the bytes of its primitive
    ///   type.
    /// - A decimal takes the bytes of the smallest storage type, from `i8` to `i256`, for its precision. For example,
    ///   `decimal(10,2)` takes 8 bytes, those of `i64`.
    /// - A fixed-size list takes its size times the bytes of its element type, a struct takes the sum of the bytes of
    ///   its fields, and an extension takes the bytes of its storage type.
    ///
    /// Returns None if the type or a part of it is of variable width, which all other types are, for example `utf8`.
    ///
    /// >>> DType("fixed_size_list(i32)[3]").element_size(), DType("utf8").element_size()
    /// (12, None)
    ///
    /// Raises `LibraryError` (`WIDTH_OVERFLOW`, 19) if the type is of fixed width and its width, or the width of a part
    /// of it, is above 2**64 - 1.
    #[pyo3(text_signature = "($self)")]
    fn element_size(&self) -> Made<Option<usize>> {
        Ok(self.dtype.try_element_size()?)
    }

    /// The number of fields of a struct, or None for another type.
    #[getter]
    fn nfields(&self) -> Option<usize> {
        self.dtype.as_struct_fields_opt().map(StructFields::nfields)
    }

    /// The names of the fields of a struct, in order, or None for another type.
    #[getter]
    fn names(&self) -> Option<Vec<&str>> {
        self.dtype.as_struct_fields_opt().map(|fields| fields.names().iter().map(FieldName::as_str).collect())
    }

    /// The fields of a struct, in order, each a pair of a name and a type, or None for another type.
    #[getter]
    fn fields<'p>(&'p self, py: Python<'p>) -> Made<Option<&'p PyList>> {
        self.pairs(py, Kind::Struct)
    }

    fn __len__(&self) -> PyResult<usize> {
        Ok(self.collection()?.nfields())
    }

    fn __bool__(&self) -> bool {
        true
    }

    fn __iter__<'p>(&'p self, py: Python<'p>) -> Made<&'p PyIterator> {
        self.collection()?;
        Ok(PyAny::iter(self.parts(py)?)?)
    }

    /// Returns whether the struct has a field with this name. No field has another name than a text. Raises `TypeError`
    /// if the type isn't a struct.
    fn __contains__(&self, name: &PyAny) -> PyResult<bool> {
        let fields = self.collection()?;
        Ok(PyString::is_type_of(name) && fields.find(text(name, "name")?).is_some())
    }

    /// Returns the type of the first field with this name. Raises `KeyError` if no field has the name, and `TypeError`
    /// if the type isn't a struct.
    fn __getitem__(&self, name: &PyAny) -> Made<Self> {
        match self.collection()?.field(text(name, "name")?) {
            Some(dtype) => Ok(dtype.try_clone()?.into()),
            None => Err(PyKeyError::new_err(PyObject::from(name)).into()),
        }
    }

    /// Returns the name of the field at this index, which is counted from 0, or None if the index isn't below the
    /// number of fields. Raises `IndexError` if the index is negative, and `LibraryError` (`PRECONDITION`) if the type
    /// isn't a struct.
    #[pyo3(text_signature = "($self, index)")]
    fn field_name(&self, index: &PyAny) -> Made<Option<&str>> {
        let index = position(index, "index")?;
        Ok(self.struct_fields()?.field_name(index).map(FieldName::as_str))
    }

    /// Returns the type of the field at this index, as `field_name` returns its name.
    #[pyo3(text_signature = "($self, index)")]
    fn field_by_index(&self, index: &PyAny) -> Made<Option<Self>> {
        let index = position(index, "index")?;
        Self::copied(self.struct_fields()?.field_by_index(index))
    }

    /// Returns the index of the first field with this name, counted from 0, or None if no field has the name. Raises
    /// `LibraryError` (`PRECONDITION`) if the type isn't a struct.
    #[pyo3(text_signature = "($self, name)")]
    fn find(&self, name: &PyAny) -> Made<Option<usize>> {
        let name = text(name, "name")?;
        Ok(self.struct_fields()?.find(name))
    }

    /// Returns the type of the first field with this name, or None if no field has the name. Raises `LibraryError`
    /// (`PRECONDITION`) if the type isn't a struct.
    #[pyo3(text_signature = "($self, name)")]
    fn field(&self, name: &PyAny) -> Made<Option<Self>> {
        let name = text(name, "name")?;
        Self::copied(self.struct_fields()?.field(name))
    }

    /// Returns the struct that has the fields with these names, in the order of the names. If several fields have the
    /// same name, the first of them is selected. The struct has the outer nullability of the original struct.
    ///
    /// >>> DType("{a=i8, b=i16, c=i32}").project(["c", "a"])
    /// DType('{c=i32, a=i8}')
    ///
    /// Raises `FieldNotFound` (16), which is a `KeyError` too, if one of the names isn't the name of any field. The
    /// text of the error has the index of the first such name among the names, counted from 0, and the name. Raises
    /// `LibraryError` (`PRECONDITION`) if the type isn't a struct.
    #[pyo3(text_signature = "($self, names)")]
    fn project(&self, names: &PyAny) -> Made<Self> {
        let names = texts(names, "names")?;
        let given: VortexResult<Vec<FieldName>> = names.iter().map(|name| FieldName::try_new(name)).collect();
        match self.struct_fields()?.project(&given?) {
            Ok(fields) => Ok(library::DType::Struct(fields, self.dtype.nullability()).into()),
            Err(error) => match error {
                VortexError::FieldNotFound { position } => Err(Failure::NotFound(error, names[position].to_owned())),
                error => Err(error.into()),
            },
        }
    }

    /// Returns the struct without the field at this index, which is counted from 0. It has the outer nullability of the
    /// original struct. Raises `IndexOutOfBounds` (17), which is an `IndexError` too, if the index isn't below the
    /// number of fields, with both numbers in its text. Raises `IndexError` if the index is negative, and
    /// `LibraryError` (`PRECONDITION`) if the type isn't a struct.
    ///
    /// >>> DType("{a=i8, b=i16}").without_field(0)
    /// DType('{b=i16}')
    #[pyo3(text_signature = "($self, index)")]
    fn without_field(&self, index: &PyAny) -> Made<Self> {
        let index = position(index, "index")?;
        let fields = self.struct_fields()?.without_field(index)?;
        Ok(library::DType::Struct(fields, self.dtype.nullability()).into())
    }

    /// Returns the struct with one more field at the end. A field of this name that is there already stays, so the name may
    /// repeat. It has the outer nullability of the original struct. Raises `LibraryError` (`PRECONDITION`) if the type isn't
    /// a struct.
    ///
    /// >>> DType("{a=i8}?").push_field("b", "i16")
    /// DType('{a=i8, b=i16}?')
    #[pyo3(text_signature = "($self, name, dtype)")]
    fn push_field(&self, name: &PyAny, dtype: &PyAny) -> Made<Self> {
        let (name, dtype) = (FieldName::try_new(text(name, "name")?)?, part(dtype, "dtype")?);
        self.with_fields(self.struct_fields()?.try_push_field(name, dtype)?)
    }

    /// Returns the struct with one more field at this index, which is counted from 0. The fields from that index on come
    /// after it. If the index is the number of fields, the field is the last. A field of this name that is there already
    /// stays, so the name may repeat. The struct has the outer nullability of the original struct. Raises
    /// `IndexOutOfBounds` (17), which is an `IndexError` too, if the index is above the number of fields, with both numbers
    /// in its text. Raises `IndexError` if the index is negative, and `LibraryError` (`PRECONDITION`) if the type isn't a
    /// struct.
    ///
    /// >>> DType("{a=i8, b=i16}").with_field_at(1, "c", "utf8")
    /// DType('{a=i8, c=utf8, b=i16}')
    #[pyo3(text_signature = "($self, index, name, dtype)")]
    fn with_field_at(&self, index: &PyAny, name: &PyAny, dtype: &PyAny) -> Made<Self> {
        let index = position(index, "index")?;
        let (name, dtype) = (FieldName::try_new(text(name, "name")?)?, part(dtype, "dtype")?);
        self.with_fields(self.struct_fields()?.with_field_at(index, name, dtype)?)
    }

    /// Returns the struct with a field of this name and this type. If a field has the name, the type of the first such
    /// field is replaced, and the field stays where it is. Otherwise the new field is added at the end. The struct has the
    /// outer nullability of the original struct. Raises `LibraryError` (`PRECONDITION`) if the type isn't a struct.
    ///
    /// >>> DType("{a=i8, b=i16}").with_field("a", "utf8")
    /// DType('{a=utf8, b=i16}')
    #[pyo3(text_signature = "($self, name, dtype)")]
    fn with_field(&self, name: &PyAny, dtype: &PyAny) -> Made<Self> {
        let (name, dtype) = (FieldName::try_new(text(name, "name")?)?, part(dtype, "dtype")?);
        self.with_fields(self.struct_fields()?.try_with_field(name, dtype)?)
    }

    /// Returns the struct with other names, with the same types in the same order. `names` is a mapping of old names to new
    /// names, or pairs of them, of which the first with an old name counts. Each field whose name is an old name gets the
    /// new one. All other fields keep their names, and an old name that no field has changes nothing. Names can be swapped.
    /// The struct has the outer nullability of the original struct.
    ///
    /// >>> DType("{a=i8, b=i16}").with_fields_renamed({"a": "b", "b": "a"})
    /// DType('{b=i8, a=i16}')
    ///
    /// Raises `LibraryError`: `DUPLICATE_NAMES` (18) if a name would occur twice, with the first name that repeats in its
    /// text, and `PRECONDITION` if the type isn't a struct. With `allow_repeats=True` names may repeat.
    #[args("*", allow_repeats = "LEFT_OUT")]
    #[pyo3(text_signature = "($self, names, *, allow_repeats=False)")]
    fn with_fields_renamed(&self, names: &PyAny, allow_repeats: Optional<'_>) -> Made<Self> {
        let (renames, allow_repeats) = (renames(names, "names")?, flag(allow_repeats, "allow_repeats")?);
        let fields = self.struct_fields()?;
        if allow_repeats {
            return self.with_fields(fields.try_with_fields_renamed_allowing_repeats(&renames)?);
        }
        match fields.try_with_fields_renamed(&renames)? {
            Ok(fields) => self.with_fields(fields),
            Err(name) => Err(Failure::Library(RepeatedName { name }.into())),
        }
    }

    /// Returns the struct that has the fields of this struct followed by those of `other`. It has the outer nullability
    /// of this struct. Raises `LibraryError`: `PRECONDITION` if one of the two types isn't a struct, and
    /// `DUPLICATE_NAMES` (18) if a name occurs in both structs, or twice in one of them.
    ///
    /// >>> DType("{a=i8}").disjoint_merge("{b=i16}")
    /// DType('{a=i8, b=i16}')
    #[pyo3(text_signature = "($self, other)")]
    fn disjoint_merge(&self, other: &PyAny) -> Made<Self> {
        let other = given::<DType>(other, "other")?;
        let fields = self.struct_fields()?.disjoint_merge(other.struct_fields()?)?;
        Ok(library::DType::Struct(fields, self.dtype.nullability()).into())
    }

    /// Returns the fields as `str` shows them, over several lines. The first line is an opening brace, then each field
    /// has a line that begins with two spaces, and the last line is a closing brace. A struct that is the type of a
    /// field, or the element type of a list, is written over several lines too, with two more spaces. Raises
    /// `LibraryError` (`PRECONDITION`) if the type isn't a struct.
    #[pyo3(text_signature = "($self)")]
    fn indented(&self) -> Made<String> {
        Ok(self.struct_fields()?.try_indented()?.into())
    }

    /// The number of variants of a union, which is from 1 to 256, or None for another type.
    #[getter]
    fn nvariants(&self) -> Option<usize> {
        self.dtype.as_union_variants_opt().map(UnionVariants::len)
    }

    /// The variants of a union, in order, each a pair of a name and a type, or None for another type.
    #[getter]
    fn variants<'p>(&'p self, py: Python<'p>) -> Made<Option<&'p PyList>> {
        self.pairs(py, Kind::Union)
    }

    /// The tags of a union, one byte for each variant, in the order of the variants, or None for another type.
    #[getter]
    fn tags<'p>(&self, py: Python<'p>) -> Option<&'p PyBytes> {
        self.dtype.as_union_variants_opt().map(|variants| PyBytes::new(py, variants.type_ids()))
    }

    /// Returns the name of the variant at this index, which is counted from 0, or None if the index isn't below the
    /// number of variants. Raises `IndexError` if the index is negative, and `LibraryError` (`PRECONDITION`) if the
    /// type isn't a union.
    #[pyo3(text_signature = "($self, index)")]
    fn variant_name(&self, index: &PyAny) -> Made<Option<&str>> {
        let index = position(index, "index")?;
        Ok(self.union_variants()?.names().get(index).map(FieldName::as_str))
    }

    /// Returns the type of the variant at this index, as `variant_name` returns its name.
    #[pyo3(text_signature = "($self, index)")]
    fn variant_by_index(&self, index: &PyAny) -> Made<Option<Self>> {
        let index = position(index, "index")?;
        Self::copied(self.union_variants()?.variant_by_index(index))
    }

    /// Returns the index of the variant with this name, counted from 0, or None if no variant has the name. Raises
    /// `LibraryError` (`PRECONDITION`) if the type isn't a union.
    #[pyo3(text_signature = "($self, name)")]
    fn find_variant(&self, name: &PyAny) -> Made<Option<usize>> {
        let name = text(name, "name")?;
        Ok(self.union_variants()?.find(name))
    }

    /// Returns the type of the variant with this name, or None if no variant has the name. Raises `LibraryError`
    /// (`PRECONDITION`) if the type isn't a union.
    #[pyo3(text_signature = "($self, name)")]
    fn variant_of(&self, name: &PyAny) -> Made<Option<Self>> {
        let name = text(name, "name")?;
        Self::copied(self.union_variants()?.variant(name))
    }

    /// Returns the tag of the variant at this index, as `variant_name` returns its name.
    #[pyo3(text_signature = "($self, index)")]
    fn child_index_to_tag(&self, index: &PyAny) -> Made<Option<u8>> {
        let index = position(index, "index")?;
        Ok(self.union_variants()?.type_ids().get(index).copied())
    }

    /// Returns the index of the variant with this tag, counted from 0, or None if no variant has the tag, also if the
    /// tag isn't from 0 to 255. Raises `LibraryError` (`PRECONDITION`) if the type isn't a union.
    ///
    /// >>> DType("union(a@5=i8, b@9=utf8)").tag_to_child_index(9)
    /// 1
    #[pyo3(text_signature = "($self, tag)")]
    fn tag_to_child_index(&self, tag: &PyAny) -> Made<Option<usize>> {
        let tag = u8::try_from(number(tag, "tag")?).ok();
        let variants = self.union_variants()?;
        Ok(tag.and_then(|tag| variants.tag_to_child_index(tag)))
    }

    /// Whether the tags of a union are 0, 1, 2 and so on in the order of the variants, or None for another type.
    #[getter]
    fn is_consecutive(&self) -> Option<bool> {
        self.dtype.as_union_variants_opt().map(UnionVariants::is_consecutive)
    }

    fn __richcmp__(&self, py: Python<'_>, other: PyRef<'_, Self>, op: CompareOp) -> PyObject {
        match op {
            CompareOp::Eq => (self.dtype == other.dtype).into_py(py),
            CompareOp::Ne => (self.dtype != other.dtype).into_py(py),
            _ => py.NotImplemented(),
        }
    }

    fn __hash__(&self) -> u64 {
        let mut state = DefaultHasher::new();
        self.dtype.hash(&mut state);
        state.finish()
    }

    /// Returns whether the two types are equal except for nullability, at every depth.
    ///
    /// >>> DType("{a=i8?}").eq_ignore_nullability("{a=i8}?")
    /// True
    #[pyo3(text_signature = "($self, other)")]
    fn eq_ignore_nullability(&self, other: &PyAny) -> Made<bool> {
        Ok(self.dtype.eq_ignore_nullability(&given::<DType>(other, "other")?.dtype))
    }

    /// Returns a hash, from 0 to 2**64 - 1, that is the same for types that are equal except for nullability, at every
    /// depth. The hash of a type may differ between versions of the library.
    #[pyo3(text_signature = "($self)")]
    fn hash_ignore_nullability(&self) -> u64 {
        let mut state = DefaultHasher::new();
        self.dtype.hash_ignore_nullability(&mut state);
        state.finish()
    }

    /// Returns whether this type is a subset of `other`. It is a subset if the two are equal except for nullabilities,
    /// and `other` is nullable in each place in which this type is.
    ///
    /// >>> DType("{a=i8}").eq_with_nullability_subset("{a=i8?}")
    /// True
    #[pyo3(text_signature = "($self, other)")]
    fn eq_with_nullability_subset(&self, other: &PyAny) -> Made<bool> {
        Ok(self.dtype.eq_with_nullability_subset(&given::<DType>(other, "other")?.dtype))
    }

    /// Returns whether `other` is a subset of this type, as `eq_with_nullability_subset` defines it.
    #[pyo3(text_signature = "($self, other)")]
    fn eq_with_nullability_superset(&self, other: &PyAny) -> Made<bool> {
        Ok(self.dtype.eq_with_nullability_superset(&given::<DType>(other, "other")?.dtype))
    }

    /// Returns the least type of which both types are subsets, as `eq_with_nullability_subset` defines it. It is
    /// nullable in each place in which one of the two is. Returns None if the types differ in more than nullabilities.
    ///
    /// >>> DType("{a=i8, b=i8?}").merge_nullability("{a=i8?, b=i8}")
    /// DType('{a=i8?, b=i8?}')
    ///
    /// `merge_columns` also merges structs with different columns.
    #[pyo3(text_signature = "($self, other)")]
    fn merge_nullability(&self, other: &PyAny) -> Made<Option<Self>> {
        let other = given::<DType>(other, "other")?;
        Ok(self.dtype.try_merge_nullability(&other.dtype)?.map(Self::from))
    }

    /// Returns the greatest type that is a subset of both types, as `eq_with_nullability_subset` defines it. It is
    /// nullable only in those places in which both are. Returns None if the types differ in more than nullabilities.
    ///
    /// >>> DType("{a=i8, b=i8?}").intersect_nullability("{a=i8?, b=i8}")
    /// DType('{a=i8, b=i8}')
    #[pyo3(text_signature = "($self, other)")]
    fn intersect_nullability(&self, other: &PyAny) -> Made<Option<Self>> {
        let other = given::<DType>(other, "other")?;
        Ok(self.dtype.try_intersect_nullability(&other.dtype)?.map(Self::from))
    }

    /// Returns whether this type can be read as `other`: whether a reader makes a value of `other` from each value of this
    /// type by adding nulls for the columns that it lacks, and by putting the columns into the order of `other`. A program
    /// that has a table tests with it whether a file can be read as this table.
    ///
    /// - A struct can be read as a struct that has its fields, in any order, and further ones that are nullable. Each field
    ///   must be readable, by these rules, as the field of its name.
    /// - `null` can be read as every nullable type.
    /// - Lists, fixed-size lists of the same size, maps, and extensions with the same id and the same metadata can be read
    ///   as each other if their parts can. A map can be read as one that declares sorted keys only if it declares them
    ///   too, and if the two key types are equal except for nullabilities.
    /// - A union can be read as a union that has its variants, in any order, and further ones. A variant is found by its
    ///   tag and its name. A struct in which a name repeats can be read as one with the same names in the same order.
    /// - With `widening="integers"`, an integer type can be read as an integer type that has all its values, and a decimal
    ///   as a decimal of the same scale and a greater precision. Otherwise a type of numbers can be read as the same type
    ///   only.
    /// - All other types can be read as the types of which they are subsets (`eq_with_nullability_subset`). So
    ///   floating-point types are never widened.
    /// - In each place, at every depth, `other` must be nullable if this type is.
    ///
    /// >>> file, table = DType("{b=utf8, a=i32}"), DType("{a=i32, b=utf8?, c=u8?}")
    /// >>> file.reads_as(table), table.reads_as(file)
    /// (True, False)
    /// >>> file.reads_as("{a=i64, b=utf8}"), file.reads_as("{a=i64, b=utf8}", widening="integers")
    /// (False, True)
    ///
    /// Raises `ValueError` if `widening` is neither `"none"` nor `"integers"`.
    #[args("*", widening = "LEFT_OUT")]
    #[pyo3(text_signature = "($self, other, *, widening='none')")]
    fn reads_as(&self, other: &PyAny, widening: Optional<'_>) -> Made<bool> {
        let (other, widening) = (given::<DType>(other, "other")?, self::widening(widening)?);
        Ok(self.dtype.reads_as(&other.dtype, widening))
    }

    /// Returns the least type as which values of both types can be read, or None if there is no such type. A program
    /// that reads several files as one table needs this type if the files have different columns. `merge_all` merges
    /// more than two types.
    ///
    /// - A struct has the fields of the first type in their order, and then those that only the second has. A field
    ///   that both have is merged by these rules. A field that only one of the two has is nullable.
    /// - `null` can be merged with every type, which is made nullable.
    /// - Lists, fixed-size lists of the same size, maps, and extensions with the same id and the same metadata are
    ///   merged by their parts. Maps whose merged key type would be nullable can't be merged. The merged map declares
    ///   sorted keys only if both maps do, and if their key types are equal except for nullabilities.
    /// - A union has the variants of the first type in their order, and then those that only the second has. A variant
    ///   that both have, with the same tag and the same name, is merged by these rules. A variant that only one of the
    ///   two has stays as it is. Unions in which a tag has two names, or a name has two tags, can't be merged.
    /// - Structs in which a name repeats are merged field by field, if both have the same names in the same order,
    ///   because their columns can't be told apart by name.
    /// - With `widening="integers"`, two integer types are merged to the narrowest integer type that has all values of
    ///   both, if there is one: `i32` and `i64` to `i64`, and `u8` and `i8` to `i16`. Two decimals of the same scale are
    ///   merged to the one with the greater precision. Otherwise numbers are merged only if their types are the same.
    /// - All other types are merged as `merge_nullability` merges them. So floating-point types are never widened.
    /// - A type that isn't an extension is nullable if one of the two is, at every depth.
    ///
    /// >>> DType("{a=i32, b=utf8}").merge_columns("{c=u8, a=i32?}")
    /// DType('{a=i32?, b=utf8?, c=u8?}')
    /// >>> DType("{a=i32}").merge_columns("{a=i64}", widening="integers")
    /// DType('{a=i64}')
    ///
    /// Raises `ValueError` if `widening` is neither `"none"` nor `"integers"`.
    #[args("*", widening = "LEFT_OUT")]
    #[pyo3(text_signature = "($self, other, *, widening='none')")]
    fn merge_columns(&self, other: &PyAny, widening: Optional<'_>) -> Made<Option<Self>> {
        let (other, widening) = (given::<DType>(other, "other")?, self::widening(widening)?);
        Ok(self.dtype.try_merge_columns(&other.dtype, widening)?.map(Self::from))
    }

    /// Returns the first place at which the two types can't be merged by `merge_columns` with the same `widening`, or None
    /// if they can be merged. The conflict has the path to this place, and the types at this place in this type and in `other`. The
    /// first place is the first one in the order of the fields of this type. A path leads only into structs, lists and
    /// fixed-size lists, so if the keys or values of two maps can't be merged, it is the path to the maps. The same is
    /// true of unions, extensions, and structs in which a name repeats. The conflict is returned, and not raised.
    ///
    /// >>> conflict = DType("{customer={id=u64}}").merge_conflict("{customer={id=utf8, city=utf8}}")
    /// >>> conflict.path, conflict.left, conflict.right
    /// (FieldPath('customer.id'), DType('u64'), DType('utf8'))
    ///
    /// Raises `ValueError` if `widening` is neither `"none"` nor `"integers"`.
    #[args("*", widening = "LEFT_OUT")]
    #[pyo3(text_signature = "($self, other, *, widening='none')")]
    fn merge_conflict<'p>(&self, py: Python<'p>, other: &PyAny, widening: Optional<'_>) -> Made<Option<&'p PyAny>> {
        let (other, widening) = (given::<DType>(other, "other")?, self::widening(widening)?);
        let conflict = self.dtype.try_merge_conflict(&other.dtype, widening)?;
        Ok(conflict.map(|conflict| exception_of(py, conflict)).transpose()?)
    }

    /// Returns the least type as which values of all of these types can be read, such as the schemas of several files:
    /// the first two, merged by `merge_columns` with this `widening`, then the result with the third, and so on. Returns
    /// None if `types` has no type. The order of the types decides only the order of the columns. All types are taken from `types` before
    /// the first two are merged. Raises `MergeConflict` with the first type that can't be merged with those before it.
    ///
    /// >>> DType.merge_all(["{id=u64}", "{note=utf8, id=u64}", "{id=u64?}"])
    /// DType('{id=u64?, note=utf8?}')
    /// >>> DType.merge_all(["{id=i16}", "{id=u8}", "{id=i32}"], widening="integers")
    /// DType('{id=i32}')
    ///
    /// Raises `ValueError` if `widening` is neither `"none"` nor `"integers"`.
    #[staticmethod]
    #[args("*", widening = "LEFT_OUT")]
    #[pyo3(text_signature = "(types, *, widening='none')")]
    fn merge_all(py: Python<'_>, types: &PyAny, widening: Optional<'_>) -> Made<Option<Self>> {
        let widening = self::widening(widening)?;
        if DType::is_type_of(types) {
            return Err(wrong("types", "an iterable of DType and str", types).into());
        }
        let one = |(at, item): (usize, PyResult<_>)| given::<DType>(item?, format_args!("types[{at}]"));
        let types: Made<Vec<_>> = items(types, "types", "DType and str")?.enumerate().map(one).collect();
        match library::DType::try_merge_all(types?.iter().map(|it| &it.dtype), widening)? {
            Ok(merged) => Ok(merged.map(Self::from)),
            Err(conflict) => Err(PyErr::from_value(exception_of(py, conflict)?).into()),
        }
    }

    /// Returns the part of the type to which these paths lead. It is the schema of the columns that a reader of these
    /// paths has to open. The type at the end of a path is kept whole. A struct on the way keeps only the fields to
    /// which a path leads, in its own order. Returns None if none of the paths exists in the type.
    ///
    /// >>> DType("{a=i8, b={c=i8, d=i8}}").project_paths(["b.c", "e"])
    /// DType('{b={c=i8}}')
    #[pyo3(text_signature = "($self, paths)")]
    fn project_paths(&self, paths: &PyAny) -> Made<Option<Self>> {
        if let Ok(set) = paths.downcast::<PyCell<FieldPathSet>>() {
            return Ok(self.dtype.try_project_paths(&set.borrow().paths)?.map(Self::from));
        }
        let paths = library::FieldPathSet::try_from_iter(self::paths(paths, "paths")?)?;
        Ok(self.dtype.try_project_paths(&paths)?.map(Self::from))
    }

    /// Returns the type without the parts to which these paths lead, or None if nothing is left. A path that doesn't exist
    /// in the type changes nothing. If several fields of a struct have the same name, a path leads to each of them here. A
    /// struct that loses all its fields stays, without fields, and a list goes with its element.
    ///
    /// >>> DType("{id=u32, card={number=utf8}?, lines=list({sku=utf8})}").without_paths(["card.number", "lines.[].sku"])
    /// DType('{id=u32, card={}?, lines=list({})}')
    /// >>> print(DType("{id=u32}").without_paths(["."]))
    /// None
    #[pyo3(text_signature = "($self, paths)")]
    fn without_paths(&self, paths: &PyAny) -> Made<Option<Self>> {
        if let Ok(set) = paths.downcast::<PyCell<FieldPathSet>>() {
            return Ok(self.dtype.try_without_paths(&set.borrow().paths)?.map(Self::from));
        }
        let paths = library::FieldPathSet::try_from_iter(self::paths(paths, "paths")?)?;
        Ok(self.dtype.try_without_paths(&paths)?.map(Self::from))
    }

    /// Returns the type with the part at the path replaced by `new`, or None if there is no part at the path. If several
    /// fields of a struct have the same name, the first is replaced. Every other part keeps its nullability.
    ///
    /// >>> DType("{id=u32, lines=list({sku=utf8})?}").with_type_at("lines.[].sku", "u64")
    /// DType('{id=u32, lines=list({sku=u64})?}')
    /// >>> print(DType("{id=u32}").with_type_at("price", "u64"))
    /// None
    #[pyo3(text_signature = "($self, path, new)")]
    fn with_type_at(&self, path: &PyAny, new: &PyAny) -> Made<Option<Self>> {
        let (path, new) = (given::<FieldPath>(path, "path")?, given::<Self>(new, "new")?);
        Ok(self.dtype.try_with_type_at(&path.path, &new.dtype)?.map(Self::from))
    }

    /// Returns the leaves of the type, which are the paths to the parts into which no step leads further: a step leads
    /// into a list, and none leads into a struct without fields, a map, a union or an extension. If several fields of a
    /// struct have the same name, a path leads to the first of them, so the others have no leaves. A path exists in the
    /// type exactly if it is a prefix of a leaf.
    ///
    /// >>> sorted(DType("{id=u32, lines=list({sku=utf8, price=f32})?}").leaf_paths())
    /// [FieldPath('id'), FieldPath('lines.[].price'), FieldPath('lines.[].sku')]
    #[pyo3(text_signature = "($self)")]
    fn leaf_paths(&self) -> Made<FieldPathSet> {
        Ok(self.dtype.try_leaf_paths()?.into())
    }

    /// Returns the list of what differs between this type and a later one: the parts that are changed, removed and added,
    /// each with its path and its types before and after. There is no difference exactly if the two types are equal.
    ///
    /// >>> old, new = DType("{a=i32, b={x=u8}}"), DType("{b={x=i8, y=u8}}")
    /// >>> for path, before, after in old.differences(new):
    /// ...     print(path.to_source(), before, after)
    /// a i32 None
    /// b.x u8 i8
    /// b.y None u8
    ///
    /// A part below a listed part isn't listed. The list is in the order of the fields before, and in each struct those that
    /// are added come last. Maps, unions and extensions are changed as a whole, because no path leads into them. So are two
    /// structs if a name repeats in one of them, or if the fields that both have are in another order.
    ///
    /// With `ignore_nullability=True` types are compared without their nullabilities, and with `ignore_order=True` the order
    /// of the fields of a struct isn't compared, if no name repeats in it.
    ///
    /// >>> [it.path for it in DType("{a=i32, b=u8}").differences("{b=u16, a=i32?}", ignore_nullability=True, ignore_order=True)]
    /// [FieldPath('b')]
    #[args("*", ignore_nullability = "LEFT_OUT", ignore_order = "LEFT_OUT")]
    #[pyo3(text_signature = "($self, other, *, ignore_nullability=False, ignore_order=False)")]
    fn differences<'p>(
        &self,
        py: Python<'p>,
        other: &PyAny,
        ignore_nullability: Optional<'_>,
        ignore_order: Optional<'_>,
    ) -> Made<&'p PyList> {
        let other = given::<DType>(other, "other")?;
        let ignoring = Ignoring {
            nullability: flag(ignore_nullability, "ignore_nullability")?,
            order: flag(ignore_order, "ignore_order")?,
        };
        let object = |dtype: Option<&library::DType>| -> Made<PyObject> {
            Ok(dtype.map(|it| it.try_clone().map(Self::from)).transpose()?.into_py(py))
        };
        let found = self.dtype.try_differences_ignoring(&other.dtype, ignoring)?.into_iter();
        let one = |it: library::Difference<'_>| -> Made<&'p PyAny> {
            let path = FieldPath::from(it.path).into_py(py);
            Ok(DIFFERENCE.get(py)?.call1((path, object(it.before)?, object(it.after)?))?)
        };
        Ok(PyList::new(py, found.map(one).collect::<Made<Vec<_>>>()?))
    }

    /// Returns the parts of the type, which are the types to which paths lead, each as a pair of its path and itself. The
    /// type itself is the first, at the root. A part comes before the parts inside of it, and the fields of a struct are
    /// in order. If several fields of a struct have the same name, a path leads to the first of them, so the others are
    /// left out. No path leads into a map, a union or an extension.
    ///
    /// >>> for path, part in DType("{id=u32, lines=list({sku=utf8})?}").parts():
    /// ...     print(path.to_source(), part.kind.name)
    /// . STRUCT
    /// id PRIMITIVE
    /// lines LIST
    /// lines.[] STRUCT
    /// lines.[].sku UTF8
    #[pyo3(name = "parts", text_signature = "($self)")]
    fn all_parts<'p>(&self, py: Python<'p>) -> Made<&'p PyList> {
        let pair = |(path, part): (library::FieldPath, &library::DType)| -> Made<PyObject> {
            let (path, part) = (FieldPath::from(path), Self::from(part.try_clone()?));
            Ok((Py::new(py, path)?, Py::new(py, part)?).into_py(py))
        };
        let parts: Made<Vec<_>> = self.dtype.parts().map(pair).collect();
        Ok(PyList::new(py, parts?))
    }

    /// Returns the type of an Arrow schema, field or type, of a table, a data frame or an array, or of anything else that
    /// has the method `__arrow_c_schema__`, `__arrow_c_array__` or `__arrow_c_stream__`, such as those of pyarrow, polars,
    /// DuckDB and nanoarrow. It also takes what such a method returned. What is read stays as it is.
    ///
    /// The type of a table or a data frame is a struct of its columns. Arrow marks most types as nullable, so they are
    /// nullable here too: for example, `pyarrow.int32()` is read as `i32?`.
    ///
    /// >>> DType.from_arrow(DType("{id=u64, city=utf8?}"))
    /// DType('{id=u64, city=utf8?}')
    ///
    /// Views, large types, dictionaries and run-end encoded types are read as plain types, and dates, times and
    /// timestamps as those of `date`, `time` and `timestamp`.
    ///
    /// Raises `LibraryError`:
    ///
    /// - `ARROW` if a field has no type here, such as one with a format that isn't Arrow's. The text of the error begins
    ///   with the path of the field and has its format. It is also raised if the schema or the stream was released, or if
    ///   the stream has no schema.
    /// - `TOO_DEEP` if the type has more than 128 levels
    /// - the error of `decimal`, `map_` or `union` if they refuse the parts of a field, such as a decimal with 77 digits.
    ///   The text of these two errors begins with the path of the field, too.
    #[staticmethod]
    #[pyo3(text_signature = "(source)")]
    fn from_arrow(source: &PyAny) -> Made<Self> {
        Ok(arrow::dtype_of(source)?.into())
    }

    /// Returns the type that `from_arrow` returns, and the metadata of the schema and of its fields: a list with a path, a
    /// key and a value for each key, in the order of the fields. A type itself has no metadata.
    ///
    /// A path is a tuple of the names that lead to a field, and is empty for the schema itself. The names are those with
    /// which a type is written: in a list the element is `item`, and in a map the key is `key` in `entries`, and the value
    /// `value`. The two keys that make an extension type of a field aren't in the list, because they are in the type.
    ///
    /// >>> schema = DType("{id=u64, city=utf8?}").to_arrow([(["city"], b"PARQUET:field_id", b"2")])
    /// >>> DType.from_arrow_with_metadata(schema)
    /// (DType('{id=u64, city=utf8?}'), [(('city',), b'PARQUET:field_id', b'2')])
    ///
    /// Metadata of what is no field of the type isn't read: that of the values of a dictionary or of a run-end encoded
    /// type, that of run ends, and that of a field of a struct in which an earlier field has the same name. Raises the
    /// errors of `from_arrow`, and `LibraryError` (`ARROW`) if the list would take more than 2**31 bytes of memory.
    #[staticmethod]
    #[pyo3(text_signature = "(source)")]
    fn from_arrow_with_metadata<'p>(py: Python<'p>, source: &PyAny) -> Made<(Self, &'p PyList)> {
        let (dtype, metadata) = arrow::dtype_and_metadata_of(source)?;
        Ok((dtype.into(), arrow_field::list_of(py, &metadata)))
    }

    /// Returns the type of the `struct ArrowSchema` at this address, for libraries that export it by its address: GDAL
    /// through `ctypes`, and pyarrow by `_export_to_c`. Who made the struct releases it afterwards. Raises the errors of
    /// `from_arrow`, and `LibraryError` (`OUT_OF_RANGE`) for an address at which no struct can be: one that isn't from
    /// 1 to 2**64 - 1, or that isn't a multiple of 8.
    ///
    /// If something else is at the address, the interpreter may crash, which no call can test.
    #[staticmethod]
    #[pyo3(text_signature = "(address)")]
    fn from_arrow_address(address: &PyAny) -> Made<Self> {
        Ok(arrow::dtype_at(number(address, "address")?)?.into())
    }

    /// Returns the type as an Arrow field, in a capsule that pyarrow, polars and others read. For example,
    /// `pyarrow.schema(dtype)` reads a struct as a schema, and `pyarrow.field(dtype)` any type as a field. Raises
    /// `LibraryError` (`ARROW`) if a part of the type can't be written, such as `variant`, with the path of the part in
    /// the text of the error.
    #[pyo3(text_signature = "($self)")]
    fn __arrow_c_schema__<'p>(&self, py: Python<'p>) -> Made<&'p PyAny> {
        arrow::capsule_of(py, self.dtype.to_arrow()?)
    }

    /// Returns the type with metadata, as an object that pyarrow, polars and others read as a schema or as a field: it has
    /// the method `__arrow_c_schema__`, as a type has. For example, `pyarrow.schema(dtype.to_arrow(metadata))` is a schema
    /// with metadata. `metadata` is a list as `from_arrow_with_metadata` returns it, with a path, a key and a value for each
    /// key.
    ///
    /// >>> DType.from_arrow_with_metadata(DType("u8").to_arrow([((), b"key", b"value")]))
    /// (DType('u8'), [((), b'key', b'value')])
    ///
    /// If `like` is there, which is anything that `from_arrow` takes, the type is written in its forms. A form is what is
    /// lost when a type is read: large and view types, list views, the width of a decimal, whether a union is dense,
    /// dictionaries, run ends, whether bytes of one length are a list, and the names of the fields inside lists and maps. A
    /// part of the type has the form that `like` has at the same path, if it has the same type there, without regard of
    /// nullabilities and of what is in it. Fields of structs and variants of unions are found by their names. All other
    /// parts are written as without `like`. For example, `table.cast(pyarrow.schema(dtype.to_arrow(like=table)))` changes
    /// nothing of the columns in which the types agree. `from_arrow` returns the same type for what is written.
    ///
    /// Raises `LibraryError` (`ARROW`) if a part of the type can't be written, if a path leads to no field, if a key is one of
    /// the two keys of extension types, or if a key or a value has more than 2**31 - 1 bytes. The text of the error begins
    /// with the path. Of `like` the errors of `from_arrow` are raised.
    #[args(metadata = "LEFT_OUT", like = "LEFT_OUT")]
    #[pyo3(text_signature = "($self, metadata=(), like=None)")]
    fn to_arrow(&self, metadata: Optional<'_>, like: Optional<'_>) -> Made<ArrowField> {
        let metadata = metadata.0.map_or(Ok(Vec::new()), arrow_field::metadata_of)?;
        let schema = match like.0.filter(|it| !it.is_none()) {
            Some(original) => arrow::schema_like(original, &self.dtype, &metadata)?,
            None => self.dtype.to_arrow_with_metadata(&metadata)?,
        };
        Ok(ArrowField { schema })
    }

    /// Returns the type that the message describes. No plugin is registered, so no id of an extension is known. If
    /// `allow_unknown` is true, an extension keeps its metadata.
    ///
    /// >>> DType.from_proto(Message([Node(kind=7, has_first=1), Node(kind=5)], b""))
    /// DType('list(utf8)')
    ///
    /// If the message describes no type, it raises `LibraryError` with the kind of the message's first fault:
    ///
    /// - `TYPE_MISSING` (24) for a message without a kind, and one of the kinds 25 to 34 in the docstring of
    ///   `ErrorKind` for a number that is out of its range, for a part that is missing, or for a struct with more or
    ///   fewer types than names
    /// - the error of `decimal`, `map_` or `union` if they refuse what the message describes, or `UNION_TYPES_LENGTH`
    ///   (10) for a union with more or fewer types than names
    /// - `EXTENSION_UNREGISTERED` (35) for an extension, if `allow_unknown` is false
    #[staticmethod]
    #[args(allow_unknown = "LEFT_OUT")]
    #[pyo3(text_signature = "(message, allow_unknown=False)")]
    fn from_proto(message: &PyAny, allow_unknown: Optional<'_>) -> Made<Self> {
        let message = object::<Message>(message, "message")?;
        Ok(library::DType::from_proto(&message.message, &session(allow_unknown)?)?.into())
    }

    /// Returns the message that describes the type. `from_proto` returns the same type for it. If the type has an
    /// extension in it, `allow_unknown` must be true for that.
    ///
    /// >>> DType("utf8?").to_proto()
    /// Message([Node(kind=5, nullable=1)], b'')
    #[pyo3(text_signature = "($self)")]
    fn to_proto(&self) -> Made<Message> {
        Ok(self.dtype.try_to_proto()?.into())
    }

    /// Returns the text of the type in the form of the console. `DType` reads it as the same type.
    ///
    /// >>> DType.struct({"a, b": "i8"}).to_source()
    /// '{"a, b"=i8}'
    #[pyo3(text_signature = "($self)")]
    fn to_source(&self) -> Made<String> {
        Ok(self.dtype.try_to_source()?)
    }

    fn __str__(&self) -> String {
        self.dtype.to_string()
    }

    fn __repr__(&self, py: Python<'_>) -> Made<String> {
        Ok(format!("DType({})", PyString::new(py, &self.to_source()?).repr()?))
    }
}

/// Returns the exception that types can't be merged.
fn exception_of(py: Python<'_>, conflict: MergeConflict) -> PyResult<&PyAny> {
    let MergeConflict { path, left, right, index } = conflict;
    let (left, right) = (DType::from(left).into_py(py), DType::from(right).into_py(py));
    MERGE_CONFLICT.get(py)?.call1((FieldPath::from(path).into_py(py), left, right, index))
}
