// SPDX-License-Identifier: Apache-2.0
// SPDX-FileCopyrightText: Copyright the Vortex contributors

//! Types: constructors that take what converts to their parts, and comparisons with references.

use super::or_abort;
use crate::dtype_base::{FieldName, Nullability, PType, VortexResult};
use crate::dtype_paths::{FieldPath, FieldPathSet};
use crate::dtype_types::{self, DType, FieldDType, Kind};

// A type is small, because vectors contain types by value: a discriminant and a pointer, with what fits beside them.
const _: () = assert!(size_of::<DType>() == 16);

impl DType {
    /// Returns the type of lists of any length whose elements are of the type `element`.
    ///
    /// ```
    /// use vortex_logical_types::{DType, Nullability::Nullable, PType};
    ///
    /// assert_eq!(DType::list(PType::I32, Nullable).to_string(), "list(i32)?");
    /// ```
    #[must_use]
    pub fn list(element: impl Into<DType>, nullability: Nullability) -> Self {
        or_abort(Self::try_list(element.into(), nullability))
    }

    /// Returns the type of lists of exactly `size` elements of the type `element`.
    ///
    /// ```
    /// use vortex_logical_types::{DType, Nullability::NonNullable, PType};
    ///
    /// let vectors = DType::fixed_size_list(PType::F32, 768, NonNullable);
    /// assert_eq!(vectors.to_string(), "fixed_size_list(f32)[768]");
    /// ```
    #[must_use]
    pub fn fixed_size_list(element: impl Into<DType>, size: u32, nullability: Nullability) -> Self {
        or_abort(Self::try_fixed_size_list(element.into(), size, nullability))
    }

    /// Returns the type of maps with this key type and this value type. The flag `keys_sorted` declares that the keys of
    /// each map are sorted. The call stores the flag, and nothing checks that it is so.
    ///
    /// ```
    /// use vortex_logical_types::{DType, Nullability::{NonNullable, Nullable}, PType};
    ///
    /// let counts = DType::map(DType::Utf8(NonNullable), PType::I32, true, Nullable)?;
    /// assert_eq!(counts.to_string(), "map(utf8, i32, keys_sorted=true)?");
    /// # Ok::<(), vortex_logical_types::Error>(())
    /// ```
    ///
    /// # Errors
    ///
    /// - `MapKeyNullable` (9): the key type is nullable.
    /// - `OutOfMemory` (0): an allocation fails.
    pub fn map(
        key: impl Into<DType>,
        value: impl Into<DType>,
        keys_sorted: bool,
        nullability: Nullability,
    ) -> VortexResult<Self> {
        Self::map_of(key.into(), value.into(), keys_sorted, nullability)
    }

    /// Returns the struct type of the fields that an iterator yields, in order. Each item is a name and a type. A name
    /// may be a text, and a type may be a primitive type.
    ///
    /// ```
    /// use vortex_logical_types::{DType, Nullability::{NonNullable, Nullable}};
    ///
    /// let orders = DType::struct_([("id", DType::Bool(NonNullable)), ("note", DType::Utf8(Nullable))], NonNullable);
    /// assert_eq!(orders.to_string(), "{id=bool, note=utf8?}");
    /// ```
    #[must_use]
    pub fn struct_<N: Into<FieldName>, D: Into<FieldDType>>(
        fields: impl IntoIterator<Item = (N, D)>,
        nullability: Nullability,
    ) -> Self {
        Self::Struct(fields.into_iter().collect(), nullability)
    }

    /// Returns the number of bytes of each value of the type, or `None` if values of the type take different numbers of
    /// bytes. For example, it returns 4 for `i32` and for a date that is stored as `i32`, and `None` for `utf8`.
    ///
    /// ```
    /// use vortex_logical_types::{DType, Nullability::NonNullable, PType};
    ///
    /// assert_eq!(DType::fixed_size_list(PType::F64, 1000, NonNullable).element_size(), Some(8000));
    /// assert_eq!(DType::Utf8(NonNullable).element_size(), None);
    /// ```
    ///
    /// # Panics
    ///
    /// If the number is above `usize::MAX`. `try_element_size` returns an error in this case.
    #[must_use]
    pub fn element_size(&self) -> Option<usize> {
        self.try_element_size()
            .unwrap_or_else(|error| panic!("{error}: {self}"))
    }

    /// Returns the primitive type if this is a `Primitive`, and `None` otherwise.
    ///
    /// ```
    /// use vortex_logical_types::{DType, PType};
    ///
    /// assert_eq!(DType::from(PType::I32).as_ptype_opt(), Some(PType::I32));
    /// assert_eq!(DType::Null.as_ptype_opt(), None);
    /// ```
    #[must_use]
    pub fn as_ptype_opt(&self) -> Option<PType> {
        match self {
            Self::Primitive(ptype, _) => Some(*ptype),
            _ => None,
        }
    }

    /// Returns the number of elements of each list if this is a `FixedSizeList`, and `None` otherwise.
    ///
    /// ```
    /// use vortex_logical_types::{DType, Nullability::NonNullable, PType};
    ///
    /// assert_eq!(DType::fixed_size_list(PType::U8, 20, NonNullable).as_fixed_size_opt(), Some(20));
    /// ```
    #[must_use]
    pub fn as_fixed_size_opt(&self) -> Option<u32> {
        match self {
            Self::FixedSizeList(_, size, _) => Some(*size),
            _ => None,
        }
    }

    /// Returns the least type of which both types are subsets, or `None` if the types differ in more than
    /// nullabilities. At every depth, it is nullable if either of the two is.
    ///
    /// ```
    /// use vortex_logical_types::DType;
    ///
    /// let (one, other): (DType, DType) = ("{a=i32?, b=utf8}".parse()?, "{a=i32, b=utf8?}".parse()?);
    /// assert_eq!(one.merge_nullability(&other), Some("{a=i32?, b=utf8?}".parse()?));
    /// # Ok::<(), vortex_logical_types::Error>(())
    /// ```
    #[must_use]
    pub fn merge_nullability(&self, other: &Self) -> Option<Self> {
        or_abort(self.try_merge_nullability(other))
    }

    /// Returns what `merge_nullability` returns.
    ///
    /// # Errors
    ///
    /// - `OutOfMemory` (0): an allocation fails, or a reference count is at its maximum.
    pub fn try_merge_nullability(&self, other: &Self) -> VortexResult<Option<Self>> {
        dtype_types::try_merge_nullability(self, other)
    }

    /// Returns the greatest type that is a subset of both types, or `None` if the types differ in more than
    /// nullabilities. At every depth, it is nullable if both of the two are.
    ///
    /// ```
    /// use vortex_logical_types::DType;
    ///
    /// let (one, other): (DType, DType) = ("{a=i32?, b=utf8?}".parse()?, "{a=i32, b=utf8?}".parse()?);
    /// assert_eq!(one.intersect_nullability(&other), Some("{a=i32, b=utf8?}".parse()?));
    /// # Ok::<(), vortex_logical_types::Error>(())
    /// ```
    #[must_use]
    pub fn intersect_nullability(&self, other: &Self) -> Option<Self> {
        or_abort(self.try_intersect_nullability(other))
    }

    /// Returns what `intersect_nullability` returns.
    ///
    /// # Errors
    ///
    /// - `OutOfMemory` (0): an allocation fails, or a reference count is at its maximum.
    pub fn try_intersect_nullability(&self, other: &Self) -> VortexResult<Option<Self>> {
        dtype_types::try_intersect_nullability(self, other)
    }

    /// Returns the least part of the type in which the paths of the set lead to the same types as in the whole type, or
    /// `None` if none of the paths of the set exists in the type.
    ///
    /// ```
    /// use vortex_logical_types::{DType, FieldPathSet};
    ///
    /// let orders: DType = "{id=u64, customer={city=utf8?, name=utf8}}".parse()?;
    /// let wanted = FieldPathSet::parse(["customer.city"])?;
    /// assert_eq!(orders.project_paths(&wanted), Some("{customer={city=utf8?}}".parse()?));
    /// # Ok::<(), vortex_logical_types::Error>(())
    /// ```
    #[must_use]
    pub fn project_paths(&self, paths: &FieldPathSet) -> Option<Self> {
        or_abort(self.try_project_paths(paths))
    }

    /// Returns what `project_paths` returns.
    ///
    /// # Errors
    ///
    /// - `OutOfMemory` (0): an allocation fails, or a reference count is at its maximum.
    pub fn try_project_paths(&self, paths: &FieldPathSet) -> VortexResult<Option<Self>> {
        crate::dtype_projection::try_project_paths(self, paths)
    }

    /// Returns the type without the parts to which the paths lead, or `None` if nothing is left. It is the complement of
    /// `project_paths`. A path that doesn't exist in the type changes nothing.
    ///
    /// If several fields of a struct have the same name, a path leads to each of them here. A struct that loses all its
    /// fields stays, without fields. A list goes with its element, because a list without one isn't a type. So nothing is
    /// left exactly if a path of element steps alone, such as the root, is in the set and exists in the type.
    ///
    /// ```
    /// use vortex_logical_types::{DType, FieldPathSet};
    ///
    /// let orders: DType = "{id=u32, card={number=utf8}?, lines=list({sku=utf8, note=utf8?})}".parse()?;
    /// let hidden = FieldPathSet::parse(["card.number", "lines.[].note"])?;
    /// assert_eq!(orders.without_paths(&hidden), Some("{id=u32, card={}?, lines=list({sku=utf8})}".parse()?));
    /// assert_eq!(orders.without_paths(&FieldPathSet::parse(["."])?), None);
    /// # Ok::<(), vortex_logical_types::Error>(())
    /// ```
    #[must_use]
    pub fn without_paths(&self, paths: &FieldPathSet) -> Option<Self> {
        or_abort(self.try_without_paths(paths))
    }

    /// Returns what `without_paths` returns.
    ///
    /// # Errors
    ///
    /// - `OutOfMemory` (0): an allocation fails, or a reference count is at its maximum.
    pub fn try_without_paths(&self, paths: &FieldPathSet) -> VortexResult<Option<Self>> {
        crate::dtype_edits::try_without_paths(self, paths)
    }

    /// Returns the type with the part at the path replaced by `new`, or `None` if there is no part at the path. If several
    /// fields of a struct have the same name, the first is replaced. The new type has its own nullability, and every other
    /// part keeps its own. At the root it returns a copy of `new`.
    ///
    /// ```
    /// use vortex_logical_types::{DType, PType, field_path};
    ///
    /// let orders: DType = "{id=u32, lines=list({sku=utf8})?}".parse()?;
    /// let wider = orders.with_type_at(&field_path!(id), &PType::U64.into());
    /// assert_eq!(wider, Some("{id=u64, lines=list({sku=utf8})?}".parse()?));
    /// assert_eq!(orders.with_type_at(&field_path!(price), &PType::U64.into()), None);
    /// # Ok::<(), vortex_logical_types::Error>(())
    /// ```
    #[must_use]
    pub fn with_type_at(&self, path: &FieldPath, new: &Self) -> Option<Self> {
        or_abort(self.try_with_type_at(path, new))
    }

    /// Returns what `with_type_at` returns.
    ///
    /// # Errors
    ///
    /// - `OutOfMemory` (0): an allocation fails, or a reference count is at its maximum.
    pub fn try_with_type_at(&self, path: &FieldPath, new: &Self) -> VortexResult<Option<Self>> {
        crate::dtype_edits::try_with_type_at(self, path, new)
    }

    /// Returns the leaves of the type, which are the paths to the parts into which no step leads further: a step leads
    /// into a list, and none leads into a struct without fields, a map, a union or an extension. If several fields of a
    /// struct have the same name, a path leads to the first of them, so the others have no leaves. A path exists in the
    /// type exactly if it is a prefix of a leaf.
    ///
    /// ```
    /// use vortex_logical_types::{DType, FieldPathSet};
    ///
    /// let orders: DType = "{id=u32, lines=list({sku=utf8, price=f32})?}".parse()?;
    /// assert_eq!(orders.leaf_paths(), FieldPathSet::parse(["id", "lines.[].sku", "lines.[].price"])?);
    /// # Ok::<(), vortex_logical_types::Error>(())
    /// ```
    #[must_use]
    pub fn leaf_paths(&self) -> FieldPathSet {
        or_abort(self.try_leaf_paths())
    }

    /// Returns what `leaf_paths` returns.
    ///
    /// # Errors
    ///
    /// - `OutOfMemory` (0): an allocation fails, or a reference count is at its maximum.
    pub fn try_leaf_paths(&self) -> VortexResult<FieldPathSet> {
        crate::dtype_edits::try_leaf_paths(self)
    }
}

// (There is no `DType: PartialEq<&DType>`. With it, `dtype == text.parse()?` would need a type annotation.)
/// A reference to a type can be compared with a type, because lookups return references:
///
/// ```
/// use vortex_logical_types::{DType, PType, StructFields};
///
/// let fields = StructFields::from_iter([("id", PType::U64)]);
/// assert_eq!(fields.field("id").unwrap(), DType::from(PType::U64));
/// ```
impl PartialEq<DType> for &DType {
    fn eq(&self, other: &DType) -> bool {
        *self == other
    }
}

/// Returns a copy of the type, which shares what it contains. So a call that takes what converts to a type takes a
/// reference to one, too:
///
/// ```
/// use vortex_logical_types::{DType, Nullability::NonNullable};
///
/// let map: DType = "map(utf8, i32?, keys_sorted=false)".parse()?;
/// let values = DType::list(map.as_map_opt().expect("a map").value_dtype(), NonNullable);
/// assert_eq!(values.to_string(), "list(i32?)");
/// # Ok::<(), vortex_logical_types::Error>(())
/// ```
impl From<&DType> for DType {
    fn from(dtype: &DType) -> Self {
        dtype.clone()
    }
}

/// Returns the type of a field with a copy of this type.
impl From<&DType> for FieldDType {
    fn from(dtype: &DType) -> Self {
        dtype.clone().into()
    }
}

/// Returns the non-nullable type of the primitive type, which is a constant.
impl From<PType> for &DType {
    fn from(ptype: PType) -> Self {
        use Nullability::NonNullable;
        match ptype {
            PType::U8 => &DType::Primitive(PType::U8, NonNullable),
            PType::U16 => &DType::Primitive(PType::U16, NonNullable),
            PType::U32 => &DType::Primitive(PType::U32, NonNullable),
            PType::U64 => &DType::Primitive(PType::U64, NonNullable),
            PType::I8 => &DType::Primitive(PType::I8, NonNullable),
            PType::I16 => &DType::Primitive(PType::I16, NonNullable),
            PType::I32 => &DType::Primitive(PType::I32, NonNullable),
            PType::I64 => &DType::Primitive(PType::I64, NonNullable),
            PType::F16 => &DType::Primitive(PType::F16, NonNullable),
            PType::F32 => &DType::Primitive(PType::F32, NonNullable),
            PType::F64 => &DType::Primitive(PType::F64, NonNullable),
        }
    }
}

impl PType {
    /// All primitive types, in the order of their numbers in messages, which are 0 to 10.
    pub const ALL: [Self; 11] = [
        Self::U8,
        Self::U16,
        Self::U32,
        Self::U64,
        Self::I8,
        Self::I16,
        Self::I32,
        Self::I64,
        Self::F16,
        Self::F32,
        Self::F64,
    ];
}

impl Kind {
    /// All kinds, in the order of the variants of `DType`.
    pub const ALL: [Self; 13] = [
        Self::Null,
        Self::Bool,
        Self::Primitive,
        Self::Decimal,
        Self::Utf8,
        Self::Binary,
        Self::List,
        Self::FixedSizeList,
        Self::Map,
        Self::Struct,
        Self::Union,
        Self::Variant,
        Self::Extension,
    ];
}
