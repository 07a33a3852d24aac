// SPDX-License-Identifier: Apache-2.0
// SPDX-FileCopyrightText: Copyright the Vortex contributors

//! Structs and unions: from pairs of a name and a type, and as iterators over such pairs.

use super::or_abort;
use crate::dtype_base::{FieldName, FieldNames, VortexResult};
use crate::dtype_types::{DType, DTypeIter, FieldDType, FieldIter, StructFields, UnionVariants};
use std::{iter, slice, vec};

impl StructFields {
    /// Returns the struct with these names and these types, in order.
    ///
    /// ```
    /// use vortex_logical_types::{DType, FieldNames, Nullability::NonNullable, StructFields};
    ///
    /// let fields = StructFields::new(["id", "note"].into(), vec![DType::Bool(NonNullable), DType::Utf8(NonNullable)]);
    /// assert_eq!(fields.to_string(), "{id=bool, note=utf8}");
    /// assert_eq!(StructFields::new(FieldNames::default(), vec![]), StructFields::empty());
    /// ```
    ///
    /// # Panics
    ///
    /// If there are more or fewer types than names.
    #[must_use]
    pub fn new(names: FieldNames, dtypes: Vec<DType>) -> Self {
        or_abort(Self::try_new(names, dtypes.into()))
    }

    /// Returns the struct with these names and these field types, in order.
    ///
    /// # Panics
    ///
    /// If there are more or fewer types than names.
    #[must_use]
    pub fn from_fields(names: FieldNames, dtypes: Vec<FieldDType>) -> Self {
        or_abort(Self::try_from_fields(names, dtypes.into()))
    }

    /// Returns an iterator over the fields, in order: the name and the type of each.
    ///
    /// ```
    /// use vortex_logical_types::{DType, StructFields};
    ///
    /// let fields = StructFields::from_iter([("id", "u64".parse::<DType>()?), ("note", "utf8?".parse()?)]);
    /// let nullable = fields.iter().filter(|(_, dtype)| dtype.is_nullable());
    /// assert_eq!(nullable.map(|(name, _)| name.as_str()).collect::<Vec<_>>(), ["note"]);
    /// # Ok::<(), vortex_logical_types::Error>(())
    /// ```
    #[must_use]
    pub fn iter(&self) -> FieldIter<'_> {
        self.pairs()
    }
}

/// Returns the struct without fields.
impl Default for StructFields {
    fn default() -> Self {
        Self::empty()
    }
}

/// Returns the struct of the fields that an iterator yields, in order. Each item is a name and a type. A name may be a
/// text, and a type may be a primitive type:
///
/// ```
/// use vortex_logical_types::{PType, StructFields};
///
/// let fields: StructFields = ["x", "y"].into_iter().map(|name| (name, PType::F64)).collect();
/// assert_eq!(fields.to_string(), "{x=f64, y=f64}");
/// ```
impl<N: Into<FieldName>, D: Into<FieldDType>> FromIterator<(N, D)> for StructFields {
    fn from_iter<I: IntoIterator<Item = (N, D)>>(fields: I) -> Self {
        or_abort(Self::try_from_iter(
            fields
                .into_iter()
                .map(|(name, dtype)| (name.into(), dtype.into())),
        ))
    }
}

impl<'a> IntoIterator for &'a StructFields {
    type Item = (&'a FieldName, &'a DType);
    type IntoIter = FieldIter<'a>;

    fn into_iter(self) -> Self::IntoIter {
        self.iter()
    }
}

/// Yields a copy of the name and the type of each field, in order. The copies share what they contain.
impl IntoIterator for StructFields {
    type Item = (FieldName, DType);
    type IntoIter = vec::IntoIter<(FieldName, DType)>;

    fn into_iter(self) -> Self::IntoIter {
        let fields = self
            .iter()
            .map(|(name, dtype)| (name.clone(), dtype.clone()));
        fields.collect::<Vec<_>>().into_iter()
    }
}

impl UnionVariants {
    /// Returns the union with these names, types and tags, in order.
    ///
    /// ```
    /// use vortex_logical_types::{DType, Nullability::NonNullable, PType, UnionVariants};
    ///
    /// let dtypes = vec![DType::from(PType::I32), DType::Utf8(NonNullable)];
    /// let variants = UnionVariants::try_new(["int", "text"].into(), dtypes, vec![5, 9])?;
    /// assert_eq!(variants.tag_to_child_index(9), Some(1));
    /// # Ok::<(), vortex_logical_types::Error>(())
    /// ```
    ///
    /// # Errors
    ///
    /// The first that applies:
    /// - `UnionTypesLength` (10): there are more or fewer types than names.
    /// - `UnionTagsLength` (11): there are more or fewer tags than names.
    /// - `UnionEmpty` (12): there are no variants.
    /// - `UnionTagsRepeat` (13): a tag occurs twice.
    /// - `UnionNamesRepeat` (15): a name occurs twice.
    /// - `OutOfMemory` (0): an allocation fails. This error may be returned in place of the last two.
    pub fn try_new(names: FieldNames, dtypes: Vec<DType>, type_ids: Vec<u8>) -> VortexResult<Self> {
        Self::with_tags(names, dtypes.into(), type_ids.into())
    }

    /// Returns the union with these names and types, in order, and the tags 0, 1 and so on.
    ///
    /// ```
    /// use vortex_logical_types::{DType, Nullability::NonNullable, UnionVariants};
    ///
    /// let variants = UnionVariants::new(["text"].into(), vec![DType::Utf8(NonNullable)])?;
    /// assert_eq!(variants.type_ids(), [0]);
    /// # Ok::<(), vortex_logical_types::Error>(())
    /// ```
    ///
    /// # Errors
    ///
    /// - `UnionTooMany` (14): there are more than 256 names.
    /// - The errors of `try_new` for these tags.
    pub fn new(names: FieldNames, dtypes: Vec<DType>) -> VortexResult<Self> {
        Self::consecutive(names, dtypes.into())
    }

    /// Returns an iterator over the variants, in order: the name and the type of each. `triples` has their tags, too.
    ///
    /// ```
    /// use vortex_logical_types::{PType, UnionVariants};
    ///
    /// let variants = UnionVariants::new(["a", "b"].into(), vec![PType::I32.into(), PType::F64.into()])?;
    /// let texts: Vec<String> = variants.iter().map(|(name, dtype)| format!("{name} is {dtype}")).collect();
    /// assert_eq!(texts, ["a is i32", "b is f64"]);
    /// # Ok::<(), vortex_logical_types::Error>(())
    /// ```
    pub fn iter(&self) -> iter::Zip<slice::Iter<'_, FieldName>, DTypeIter<'_>> {
        self.names().as_slice().iter().zip(self.variants())
    }
}

impl<'a> IntoIterator for &'a UnionVariants {
    type Item = (&'a FieldName, &'a DType);
    type IntoIter = iter::Zip<slice::Iter<'a, FieldName>, DTypeIter<'a>>;

    fn into_iter(self) -> Self::IntoIter {
        self.iter()
    }
}
