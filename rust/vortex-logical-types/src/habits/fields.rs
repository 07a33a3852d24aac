// SPDX-License-Identifier: Apache-2.0
// SPDX-FileCopyrightText: Copyright the Vortex contributors

//! The fields of a struct with one more field, with another type of a field, and with other names.

use super::or_abort;
use crate::dtype_base::{FieldName, VortexResult};
use crate::dtype_edits;
use crate::dtype_types::{DType, StructFields};
use std::{error, fmt};

/// Why fields can't be renamed: two fields would have this name. [`StructFields::with_fields_renamed`] returns it.
#[derive(Debug, Clone, PartialEq, Eq, Hash)]
pub struct RepeatedName {
    /// The first name that an earlier field would have, too.
    pub name: FieldName,
}

/// Writes the name in quotes, for example `the name "id" would occur twice`.
impl fmt::Display for RepeatedName {
    fn fmt(&self, f: &mut fmt::Formatter<'_>) -> fmt::Result {
        write!(f, "the name \"{}\" would occur twice", self.name)
    }
}

impl error::Error for RepeatedName {}

impl StructFields {
    /// Returns the fields with one more at the end. A field of this name that is there already stays, so the name may
    /// repeat.
    ///
    /// ```
    /// use vortex_logical_types::{PType, StructFields};
    ///
    /// let fields = StructFields::from_iter([("id", PType::U64)]);
    /// assert_eq!(fields.push_field("price", PType::F64).to_string(), "{id=u64, price=f64}");
    /// ```
    #[must_use]
    pub fn push_field(&self, name: impl Into<FieldName>, dtype: impl Into<DType>) -> Self {
        or_abort(self.try_push_field(name.into(), dtype.into()))
    }

    /// Returns what `push_field` returns.
    ///
    /// # Errors
    ///
    /// - `OutOfMemory` (0): an allocation fails, or a reference count is at its maximum.
    pub fn try_push_field(&self, name: FieldName, dtype: DType) -> VortexResult<Self> {
        dtype_edits::try_push_field(self, name, dtype)
    }

    /// Returns the fields with one more at this index, counted from 0. The fields from that index on come after it. If the
    /// index is the number of fields, the field is the last. A field of this name that is there already stays, so the name
    /// may repeat.
    ///
    /// ```
    /// use vortex_logical_types::{ErrorKind, PType, StructFields};
    ///
    /// let fields = StructFields::from_iter([("id", PType::U64), ("price", PType::F64)]);
    /// assert_eq!(fields.with_field_at(1, "count", PType::U8)?.to_string(), "{id=u64, count=u8, price=f64}");
    /// let error = fields.with_field_at(3, "count", PType::U8).unwrap_err();
    /// assert_eq!(error.kind(), ErrorKind::IndexOutOfBounds);
    /// # Ok::<(), vortex_logical_types::Error>(())
    /// ```
    ///
    /// # Errors
    ///
    /// - `IndexOutOfBounds` (17): the index is above the number of fields. The error contains both.
    /// - `OutOfMemory` (0): an allocation fails, or a reference count is at its maximum.
    pub fn with_field_at(
        &self,
        index: usize,
        name: impl Into<FieldName>,
        dtype: impl Into<DType>,
    ) -> VortexResult<Self> {
        dtype_edits::with_field_at(self, index, name.into(), dtype.into())
    }

    /// Returns the fields with a field of this name and this type. If a field has the name, the type of the first such
    /// field is replaced, and the field stays where it is. Otherwise the new field is added at the end.
    ///
    /// ```
    /// use vortex_logical_types::{PType, StructFields};
    ///
    /// let fields = StructFields::from_iter([("id", PType::U32), ("price", PType::F64)]);
    /// assert_eq!(fields.with_field("id", PType::U64).to_string(), "{id=u64, price=f64}");
    /// assert_eq!(fields.with_field("count", PType::U8).to_string(), "{id=u32, price=f64, count=u8}");
    /// ```
    #[must_use]
    pub fn with_field(&self, name: impl Into<FieldName>, dtype: impl Into<DType>) -> Self {
        or_abort(self.try_with_field(name.into(), dtype.into()))
    }

    /// Returns what `with_field` returns.
    ///
    /// # Errors
    ///
    /// - `OutOfMemory` (0): an allocation fails, or a reference count is at its maximum.
    pub fn try_with_field(&self, name: FieldName, dtype: DType) -> VortexResult<Self> {
        dtype_edits::try_with_field(self, name, dtype)
    }

    /// Returns the fields with other names, with the same types in the same order. Each pair is an old name and a new name,
    /// and each field whose name is an old name gets the new one. All other fields keep their names, and an old name that
    /// no field has changes nothing. If an old name is there twice, the first pair counts. Names can be swapped.
    ///
    /// ```
    /// use vortex_logical_types::{PType, StructFields};
    ///
    /// let fields = StructFields::from_iter([("id", PType::U32), ("price", PType::F64)]);
    /// assert_eq!(fields.with_fields_renamed([("id", "sku")])?.to_string(), "{sku=u32, price=f64}");
    /// let error = fields.with_fields_renamed([("id", "price")]).unwrap_err();
    /// assert_eq!(error.to_string(), "the name \"price\" would occur twice");
    /// # Ok::<(), vortex_logical_types::Error>(())
    /// ```
    ///
    /// # Errors
    ///
    /// - [`RepeatedName`]: a name would occur twice, even if it occurred twice before. The error contains the first name
    ///   that repeats. `with_fields_renamed_allowing_repeats` allows it.
    pub fn with_fields_renamed<O: Into<FieldName>, N: Into<FieldName>>(
        &self,
        renames: impl IntoIterator<Item = (O, N)>,
    ) -> Result<Self, RepeatedName> {
        let made = or_abort(self.try_with_fields_renamed(&table(renames)));
        made.map_err(|name| RepeatedName { name })
    }

    /// Returns the fields with the names that the function returns for their names, with the same types in the same order.
    /// The function is called for the name of each field. Of fields with the same name, the first call counts.
    ///
    /// ```
    /// use vortex_logical_types::{PType, StructFields};
    ///
    /// let fields = StructFields::from_iter([("Id", PType::U32), ("Price", PType::F64)]);
    /// assert_eq!(fields.with_fields_renamed_by(str::to_lowercase)?.to_string(), "{id=u32, price=f64}");
    /// # Ok::<(), vortex_logical_types::Error>(())
    /// ```
    ///
    /// # Errors
    ///
    /// - [`RepeatedName`]: a name would occur twice, even if it occurred twice before. The error contains the first name
    ///   that repeats.
    pub fn with_fields_renamed_by<N: Into<FieldName>>(
        &self,
        mut rename: impl FnMut(&str) -> N,
    ) -> Result<Self, RepeatedName> {
        let names = self.names().iter();
        self.with_fields_renamed(names.map(|name| (name.clone(), rename(name.as_str()))))
    }

    /// Returns the fields with other names, as `with_fields_renamed`, even if a name then occurs twice.
    ///
    /// ```
    /// use vortex_logical_types::{PType, StructFields};
    ///
    /// let fields = StructFields::from_iter([("id", PType::U32), ("price", PType::F64)]);
    /// let renamed = fields.with_fields_renamed_allowing_repeats([("id", "price")]);
    /// assert_eq!(renamed.to_string(), "{price=u32, price=f64}");
    /// ```
    #[must_use]
    pub fn with_fields_renamed_allowing_repeats<O: Into<FieldName>, N: Into<FieldName>>(
        &self,
        renames: impl IntoIterator<Item = (O, N)>,
    ) -> Self {
        or_abort(self.try_with_fields_renamed_allowing_repeats(&table(renames)))
    }

    /// Returns what `with_fields_renamed` returns, with the name in place of its error.
    ///
    /// # Errors
    ///
    /// - `OutOfMemory` (0): an allocation fails, or a reference count is at its maximum.
    pub fn try_with_fields_renamed(
        &self,
        renames: &[(FieldName, FieldName)],
    ) -> VortexResult<Result<Self, FieldName>> {
        dtype_edits::try_with_fields_renamed(self, renames)
    }

    /// Returns what `with_fields_renamed_allowing_repeats` returns.
    ///
    /// # Errors
    ///
    /// - `OutOfMemory` (0): an allocation fails, or a reference count is at its maximum.
    pub fn try_with_fields_renamed_allowing_repeats(
        &self,
        renames: &[(FieldName, FieldName)],
    ) -> VortexResult<Self> {
        dtype_edits::try_with_fields_renamed_allowing_repeats(self, renames)
    }
}

// Returns the pairs of an old and a new name.
fn table<O: Into<FieldName>, N: Into<FieldName>>(
    renames: impl IntoIterator<Item = (O, N)>,
) -> Vec<(FieldName, FieldName)> {
    let renames = renames.into_iter();
    renames.map(|(old, new)| (old.into(), new.into())).collect()
}
