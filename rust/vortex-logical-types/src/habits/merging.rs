// SPDX-License-Identifier: Apache-2.0
// SPDX-FileCopyrightText: Copyright the Vortex contributors

//! One type for types with different columns.

use super::or_abort;
use crate::dtype_base::VortexResult;
use crate::dtype_merging::{self, Widening};
use crate::dtype_paths::FieldPath;
use crate::dtype_types::DType;
use std::borrow::Borrow;
use std::{error, fmt};

/// Why types can't be read as one type: a place, and the two types there, from [`DType::merge_conflict`] or
/// [`DType::merge_all`].
///
/// ```
/// use vortex_logical_types::{DType, Widening, field_path};
///
/// let (old, new): (DType, DType) = ("{a={id=u64}}".parse()?, "{a={id=utf8}}".parse()?);
/// let conflict = old.merge_conflict(&new, Widening::None).expect("a conflict");
/// assert_eq!(conflict.path, field_path!(a.id));
/// assert_eq!(conflict.to_string(), "a.id is u64 in one type and utf8 in another");
/// # Ok::<(), vortex_logical_types::Error>(())
/// ```
#[derive(Debug, Clone, PartialEq, Eq, Hash)]
pub struct MergeConflict {
    /// The path to the place.
    pub path: FieldPath,
    /// The type there in the first type, or in the types that were merged before.
    pub left: DType,
    /// The type there in the second type, or in the one that doesn't fit.
    pub right: DType,
    /// Which of the types it is that doesn't fit those before it, counted from 0. Of two types it is 1.
    pub index: usize,
}

/// Writes the path and both types as their texts, for example `customer.id is u64 in one type and utf8 in another`.
impl fmt::Display for MergeConflict {
    fn fmt(&self, f: &mut fmt::Formatter<'_>) -> fmt::Result {
        let path = self.path.try_to_source().map_err(|_| fmt::Error)?;
        let left = self.left.try_to_source().map_err(|_| fmt::Error)?;
        let right = self.right.try_to_source().map_err(|_| fmt::Error)?;
        write!(f, "{path} is {left} in one type and {right} in another")
    }
}

impl error::Error for MergeConflict {}

impl DType {
    /// Returns whether this type can be read as the other: whether a reader makes a value of the other type from each
    /// value of this one by adding nulls for the columns that it lacks, and by putting the columns into the order of the
    /// other. A program that has a table tests with it whether a file can be read as this table.
    ///
    /// - A struct can be read as a struct that has its fields, in any order, and further ones that are nullable. Each field
    ///   must be readable, by these rules, as the field of its name.
    /// - `null` can be read as every nullable type.
    /// - Lists, fixed-size lists of the same size, maps, and extensions with the same id and the same metadata can be read
    ///   as each other if their parts can. A map can be read as one that declares sorted keys only if it declares them
    ///   too, and if the two key types are equal except for nullabilities.
    /// - A union can be read as a union that has its variants, in any order, and further ones. A variant is found by its
    ///   tag and its name. A struct in which a name repeats can be read as one with the same names in the same order.
    /// - With [`Widening::Integers`], an integer type can be read as an integer type that has all its values, and a decimal
    ///   as a decimal of the same scale and a greater precision. With [`Widening::None`], a type of numbers can be read as
    ///   the same type only.
    /// - All other types can be read as the types of which they are subsets (`eq_with_nullability_subset`). So
    ///   floating-point types are never widened.
    /// - In each place, at every depth, the other type must be nullable if this one is.
    ///
    /// The call doesn't allocate.
    ///
    /// ```
    /// use vortex_logical_types::{DType, Widening};
    ///
    /// let (file, table): (DType, DType) = ("{b=utf8, a=i32}".parse()?, "{a=i32, b=utf8?, c=u8?}".parse()?);
    /// assert!(file.reads_as(&table, Widening::None) && !table.reads_as(&file, Widening::None));
    /// assert_eq!(table.merge_columns(&file, Widening::None), Some(table));
    ///
    /// let wider: DType = "{a=i64, b=utf8}".parse()?;
    /// assert!(file.reads_as(&wider, Widening::Integers) && !file.reads_as(&wider, Widening::None));
    /// # Ok::<(), vortex_logical_types::Error>(())
    /// ```
    #[must_use]
    pub fn reads_as(&self, other: &Self, widening: Widening) -> bool {
        dtype_merging::reads_as(self, other, widening)
    }

    /// Returns the least type as which values of both types can be read, or `None` if there is no such type. A program
    /// that reads several files as one table needs this type if the files have different columns. `merge_all` merges
    /// more than two.
    ///
    /// - A struct has the fields of the first type in their order, and then those that only the second has. A field
    ///   that both have is merged by these rules. A field that only one of the two has is nullable.
    /// - `null` can be merged with every type, which is made nullable.
    /// - Lists, fixed-size lists of the same size, maps, and extensions with the same id and the same metadata are
    ///   merged by their parts. Maps whose merged key type would be nullable can't be merged. The merged map declares
    ///   sorted keys only if both maps do, and if their key types are equal except for nullabilities.
    /// - A union has the variants of the first type in their order, and then those that only the second has. A variant
    ///   that both have, with the same tag and the same name, is merged by these rules. A variant that only one of the
    ///   two has stays as it is. Unions in which a tag has two names, or a name has two tags, can't be merged.
    /// - Structs in which a name repeats are merged field by field, if both have the same names in the same order,
    ///   because their columns can't be told apart by name.
    /// - With [`Widening::Integers`], two integer types are merged to the narrowest integer type that has all values of
    ///   both, if there is one: `i32` and `i64` to `i64`, and `u8` and `i8` to `i16`. Two decimals of the same scale are
    ///   merged to the one with the greater precision. With [`Widening::None`], numbers are merged only if their types are
    ///   the same.
    /// - All other types are merged as `merge_nullability` merges them. So floating-point types are never widened.
    /// - A type that isn't an extension is nullable if one of the two is, at every depth.
    ///
    /// ```
    /// use vortex_logical_types::{DType, Widening};
    ///
    /// let (old, new): (DType, DType) = ("{a=i32, b=utf8}".parse()?, "{c=u8, a=i32?}".parse()?);
    /// assert_eq!(old.merge_columns(&new, Widening::None), Some("{a=i32?, b=utf8?, c=u8?}".parse()?));
    /// let (empty, full): (DType, DType) = ("{a=null}".parse()?, "{a=list(i32)}".parse()?);
    /// assert_eq!(empty.merge_columns(&full, Widening::None), Some("{a=list(i32)?}".parse()?));
    /// let (narrow, wide): (DType, DType) = ("{a=i32}".parse()?, "{a=i64}".parse()?);
    /// assert_eq!(narrow.merge_columns(&wide, Widening::None), None);
    /// assert_eq!(narrow.merge_columns(&wide, Widening::Integers), Some(wide));
    /// # Ok::<(), vortex_logical_types::Error>(())
    /// ```
    #[must_use]
    pub fn merge_columns(&self, other: &Self, widening: Widening) -> Option<Self> {
        or_abort(self.try_merge_columns(other, widening))
    }

    /// Returns what `merge_columns` returns.
    ///
    /// # Errors
    ///
    /// - `OutOfMemory` (0): an allocation fails, or a reference count is at its maximum.
    pub fn try_merge_columns(
        &self,
        other: &Self,
        widening: Widening,
    ) -> VortexResult<Option<Self>> {
        dtype_merging::try_merge_columns(self, other, widening)
    }

    /// Returns the first place at which the two types can't be merged by `merge_columns` with the same `widening`, or
    /// `None` if they can be merged. The first place is the first one in the order of the fields of this type. A path leads only into structs,
    /// lists and fixed-size lists, so if the keys or values of two maps can't be merged, it is the path to the maps. The
    /// same is true of unions, extensions, and structs in which a name repeats.
    ///
    /// ```
    /// use vortex_logical_types::{DType, Widening, field_path};
    ///
    /// let (one, other): (DType, DType) = ("{customer={id=u64}}".parse()?, "{customer={id=utf8, city=utf8}}".parse()?);
    /// let conflict = one.merge_conflict(&other, Widening::None).expect("a conflict");
    /// assert_eq!(conflict.path, field_path!(customer.id));
    /// # Ok::<(), vortex_logical_types::Error>(())
    /// ```
    #[must_use]
    pub fn merge_conflict(&self, other: &Self, widening: Widening) -> Option<MergeConflict> {
        or_abort(self.try_merge_conflict(other, widening))
    }

    /// Returns what `merge_conflict` returns.
    ///
    /// # Errors
    ///
    /// - `OutOfMemory` (0): an allocation fails, or a reference count is at its maximum.
    pub fn try_merge_conflict(
        &self,
        other: &Self,
        widening: Widening,
    ) -> VortexResult<Option<MergeConflict>> {
        let Some(conflict) = dtype_merging::try_merge_conflict(self, other, widening)? else {
            return Ok(None);
        };
        let (left, right) = (conflict.left.try_clone()?, conflict.right.try_clone()?);
        Ok(Some(MergeConflict {
            path: conflict.path,
            left,
            right,
            index: 1,
        }))
    }

    /// Returns the least type as which values of all of these types can be read, such as the schemas of several files:
    /// the first two, merged by `merge_columns`, then the result with the third, and so on. Returns `None` if the
    /// iterator yields no type. The order of the types decides only the order of the columns.
    ///
    /// ```
    /// use vortex_logical_types::{DType, Widening};
    ///
    /// let files = ["{id=u64}", "{note=utf8, id=u64}", "{id=u64?}"].map(|text| text.parse::<DType>().expect("a type"));
    /// assert_eq!(DType::merge_all(&files, Widening::None)?, Some("{id=u64?, note=utf8?}".parse()?));
    ///
    /// let files = ["{id=u64}", "{at=i64}", "{id=utf8}"].map(|text| text.parse::<DType>().expect("a type"));
    /// let conflict = DType::merge_all(&files, Widening::None).unwrap_err();
    /// assert_eq!((conflict.index, conflict.to_string().as_str()), (2, "id is u64? in one type and utf8 in another"));
    /// # Ok::<(), Box<dyn std::error::Error>>(())
    /// ```
    ///
    /// # Errors
    ///
    /// The [`MergeConflict`] with the first type that can't be merged with those before it. The types behind it aren't
    /// taken from the iterator.
    pub fn merge_all<T: Borrow<Self>>(
        types: impl IntoIterator<Item = T>,
        widening: Widening,
    ) -> Result<Option<Self>, MergeConflict> {
        or_abort(Self::try_merge_all(types, widening))
    }

    /// Returns what `merge_all` returns, which is a type or a conflict, in `Ok`.
    ///
    /// # Errors
    ///
    /// - `OutOfMemory` (0): an allocation fails, or a reference count is at its maximum.
    pub fn try_merge_all<T: Borrow<Self>>(
        types: impl IntoIterator<Item = T>,
        widening: Widening,
    ) -> VortexResult<Result<Option<Self>, MergeConflict>> {
        let mut types = types.into_iter().enumerate();
        let Some((_, first)) = types.next() else {
            return Ok(Ok(None));
        };
        let mut merged = first.borrow().try_clone()?;
        for (index, dtype) in types {
            let dtype = dtype.borrow();
            if let Some(both) = merged.try_merge_columns(dtype, widening)? {
                merged = both;
            } else if let Some(conflict) = merged.try_merge_conflict(dtype, widening)? {
                return Ok(Err(MergeConflict { index, ..conflict }));
            }
        }
        Ok(Ok(Some(merged)))
    }
}
