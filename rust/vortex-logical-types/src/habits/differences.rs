// SPDX-License-Identifier: Apache-2.0
// SPDX-FileCopyrightText: Copyright the Vortex contributors

//! What differs between two types.

use super::or_abort;
use crate::dtype_base::VortexResult;
use crate::dtype_edits::{self, Difference, Ignoring};
use crate::dtype_types::DType;
use std::fmt;

/// Writes the path with the types before and after as their texts, for example `b.x was u8 and is i8`, `a was i32 and is
/// removed` or `b.y is added as u8`.
impl fmt::Display for Difference<'_> {
    fn fmt(&self, f: &mut fmt::Formatter<'_>) -> fmt::Result {
        let text = |dtype: &DType| dtype.try_to_source().map_err(|_| fmt::Error);
        let path = self.path.try_to_source().map_err(|_| fmt::Error)?;
        match (self.before, self.after) {
            (Some(before), Some(after)) => {
                write!(f, "{path} was {} and is {}", text(before)?, text(after)?)
            }
            (Some(before), None) => write!(f, "{path} was {} and is removed", text(before)?),
            (None, Some(after)) => write!(f, "{path} is added as {}", text(after)?),
            (None, None) => write!(f, "{path}"),
        }
    }
}

impl DType {
    /// Returns what differs between this type and a later one: the parts that are changed, removed and added, each with its
    /// path and its types before and after. There is no difference exactly if the two types are equal.
    ///
    /// - A part below a listed part isn't listed. So no two differences have the same path, and no path is a prefix of
    ///   another.
    /// - The differences are in the order of the fields before, and in each struct those that are added come last.
    /// - Maps, unions and extensions are changed as a whole, because no path leads into them. So are two structs if a name
    ///   repeats in one of them, or if the fields that both have are in another order.
    ///
    /// ```
    /// use vortex_logical_types::DType;
    ///
    /// let (old, new): (DType, DType) = ("{a=i32, b={x=u8}}".parse()?, "{b={x=i8, y=u8}}".parse()?);
    /// let found: Vec<String> = old.differences(&new).iter().map(|it| it.to_string()).collect();
    /// assert_eq!(found, ["a was i32 and is removed", "b.x was u8 and is i8", "b.y is added as u8"]);
    /// assert!(old.differences(&old).is_empty());
    /// # Ok::<(), vortex_logical_types::Error>(())
    /// ```
    #[must_use]
    pub fn differences<'a>(&'a self, after: &'a Self) -> Vec<Difference<'a>> {
        or_abort(self.try_differences(after))
    }

    /// Returns what `differences` returns.
    ///
    /// # Errors
    ///
    /// - `OutOfMemory` (0): an allocation fails, or a reference count is at its maximum.
    pub fn try_differences<'a>(&'a self, after: &'a Self) -> VortexResult<Vec<Difference<'a>>> {
        Ok(dtype_edits::try_differences(self, after)?.into())
    }

    /// Returns what differs between this type and a later one, as `differences` does, but ignores nullabilities, or the
    /// order of the fields of structs in which no name repeats, or both. The types in the list are as they are.
    ///
    /// ```
    /// use vortex_logical_types::{DType, Ignoring};
    ///
    /// let (old, new): (DType, DType) = ("{a=i32, b=u8}".parse()?, "{b=u16, a=i32?}".parse()?);
    /// assert_eq!(old.differences(&new)[0].path.len(), 0);
    /// let ignoring = Ignoring { nullability: true, order: true };
    /// let found = old.differences_ignoring(&new, ignoring);
    /// assert_eq!(found.len(), 1);
    /// assert_eq!(found[0].to_string(), "b was u8 and is u16");
    /// # Ok::<(), vortex_logical_types::Error>(())
    /// ```
    #[must_use]
    pub fn differences_ignoring<'a>(
        &'a self,
        after: &'a Self,
        ignoring: Ignoring,
    ) -> Vec<Difference<'a>> {
        or_abort(self.try_differences_ignoring(after, ignoring))
    }

    /// Returns what `differences_ignoring` returns.
    ///
    /// # Errors
    ///
    /// - `OutOfMemory` (0): an allocation fails, or a reference count is at its maximum.
    pub fn try_differences_ignoring<'a>(
        &'a self,
        after: &'a Self,
        ignoring: Ignoring,
    ) -> VortexResult<Vec<Difference<'a>>> {
        Ok(dtype_edits::try_differences_ignoring(self, after, ignoring)?.into())
    }
}
