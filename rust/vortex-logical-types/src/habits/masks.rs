// SPDX-License-Identifier: Apache-2.0
// SPDX-FileCopyrightText: Copyright the Vortex contributors

//! Masks: their paths.

use crate::dtype_paths::{FieldMask, FieldPath};
use std::hash::{Hash, Hasher};
use std::mem;

impl FieldMask {
    /// Returns the path of the mask, or `None` for `All`, which has no path.
    ///
    /// ```
    /// use vortex_logical_types::{FieldMask, field_path};
    ///
    /// assert_eq!(FieldMask::Exact(field_path!(a)).path(), Some(&field_path!(a)));
    /// assert_eq!(FieldMask::All.path(), None);
    /// ```
    #[must_use]
    pub fn path(&self) -> Option<&FieldPath> {
        match self {
            Self::All => None,
            Self::Prefix(path) | Self::Exact(path) => Some(path),
        }
    }
}

impl Hash for FieldMask {
    fn hash<H: Hasher>(&self, state: &mut H) {
        mem::discriminant(self).hash(state);
        self.path().hash(state);
    }
}
