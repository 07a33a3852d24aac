// SPDX-License-Identifier: Apache-2.0
// SPDX-FileCopyrightText: Copyright the Vortex contributors

//! Native types: the logical types of Rust's texts, lists and floating-point numbers.

use crate::dtype_base::{Nullability, PType, VortexResult};
use crate::dtype_native::NativeDType;
use crate::dtype_types::DType;

/// Returns `utf8`.
impl NativeDType for String {
    fn try_dtype() -> VortexResult<DType> {
        Ok(DType::Utf8(Nullability::NonNullable))
    }
}

/// Returns the type of lists of elements of the type `T`:
///
/// ```
/// use vortex_logical_types::NativeDType;
///
/// assert_eq!(Vec::<Option<i32>>::dtype().to_string(), "list(i32?)");
/// ```
impl<T: NativeDType> NativeDType for Vec<T> {
    fn try_dtype() -> VortexResult<DType> {
        DType::try_list(T::try_dtype()?, Nullability::NonNullable)
    }
}

/// Returns `f32`.
impl NativeDType for f32 {
    fn try_dtype() -> VortexResult<DType> {
        Ok(DType::from(PType::F32))
    }
}

/// Returns `f64`.
impl NativeDType for f64 {
    fn try_dtype() -> VortexResult<DType> {
        Ok(DType::from(PType::F64))
    }
}
