// SPDX-License-Identifier: Apache-2.0
// SPDX-FileCopyrightText: Copyright the Vortex contributors

//! What the cases call, of this crate. `rust/original/src/bench/library.rs` has the same of vortex-array.

pub use vortex_logical_types::{
    Arc, DType, DTypeSession as Session, Field, FieldName, FieldNames, FieldPath, FieldPathSet, Nullability, PType,
    StructFields, pb::DType as Message,
};

use vortex_logical_types::{ForeignExtDType, Widening};

/// The greatest set of paths whose cover is measured if no path is a prefix of another: here every set's is.
pub const GREATEST_COVER: Option<usize> = None;

/// Whether extensions can be merged.
pub const MERGES_EXTENSIONS: bool = true;

/// An extension over a type.
pub fn extension(storage: DType) -> DType {
    ForeignExtDType::from_parts("x.y".into(), b"ab".to_vec(), storage).into()
}

/// Whether there is a type at the path.
pub fn resolves(path: &FieldPath, dtype: &DType) -> bool {
    path.resolve(dtype).is_some()
}

/// The least type of which both are subsets, if they differ in nullabilities alone.
pub fn merged(one: &DType, other: &DType) -> Option<DType> {
    one.merge_nullability(other)
}

/// The least type as which both can be read.
pub fn merged_columns(one: &DType, other: &DType) -> Option<DType> {
    one.merge_columns(other, Widening::None)
}

/// A session without plugins.
pub fn session() -> Session {
    Session::new()
}

/// The message of a type.
pub fn written(dtype: &DType) -> Message {
    dtype.to_proto()
}

/// The type of a message.
pub fn read(message: &Message, session: &Session) -> DType {
    DType::from_proto(message, session).expect("what was written can be read")
}
