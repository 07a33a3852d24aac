// SPDX-License-Identifier: Apache-2.0
// SPDX-FileCopyrightText: Copyright the Vortex contributors

//! What the cases call, of vortex-array. `rust/bench/src/library.rs` has the same of the crate.

pub use std::sync::Arc;

pub use original::by_hand::{merged, merged_columns};
pub use vortex_array::dtype::proto::dtype::DType as Message;
pub use vortex_array::dtype::{
    DType, Field, FieldName, FieldNames, FieldPath, FieldPathSet, Nullability, PType, StructFields,
};
pub use vortex_session::VortexSession as Session;

use vortex_array::dtype::extension::{ExtId, ForeignExtDType};

/// The greatest set of paths whose cover is measured if no path is a prefix of another: vortex-array finds the cover by
/// comparing all paths.
pub const GREATEST_COVER: Option<usize> = Some(1000);

/// Whether extensions can be merged: vortex-array has no door to build an extension around another storage.
pub const MERGES_EXTENSIONS: bool = false;

/// An extension over a type.
pub fn extension(storage: DType) -> DType {
    let extension = ForeignExtDType::from_parts(ExtId::new("x.y"), b"ab".to_vec(), storage);
    DType::Extension(extension.expect("a foreign extension takes any storage"))
}

/// Whether there is a type at the path. The call takes a copy of the type.
pub fn resolves(path: &FieldPath, dtype: &DType) -> bool {
    path.resolve(dtype.clone()).is_some()
}

/// A session without plugins.
pub fn session() -> Session {
    Session::empty()
}

/// The message of a type.
pub fn written(dtype: &DType) -> Message {
    Message::try_from(dtype).expect("every type can be written")
}

/// The type of a message.
pub fn read(message: &Message, session: &Session) -> DType {
    DType::from_proto(message, session).expect("what was written can be read")
}
