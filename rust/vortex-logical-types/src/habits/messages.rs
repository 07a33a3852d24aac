// SPDX-License-Identifier: Apache-2.0
// SPDX-FileCopyrightText: Copyright the Vortex contributors

//! Messages: types and paths from messages, and messages from types, as conversions.

use super::or_abort;
use crate::dtype_base::{VortexError, VortexResult};
use crate::dtype_messages::pb;
use crate::dtype_paths::FieldPath;
use crate::dtype_types::DType;
use crate::vortex_dtype::{DTypeProto, DTypeSession, FieldPathProto};

impl DType {
    /// Returns the type that the message describes. For each extension type in it, the session decides which metadata is
    /// kept in place of the metadata in the message. An extension message without metadata is read as one with empty
    /// metadata.
    ///
    /// ```
    /// use vortex_logical_types::{DType, DTypeSession};
    ///
    /// let orders: DType = "{id=u64, note=utf8?}".parse()?;
    /// assert_eq!(DType::from_proto(&orders.to_proto(), &DTypeSession::new())?, orders);
    /// # Ok::<(), vortex_logical_types::Error>(())
    /// ```
    ///
    /// # Errors
    ///
    /// The first fault of the message that is found:
    /// - The errors 24 to 34 of [`MessageFault`](crate::MessageFault): a part is missing, or a number is out of its range.
    /// - `ExtensionUnregistered` (35): no plugin is registered under the id of an extension, and the session doesn't keep
    ///   unknown ids.
    /// - `MetadataRefused` (22): the plugin that is registered under the id of an extension doesn't accept the metadata.
    /// - The errors 1 to 4 of `DecimalDType::try_new`, `MapKeyNullable` (9), and the errors 10 to 13 and 15 of
    ///   `UnionVariants::try_new`.
    /// - `OutOfMemory` (0): an allocation fails.
    pub fn from_proto(message: &pb::DType, session: &DTypeSession) -> VortexResult<Self> {
        <Self as DTypeProto>::from_proto(message, session)
    }

    /// Returns the message that describes the type. It contains every part of the type, every flag, and the metadata of
    /// every extension type, even if the metadata is empty.
    #[must_use]
    pub fn to_proto(&self) -> pb::DType {
        or_abort(self.try_to_proto())
    }

    /// Returns the message that describes the type.
    ///
    /// # Errors
    ///
    /// - `OutOfMemory` (0): an allocation fails.
    pub fn try_to_proto(&self) -> VortexResult<pb::DType> {
        <Self as DTypeProto>::try_to_proto(self)
    }
}

impl FieldPath {
    /// Returns the path of the names that the message contains, in the same order.
    ///
    /// # Errors
    ///
    /// - `PathPartMissing` (36): a part has no kind.
    /// - `OutOfMemory` (0): an allocation fails.
    pub fn from_proto(message: &pb::FieldPath) -> VortexResult<Self> {
        <Self as FieldPathProto>::from_proto(message)
    }
}

/// Returns the message that describes the type. It fails only if an allocation fails.
///
/// ```
/// use vortex_logical_types::{DType, pb};
///
/// let message = pb::DType::try_from(&"utf8?".parse::<DType>()?)?;
/// assert_eq!(message.dtype_type, Some(pb::DtypeType::Utf8(pb::Utf8 { nullable: true })));
/// # Ok::<(), vortex_logical_types::Error>(())
/// ```
impl TryFrom<&DType> for pb::DType {
    type Error = VortexError;

    fn try_from(dtype: &DType) -> VortexResult<Self> {
        dtype.try_to_proto()
    }
}

/// Returns the path that the message describes, as `FieldPath::from_proto` does.
impl TryFrom<&pb::FieldPath> for FieldPath {
    type Error = VortexError;

    fn try_from(message: &pb::FieldPath) -> VortexResult<Self> {
        Self::from_proto(message)
    }
}

/// The number of a primitive type that isn't one is the error `PrimitiveNumber` (25).
impl TryFrom<i32> for pb::PType {
    type Error = VortexError;

    fn try_from(number: i32) -> VortexResult<Self> {
        let fault = VortexError::Message(crate::dtype_base::MessageFault::PrimitiveNumber);
        Self::from_number(number).ok_or(fault)
    }
}

impl From<pb::PType> for i32 {
    fn from(ptype: pb::PType) -> Self {
        ptype.number()
    }
}
