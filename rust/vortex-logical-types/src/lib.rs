// SPDX-License-Identifier: Apache-2.0
// SPDX-FileCopyrightText: Copyright the Vortex contributors

#![doc = include_str!("../README.md")]

#[cfg(not(target_pointer_width = "64"))]
compile_error!(
    "the proofs are about a `usize` of 64 bits, so this crate is only for targets with pointers of 64 bits"
);

mod arc;
#[cfg(feature = "arrow")]
#[allow(unsafe_code)]
pub mod arrow;
#[cfg(feature = "arrow")]
mod arrow_forms;
#[cfg(feature = "arrow")]
mod arrow_metadata;
mod habits;
mod memory;
#[doc(hidden)]
pub mod rattle_std;

include!(concat!(env!("OUT_DIR"), "/libraries.rs"));

pub use arc::Arc;
#[doc(inline)]
pub use dtype_base::{
    DecimalDType, DecimalType, FieldName, FieldNames, FieldNamesIntoIter, FieldNamesIter,
    IndexedNames, MAX_PRECISION, MAX_SCALE, MessageFault, Nullability, PType,
    RESERVED_VALIDITY_FIELD_NAME, VortexError, VortexResult,
};
#[doc(inline)]
pub use dtype_edits::{Difference, Ignoring};
#[doc(inline)]
pub use dtype_merging::Widening;
#[doc(inline)]
pub use dtype_native::{
    IntegerPType, NativeDType, NativeDecimalType, NativePType, OffsetBuilderPType, PTypeVisitor,
    PhysicalPType, PrecisionScale, ToBytes, TryFromBytes, UnsignedPType, match_each_float_ptype,
    match_each_integer_ptype, match_each_native_ptype, match_each_native_simd_ptype,
    match_each_signed_integer_ptype, match_each_unsigned_integer_ptype,
    match_smallest_list_offset_type, match_smallest_offset_type,
};
#[doc(inline)]
pub use dtype_paths::{CursorNames, Field, FieldMask, FieldPath, FieldPathCursor, FieldPathSet};
#[doc(inline)]
pub use dtype_text::MAX_LEVELS;
#[doc(inline)]
pub use dtype_types::{
    DType, DTypeIter, ExtDTypeRef, ExtId, FieldDType, FieldIter, Kind, MapDType, MetadataDisplay,
    StructFields, UnionVariants, VariantIter,
};
#[doc(inline)]
pub use habits::{
    Below, BrokenLaw, Error, ErrorKind, MergeConflict, Parts, RepeatedName, Resolvable,
    check_plugin, fallible, time,
};
#[doc(inline)]
pub use vortex_dtype::{
    DTypeSession, ExtDType, ExtDTypePlugin, ExtVTable, ForeignExtDType, ForeignExtMetadata,
    PluginOf,
};

pub mod pb {
    //! The protobuf messages of types and paths, as plain structs with the fields of Vortex's protobuf definition.
    //!
    //! A program that has decoded the bytes of a message fills these structs, and
    //! [`DType::from_proto`](crate::DType::from_proto) returns the type that they describe, or an error if they don't
    //! describe one. A message may contain anything that protobuf allows.
    //!
    //! ```
    //! use vortex_logical_types::{DType, DTypeSession, ErrorKind, pb};
    //!
    //! let number = pb::Primitive { ptype: pb::PType::I32.number(), nullable: true };
    //! let number = pb::DType { dtype_type: Some(pb::DtypeType::Primitive(number)) };
    //! assert_eq!(DType::from_proto(&number, &DTypeSession::new())?, "i32?".parse()?);
    //!
    //! let list = |element_type| pb::DType {
    //!     dtype_type: Some(pb::DtypeType::List(Box::new(pb::List { element_type, nullable: false }))),
    //! };
    //! assert_eq!(DType::from_proto(&list(Some(Box::new(number))), &DTypeSession::new())?, "list(i32?)".parse()?);
    //! let error = DType::from_proto(&list(None), &DTypeSession::new()).unwrap_err();
    //! assert_eq!(error.kind(), ErrorKind::ListElementMissing);
    //! # Ok::<(), vortex_logical_types::Error>(())
    //! ```

    #[doc(inline)]
    pub use crate::dtype_messages::pb::*;
}
