// SPDX-License-Identifier: Apache-2.0
// SPDX-FileCopyrightText: Copyright the Vortex contributors

//! Every type may be used, shared and dropped on any thread. This file fails to compile if one may not.

use crate::dtype_text::TextError;
use crate::time::{Date, Time, TimeUnit, Timestamp, TimestampOptions};
use crate::vortex_dtype::{CursorNames, FieldPathCursor, IndexedNames};
use crate::{
    Below, BrokenLaw, DType, DTypeIter, DTypeSession, DecimalDType, DecimalType, Error, ErrorKind,
    ExtDType, ExtDTypePlugin, ExtDTypeRef, ExtId, Field, FieldDType, FieldIter, FieldMask,
    FieldName, FieldNames, FieldNamesIntoIter, FieldNamesIter, FieldPath, FieldPathSet,
    ForeignExtDType, ForeignExtMetadata, Kind, MapDType, MergeConflict, MessageFault,
    MetadataDisplay, Nullability, PType, PluginOf, PrecisionScale, StructFields, UnionVariants,
    VariantIter, VortexError, pb,
};

const _: () = {
    const fn is_for_all_threads<T: Send + Sync>() {}
    is_for_all_threads::<(DType, FieldDType, StructFields, UnionVariants, MapDType)>();
    is_for_all_threads::<(ExtDTypeRef, ExtId, MetadataDisplay<'_>)>();
    is_for_all_threads::<(DTypeIter<'_>, FieldIter<'_>, VariantIter<'_>)>();
    is_for_all_threads::<(
        FieldName,
        FieldNames,
        FieldNamesIter<'_>,
        FieldNamesIntoIter,
        IndexedNames,
    )>();
    is_for_all_threads::<(
        Kind,
        Nullability,
        PType,
        DecimalDType,
        DecimalType,
        PrecisionScale<i128>,
    )>();
    is_for_all_threads::<(Field, FieldPath, FieldPathSet, FieldMask, Below)>();
    is_for_all_threads::<(FieldPathCursor<'_>, CursorNames<'_>)>();
    is_for_all_threads::<(
        Error,
        ErrorKind,
        VortexError,
        MessageFault,
        MergeConflict,
        TextError,
    )>();
    is_for_all_threads::<(
        ExtDType<Date>,
        Date,
        Time,
        Timestamp,
        TimeUnit,
        TimestampOptions,
    )>();
    is_for_all_threads::<(ForeignExtDType, ForeignExtMetadata)>();
    is_for_all_threads::<(
        DTypeSession,
        PluginOf<Date>,
        Box<dyn ExtDTypePlugin>,
        BrokenLaw,
    )>();
    is_for_all_threads::<(pb::DType, pb::FieldPath, pb::PType)>();
};
