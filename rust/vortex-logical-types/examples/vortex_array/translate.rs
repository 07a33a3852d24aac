// SPDX-License-Identifier: Apache-2.0
// SPDX-FileCopyrightText: Copyright the Vortex contributors

//! Types of `vortex-array` 0.89.0 as types of this crate, and the other way around: two functions to copy into a program
//! that depends on both. (This crate doesn't depend on `vortex-array`, so Cargo doesn't build this file as an example.)

use std::error::Error;
use std::sync::Arc;
use vortex_array::dtype as vortex;
use vortex_array::dtype::extension::{ExtId, ForeignExtDType};
use vortex_logical_types as proved;

/// The primitive types, in the order of `proved::PType::ALL`.
const PTYPES: [vortex::PType; 11] = [
    vortex::PType::U8,
    vortex::PType::U16,
    vortex::PType::U32,
    vortex::PType::U64,
    vortex::PType::I8,
    vortex::PType::I16,
    vortex::PType::I32,
    vortex::PType::I64,
    vortex::PType::F16,
    vortex::PType::F32,
    vortex::PType::F64,
];

/// Returns the type of this crate that is the same as a type of `vortex-array`. An extension keeps its id and its metadata
/// as bytes.
///
/// # Errors
///
/// An error of `vortex-array` if an extension can't write its metadata, or an error of this crate if memory runs out.
pub fn to_proved(dtype: &vortex::DType) -> Result<proved::DType, Box<dyn Error>> {
    use proved::DType;
    let n = dtype.is_nullable().into();
    Ok(match dtype {
        vortex::DType::Null => DType::Null,
        vortex::DType::Bool(_) => DType::Bool(n),
        vortex::DType::Primitive(ptype, _) => {
            let number = PTYPES.iter().position(|it| it == ptype);
            DType::Primitive(proved::PType::ALL[number.ok_or("an unknown primitive type")?], n)
        }
        vortex::DType::Decimal(it, _) => {
            DType::Decimal(proved::DecimalDType::try_new(it.precision(), it.scale())?, n)
        }
        vortex::DType::Utf8(_) => DType::Utf8(n),
        vortex::DType::Binary(_) => DType::Binary(n),
        vortex::DType::Variant(_) => DType::Variant(n),
        vortex::DType::List(element, _) => DType::list(to_proved(element)?, n),
        vortex::DType::FixedSizeList(element, size, _) => {
            DType::fixed_size_list(to_proved(element)?, *size, n)
        }
        vortex::DType::Map(map, _) => {
            let (key, value) = (to_proved(&map.key_dtype())?, to_proved(&map.value_dtype())?);
            DType::map(key, value, map.keys_sorted(), n)?
        }
        vortex::DType::Struct(fields, _) => {
            let names = fields.names().iter().map(|name| name.as_ref()).collect();
            let dtypes = fields.fields().map(|it| to_proved(&it)).collect::<Result<_, _>>()?;
            DType::Struct(proved::StructFields::new(names, dtypes), n)
        }
        vortex::DType::Union(variants, _) => {
            let names = variants.names().iter().map(|name| name.as_ref()).collect();
            let dtypes = variants.variants().map(|it| to_proved(&it)).collect::<Result<_, _>>()?;
            let tags = variants.type_ids().to_vec();
            DType::Union(proved::UnionVariants::try_new(names, dtypes, tags)?, n)
        }
        vortex::DType::Extension(it) => {
            let (id, storage) = (it.id(), to_proved(it.storage_dtype())?);
            let id = proved::ExtId::new(id.as_ref());
            proved::ExtDTypeRef::from_parts(id, it.serialize_metadata()?, storage).into()
        }
    })
}

/// Returns the type of `vortex-array` that is the same as a type of this crate. An extension is a foreign one, which keeps
/// its id and its metadata as bytes.
///
/// # Errors
///
/// An error of `vortex-array`, if it refuses a part of the type.
pub fn to_vortex(dtype: &proved::DType) -> Result<vortex::DType, Box<dyn Error>> {
    use vortex::DType;
    let n = dtype.is_nullable().into();
    Ok(match dtype {
        proved::DType::Null => DType::Null,
        proved::DType::Bool(_) => DType::Bool(n),
        proved::DType::Primitive(ptype, _) => DType::Primitive(PTYPES[*ptype as usize], n),
        proved::DType::Decimal(it, _) => {
            DType::Decimal(vortex::DecimalDType::new(it.precision(), it.scale()), n)
        }
        proved::DType::Utf8(_) => DType::Utf8(n),
        proved::DType::Binary(_) => DType::Binary(n),
        proved::DType::Variant(_) => DType::Variant(n),
        proved::DType::List(element, _) => DType::List(Arc::new(to_vortex(element)?), n),
        proved::DType::FixedSizeList(element, size, _) => {
            DType::FixedSizeList(Arc::new(to_vortex(element)?), *size, n)
        }
        proved::DType::Map(map, _) => {
            let (key, value) = (to_vortex(map.key_dtype())?, to_vortex(map.value_dtype())?);
            DType::Map(vortex::MapDType::try_new(key, value, map.keys_sorted())?, n)
        }
        proved::DType::Struct(fields, _) => {
            let names = fields.names().iter().map(|name| name.as_str()).collect();
            let dtypes = fields.fields().map(to_vortex).collect::<Result<_, _>>()?;
            DType::Struct(vortex::StructFields::new(names, dtypes), n)
        }
        proved::DType::Union(variants, _) => {
            let names = variants.names().iter().map(|name| name.as_str()).collect();
            let dtypes = variants.variants().map(to_vortex).collect::<Result<_, _>>()?;
            let tags = variants.type_ids().to_vec();
            DType::Union(vortex::UnionVariants::try_new(names, dtypes, tags)?, n)
        }
        proved::DType::Extension(it) => {
            let (storage, metadata) = (to_vortex(it.storage_dtype())?, it.metadata_bytes().to_vec());
            let id = ExtId::new(it.id().as_str());
            DType::Extension(ForeignExtDType::from_parts(id, metadata, storage)?)
        }
    })
}
