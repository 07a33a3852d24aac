// SPDX-License-Identifier: Apache-2.0
// SPDX-FileCopyrightText: Copyright the Vortex contributors

//! Types as plain data, from which both sides build theirs, and as which the types of both sides are compared.

use original::types::PTYPES;
use vortex_array::dtype as theirs;
use vortex_array::dtype::extension as their_extension;
use vortex_logical_types as ours;

use crate::plain::Plain;

/// A type. The last `bool` of most kinds is whether values may be null.
#[derive(Debug, Clone, PartialEq, Eq, Hash)]
pub enum Shape {
    Null,
    Bool(bool),
    /// By the number of the primitive type.
    Primitive(usize, bool),
    /// With its precision and its scale.
    Decimal(u8, i8, bool),
    Utf8(bool),
    Binary(bool),
    List(Box<Shape>, bool),
    FixedSizeList(Box<Shape>, u32, bool),
    /// Of the key and the value, and whether keys are sorted.
    Map(Box<[Shape; 2]>, bool, bool),
    Struct(Vec<(String, Shape)>, bool),
    Union(Vec<(String, u8, Shape)>, bool),
    Variant(bool),
    /// With its id, its metadata and its storage.
    Extension(String, Vec<u8>, Box<Shape>),
}

use Shape::*;

impl Shape {
    /// The types that it is made of.
    pub fn parts(&self) -> Vec<&Shape> {
        match self {
            List(element, _) | FixedSizeList(element, ..) | Extension(_, _, element) => vec![element],
            Map(parts, ..) => parts.iter().collect(),
            Struct(fields, _) => fields.iter().map(|(_, field)| field).collect(),
            Union(variants, _) => variants.iter().map(|(_, _, variant)| variant).collect(),
            _ => Vec::new(),
        }
    }

    /// The types that it is made of, to be changed.
    pub fn parts_mut(&mut self) -> Vec<&mut Shape> {
        match self {
            List(element, _) | FixedSizeList(element, ..) | Extension(_, _, element) => vec![element],
            Map(parts, ..) => parts.iter_mut().collect(),
            Struct(fields, _) => fields.iter_mut().map(|(_, field)| field).collect(),
            Union(variants, _) => variants.iter_mut().map(|(_, _, variant)| variant).collect(),
            _ => Vec::new(),
        }
    }

    /// Whether values may be null, where the type has a mark of its own for that.
    pub fn mark(&mut self) -> Option<&mut bool> {
        match self {
            Null | Extension(..) => None,
            Bool(it) | Primitive(_, it) | Decimal(_, _, it) | Utf8(it) | Binary(it) | Variant(it) => Some(it),
            List(_, it) | FixedSizeList(_, _, it) | Map(_, _, it) | Struct(_, it) | Union(_, it) => Some(it),
        }
    }

    /// How many levels are below the type.
    pub fn levels(&self) -> usize {
        self.parts().iter().map(|it| it.levels() + 1).max().unwrap_or(0)
    }

    /// Whether the tags of a union are 0, 1, 2 and so on.
    fn has_plain_tags(&self) -> bool {
        let Union(variants, _) = self else { return false };
        variants.iter().enumerate().all(|(at, (_, tag, _))| at == usize::from(*tag))
    }

    /// The type with this mark for whether values may be null.
    fn marked(mut self, nullable: bool) -> Shape {
        self.mark().into_iter().for_each(|it| *it = nullable);
        self
    }
}

/// Writes what makes a type of a side, and what reads a type of that side. The sides differ in the pointer to an
/// element and in how an extension is made.
macro_rules! side {
    ($made:ident, $side:ident, $arc:path, $ptypes:expr, $extension:expr) => {
        impl Shape {
            pub fn $made(&self) -> $side::DType {
                use $side::{DType, DecimalDType, MapDType, StructFields, UnionVariants};
                match self {
                    Null => DType::Null,
                    Bool(n) => DType::Bool((*n).into()),
                    Primitive(number, n) => DType::Primitive($ptypes[*number], (*n).into()),
                    Decimal(precision, scale, n) => DType::Decimal(DecimalDType::new(*precision, *scale), (*n).into()),
                    Utf8(n) => DType::Utf8((*n).into()),
                    Binary(n) => DType::Binary((*n).into()),
                    Variant(n) => DType::Variant((*n).into()),
                    List(element, n) => DType::List(<$arc>::new(element.$made()), (*n).into()),
                    FixedSizeList(element, size, n) => {
                        DType::FixedSizeList(<$arc>::new(element.$made()), *size, (*n).into())
                    }
                    Map(parts, sorted, n) => {
                        let map = MapDType::try_new(parts[0].$made(), parts[1].$made(), *sorted);
                        DType::Map(map.expect("a map"), (*n).into())
                    }
                    Struct(fields, n) => {
                        let names = fields.iter().map(|(name, _)| name.as_str()).collect();
                        let dtypes = fields.iter().map(|(_, it)| it.$made()).collect();
                        DType::Struct(StructFields::new(names, dtypes), (*n).into())
                    }
                    Union(variants, n) => {
                        let names = variants.iter().map(|(name, ..)| name.as_str()).collect();
                        let dtypes = variants.iter().map(|(_, _, it)| it.$made()).collect();
                        let union = match self.has_plain_tags() {
                            true => UnionVariants::new(names, dtypes),
                            false => {
                                UnionVariants::try_new(names, dtypes, variants.iter().map(|(_, tag, _)| *tag).collect())
                            }
                        };
                        DType::Union(union.expect("a union"), (*n).into())
                    }
                    Extension(id, metadata, storage) => {
                        DType::Extension($extension(id, metadata.clone(), storage.$made()))
                    }
                }
            }
        }

        impl Plain for $side::DType {
            type Data = Shape;

            fn plain(&self) -> Shape {
                let n = self.is_nullable();
                match self {
                    Self::Null => Null,
                    Self::Bool(_) => Bool(n),
                    Self::Primitive(ptype, _) => Primitive(ptype.plain(), n),
                    Self::Decimal(decimal, _) => Decimal(decimal.precision(), decimal.scale(), n),
                    Self::Utf8(_) => Utf8(n),
                    Self::Binary(_) => Binary(n),
                    Self::Variant(_) => Variant(n),
                    Self::List(element, _) => List(Box::new(element.plain()), n),
                    Self::FixedSizeList(element, size, _) => FixedSizeList(Box::new(element.plain()), *size, n),
                    Self::Map(map, _) => map.plain().marked(n),
                    Self::Struct(fields, _) => fields.plain().marked(n),
                    Self::Union(variants, _) => variants.plain().marked(n),
                    Self::Extension(extension) => extension.plain(),
                }
            }
        }

        impl Plain for $side::MapDType {
            type Data = Shape;

            fn plain(&self) -> Shape {
                Map(Box::new([self.key_dtype().plain(), self.value_dtype().plain()]), self.keys_sorted(), false)
            }
        }

        impl Plain for $side::StructFields {
            type Data = Shape;

            fn plain(&self) -> Shape {
                let names = self.names().iter().map(|name| name.plain());
                Struct(names.zip(self.fields().map(|it| it.plain())).collect(), false)
            }
        }

        impl Plain for $side::UnionVariants {
            type Data = Shape;

            fn plain(&self) -> Shape {
                let named = self.names().iter().map(|name| name.plain()).zip(self.type_ids());
                let variants = named.zip(self.variants());
                Union(variants.map(|((name, tag), it)| (name, *tag, it.plain())).collect(), false)
            }
        }
    };
}

side! {
    ours, ours, ours::Arc<_>, ours::PType::ALL,
    |id: &String, metadata, storage| ours::ForeignExtDType::from_parts(id.as_str().into(), metadata, storage)
}

side! {
    theirs, theirs, std::sync::Arc<_>, PTYPES,
    |id: &String, metadata, storage| {
        let parts = their_extension::ForeignExtDType::from_parts(their_extension::ExtId::new(id), metadata, storage);
        parts.expect("an extension")
    }
}

/// The metadata of an extension is a result in the original, because its vtable writes it.
macro_rules! plain_extensions {
    ($($kind:ty, $it:ident => $metadata:expr;)*) => {$(
        impl Plain for $kind {
            type Data = Shape;

            fn plain(&self) -> Shape {
                let $it = self;
                Extension(self.id().plain(), $metadata, Box::new(self.storage_dtype().plain()))
            }
        }
    )*};
}

plain_extensions! {
    ours::ExtDTypeRef, it => it.serialize_metadata().into();
    their_extension::ExtDTypeRef, it => it.serialize_metadata().expect("metadata");
}
