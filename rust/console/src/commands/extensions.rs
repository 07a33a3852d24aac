// SPDX-License-Identifier: Apache-2.0
// SPDX-FileCopyrightText: Copyright the Vortex contributors

//! The commands on extensions, erased and typed, and extension types as a user would write them.

use super::prelude::*;
use crate::argument::Bytes;
use vortex_logical_types::rattle_std::boxed;

pub const EXTENSIONS: &[Row] = rows! {
    ["extension", "ID HEX T", "x.tag 0x6162 utf8?", "the extension with this id, this metadata and this storage type"] (id: ExtId, metadata: Bytes, storage: DType => ExtDTypeRef::try_from_parts(id, metadata.0.into(), storage)?)
    ["foreign", "ID HEX T", "x.y 0x i32", "the extension of this id, with this metadata and this storage type, made by ForeignExtDType::from_parts. A session makes an extension in this way if it keeps unknown ids and has no plugin of the id."] (id: ExtId, metadata: Bytes, storage: DType => ForeignExtDType::try_from_parts(id, metadata.0.into(), storage)?)
    ["id", "E", "x.tag[0x6162](utf8)", "the id of the extension"] (extension: ExtDTypeRef => extension.id())
    ["metadata", "E", "x.tag[0x6162](utf8)", "the metadata of the extension"] (extension: ExtDTypeRef => Hex(extension.metadata_bytes()))
    ["serialize_metadata", "E", "x.tag[0x6162](utf8)", "the metadata of the extension, as a message contains it"] (extension: ExtDTypeRef => Hex(extension.try_serialize_metadata()?))
    ["storage_dtype", "E", "x.tag[0x](utf8?)", "the storage type of the extension"] (extension: ExtDTypeRef => extension.storage_dtype())
    ["extension_parts", "E", "x.tag[0x6162](utf8?)", "the id, the metadata and the storage type of the extension, which is consumed"] (extension: ExtDTypeRef => {
        let (id, metadata, storage) = extension.into_parts();
        (id, Hex(metadata), storage)
    })
    ["extension_nullability", "E", "x.tag[0x](utf8?)", "the nullability of the extension, which is that of its storage type"] (extension: ExtDTypeRef => extension.nullability().long_text())
    ["extension_is_nullable", "E", "x.tag[0x](utf8?)", "whether the storage type of the extension is nullable"] (extension: ExtDTypeRef => extension.is_nullable())
    ["extension_with_nullability", "N E", "NonNullable x.tag[0x](utf8?)", "the extension, with its storage type made nullable or non-nullable", "condition: needs a type that can be non-nullable"] (n: Nullability, extension: ExtDTypeRef; if n.is_nullable() || extension.storage_dtype().can_be_nonnullable() => extension.try_with_nullability(n)?)
    ["metadata_text", "E", "x.tag[0x6162](utf8)", "the text that the library prints of the metadata"] (extension: ExtDTypeRef => Shown(&extension.display_metadata()))
    ["extension_text", "E", "x.tag[0x6162](utf8)", "the text that the library prints of the extension"] (extension: ExtDTypeRef => Shown(&extension))
    ["extension_copy", "E", "x.tag[0x6162](utf8)", "a copy of the extension"] (extension: ExtDTypeRef => extension.try_clone()?)
    ["tag_new", "HEX T", "0x4142 utf8", "the extension x.tag with the metadata that is read from these bytes, and with this storage type", "MetadataRefused (22)"] (metadata: Bytes, storage: DType => typed::<Tag>(&metadata.0, storage)?)
    ["word_new", "HEX T", "0x61 i32", "the extension x.word with the metadata that is read from these bytes, and with this storage type", "MetadataRefused (22)"] (metadata: Bytes, storage: DType => typed::<Word>(&metadata.0, storage)?)
    ["tag_downcast", "E", "x.tag[0x4142](utf8)", "the metadata and the storage type of the extension, made typed with the vtable of x.tag. For example, for x.tag[0x4142](utf8) the answer is 0x6162 utf8, because x.tag changes letters to lower case.", "MetadataRefused (22), ExtensionIdDiffers (23)"] (extension: ExtDTypeRef => parts(&downcast::<Tag>(extension)?)?)
    ["word_downcast", "E", "x.tag[0x61](utf8)", "the metadata and the storage type of the extension, made typed with the vtable of x.word", "MetadataRefused (22), ExtensionIdDiffers (23)"] (extension: ExtDTypeRef => parts(&downcast::<Word>(extension)?)?)
    ["tag_with_nullability", "N E", "Nullable x.tag[0x61](utf8)", "the extension, made typed with the vtable of x.tag, with its storage type made nullable or non-nullable", "MetadataRefused (22), ExtensionIdDiffers (23); condition: needs a type that can be non-nullable"] (n: Nullability, extension: ExtDTypeRef => with_nullability::<Tag>(n, extension)?)
    ["word_with_nullability", "N E", "Nullable x.word[0x61](utf8)", "the extension, made typed with the vtable of x.word, with its storage type made nullable or non-nullable", "MetadataRefused (22), ExtensionIdDiffers (23); condition: needs a type that can be non-nullable"] (n: Nullability, extension: ExtDTypeRef => with_nullability::<Word>(n, extension)?)
};

/// Returns the extension with the metadata that a vtable reads from bytes.
fn typed<V: ExtVTable + Default>(metadata: &[u8], storage: DType) -> Result<ExtDTypeRef> {
    let metadata = V::default().deserialize_metadata(metadata)?;
    Ok(ExtDType::<V>::try_new(metadata, storage)?.try_erased()?)
}

fn downcast<V: ExtVTable + Default>(extension: ExtDTypeRef) -> Result<ExtDType<V>> {
    ExtDType::try_downcast(extension, V::default()).map_err(|(_, error)| error.into())
}

/// Returns the metadata and the storage type of an extension.
fn parts<V: ExtVTable>(typed: &ExtDType<V>) -> Result<(Hex<fallible::Vec<u8>>, &DType)> {
    Ok((Hex(typed.serialize_metadata()?), typed.storage_dtype()))
}

fn with_nullability<V: ExtVTable + Default>(n: Nullability, extension: ExtDTypeRef) -> Result<ExtDTypeRef> {
    let typed = downcast::<V>(extension)?;
    unless(n.is_nullable() || typed.storage_dtype().can_be_nonnullable(), "needs a type that can be non-nullable")?;
    Ok(typed.try_with_nullability(n)?)
}

type Plugin = fn() -> Result<Box<dyn ExtDTypePlugin>>;

/// What makes each plugin, by the words for them.
pub const PLUGINS: [(&str, Plugin); 4] = [
    ("x.tag", || Ok(boxed::new(PluginOf::new(Tag))?)),
    ("x.text", || Ok(boxed::new(Kept("x.text", |metadata, storage| metadata.is_empty() && storage.is_utf8()))?)),
    ("x.word", || Ok(boxed::new(PluginOf::new(Word))?)),
    ("kept", || Ok(boxed::new(Kept("x.tag", |_, _| true))?)),
];

/// The metadata of `x.tag` and `x.word`: bytes without capital letters or exclamation marks.
pub struct TagName(fallible::Vec<u8>);

/// Vtables that change the ASCII letters of the metadata to lower case, and don't accept metadata that contains the byte
/// `!`: the id of each, and which storage types it accepts.
macro_rules! vtables {
    ($($(#[$doc:meta])* $name:ident $id:literal $accepts:expr;)*) => { $(
        $(#[$doc])*
        #[derive(Default)]
        pub struct $name;

        impl ExtVTable for $name {
            type Metadata = TagName;

            fn id(&self) -> &str {
                $id
            }

            fn serialize_metadata(&self, metadata: &TagName) -> VortexResult<fallible::Vec<u8>> {
                Ok(fallible::Vec::from_slice(&metadata.0)?)
            }

            fn deserialize_metadata(&self, bytes: &[u8]) -> VortexResult<TagName> {
                if bytes.contains(&b'!') {
                    return Err(VortexError::MetadataRefused);
                }
                let mut kept = fallible::Vec::from_slice(bytes)?;
                kept.make_ascii_lowercase();
                Ok(TagName(kept))
            }

            fn validate_dtype(&self, _: &TagName, storage: &DType) -> VortexResult<()> {
                let accepts: fn(&DType) -> bool = $accepts;
                if accepts(storage) { Ok(()) } else { Err(VortexError::MetadataRefused) }
            }
        }
    )* };
}
vtables! {
    /// The vtable of `x.tag`, which accepts every storage type.
    Tag "x.tag" |_| true;
    /// The vtable of `x.word`, which accepts `utf8` of either nullability.
    Word "x.word" DType::is_utf8;
}

/// A plugin of this id that keeps metadata as it is, with the metadata and storage types that it accepts: `x.text` accepts
/// `utf8` of either nullability with empty metadata, and a second plugin of `x.tag` accepts everything.
struct Kept(&'static str, fn(&[u8], &DType) -> bool);

impl ExtDTypePlugin for Kept {
    fn id(&self) -> &str {
        self.0
    }

    fn deserialize(&self, metadata: &[u8], storage: &DType) -> VortexResult<fallible::Vec<u8>> {
        if self.1(metadata, storage) {
            Ok(fallible::Vec::from_slice(metadata)?)
        } else {
            Err(VortexError::MetadataRefused)
        }
    }
}
