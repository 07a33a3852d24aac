// SPDX-License-Identifier: Apache-2.0
// SPDX-FileCopyrightText: Copyright the Vortex contributors

//! Sessions, plugins, and extension types with the vtables of plugins. The plugins are those of `original::plugins`.

use original::plugins::{PLUGINS, Plugin};
use original::types::Stop;
use vortex_array::dtype as theirs;
use vortex_array::dtype::extension as their_extension;
use vortex_array::dtype::session::DTypeSessionExt;
use vortex_logical_types::{self as ours, DTypeSession, ExtVTable, VortexError, VortexResult, fallible};

use crate::generate;
use crate::report::hash_of;
use crate::round::*;
use crate::shape::Shape;

/// A plugin of `original::plugins` as a vtable of this library.
#[derive(Debug, Clone, Copy, PartialEq, Eq, Hash)]
struct Ported(&'static str);

impl ExtVTable for Ported {
    type Metadata = Vec<u8>;

    fn id(&self) -> &str {
        if self.0 == "kept" { "x.tag" } else { self.0 }
    }

    fn serialize_metadata(&self, metadata: &Vec<u8>) -> VortexResult<fallible::Vec<u8>> {
        Ok(metadata.clone().into())
    }

    fn deserialize_metadata(&self, bytes: &[u8]) -> VortexResult<Vec<u8>> {
        match self.0 {
            "kept" => Ok(bytes.to_vec()),
            "x.text" if !bytes.is_empty() => Err(VortexError::MetadataRefused),
            _ if bytes.contains(&b'!') => Err(VortexError::MetadataRefused),
            _ => Ok(bytes.to_ascii_lowercase()),
        }
    }

    fn validate_dtype(&self, _: &Vec<u8>, storage: &ours::DType) -> VortexResult<()> {
        match self.0 {
            "x.text" | "x.word" if !storage.is_utf8() => Err(VortexError::MetadataRefused),
            _ => Ok(()),
        }
    }
}

/// The session of these words: plugins, `strict`, which says nothing, and `unknown`.
pub fn session(words: &[&'static str]) -> DTypeSession {
    let mut session = DTypeSession::new();
    for word in words {
        match *word {
            "strict" => {}
            "unknown" => session.allow_unknown(),
            plugin => session.register(Ported(plugin)),
        }
    }
    session
}

/// Metadata that plugins may refuse or change.
fn metadata(round: &mut Round) -> Vec<u8> {
    (0..round.random.below(4)).map(|_| *round.random.pick(b"aZ!\0\xff")).collect()
}

/// Which ids are registered, and the extension that a session makes of parts.
pub fn of_session(round: &mut Round) {
    let words: Vec<&'static str> = PLUGINS.into_iter().filter(|_| round.random.bool()).collect();
    let there: Vec<&'static str> = round.or_spoiled(words.clone(), PLUGINS[words.len() % 4..].to_vec());
    let (here, their_session) = (session(&words), original::plugins::Session::of(there).made());
    let id = *round.random.pick(&["x.tag", "x.text", "x.word", "x.other"]);
    let (metadata, storage) = (metadata(round), generate::leaf(&mut round.random));
    let storage = round.pair(storage);
    let known = |id: &str| their_session.dtypes().registry().get(&their_extension::ExtId::new(id));
    let ids: Vec<String> =
        ["x.tag", "x.text", "x.word"].into_iter().filter(|id| known(id).is_some()).map(str::to_owned).collect();
    same! { round, format!("{words:?}, {id}{metadata:?}({})", storage.text());
        "registry" => here.registry(id), known(id).is_some();
        "registered" => here.registered(), ids;
    }
    if let (true, Some(plugin)) = (here.registry(id), known(id)) {
        let there = plugin.deserialize(&metadata, storage.theirs.clone());
        same! { round, format!("{words:?}, {id}{metadata:?}({})", storage.text());
            "DTypeSession::deserialize" => here.deserialize(id, &metadata, storage.ours.clone()), there;
        }
    }
}

/// The typed extension of a plugin, and the extension that has its parts.
pub fn of_typed(round: &mut Round) {
    let (word, metadata) = (*round.random.pick(&PLUGINS), metadata(round));
    let storage =
        if round.random.bool() { Shape::Utf8(round.random.bool()) } else { generate::leaf(&mut round.random) };
    let storage = round.pair(storage);
    let about = || format!("{word}{metadata:?}({})", storage.text());
    let there = round.or_spoiled((word, metadata.clone()), (if word == "kept" { "x.word" } else { "kept" }, vec![7]));
    let here = Ported(word)
        .deserialize_metadata(&metadata)
        .and_then(|it| ours::ExtDType::try_with_vtable(Ported(word), it, storage.ours.clone()));
    let there = Plugin(there.0).made(&there.1, storage.theirs.clone());
    same! { round, about();
        "ExtDType::try_with_vtable" => here.as_ref().map(|it| it.storage_dtype().clone()).map_err(|it| *it),
            there.as_ref().map(|it| it.storage_dtype().clone()).map_err(|it| Stop(it.0.clone()));
    }
    let (Ok(here), Ok(there)) = (here, there) else {
        return;
    };
    let n = round.random.bool() || !storage.ours.can_be_nonnullable() || round.is_spoiled;
    same! { round, about();
        "ExtDType::id" => here.id().to_owned(), there.id();
        "ExtDType::metadata" => here.metadata(), there.metadata().0;
        "ExtDType::storage_dtype" => here.storage_dtype(), there.storage_dtype();
        "ExtDType::serialize_metadata" => here.serialize_metadata(), there.serialize_metadata();
        "ExtDType::with_nullability" => here.with_nullability(n.into()), there.with_nullability(n.into());
        "ExtDType::clone" => here.clone().erased(), there.clone().erased();
        "ExtDType::erased" => here.clone().erased(), there.clone().erased();
        "DType::from(ExtDType)" => ours::DType::from(here.clone()), theirs::DType::Extension(there.clone().erased());
    }
    let (here, there) = (here.erased(), there.erased());
    let other = *round.random.pick(&PLUGINS);
    let down = ours::ExtDType::try_downcast(here, Ported(other)).map(|it| it.metadata().clone()).map_err(|it| it.1);
    same! { round, format!("{} as {other}", about());
        "ExtDType::try_downcast" => down, Plugin(other).downcast(&there).map(|it| it.metadata().0.clone());
    }
}

/// The calls on an extension type, and on it with another.
pub fn of_extension(round: &mut Round, it: &Pair, other: &Pair) {
    let (Some(ours), Some(theirs)) = (it.ours.as_extension_opt(), it.theirs.as_extension_opt()) else {
        return;
    };
    let n = round.random.bool() || !it.ours.can_be_nonnullable() || round.is_spoiled;
    both! { round, it.text(), it = ours, theirs;
        "id" => it.id();
        "storage_dtype" => it.storage_dtype();
        "ExtDTypeRef::nullability" => it.nullability();
        "ExtDTypeRef::is_nullable" => it.is_nullable();
        "ExtDTypeRef::clone" => it.clone();
        "ExtDTypeRef::to_string" => it.to_string();
        "ExtDTypeRef::with_nullability" => it.with_nullability(n.into());
        "display_metadata" => it.display_metadata().to_string();
    }
    same! { round, it.text();
        "metadata_bytes" => ours.metadata_bytes(), theirs.serialize_metadata().expect("metadata");
        "serialize_metadata" => Some(ours.serialize_metadata()), theirs.serialize_metadata().ok();
        "into_parts" => ours.clone().into_parts(),
            (theirs.id(), theirs.serialize_metadata().expect("metadata"), theirs.storage_dtype());
    }
    if let (Some(more), Some(their_more)) = (other.ours.as_extension_opt(), other.theirs.as_extension_opt()) {
        both! { round, format!("{} and {}", it.text(), other.text()), (a, b) = (ours, more), (theirs, their_more);
            "ExtDTypeRef::eq" => a == b;
            "ExtDTypeRef::hash" => hash_of(a) == hash_of(b);
            "ExtDTypeRef::eq_ignore_nullability" => a.eq_ignore_nullability(b);
        }
    }
}
