// SPDX-License-Identifier: Apache-2.0
// SPDX-FileCopyrightText: Copyright the Vortex contributors

//! Sessions, by words, and the plugins.

use std::fmt;

use vortex_array::dtype::DType;
use vortex_array::dtype::extension::{ExtDType, ExtDTypeRef, ExtId, ExtVTable};
use vortex_array::dtype::session::DTypeSessionExt;
use vortex_array::scalar::ScalarValue;
use vortex_error::{VortexResult, vortex_bail};
use vortex_session::VortexSession;

use crate::errors::refused;
use crate::types::{Answer, Bytes};

pub const PLUGINS: [&str; 4] = ["x.tag", "x.text", "x.word", "kept"];

/// `x.tag` lowers ASCII letters of its metadata and refuses an exclamation mark; `x.word` does so too, and takes a text
/// alone; `x.text` takes a text without metadata alone. `kept` has the id of `x.tag` and keeps all bytes.
#[derive(Clone, Debug, PartialEq, Eq, Hash)]
pub struct Plugin(pub &'static str);

impl fmt::Display for Bytes {
    fn fmt(&self, f: &mut fmt::Formatter<'_>) -> fmt::Result {
        write!(f, "{}B", self.0.len())
    }
}

impl ExtVTable for Plugin {
    type Metadata = Bytes;
    type NativeValue<'a> = &'a ScalarValue;

    fn id(&self) -> ExtId {
        ExtId::new(if self.0 == "kept" { "x.tag" } else { self.0 })
    }

    fn serialize_metadata(&self, metadata: &Bytes) -> VortexResult<Vec<u8>> {
        Ok(metadata.0.clone())
    }

    fn deserialize_metadata(&self, metadata: &[u8]) -> VortexResult<Bytes> {
        match self.0 {
            "kept" => Ok(Bytes(metadata.to_vec())),
            "x.text" if !metadata.is_empty() => vortex_bail!("plugin: a text has no metadata"),
            _ if metadata.contains(&b'!') => vortex_bail!("plugin: the metadata has an exclamation mark"),
            _ => Ok(Bytes(metadata.to_ascii_lowercase())),
        }
    }

    fn validate_dtype(dtype: &ExtDType<Self>) -> VortexResult<()> {
        let is_text = matches!(dtype.storage_dtype(), DType::Utf8(_));
        if matches!(dtype.vtable().0, "x.text" | "x.word") && !is_text {
            vortex_bail!("plugin: the storage is no text")
        }
        Ok(())
    }

    fn unpack_native<'a>(_dtype: &'a ExtDType<Self>, value: &'a ScalarValue) -> VortexResult<&'a ScalarValue> {
        Ok(value)
    }
}

impl Plugin {
    /// The typed extension with the metadata that the plugin reads.
    pub fn made(&self, metadata: &[u8], storage: DType) -> Answer<ExtDType<Self>> {
        Ok(ExtDType::try_with_vtable(self.clone(), self.deserialize_metadata(metadata)?, storage)?)
    }

    /// The original tells typed extensions by their type: another answers none. Here the id tells them (23), and the
    /// plugin reads what the erased one keeps (22).
    pub fn downcast(&self, extension: &ExtDTypeRef) -> Answer<ExtDType<Self>> {
        if extension.id() != self.id() {
            return Err(refused(23, &[]));
        }
        self.made(&extension.serialize_metadata()?, extension.storage_dtype().clone())
    }
}

/// The words of a session: its plugins, `strict`, which says nothing, and `unknown`.
pub struct Session(Vec<&'static str>);

impl Session {
    pub fn of(words: Vec<&'static str>) -> Self {
        Self(words)
    }

    pub fn allows_unknown(&self) -> bool {
        self.0.contains(&"unknown")
    }

    pub fn made(&self) -> VortexSession {
        let session = VortexSession::empty();
        for &word in &self.0 {
            match word {
                "strict" => {}
                "unknown" => session.allow_unknown(),
                plugin => session.dtypes().register(Plugin(plugin)),
            }
        }
        session
    }
}
