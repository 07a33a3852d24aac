// SPDX-License-Identifier: Apache-2.0
// SPDX-FileCopyrightText: Copyright the Vortex contributors

//! Sessions: registering a vtable or a plugin, and a test of the laws of plugins.

use super::or_abort;
use crate::dtype_base::{Nullability, VortexError, VortexResult};
use crate::dtype_types::DType;
use crate::time::{Date, Time, Timestamp};
use crate::vortex_dtype::{DTypeSession, ExtDTypePlugin, ExtVTable, PluginOf};
use std::{error, fmt};

/// Returns the plugin of the vtable.
impl<V: ExtVTable + Send + Sync + 'static> From<V> for Box<dyn ExtDTypePlugin> {
    fn from(vtable: V) -> Self {
        Box::new(PluginOf::new(vtable))
    }
}

impl DTypeSession {
    /// Registers the plugin of a vtable, or a plugin in a box, under its id. If another plugin was registered under the
    /// id, this one replaces it.
    ///
    /// ```
    /// use vortex_logical_types::{DTypeSession, time::Date};
    ///
    /// let mut session = DTypeSession::new();
    /// session.register(Date);
    /// assert!(session.registry("vortex.date"));
    /// ```
    pub fn register(&mut self, plugin: impl Into<Box<dyn ExtDTypePlugin>>) {
        or_abort(self.try_register(plugin.into()));
    }
}

/// Returns a session that knows dates, times and timestamps. `DTypeSession::new` returns one that knows no id.
///
/// ```
/// use vortex_logical_types::{DType, DTypeSession};
///
/// let date: DType = "vortex.date[0x04](i32?)".parse()?;
/// assert_eq!(DType::from_proto(&date.to_proto(), &DTypeSession::default())?, date);
/// # Ok::<(), vortex_logical_types::Error>(())
/// ```
impl Default for DTypeSession {
    fn default() -> Self {
        let mut session = Self::new();
        session.register(Date);
        session.register(Time);
        session.register(Timestamp);
        session
    }
}

/// A law of plugins that a plugin breaks: see [`check_plugin`].
#[derive(Debug, Clone, PartialEq, Eq, Hash)]
pub struct BrokenLaw {
    /// What the plugin should do.
    pub law: &'static str,
    /// The metadata of the sample with which it doesn't.
    pub metadata: Vec<u8>,
    /// The storage type of this sample.
    pub storage: DType,
}

impl fmt::Display for BrokenLaw {
    fn fmt(&self, f: &mut fmt::Formatter<'_>) -> fmt::Result {
        let Self {
            law,
            metadata,
            storage,
        } = self;
        write!(
            f,
            "{law}: broken with the metadata {metadata:?} over {storage}"
        )
    }
}

impl error::Error for BrokenLaw {}

/// Tries the laws of a plugin on samples, each of which is metadata and a storage type. An author of a plugin calls this
/// in a test. Samples should contain metadata that the plugin accepts and metadata that it refuses.
///
/// The laws are:
/// - The id is the same at each call.
/// - If the plugin reads what it wrote back, it writes the same back.
/// - What the plugin writes back doesn't depend on the outer nullability of the storage type.
/// - The plugin refuses by the error `MetadataRefused` (22), or by `OutOfMemory` (0).
///
/// The library relies on these laws only for the promise that a type whose message is written and read under the same
/// session is read as an equal type. If a plugin breaks a law, no call is unsafe, and every type that is returned is
/// valid. But reading the same type twice may return two types, and a call with such a plugin may return an error that its
/// documentation doesn't list.
///
/// ```
/// use vortex_logical_types::{DType, PType, PluginOf, check_plugin, time::Date};
///
/// let (days, names) = (DType::from(PType::I32), "utf8".parse::<DType>()?);
/// check_plugin(&PluginOf::new(Date), [(&[4][..], &days), (&[4, 4], &days), (&[4], &names)])?;
/// # Ok::<(), Box<dyn std::error::Error>>(())
/// ```
///
/// # Errors
///
/// The first [`BrokenLaw`] that is found.
pub fn check_plugin<'a>(
    plugin: &dyn ExtDTypePlugin,
    samples: impl IntoIterator<Item = (&'a [u8], &'a DType)>,
) -> Result<(), BrokenLaw> {
    let id = plugin.id().to_owned();
    for (metadata, storage) in samples {
        let broken = |law| BrokenLaw {
            law,
            metadata: metadata.to_vec(),
            storage: storage.clone(),
        };
        let check = |law, holds: bool| holds.then_some(()).ok_or_else(|| broken(law));
        let read = |bytes: &[u8], storage: &DType| -> VortexResult<Vec<u8>> {
            plugin.deserialize(bytes, storage).map(Into::into)
        };
        let first = read(metadata, storage);
        check("the id is the same at each call", plugin.id() == id)?;
        check(
            "a plugin refuses by MetadataRefused or OutOfMemory",
            is_lawful_refusal(&first),
        )?;
        if let Ok(written) = &first {
            let again = read(written, storage);
            check(
                "what was written back is read and written back unchanged",
                again.as_ref() == Ok(written),
            )?;
        }
        let others = [Nullability::Nullable, Nullability::NonNullable].map(|nullability| {
            let fits = nullability.is_nullable() || storage.can_be_nonnullable();
            !fits || read(metadata, &storage.with_nullability(nullability)) == first
        });
        check(
            "the outer nullability of the storage type makes no difference",
            others == [true, true],
        )?;
    }
    Ok(())
}

// Returns whether a result isn't an error, or is one by which a plugin may refuse.
fn is_lawful_refusal<T>(result: &VortexResult<T>) -> bool {
    matches!(
        result,
        Ok(_) | Err(VortexError::MetadataRefused | VortexError::OutOfMemory)
    )
}
