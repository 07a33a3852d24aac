// SPDX-License-Identifier: Apache-2.0
// SPDX-FileCopyrightText: Copyright the Vortex contributors

//! Extension types: their ids as texts, and their typed forms.

use super::or_abort;
use crate::dtype_base::Nullability;
use crate::dtype_types::{DType, ExtDTypeRef, ExtId};
use crate::vortex_dtype::{ExtDType, ExtVTable, ForeignExtDType};
use std::borrow::Borrow;
use std::hash::{Hash, Hasher};

impl AsRef<str> for ExtId {
    fn as_ref(&self) -> &str {
        self.as_str()
    }
}

impl Borrow<str> for ExtId {
    fn borrow(&self) -> &str {
        self.as_str()
    }
}

/// Copies the text.
impl From<&str> for ExtId {
    fn from(text: &str) -> Self {
        Self::new(text)
    }
}

/// Copies the text.
impl From<String> for ExtId {
    fn from(text: String) -> Self {
        Self::new(&text)
    }
}

/// Returns whether the id is this text.
///
/// ```
/// use vortex_logical_types::ExtId;
///
/// assert_eq!(ExtId::new("vortex.date"), "vortex.date");
/// ```
impl PartialEq<str> for ExtId {
    fn eq(&self, other: &str) -> bool {
        self.as_str() == other
    }
}

impl PartialEq<&str> for ExtId {
    fn eq(&self, other: &&str) -> bool {
        self.as_str() == *other
    }
}

impl ExtDTypeRef {
    /// Returns the extension type with this id, this metadata and this storage type.
    ///
    /// ```
    /// use vortex_logical_types::{DType, ExtDTypeRef, Nullability::NonNullable};
    ///
    /// let tag = ExtDTypeRef::from_parts("x.tag".into(), vec![1, 2], DType::Utf8(NonNullable));
    /// assert_eq!(tag.to_string(), "x.tag[2B](utf8)");
    /// ```
    #[must_use]
    pub fn from_parts(id: ExtId, metadata: Vec<u8>, storage: DType) -> Self {
        or_abort(Self::try_from_parts(id, metadata.into(), storage))
    }

    /// Returns the typed form of the extension type, if its id is that of the vtable and the vtable accepts its metadata
    /// and its storage type. Otherwise returns the extension type unchanged.
    ///
    /// ```
    /// use vortex_logical_types::{Nullability::NonNullable, time::{Date, Time, TimeUnit}};
    ///
    /// let date = Date::new(TimeUnit::Days, NonNullable).erased();
    /// let date = date.try_downcast::<Time>().unwrap_err();
    /// assert_eq!(date.try_downcast::<Date>().map(|typed| *typed.metadata()), Ok(TimeUnit::Days));
    /// ```
    ///
    /// # Errors
    ///
    /// The extension type, if it isn't one of the vtable. `ExtDType::try_downcast` also returns the reason.
    pub fn try_downcast<V: ExtVTable + Default>(self) -> Result<ExtDType<V>, Self> {
        ExtDType::try_downcast(self, V::default()).map_err(|(unchanged, _)| unchanged)
    }
}

impl ForeignExtDType {
    /// Returns the extension type with this id, this metadata and this storage type.
    #[must_use]
    pub fn from_parts(id: ExtId, metadata: Vec<u8>, storage: DType) -> ExtDTypeRef {
        ExtDTypeRef::from_parts(id, metadata, storage)
    }
}

impl<V: ExtVTable> ExtDType<V> {
    /// Consumes the extension type and returns its erased form: its id, the bytes that the vtable writes for the
    /// metadata, and its storage type.
    ///
    /// ```
    /// use vortex_logical_types::{Nullability::Nullable, time::{Date, TimeUnit}};
    ///
    /// assert_eq!(Date::new(TimeUnit::Days, Nullable).erased().to_string(), "vortex.date[1B](i32?)");
    /// ```
    ///
    /// # Panics
    ///
    /// If the vtable can't write the metadata. `try_erased` returns an error in this case.
    #[must_use]
    pub fn erased(self) -> ExtDTypeRef {
        written(self.try_erased())
    }

    /// Returns the erased form of the extension type, with the outer nullability of the storage type set to
    /// `nullability`.
    ///
    /// # Panics
    ///
    /// If the vtable can't write the metadata. `try_with_nullability` returns an error in this case. Also if
    /// `nullability` is `NonNullable` and the storage type is `Null`, or an extension whose innermost storage type is.
    #[must_use]
    pub fn with_nullability(&self, nullability: Nullability) -> ExtDTypeRef {
        written(self.try_with_nullability(nullability))
    }
}

// Returns the erased form that a vtable made.
fn written(result: crate::dtype_base::VortexResult<ExtDTypeRef>) -> ExtDTypeRef {
    match result {
        Err(error) if error.number() != 0 => panic!("the vtable can't write the metadata: {error}"),
        result => or_abort(result),
    }
}

impl<V: ExtVTable + Clone> Clone for ExtDType<V>
where
    V::Metadata: Clone,
{
    fn clone(&self) -> Self {
        let (vtable, metadata) = (self.vtable().clone(), self.metadata().clone());
        match Self::try_with_vtable(vtable, metadata, self.storage_dtype().clone()) {
            Ok(copy) => copy,
            Err(error) => panic!(
                "a vtable refuses the metadata and the storage type that it accepted before: {error}"
            ),
        }
    }
}

impl<V: ExtVTable + PartialEq> PartialEq for ExtDType<V>
where
    V::Metadata: PartialEq,
{
    fn eq(&self, other: &Self) -> bool {
        self.vtable() == other.vtable()
            && self.metadata() == other.metadata()
            && self.storage_dtype() == other.storage_dtype()
    }
}

impl<V: ExtVTable + Eq> Eq for ExtDType<V> where V::Metadata: Eq {}

impl<V: ExtVTable + Hash> Hash for ExtDType<V>
where
    V::Metadata: Hash,
{
    fn hash<H: Hasher>(&self, state: &mut H) {
        self.vtable().hash(state);
        self.metadata().hash(state);
        self.storage_dtype().hash(state);
    }
}

impl<V: ExtVTable> From<ExtDType<V>> for DType {
    fn from(typed: ExtDType<V>) -> Self {
        Self::Extension(typed.erased())
    }
}

impl From<ExtDTypeRef> for DType {
    fn from(extension: ExtDTypeRef) -> Self {
        Self::Extension(extension)
    }
}
