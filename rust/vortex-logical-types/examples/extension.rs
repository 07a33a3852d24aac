// SPDX-License-Identifier: Apache-2.0
// SPDX-FileCopyrightText: Copyright the Vortex contributors

//! An extension type of a program's own: prices in a currency. Its plugin reads the currency from the metadata of a
//! message, and refuses metadata that isn't one.

use vortex_logical_types::{
    DType, DTypeSession, DecimalDType, ExtDType, ExtVTable, Nullability::NonNullable, PluginOf,
    VortexError, VortexResult, check_plugin, fallible,
};

/// A currency by its three letters, for example `EUR`.
#[derive(Debug, Clone, Copy, PartialEq, Eq)]
struct Currency([u8; 3]);

/// The vtable of prices: decimals whose metadata is the currency.
#[derive(Debug, Clone, Copy, Default)]
struct Price;

impl ExtVTable for Price {
    type Metadata = Currency;

    fn id(&self) -> &'static str {
        "example.price"
    }

    fn serialize_metadata(&self, currency: &Currency) -> VortexResult<fallible::Vec<u8>> {
        Ok(fallible::Vec::from_slice(&currency.0)?)
    }

    fn deserialize_metadata(&self, bytes: &[u8]) -> VortexResult<Currency> {
        let letters = bytes.try_into().map_err(|_| VortexError::MetadataRefused)?;
        match bytes.iter().all(u8::is_ascii_uppercase) {
            true => Ok(Currency(letters)),
            false => Err(VortexError::MetadataRefused),
        }
    }

    fn validate_dtype(&self, _: &Currency, storage: &DType) -> VortexResult<()> {
        storage
            .is_decimal()
            .then_some(())
            .ok_or(VortexError::MetadataRefused)
    }
}

fn main() -> Result<(), Box<dyn std::error::Error>> {
    let storage = DType::Decimal(DecimalDType::new(10, 2), NonNullable);
    let price = DType::from(ExtDType::<Price>::try_new(
        Currency(*b"EUR"),
        storage.clone(),
    )?);
    println!("{}", price.to_source());

    let mut session = DTypeSession::new();
    session.register(Price);
    println!(
        "{}",
        DType::from_proto(&price.to_proto(), &session)? == price
    );
    println!(
        "{}",
        session
            .deserialize("example.price", b"euro", storage.clone())
            .unwrap_err()
    );

    // (What an author of a plugin does in a test.)
    let text = DType::Utf8(NonNullable);
    check_plugin(
        &PluginOf::new(Price),
        [
            (&b"EUR"[..], &storage),
            (b"euro", &storage),
            (b"EUR", &text),
        ],
    )?;
    Ok(())
}
