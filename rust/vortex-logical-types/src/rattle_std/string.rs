// SPDX-License-Identifier: Apache-2.0
// SPDX-FileCopyrightText: Copyright the Vortex contributors

//! Texts, with allocations that can fail.
//!
//! ```
//! use vortex_logical_types::rattle_std::string::String;
//!
//! let mut text = String::from_str("decimal")?;
//! write!(text, "({},{})", 10, 2)?;
//! assert_eq!(text.as_str(), "decimal(10,2)");
//! # Ok::<(), vortex_logical_types::rattle_std::alloc::AllocError>(())
//! ```
#![forbid(unsafe_code)]

use super::alloc::AllocError;
use super::vec::Vec;
use std::borrow::Borrow;
use std::fmt::{self, Write};
use std::ops::Deref;
use std::string::FromUtf8Error;

/// Returns the text of these arguments of `format_args!`.
///
/// # Errors
///
/// `AllocError` if an allocation fails, or if a value's `Display` fails by itself.
pub fn format(arguments: fmt::Arguments<'_>) -> Result<String, AllocError> {
    let mut text = String::new();
    text.write_fmt(arguments)?;
    Ok(text)
}

/// A text of Rust's library whose growth can fail.
#[derive(Default, PartialEq, Eq, PartialOrd, Ord, Hash)]
pub struct String(std::string::String);

impl String {
    /// Returns the empty text. Doesn't allocate.
    pub const fn new() -> Self {
        String(std::string::String::new())
    }

    /// Returns a copy of the text.
    ///
    /// # Errors
    ///
    /// `AllocError` if the allocation fails.
    // (the sources call it so)
    #[allow(clippy::should_implement_trait)]
    pub fn from_str(text: &str) -> Result<Self, AllocError> {
        let mut copy = String::from_utf8(Vec::with_capacity(text.len())?).unwrap_or_default();
        copy.0.push_str(text);
        Ok(copy)
    }

    /// Returns the text of these bytes, in the vector's memory.
    ///
    /// # Errors
    ///
    /// Rust's error with the bytes if they aren't UTF-8.
    pub fn from_utf8(bytes: Vec<u8>) -> Result<Self, FromUtf8Error> {
        std::string::String::from_utf8(bytes.into_inner()).map(String)
    }

    /// Returns the text of these bytes, with U+FFFD in place of each sequence that isn't UTF-8.
    ///
    /// # Errors
    ///
    /// `AllocError` if an allocation fails.
    pub fn from_utf8_lossy(bytes: &[u8]) -> Result<Self, AllocError> {
        let mut text = String::new();
        for chunk in bytes.utf8_chunks() {
            text.push_str(chunk.valid())?;
            if !chunk.invalid().is_empty() {
                text.push(char::REPLACEMENT_CHARACTER)?;
            }
        }
        Ok(text)
    }

    /// Appends a text.
    ///
    /// # Errors
    ///
    /// `AllocError` if an allocation fails.
    #[inline]
    pub fn push_str(&mut self, text: &str) -> Result<(), AllocError> {
        self.0.try_reserve(text.len()).map_err(|_| AllocError)?;
        self.0.push_str(text);
        Ok(())
    }

    /// Appends a character.
    ///
    /// # Errors
    ///
    /// `AllocError` if an allocation fails.
    pub fn push(&mut self, character: char) -> Result<(), AllocError> {
        self.push_str(character.encode_utf8(&mut [0; 4]))
    }

    /// Appends the text of the arguments. `write!` calls this function.
    ///
    /// # Errors
    ///
    /// `AllocError` if an allocation fails, or if a value's `Display` fails by itself. What was written before stays.
    pub fn write_fmt(&mut self, arguments: fmt::Arguments<'_>) -> Result<(), AllocError> {
        Write::write_fmt(self, arguments).map_err(|_| AllocError)
    }

    /// Returns the text.
    #[inline]
    pub fn as_str(&self) -> &str {
        &self.0
    }

    /// Returns the text of Rust's library.
    pub fn into_inner(self) -> std::string::String {
        self.0
    }
}

impl Deref for String {
    type Target = str;

    #[inline]
    fn deref(&self) -> &str {
        &self.0
    }
}

impl Borrow<str> for String {
    fn borrow(&self) -> &str {
        &self.0
    }
}

impl From<std::string::String> for String {
    fn from(text: std::string::String) -> Self {
        String(text)
    }
}

impl Write for String {
    #[inline]
    fn write_str(&mut self, text: &str) -> fmt::Result {
        self.push_str(text).map_err(|_| fmt::Error)
    }
}

impl fmt::Display for String {
    fn fmt(&self, f: &mut fmt::Formatter<'_>) -> fmt::Result {
        self.0.fmt(f)
    }
}

impl fmt::Debug for String {
    fn fmt(&self, f: &mut fmt::Formatter<'_>) -> fmt::Result {
        self.0.fmt(f)
    }
}
