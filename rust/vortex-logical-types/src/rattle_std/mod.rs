// SPDX-License-Identifier: Apache-2.0
// SPDX-FileCopyrightText: Copyright the Vortex contributors

//! The part of Rattle's standard library that Rust's lacks: collections, texts and counted pointers of which each
//! allocation can fail and is returned as an error.
//!
//! The erased sources name this module where the Rattle sources name a module of `std` that Rust has with other
//! signatures. What is here is a small type over Rust's type where there is one, for example [`vec::Vec`], whose `push`
//! returns the element if there is no memory for it.
//!
//! After an error a collection contains what it contained before, unless the function says otherwise. Nothing here ends
//! the program for lack of memory. `sort`, the ordered map, replacing bytes that aren't UTF-8 and the distance of two
//! words are written here for that reason: Rust's forms allocate, and end the program if they can't. What a caller
//! reaches by `Deref`, for example `to_vec` of a slice, is Rust's and does so, too. Hash maps have Rust's random seeds, so
//! names can't be chosen such that they collide, and the order of the entries differs from run to run.
//!
//! ```
//! use vortex_logical_types::format_in;
//! use vortex_logical_types::rattle_std::display_ext::DisplayExt as _;
//! use vortex_logical_types::rattle_std::iter_ext::IterExt as _;
//! use vortex_logical_types::rattle_std::vec::Vec;
//!
//! let squares: Vec<u64> = (1..4).map(|number| number * number).collect_in()?;
//! assert_eq!(squares.as_slice(), [1, 4, 9]);
//! assert_eq!(format_in!("{squares:?}")?.as_str(), "[1, 4, 9]");
//! assert_eq!(squares[2].to_string_in()?.as_str(), "9");
//! # Ok::<(), vortex_logical_types::rattle_std::alloc::AllocError>(())
//! ```

// The Rattle sources have neither `#[must_use]` nor a `Default` for each `new`.
#![allow(clippy::must_use_candidate, clippy::new_without_default)]

// Rust has no stable forms of `Box::new`, `Vec::with_capacity` and `Arc::new` that return an error. All other modules
// forbid unsafe code.
#[allow(unsafe_code)]
pub mod boxed;
pub mod collections;
#[allow(unsafe_code)]
pub mod rc;
pub mod string;
pub mod strsim;
pub mod vec;

/// Makes a [`vec::Vec`] of the given elements, or of a number of copies of one: `vec_in![1, 2]?`, `vec_in![0; n]?`.
#[macro_export]
#[doc(hidden)]
macro_rules! vec_in {
    ($item:expr; $count:expr) => { $crate::rattle_std::vec::Vec::from_elem($item, $count) };
    ($($item:expr),* $(,)?) => { $crate::rattle_std::vec::Vec::from_array([$($item),*]) };
}

/// Makes a [`string::String`] of the arguments of `format!`: `format_in!("{name} = {value}")?`.
#[macro_export]
#[doc(hidden)]
macro_rules! format_in {
    ($($part:tt)*) => { $crate::rattle_std::string::format(format_args!($($part)*)) };
}

/// An integer, as far as the conversions to and from bytes need to know it.
pub trait Number: Copy {}

macro_rules! numbers {
    ($($t:ty)*) => { $(impl Number for $t {})* };
}
numbers!(u8 u16 u32 u64 i8 i16 i32 i64 i128);

/// The errors of allocations.
pub mod alloc {
    use std::{error, fmt};

    /// An allocation failed.
    #[derive(Clone, Copy, Debug, PartialEq, Eq)]
    pub struct AllocError;

    /// An allocation failed, and this is the value for which there was no memory.
    #[derive(Clone, Copy, Debug, PartialEq, Eq)]
    pub struct AllocFailed<T>(pub T);

    impl fmt::Display for AllocError {
        fn fmt(&self, f: &mut fmt::Formatter<'_>) -> fmt::Result {
            f.write_str("memory allocation failed")
        }
    }

    impl error::Error for AllocError {}

    impl<T> From<AllocFailed<T>> for AllocError {
        fn from(_: AllocFailed<T>) -> Self {
            AllocError
        }
    }
}

/// Texts of values, with an allocation that can fail.
pub mod display_ext {
    use super::alloc::AllocError;
    use super::string::{String, format};
    use std::fmt::Display;

    /// Adds [`to_string_in`](DisplayExt::to_string_in) to each type with `Display`.
    pub trait DisplayExt: Display {
        /// Returns the text of this value.
        ///
        /// # Errors
        ///
        /// `AllocError` if an allocation fails.
        fn to_string_in(&self) -> Result<String, AllocError> {
            format(format_args!("{self}"))
        }
    }

    impl<T: Display + ?Sized> DisplayExt for T {}
}

/// Collections of the items of an iterator, with allocations that can fail.
pub mod iter_ext {
    use super::alloc::AllocError;

    /// A collection that can be made of the items of an iterator.
    pub trait FromIterator<T>: Sized {
        /// Returns the collection of all items.
        ///
        /// # Errors
        ///
        /// `AllocError` if an allocation fails. The items that were taken from the iterator are then dropped.
        fn from_iter<I: IntoIterator<Item = T>>(items: I) -> Result<Self, AllocError>;
    }

    /// Adds [`collect_in`](IterExt::collect_in) to each iterator.
    pub trait IterExt: Iterator + Sized {
        /// Returns the collection of all items, as [`FromIterator::from_iter`] does.
        ///
        /// # Errors
        ///
        /// `AllocError` if an allocation fails.
        fn collect_in<C: FromIterator<Self::Item>>(self) -> Result<C, AllocError> {
            C::from_iter(self)
        }
    }

    impl<I: Iterator> IterExt for I {}
}
