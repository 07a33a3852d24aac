// SPDX-License-Identifier: Apache-2.0
// SPDX-FileCopyrightText: Copyright the Vortex contributors

//! Boxes, with an allocation that can fail, and the allocation of vectors with room.
//!
//! ```
//! use vortex_logical_types::rattle_std::boxed;
//!
//! let boxed = boxed::new(7)?;
//! assert_eq!(boxed::into_inner(boxed), 7);
//! # Ok::<(), vortex_logical_types::rattle_std::alloc::AllocError>(())
//! ```

use super::alloc::AllocFailed;
use std::alloc::Layout;
use std::ptr::{self, NonNull};

/// Returns a box of the value.
///
/// # Errors
///
/// `AllocFailed` with the value if the allocation fails.
pub fn new<T>(value: T) -> Result<Box<T>, AllocFailed<T>> {
    let Some(block) = allocate(Layout::new::<T>()) else {
        return Err(AllocFailed(value));
    };
    let block = block.cast::<T>();
    // SAFETY: the block is new, and has the size and the alignment of a `T`. It comes from the global allocator, with
    // the layout by which a box frees it, or is dangling if a `T` has no size, as that of a box is.
    Ok(unsafe {
        block.write(value);
        Box::from_raw(block.as_ptr())
    })
}

/// Returns the value of a box.
// (taking the value out of its box is what this function does)
#[allow(clippy::boxed_local)]
pub fn into_inner<T>(boxed: Box<T>) -> T {
    *boxed
}

/// Returns an empty vector of Rust's library with room for exactly so many elements, or none if the allocation fails or if
/// no memory is that large. (`try_reserve_exact` of an empty vector could also reallocate, which takes longer to tell.)
#[inline]
pub(super) fn vec_with_room<T>(count: usize) -> Option<Vec<T>> {
    let block = allocate(Layout::array::<T>(count).ok()?)?;
    // SAFETY: the block comes from the global allocator, with the layout by which a vector of this capacity frees it, or is
    // dangling and aligned if the layout is empty, as that of such a vector is. None of its elements is in use.
    Some(unsafe { Vec::from_raw_parts(block.cast().as_ptr(), 0, count) })
}

/// Returns a new block of this layout, or none if the allocation fails. Of no bytes nothing is allocated: the block is
/// then dangling and aligned.
#[inline]
pub(super) fn allocate(layout: Layout) -> Option<NonNull<u8>> {
    if layout.size() == 0 {
        return NonNull::new(ptr::without_provenance_mut(layout.align()));
    }
    // SAFETY: the layout isn't empty.
    NonNull::new(unsafe { std::alloc::alloc(layout) })
}
