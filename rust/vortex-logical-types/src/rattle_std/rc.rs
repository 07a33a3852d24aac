// SPDX-License-Identifier: Apache-2.0
// SPDX-FileCopyrightText: Copyright the Vortex contributors

//! Values that several owners share, on any threads. They are what Rust's `Arc` is, with an allocation that can fail. The
//! tests have a model of the atomic operations (`pointer_model.rs`).

use super::alloc::{AllocError, AllocFailed};
use super::boxed;
use std::alloc::Layout;
use std::cmp::Ordering as Order;
use std::hash::{Hash, Hasher};
use std::mem::ManuallyDrop;
use std::ops::Deref;
use std::ptr::{self, NonNull};
use std::sync::atomic::{AtomicUsize, Ordering, fence};
use std::{fmt, process};

/// A pointer to a value that it shares with its clones, for example the fields of a struct type with those of its
/// copies. The last of them drops the value. Pointers compare, hash, order and print as their values do.
///
/// A pointer goes to another thread only if the value may be there and here at the same time:
///
/// ```
/// use vortex_logical_types::rattle_std::rc::{Rc, RcStr};
///
/// let name = RcStr::from_str("id")?;
/// let copy = Clone::clone(&name);
/// assert!(std::thread::spawn(move || copy.len() == 2).join().unwrap());
/// assert!(Rc::try_unwrap(Rc::new(name)?).is_ok_and(|name| name.as_str() == "id"));
/// # Ok::<(), vortex_logical_types::rattle_std::alloc::AllocError>(())
/// ```
///
/// ```compile_fail,E0277
/// # use std::{cell::Cell, thread};
/// # use vortex_logical_types::rattle_std::rc::Rc;
/// let cell = Rc::new(Cell::new(1)).unwrap();
/// thread::spawn(move || cell.set(2));
/// ```
pub struct Rc<T: ?Sized> {
    // The block is one of `Box`, and is freed by one.
    block: NonNull<Counted<T>>,
}

/// A text that several owners share, for example the name of a field. The number of the owners and the bytes are in one
/// block.
pub type RcStr = Rc<str>;

/// A value, and how many pointers point to it. (In the order of the source, so that a text's bytes are where
/// [`RcStr::from_str`] writes them.)
#[repr(C)]
struct Counted<T: ?Sized> {
    owners: AtomicUsize,
    value: T,
}

/// The greatest number of owners. There can't be more, because each takes more than a byte of memory, unless they are
/// leaked.
const MAX_OWNERS: usize = isize::MAX as usize;

// SAFETY: an owner reads the value that others read (`T: Sync`), and the last drops it or takes it out, on whichever
// thread it is (`T: Send`). The number of owners is atomic.
unsafe impl<T: ?Sized + Send + Sync> Send for Rc<T> {}
// SAFETY: as above, because whoever borrows a pointer can clone it.
unsafe impl<T: ?Sized + Send + Sync> Sync for Rc<T> {}

impl<T> Rc<T> {
    /// Returns the only pointer to a new place with this value.
    ///
    /// # Errors
    ///
    /// `AllocFailed` with the value if the allocation fails.
    pub fn new(value: T) -> Result<Self, AllocFailed<T>> {
        let owners = AtomicUsize::new(1);
        let made = boxed::new(Counted { owners, value });
        let made = made.map_err(|AllocFailed(counted)| AllocFailed(counted.value))?;
        let block = NonNull::from(Box::leak(made));
        Ok(Rc { block })
    }

    /// Returns the value itself if this is the only pointer to it.
    ///
    /// # Errors
    ///
    /// The pointer if there are others.
    pub fn try_unwrap(this: Self) -> Result<T, Self> {
        // (`Acquire`: what the other owners did with the value was before they gave it up, which is seen here.)
        let owners = &this.counted().owners;
        let only = owners.compare_exchange(1, 0, Ordering::Acquire, Ordering::Relaxed);
        if only.is_err() {
            return Err(this);
        }
        let this = ManuallyDrop::new(this);
        // SAFETY: this was the only owner. It counts as none now, and isn't dropped, so nobody else frees the block.
        let block = unsafe { Box::from_raw(this.block.as_ptr()) };
        Ok(boxed::into_inner(block).value)
    }
}

impl RcStr {
    /// Returns the only pointer to a copy of the text.
    ///
    /// # Errors
    ///
    /// `AllocError` if the allocation fails.
    // (the sources call it so)
    #[allow(clippy::should_implement_trait)]
    pub fn from_str(text: &str) -> Result<Self, AllocError> {
        let joined = Layout::new::<AtomicUsize>().extend(Layout::for_value(text));
        let (layout, offset) = joined.map_err(|_| AllocError)?;
        let block = boxed::allocate(layout.pad_to_align()).ok_or(AllocError)?;
        // (The cast keeps the length that is part of the pointer. It is then the length of the text.)
        let count = block.cast::<AtomicUsize>();
        let counted = ptr::slice_from_raw_parts_mut(count.as_ptr(), text.len());
        // SAFETY: the block is new, and its layout is that of a `Counted<str>` with a text of this length: a count at
        // its begin, the bytes at their offset, and room up to the alignment. Both are written, and the bytes are UTF-8.
        unsafe {
            count.write(AtomicUsize::new(1));
            let bytes = block.add(offset);
            bytes.copy_from_nonoverlapping(NonNull::from(text).cast(), text.len());
            let block = NonNull::new_unchecked(counted as *mut Counted<str>);
            Ok(Rc { block })
        }
    }

    /// Returns the text.
    #[inline]
    pub fn as_str(&self) -> &str {
        self
    }
}

impl<T: ?Sized> Rc<T> {
    /// Returns another pointer to the value. `Clone::clone` does the same.
    ///
    /// # Errors
    ///
    /// None: nothing is allocated. (Calls that copy have a result in the sources.)
    // (the sources call it so)
    #[allow(clippy::should_implement_trait)]
    pub fn clone(&self) -> Result<Self, AllocError> {
        Ok(Clone::clone(self))
    }

    /// Returns whether both point to the same place.
    pub fn ptr_eq(a: &Self, b: &Self) -> bool {
        ptr::addr_eq(a.block.as_ptr(), b.block.as_ptr())
    }

    fn counted(&self) -> &Counted<T> {
        // SAFETY: the block is freed by its last owner only, and this is an owner. Nobody has a unique reference to it.
        unsafe { self.block.as_ref() }
    }
}

impl<T: ?Sized> Clone for Rc<T> {
    #[inline]
    fn clone(&self) -> Self {
        // (`Relaxed`: this owner isn't given up meanwhile, so the block stays. A count that is too high, which needs
        // pointers that are leaked, ends the program long before it can come round to 0.)
        if self.counted().owners.fetch_add(1, Ordering::Relaxed) > MAX_OWNERS {
            process::abort();
        }
        Rc { block: self.block }
    }
}

impl<T: ?Sized> Drop for Rc<T> {
    #[inline]
    fn drop(&mut self) {
        // (`Release`: what was done with the value is before the last owner drops it.)
        if self.counted().owners.fetch_sub(1, Ordering::Release) == 1 {
            fence(Ordering::Acquire);
            // SAFETY: this was the last owner, so nobody else reads the value or frees the block. A box frees its block
            // even if the value's `drop` panics.
            drop(unsafe { Box::from_raw(self.block.as_ptr()) });
        }
    }
}

impl<T: ?Sized> Deref for Rc<T> {
    type Target = T;

    fn deref(&self) -> &T {
        &self.counted().value
    }
}

/// Values at the same place are equal at once, because equality is reflexive where there is `Eq`.
impl<T: ?Sized + Eq> PartialEq for Rc<T> {
    fn eq(&self, other: &Self) -> bool {
        Rc::ptr_eq(self, other) || **self == **other
    }
}

impl<T: ?Sized + Eq> Eq for Rc<T> {}

impl<T: ?Sized + Ord> PartialOrd for Rc<T> {
    fn partial_cmp(&self, other: &Self) -> Option<Order> {
        Some(self.cmp(other))
    }
}

impl<T: ?Sized + Ord> Ord for Rc<T> {
    fn cmp(&self, other: &Self) -> Order {
        (**self).cmp(&**other)
    }
}

impl<T: ?Sized + Hash> Hash for Rc<T> {
    fn hash<H: Hasher>(&self, state: &mut H) {
        (**self).hash(state);
    }
}

impl<T: ?Sized + fmt::Debug> fmt::Debug for Rc<T> {
    fn fmt(&self, f: &mut fmt::Formatter<'_>) -> fmt::Result {
        (**self).fmt(f)
    }
}

impl<T: ?Sized + fmt::Display> fmt::Display for Rc<T> {
    fn fmt(&self, f: &mut fmt::Formatter<'_>) -> fmt::Result {
        (**self).fmt(f)
    }
}

#[cfg(test)]
mod tests;
