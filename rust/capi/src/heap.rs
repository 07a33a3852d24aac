// SPDX-License-Identifier: Apache-2.0
// SPDX-FileCopyrightText: Copyright the Vortex contributors

//! The allocator of the library: the three functions of `c/heap.c`, which a program may define itself.

use std::alloc::{GlobalAlloc, Layout};
use std::ptr::null_mut;

// The greatest alignment that the three functions ensure.
const MOST_ALIGNED: usize = 16;

// What an allocation returns. The pointer is never null, and points to nothing if `ok` is false.
#[repr(C)]
struct Tried {
    ok: bool,
    at: *mut u8,
}

impl Tried {
    fn block(self) -> *mut u8 {
        if self.ok { self.at } else { null_mut() }
    }
}

unsafe extern "C" {
    fn rattle_alloc(size: usize, align: usize) -> Tried;
    fn rattle_realloc(at: *mut u8, kept: usize, size: usize, align: usize) -> Tried;
    fn rattle_dealloc(at: *mut u8);
}

struct Heap;

// SAFETY: `rattle_alloc` and `rattle_realloc` return a block of `size` bytes that is aligned to 16 bytes, or nothing, and
// `rattle_realloc` leaves the block as it is if it returns nothing.
unsafe impl GlobalAlloc for Heap {
    unsafe fn alloc(&self, layout: Layout) -> *mut u8 {
        if layout.align() > MOST_ALIGNED {
            return null_mut();
        }
        // SAFETY: any size may be asked for.
        unsafe { rattle_alloc(layout.size(), layout.align()) }.block()
    }

    unsafe fn dealloc(&self, at: *mut u8, _: Layout) {
        // SAFETY: the caller passes a block of this allocator.
        unsafe { rattle_dealloc(at) }
    }

    unsafe fn realloc(&self, at: *mut u8, layout: Layout, size: usize) -> *mut u8 {
        let kept = layout.size().min(size);
        // SAFETY: the caller passes a block of this allocator, of which the first `kept` bytes are there before and after.
        unsafe { rattle_realloc(at, kept, size, layout.align()) }.block()
    }
}

#[global_allocator]
static HEAP: Heap = Heap;
