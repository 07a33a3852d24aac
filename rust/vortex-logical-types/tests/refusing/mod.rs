// SPDX-License-Identifier: Apache-2.0
// SPDX-FileCopyrightText: Copyright the Vortex contributors

//! A global allocator that refuses the allocation of a given number, or all from there on, and counts allocations and the
//! bytes in use. All of this is of the thread that calls, so tests don't disturb each other.

#![allow(unsafe_code, reason = "an allocator is `unsafe`")]
#![allow(dead_code, reason = "not each test uses all of it")]

use std::alloc::{GlobalAlloc, Layout, System};
use std::cell::Cell;

struct Refusing;

#[global_allocator]
static ALLOCATOR: Refusing = Refusing;

thread_local! {
    /// How many allocations are granted before one is refused, or none if none is to be refused.
    static GRANTED: Cell<Option<usize>> = const { Cell::new(None) };
    /// Whether all allocations after the one that is refused are refused, too, and whether one has been.
    static ONWARD: Cell<bool> = const { Cell::new(false) };
    static HAS_REFUSED: Cell<bool> = const { Cell::new(false) };
    static REQUESTS: Cell<usize> = const { Cell::new(0) };
    static IN_USE: Cell<usize> = const { Cell::new(0) };
}

// SAFETY: each block is one of the system's allocator. Growing a block, which isn't defined here, is an allocation, too.
unsafe impl GlobalAlloc for Refusing {
    unsafe fn alloc(&self, layout: Layout) -> *mut u8 {
        REQUESTS.set(REQUESTS.get() + 1);
        let granted = GRANTED.get();
        if granted == Some(0) {
            HAS_REFUSED.set(true);
            GRANTED.set(ONWARD.get().then_some(0));
            return std::ptr::null_mut();
        }
        GRANTED.set(granted.map(|count| count - 1));
        IN_USE.set(IN_USE.get().wrapping_add(layout.size()));
        // SAFETY: the caller promises what the system's allocator wants.
        unsafe { System.alloc(layout) }
    }

    unsafe fn dealloc(&self, block: *mut u8, layout: Layout) {
        IN_USE.set(IN_USE.get().wrapping_sub(layout.size()));
        // SAFETY: as above.
        unsafe { System.dealloc(block, layout) }
    }
}

/// Returns how many bytes this thread has allocated and not freed.
pub fn in_use() -> usize {
    IN_USE.get()
}

/// Returns what the call returns if the allocation of this number, from 0, is refused, and whether there was one.
pub fn refused<T>(number: usize, call: impl FnOnce() -> T) -> (T, bool) {
    refused_if(number, false, call)
}

/// The same if the allocation of this number and all after it are refused.
pub fn refused_from<T>(number: usize, call: impl FnOnce() -> T) -> (T, bool) {
    refused_if(number, true, call)
}

fn refused_if<T>(number: usize, is_onward: bool, call: impl FnOnce() -> T) -> (T, bool) {
    ONWARD.set(is_onward);
    GRANTED.set(Some(number));
    let result = call();
    GRANTED.set(None);
    (result, HAS_REFUSED.replace(false))
}

/// Returns what the call returns, and how many allocations it makes.
pub fn counted<T>(call: impl FnOnce() -> T) -> (T, usize) {
    let before = REQUESTS.get();
    let result = call();
    (result, REQUESTS.get() - before)
}

/// Calls with each allocation refused in turn, until there is none of that number. The call must return an error exactly
/// if one is refused, and nothing may be left of it. Returns what the last call returned, and how many there were before.
pub fn each_refused<T, E>(call: impl Fn() -> Result<T, E>) -> (T, usize) {
    let ((value, ()), count) = each_refused_on(|| (), |()| call(), |()| true);
    (value, count)
}

/// Does the same with a call that changes a value. A new value is made for each call. After an error it must be as the
/// test wants.
pub fn each_refused_on<S, T, E>(
    make: impl Fn() -> S,
    call: impl Fn(&mut S) -> Result<T, E>,
    is_kept: impl Fn(&S) -> bool,
) -> ((T, S), usize) {
    for number in 0.. {
        let before = in_use();
        let mut value = make();
        match refused(number, || call(&mut value)) {
            (Ok(result), false) => return ((result, value), number),
            (Ok(_), true) => panic!("allocation {number} was refused, and there was no error"),
            (Err(_), false) => panic!("an error, but no allocation was refused"),
            (Err(_), true) => assert!(is_kept(&value), "after the error the value is another"),
        }
        drop(value);
        assert_eq!(
            in_use(),
            before,
            "allocation {number} was refused, and something is left"
        );
    }
    unreachable!("there is a number for each allocation")
}
