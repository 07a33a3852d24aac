// SPDX-License-Identifier: Apache-2.0
// SPDX-FileCopyrightText: Copyright the Vortex contributors

//! Objects that a program in C refers to by a pointer. In Rattle a slot contains a pointer, and here a box, which has the
//! same representation.

pub use failure::{ArrowReason, Failure};
pub use object::Object;

mod failure {
    include!(concat!(env!("OUT_DIR"), "/erased/c_objects/failure.rs"));
}
mod object {
    include!(concat!(env!("OUT_DIR"), "/erased/c_objects/object.rs"));
}

/// A place that contains one [`Object`] or is empty. In C it is `struct { void *at; }`, and `{0}` is an empty slot.
#[repr(C)]
pub struct Slot {
    object: Option<Box<Object>>,
}

impl Slot {
    /// Returns the object that the slot contains. The slot is empty afterwards.
    pub fn take(&mut self) -> Option<Box<Object>> {
        self.object.take()
    }

    /// Returns the object that the slot contains. The caller may change it.
    pub fn get_mut(&mut self) -> Option<&mut Object> {
        self.object.as_deref_mut()
    }

    /// Returns the object that the slot contains.
    pub fn get(&mut self) -> Option<&Object> {
        self.object.as_deref()
    }

    /// Stores the object in the slot. If the slot contained another object, that one is dropped.
    pub fn put(&mut self, object: Box<Object>) {
        self.object = Some(object);
    }
}
