// SPDX-License-Identifier: Apache-2.0
// SPDX-FileCopyrightText: Copyright the Vortex contributors

//! The parts of a type to which paths lead, one after another.

use crate::dtype_paths::{Field, FieldPath};
use crate::dtype_types::{DType, StructFields};
use std::iter::FusedIterator;
use std::ops::Range;

impl DType {
    /// Returns an iterator over the parts of the type, which are the types to which paths lead, each with its path. The
    /// type itself is the first, at the root. A part comes before the parts inside of it, and the fields of a struct are
    /// in order. If several fields of a struct have the same name, a path leads to the first of them, so the others are
    /// left out. No path leads into a map, a union or an extension.
    ///
    /// ```
    /// use vortex_logical_types::DType;
    ///
    /// let orders: DType = "{id=u32, lines=list({sku=utf8})?}".parse()?;
    /// let parts: Vec<_> = orders.parts().map(|(path, part)| format!("{path}: {part}")).collect();
    /// assert_eq!(
    ///     parts[1..],
    ///     ["$id: u32", "$lines: list({sku=utf8})?", "$lines.[]: {sku=utf8}", "$lines.[].$sku: utf8"],
    /// );
    /// assert!(orders.parts().all(|(path, part)| path.resolve(&orders) == Some(part)));
    /// # Ok::<(), vortex_logical_types::Error>(())
    /// ```
    ///
    /// The iterator visits a part when it is asked for it, and makes the path of that part, which is its only allocation
    /// for the part. It needs no stack, however deep the type is.
    #[must_use]
    pub fn parts(&self) -> Parts<'_> {
        Parts {
            whole: Some(self),
            steps: Vec::new(),
            left: Vec::new(),
        }
    }
}

/// An iterator over the parts of a type and their paths. [`DType::parts`] returns it.
#[derive(Clone, Debug)]
pub struct Parts<'a> {
    // the type itself, until it is yielded
    whole: Option<&'a DType>,
    // the path of the part that was yielded last
    steps: Vec<Field>,
    // what is left inside of each type on that path, the root's first
    left: Vec<Left<'a>>,
}

// What is left of the parts to which one step into a type leads.
#[derive(Clone, Debug)]
enum Left<'a> {
    Element(Option<&'a DType>),
    // the positions of the fields that are left
    Fields(&'a StructFields, Range<usize>),
}

impl<'a> Left<'a> {
    fn of(dtype: &'a DType) -> Self {
        match dtype {
            DType::List(element, _) | DType::FixedSizeList(element, ..) => {
                Self::Element(Some(element))
            }
            DType::Struct(fields, _) => Self::Fields(fields, 0..fields.nfields()),
            _ => Self::Element(None),
        }
    }

    fn next(&mut self) -> Option<(Field, &'a DType)> {
        match self {
            Self::Element(element) => Some((Field::ElementType, element.take()?)),
            Self::Fields(fields, left) => left.find_map(|position| {
                let name = fields.field_name(position)?;
                let is_first = fields.find(name) == Some(position);
                let dtype = fields.field_by_index(position).filter(|_| is_first)?;
                Some((Field::from(name), dtype))
            }),
        }
    }
}

impl<'a> Parts<'a> {
    // Steps to the next part and returns it.
    fn step(&mut self) -> Option<&'a DType> {
        loop {
            if let Some((step, dtype)) = self.left.last_mut()?.next() {
                self.steps.push(step);
                return Some(dtype);
            }
            self.left.pop();
            self.steps.pop();
        }
    }
}

impl<'a> Iterator for Parts<'a> {
    type Item = (FieldPath, &'a DType);

    fn next(&mut self) -> Option<Self::Item> {
        let dtype = match self.whole.take() {
            Some(whole) => whole,
            None => self.step()?,
        };
        self.left.push(Left::of(dtype));
        Some((FieldPath::from_vec(self.steps.clone().into()), dtype))
    }
}

impl FusedIterator for Parts<'_> {}
