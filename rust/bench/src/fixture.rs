// SPDX-License-Identifier: Apache-2.0
// SPDX-FileCopyrightText: Copyright the Vortex contributors

//! The types, names and paths that the cases work on.

use std::fmt::Display;
use std::iter;

use crate::library::{Arc, DType, Field, FieldName, FieldPath, Nullability, PType, StructFields, extension};

/// The last part of a case's name: what it is of, and how many.
pub fn name_of(what: impl Display, count: usize) -> String {
    format!("/{what}/{count}")
}

/// The shape of a type: a struct of so many fields, or structs of one, lists, lists of size 1, extensions so deep.
#[derive(Clone, Copy, Debug, PartialEq)]
pub enum Shape {
    Wide,
    Deep,
    Lists,
    Fixed,
    Extensions,
}

impl Shape {
    /// A type of this shape and size, its inner nullabilities flipped if asked.
    pub fn make(self, count: usize, flip: bool) -> DType {
        match self {
            Shape::Wide => wide_type(&texts(WIDE, count), flip),
            _ => (0..count).fold(leaf(0, flip), |inside, _| self.wrap(inside, flip.into())),
        }
    }

    fn wrap(self, inside: DType, nullability: Nullability) -> DType {
        match self {
            Shape::Wide | Shape::Deep => DType::Struct(StructFields::from_iter([("a", inside)]), nullability),
            Shape::Lists => DType::List(Arc::new(inside), nullability),
            Shape::Fixed => DType::FixedSizeList(Arc::new(inside), 1, nullability),
            Shape::Extensions => extension(inside),
        }
    }
}

/// What names of fields are called, and the form of the name at a place among so many.
pub type Naming = (&'static str, fn(usize, usize) -> String);

pub const WIDE: Naming = ("wide", |i, _| column(i));

const PREFIXES: [&str; 7] = ["ss_", "ws_", "cs_", "sr_", "c_customer_", "d_date_", "i_item_"];
const WORDS: &str = "sk quantity list_price net_paid ext_discount_amt order_number sales_price promo ship_cost tax";
const PARTS: [&str; 4] = ["name", "version", "namespace", "instance"];

/// The forms that only lookups and index builds are measured with.
pub const OTHER_NAMINGS: [Naming; 4] = [
    ("shuffled", |i, count| column(mixed(i, count))),
    ("hexadecimal", |i, _| format!("{:016x}", (i as u64 + 1).wrapping_mul(0x9E37_79B9_7F4A_7C15))),
    ("words", |i, _| {
        let word = format!("{}{}", PREFIXES[i % 7], WORDS.split(' ').nth(i / 7 % 10).unwrap_or_default());
        if i < 70 { word } else { format!("{word}_{}", i / 70) }
    }),
    ("dotted", |i, _| format!("resource.attributes.service.{}.{i}", PARTS[i % 4])),
];

/// The names of `count` fields, as texts.
pub fn texts((_, text): Naming, count: usize) -> Vec<String> {
    (0..count).map(|i| text(i, count)).collect()
}

/// The path of a set at each place.
pub type Form = fn(usize) -> FieldPath;

/// The form of the paths of a set: two names, the first the same in all paths; three names, with ten paths below each
/// parent; chains of 64 paths, each the beginning of the next.
pub const SETS: [(&str, Form); 3] = [
    ("flat", |i| path_of(["parent".to_owned(), column(i)])),
    ("nested", |i| path_of([format!("a_{}", i / 100), format!("b_{}", i / 10 % 10), format!("c_{}", i % 10)])),
    ("chains", |i| path_of(iter::once(column(i / 64)).chain((0..i % 64).map(|_| "x".to_owned())))),
];

/// The path of these names.
pub fn path_of(names: impl IntoIterator<Item = String>) -> FieldPath {
    names.into_iter().map(|name| Field::from(name.as_str())).collect()
}

/// Types of one shape and size. Where there are two, each is built separately, and iterations alternate between them.
pub struct Types {
    /// The last part of a case's name.
    pub of: String,
    pub shape: Shape,
    pub count: usize,
    pub two: [DType; 2],
    pub sames: [DType; 2],
    /// The same types with their inner nullabilities flipped.
    pub others: [DType; 2],
}

impl Types {
    pub fn new(shape: Shape, count: usize) -> Self {
        let two = |flip| [shape.make(count, flip), shape.make(count, flip)];
        let of = name_of(format!("{shape:?}").to_lowercase(), count);
        Self { of, shape, count, two: two(false), sames: two(false), others: two(true) }
    }

    /// One of the two, alternating.
    pub fn turn(&self, i: usize) -> &DType {
        &self.two[i % 2]
    }
}

/// A struct of fields with these names.
pub fn wide_type(texts: &[String], flip: bool) -> DType {
    let fields = texts.iter().enumerate().map(|(i, text)| (text.as_str(), leaf(i, flip)));
    DType::Struct(fields.collect(), Nullability::NonNullable)
}

/// The type of a column, its nullability flipped if asked.
pub fn leaf(i: usize, flip: bool) -> DType {
    match i % 4 {
        0 => DType::Primitive(PType::I32, flip.into()),
        1 => DType::Utf8((!flip).into()),
        2 => DType::Bool(flip.into()),
        _ => DType::Primitive(PType::F64, (!flip).into()),
    }
}

pub fn names<'a>(texts: impl IntoIterator<Item = &'a String>) -> Vec<FieldName> {
    texts.into_iter().map(|text| FieldName::from(text.as_str())).collect()
}

/// A permutation of the numbers below `count`: the image of `i`.
pub fn mixed(i: usize, count: usize) -> usize {
    i.wrapping_mul(7919) % count
}

pub fn column(i: usize) -> String {
    format!("column_{i}")
}
