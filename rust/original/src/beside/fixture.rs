// SPDX-License-Identifier: Apache-2.0
// SPDX-FileCopyrightText: Copyright the Vortex contributors

//! The types and paths on which the cases work, each on both sides. Of each there are two, which were made separately and
//! of which the iterations use one after the other.

use std::fmt::Write;
use std::hint::black_box;

use vortex_array::dtype as theirs;
use vortex_logical_types as ours;

use crate::translate::to_vortex;

/// The name of a column.
pub fn column(at: usize) -> String {
    format!("column_{at}")
}

pub fn columns(count: usize) -> Vec<String> {
    (0..count).map(column).collect()
}

/// The text of the type of a column: four kinds by turns.
pub fn leaf(at: usize) -> &'static str {
    ["i32", "utf8?", "bool", "f64?"][at % 4]
}

/// Writes a function that makes the type of a column.
macro_rules! leaf_of {
    ($name:ident, $side:ident) => {
        pub fn $name(at: usize) -> $side::DType {
            use $side::{DType, Nullability::*, PType};
            match at % 4 {
                0 => DType::Primitive(PType::I32, NonNullable),
                1 => DType::Utf8(Nullable),
                2 => DType::Bool(NonNullable),
                _ => DType::Primitive(PType::F64, Nullable),
            }
        }
    };
}

leaf_of! { leaf_of_theirs, theirs }
leaf_of! { leaf_of_ours, ours }

/// The text of a struct of so many columns.
pub fn struct_text(count: usize) -> String {
    struct_of((0..count).map(|at| (column(at), leaf(at).to_owned())))
}

/// The text of a struct of these columns.
pub fn struct_of(fields: impl Iterator<Item = (String, String)>) -> String {
    let mut text = String::from("{");
    for (name, dtype) in fields {
        let between = if text.len() > 1 { ", " } else { "" };
        write!(text, "{between}{name}={dtype}").expect("a text takes all");
    }
    text + "}"
}

/// `list(list(..))`, so many lists around a type.
pub fn lists(count: usize, inside: &str) -> String {
    format!("{}{inside}{}", "list(".repeat(count), ")".repeat(count))
}

pub struct Types {
    pub theirs: [theirs::DType; 2],
    pub ours: [ours::DType; 2],
}

impl Types {
    /// The types that a text stands for, which the crate reads and its example translates.
    pub fn read(text: &str) -> Types {
        let read = || text.parse::<ours::DType>().expect("the text of a type");
        let translated = || to_vortex(&read()).expect("a type of the original");
        Types { theirs: [translated(), translated()], ours: [read(), read()] }
    }

    pub fn columns(count: usize) -> Types {
        Types::read(&struct_text(count))
    }

    /// One of the two, by turns.
    pub fn theirs(&self, i: usize) -> &theirs::DType {
        black_box(&self.theirs[i % 2])
    }

    pub fn ours(&self, i: usize) -> &ours::DType {
        black_box(&self.ours[i % 2])
    }
}

pub struct Paths {
    pub theirs: [theirs::FieldPath; 2],
    pub ours: [ours::FieldPath; 2],
}

impl Paths {
    pub fn read(text: &str) -> Paths {
        let ours = [(); 2].map(|()| text.parse::<ours::FieldPath>().expect("the text of a path"));
        Paths { theirs: [&ours[0], &ours[1]].map(path_of_ours), ours }
    }

    pub fn theirs(&self, i: usize) -> &theirs::FieldPath {
        black_box(&self.theirs[i % 2])
    }

    pub fn ours(&self, i: usize) -> &ours::FieldPath {
        black_box(&self.ours[i % 2])
    }
}

/// The path of the original with the same steps.
pub fn path_of_ours(path: &ours::FieldPath) -> theirs::FieldPath {
    let step = |it: &ours::Field| it.as_name().map_or(theirs::Field::ElementType, theirs::Field::from);
    path.iter().map(step).collect()
}

/// Numbers that are as good as random, the same on both sides.
pub struct Turns(u64);

impl Turns {
    pub fn new() -> Turns {
        Turns(1)
    }

    /// A number below the count.
    pub fn below(&mut self, count: usize) -> usize {
        self.0 = self.0.wrapping_mul(6_364_136_223_846_793_005).wrapping_add(1_442_695_040_888_963_407);
        (((self.0 >> 32) * count as u64) >> 32) as usize
    }
}

/// A permutation of the numbers below `count`: the image of `i`.
pub fn mixed(i: usize, count: usize) -> usize {
    i.wrapping_mul(7919) % count
}
