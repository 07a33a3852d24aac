// SPDX-License-Identifier: Apache-2.0
// SPDX-FileCopyrightText: Copyright the Vortex contributors

//! A round: random values, and what both sides return for each call on them.

use original::types::{Stop, Told};
use vortex_array::dtype as theirs;
use vortex_logical_types as ours;

use crate::generate;
use crate::plain::Steps;
use crate::random::Random;
use crate::report::Report;
use crate::shape::Shape;

pub struct Round<'a> {
    pub random: Random,
    pub report: &'a mut Report,
    /// Whether the two sides are given different values, so that the answers differ.
    pub is_spoiled: bool,
}

/// A type on both sides.
pub struct Pair {
    pub shape: Shape,
    pub ours: ours::DType,
    pub theirs: theirs::DType,
}

/// A path on both sides.
pub struct Paths {
    pub steps: Steps,
    pub ours: ours::FieldPath,
    pub theirs: theirs::FieldPath,
}

/// Makes the same calls on both sides, and compares what they return. In a call, `dtype` is the module of the side, and
/// the pattern is bound to what that side is given.
macro_rules! both {
    ($round:expr, $about:expr, $given:pat = $ours:expr, $theirs:expr; $($name:expr => $call:expr;)*) => {$(
        let here = {
            #[allow(unused_imports)]
            use vortex_logical_types as dtype;
            #[allow(unused_variables)]
            let $given = $ours;
            crate::plain::Plain::plain(&$call)
        };
        let there = {
            #[allow(unused_imports)]
            use vortex_array::dtype;
            #[allow(unused_variables)]
            let $given = $theirs;
            crate::plain::Plain::plain(&$call)
        };
        $round.report.same($name, here, there, || $about);
    )*};
}
pub(crate) use both;

/// Makes calls without arguments on both sides, and compares what they return. A call's name follows the given one.
macro_rules! methods {
    ($round:expr, $about:expr, $of:literal, $ours:expr, $theirs:expr; $($method:ident)*) => {
        both! { $round, $about, it = $ours, $theirs; $(concat!($of, stringify!($method)) => it.$method();)* }
    };
}
pub(crate) use methods;

/// Compares calls that the two sides have in different forms, or that a model answers in place of the original.
macro_rules! same {
    ($round:expr, $about:expr; $($name:expr => $ours:expr, $theirs:expr;)*) => {$(
        let (here, there) = (crate::plain::Plain::plain(&$ours), crate::plain::Plain::plain(&$theirs));
        $round.report.same($name, here, there, || $about);
    )*};
}
pub(crate) use same;

impl Round<'_> {
    /// The type on both sides, which are compared as the answer of the constructor.
    pub fn pair(&mut self, shape: Shape) -> Pair {
        self.pair_of(shape, generate::shape)
    }

    /// The same, where this makes the type that the original is given in a spoiled round.
    pub fn pair_of(&mut self, shape: Shape, spoiled: impl FnOnce(&mut Random) -> Shape) -> Pair {
        let theirs = if self.is_spoiled { spoiled(&mut self.random).theirs() } else { shape.theirs() };
        let (ours, call) = (shape.ours(), constructor(&shape));
        self.report.remember(&shape);
        let pair = Pair { shape, ours, theirs };
        same! { self, pair.text(); call => pair.ours, pair.theirs; }
        pair
    }

    /// The path on both sides, which are compared as the answer of the constructor.
    pub fn path(&mut self, steps: Steps) -> Paths {
        let given = if self.is_spoiled { vec![None; self.random.below(3)] } else { steps.clone() };
        let path = Paths {
            ours: steps.iter().map(ours_step).collect(),
            theirs: given.iter().map(theirs_step).collect(),
            steps,
        };
        same! { self, path.text(); "FieldPath::from_iter" => path.ours, path.theirs; }
        path
    }

    /// The value, or in a spoiled round the other one.
    pub fn or_spoiled<T>(&self, value: T, other: T) -> T {
        if self.is_spoiled { other } else { value }
    }
}

impl Pair {
    pub fn text(&self) -> String {
        self.ours.to_source()
    }
}

impl Paths {
    pub fn text(&self) -> String {
        self.ours.to_source()
    }
}

/// The name of the call that makes the type.
fn constructor(shape: &Shape) -> &'static str {
    match shape {
        Shape::Null => "DType::Null",
        Shape::Bool(_) => "DType::Bool",
        Shape::Primitive(..) => "DType::Primitive",
        Shape::Decimal(..) => "DType::Decimal",
        Shape::Utf8(_) => "DType::Utf8",
        Shape::Binary(_) => "DType::Binary",
        Shape::Variant(_) => "DType::Variant",
        Shape::List(..) => "DType::List",
        Shape::FixedSizeList(..) => "DType::FixedSizeList",
        Shape::Map(..) => "DType::Map",
        Shape::Struct(..) => "DType::Struct",
        Shape::Union(..) => "DType::Union",
        Shape::Extension(..) => "DType::Extension",
    }
}

pub fn ours_step(step: &Option<String>) -> ours::Field {
    step.as_deref().map_or(ours::Field::ElementType, ours::Field::from)
}

pub fn theirs_step(step: &Option<String>) -> theirs::Field {
    step.as_deref().map_or(theirs::Field::ElementType, theirs::Field::from)
}

/// The text of the original's value.
pub fn told(value: impl Told) -> String {
    value.told().unwrap_or_else(|Stop(text)| text)
}
