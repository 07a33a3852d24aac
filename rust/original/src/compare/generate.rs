// SPDX-License-Identifier: Apache-2.0
// SPDX-FileCopyrightText: Copyright the Vortex contributors

//! Random types, types that are nearly another, names, and paths that often lead somewhere.

use crate::plain::Steps;
use crate::random::Random;
use crate::shape::Shape::{self, *};

/// Names that often repeat, and names that texts have to quote or escape.
const NAMES: [&str; 32] = [
    "a",
    "b",
    "c",
    "d",
    "e",
    "id",
    "key",
    "value",
    "price",
    "customer",
    "lines",
    "line_item_quantity",
    "line_item_quantitz",
    "",
    " ",
    "A",
    "a.b",
    "[]",
    ".",
    "a, b",
    "\"",
    "'",
    "\\",
    "$a",
    "{a=i32}",
    "null",
    "é",
    "列",
    "😀",
    "\n\t\r",
    "\0\u{1}\u{7f}",
    "\u{200b}\u{85}",
];

const IDS: [&str; 6] = ["x.tag", "geo.point", "vortex.date", "a b", "é", "uuid"];

const SIZES: [u32; 6] = [0, 1, 2, 7, 1000, u32::MAX];

/// A name: often one that other parts have too.
pub fn name(random: &mut Random) -> String {
    match random.below(16) {
        0 => format!("c{}", random.below(1000)),
        1 => (0..random.below(20)).map(|_| char::from(b' ' + random.below(95) as u8)).collect(),
        2..=10 => NAMES[random.below(12)].to_owned(),
        _ => (*random.pick(&NAMES)).to_owned(),
    }
}

/// A type of any kind: one in 200 has many fields, and one in 200 has many levels.
pub fn shape(random: &mut Random) -> Shape {
    match random.below(200) {
        0 => wide(random),
        1 => deep(random),
        _ => {
            let mut left = 1 + random.below(16);
            part(random, 5, &mut left)
        }
    }
}

fn part(random: &mut Random, levels: usize, left: &mut usize) -> Shape {
    if levels == 0 || *left == 0 || random.one_in(4) {
        return leaf(random);
    }
    *left -= 1;
    match random.below(12) {
        0 | 1 => list(random, levels - 1, left),
        2 => fixed_size_list(random, levels - 1, left),
        3 => map(random, levels - 1, left),
        4 => union(random, levels - 1, left),
        5 => extension(random, levels - 1, left),
        _ => structure(random, levels - 1, left),
    }
}

/// A type without parts.
pub fn leaf(random: &mut Random) -> Shape {
    let n = random.bool();
    match random.below(12) {
        0 => Null,
        1 => Bool(n),
        2 | 3 => Utf8(n),
        4 => Binary(n),
        5 => Variant(n),
        6 => {
            let precision = 1 + random.below(76) as i32;
            let scale = precision - random.below(precision as usize + 129) as i32;
            Decimal(precision as u8, scale as i8, n)
        }
        _ => Primitive(random.below(11), n),
    }
}

pub fn list(random: &mut Random, levels: usize, left: &mut usize) -> Shape {
    List(Box::new(part(random, levels, left)), random.bool())
}

pub fn fixed_size_list(random: &mut Random, levels: usize, left: &mut usize) -> Shape {
    FixedSizeList(Box::new(part(random, levels, left)), *random.pick(&SIZES), random.bool())
}

pub fn map(random: &mut Random, levels: usize, left: &mut usize) -> Shape {
    let parts = [nonnullable(part(random, levels, left)), part(random, levels, left)];
    Map(Box::new(parts), random.bool(), random.bool())
}

pub fn structure(random: &mut Random, levels: usize, left: &mut usize) -> Shape {
    let fields = (0..random.below(6)).map(|_| (name(random), part(random, levels, left))).collect();
    Struct(fields, random.bool())
}

pub fn union(random: &mut Random, levels: usize, left: &mut usize) -> Shape {
    let mut variants: Vec<(String, u8, Shape)> = Vec::new();
    let (count, are_consecutive) = (1 + random.below(5), random.bool());
    while variants.len() < count {
        let (name, tag) = (name(random), if are_consecutive { variants.len() as u8 } else { random.number() as u8 });
        if !variants.iter().any(|(other, taken, _)| *other == name || *taken == tag) {
            variants.push((name, tag, part(random, levels, left)));
        }
    }
    Union(variants, random.bool())
}

pub fn extension(random: &mut Random, levels: usize, left: &mut usize) -> Shape {
    let metadata = (0..random.below(6)).map(|_| random.number() as u8).collect();
    Extension((*random.pick(&IDS)).to_owned(), metadata, Box::new(part(random, levels, left)))
}

/// A struct of up to 400 fields, most with a name of its own.
fn wide(random: &mut Random) -> Shape {
    let fields = (0..random.below(400)).map(|place| {
        let name = if random.one_in(8) { name(random) } else { format!("column_{place}") };
        (name, leaf(random))
    });
    Struct(fields.collect(), false)
}

/// A type of up to 140 levels. (The text of a type may have 128.)
fn deep(random: &mut Random) -> Shape {
    let levels = if random.bool() { 127 + random.below(3) } else { random.below(141) };
    (0..levels).fold(leaf(random), |inner, _| match random.below(4) {
        0 => Struct(vec![(name(random), inner)], random.bool()),
        1 => FixedSizeList(Box::new(inner), 1, random.bool()),
        _ => List(Box::new(inner), random.bool()),
    })
}

/// The type as the key of a map has it: without null.
pub fn nonnullable(mut shape: Shape) -> Shape {
    let mut at = &mut shape;
    while let Extension(_, _, storage) = at {
        at = storage;
    }
    match at.mark() {
        Some(mark) => *mark = false,
        None => *at = Utf8(false),
    }
    shape
}

/// Makes the keys of all maps non-nullable again.
fn mend(shape: &mut Shape) {
    if let Map(parts, ..) = shape {
        let key = std::mem::replace(&mut parts[0], Null);
        parts[0] = nonnullable(key);
    }
    shape.parts_mut().into_iter().for_each(mend);
}

/// A type to compare with this one: the same, one with other nullabilities, one with another part, or any.
pub fn like(random: &mut Random, shape: &Shape) -> Shape {
    let mut other = shape.clone();
    let rate = *random.pick(&[2, 4, 20]);
    match random.below(8) {
        0 => {}
        1 | 2 => change_marks(&mut other, &mut |mark| mark ^ random.one_in(rate)),
        3 | 4 => change_marks(&mut other, &mut |mark| mark | random.one_in(rate)),
        5 | 6 => {
            edit(random, &mut other);
            if random.bool() {
                change_marks(&mut other, &mut |mark| mark ^ random.one_in(rate));
            }
        }
        _ => return self::shape(random),
    }
    mend(&mut other);
    other
}

fn change_marks(shape: &mut Shape, change: &mut dyn FnMut(bool) -> bool) {
    if let Some(mark) = shape.mark() {
        *mark = change(*mark);
    }
    shape.parts_mut().into_iter().for_each(|it| change_marks(it, change));
}

/// Changes one thing at the type, or at a part of it.
fn edit(random: &mut Random, shape: &mut Shape) {
    let parts = shape.parts().len();
    if parts > 0 && !random.one_in(3) {
        let at = random.below(parts);
        return edit(random, shape.parts_mut().swap_remove(at));
    }
    match shape {
        Struct(fields, _) if !fields.is_empty() => match random.below(4) {
            0 => fields.truncate(fields.len() - 1),
            1 => fields.reverse(),
            2 => fields.push((name(random), leaf(random))),
            _ => fields[0].0 = name(random),
        },
        Union(variants, _) => variants[0].1 = 255 - variants.iter().map(|it| it.1).max().unwrap_or(0),
        Map(_, sorted, _) => *sorted = !*sorted,
        FixedSizeList(_, size, _) => *size ^= 1,
        Extension(_, metadata, _) => metadata.push(0),
        Decimal(_, scale, _) => *scale = scale.saturating_sub(1),
        _ => *shape = leaf(random),
    }
    if let Union(variants, _) = shape {
        // (the tag that was written may be there)
        let mut seen = std::collections::HashSet::new();
        variants.retain(|(_, tag, _)| seen.insert(*tag));
    }
}

/// The type that a step leads to.
fn step_into<'a>(shape: &'a Shape, step: &Option<String>) -> Option<&'a Shape> {
    match (shape, step) {
        (List(element, _) | FixedSizeList(element, ..), None) => Some(element),
        (Struct(fields, _), Some(name)) => fields.iter().find(|(it, _)| it == name).map(|(_, field)| field),
        _ => None,
    }
}

/// A path that often exists in the type.
pub fn path(random: &mut Random, shape: &Shape) -> Steps {
    let (mut at, mut steps) = (Some(shape), Vec::new());
    let end = if random.one_in(8) { 200 } else { 3 };
    while !random.one_in(end) && steps.len() < 130 {
        let step = match at {
            Some(Struct(fields, _)) if !fields.is_empty() && !random.one_in(12) => Some(random.pick(fields).0.clone()),
            Some(List(..) | FixedSizeList(..)) if !random.one_in(12) => None,
            _ if steps.len() > 5 => break,
            _ if random.one_in(3) => None,
            _ => Some(name(random)),
        };
        at = at.and_then(|it| step_into(it, &step));
        steps.push(step);
    }
    steps
}

/// Paths for a set: paths of the type, prefixes of others, continuations of others and repeated ones.
pub fn paths(random: &mut Random, shape: &Shape) -> Vec<Steps> {
    let count = if random.one_in(40) { random.below(100) } else { random.below(9) };
    let mut paths: Vec<Steps> = Vec::new();
    for _ in 0..count {
        let mut next =
            if paths.is_empty() || random.bool() { path(random, shape) } else { random.pick(&paths).clone() };
        match random.below(6) {
            0 => next.truncate(random.below(next.len() + 1)),
            1 => next.push(if random.bool() { None } else { Some(name(random)) }),
            _ => {}
        }
        paths.push(next);
    }
    paths
}

/// The text with one character changed, left out or added.
pub fn spoiled(random: &mut Random, text: &str) -> String {
    let mut signs: Vec<char> = text.chars().collect();
    let (at, sign) = (random.below(signs.len() + 1), *random.pick(&SIGNS));
    match random.below(3) {
        0 if at < signs.len() => signs[at] = sign,
        1 if at < signs.len() => drop(signs.remove(at)),
        _ => signs.insert(at, sign),
    }
    signs.into_iter().collect()
}

const SIGNS: [char; 28] = [
    '{', '}', '(', ')', '[', ']', ',', '=', '?', '"', '.', '@', '#', 'a', 'x', '0', '1', '9', '-', '+', '\\', ' ',
    '\t', '$', '_', 'é', '😀', '\u{a0}',
];
