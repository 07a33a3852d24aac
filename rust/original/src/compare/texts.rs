// SPDX-License-Identifier: Apache-2.0
// SPDX-FileCopyrightText: Copyright the Vortex contributors

//! The texts of types and paths, and what is read from texts. Reading isn't a call of the original: a reader of this folder reads,
//! and the original builds what it read.

use original::reader::{Readable, Reader};
use original::types::Stop;
use vortex_array::dtype as theirs;
use vortex_logical_types::{self as ours, Error};

use crate::generate;
use crate::plain::{Refusal, UNREADABLE};
use crate::round::*;

/// The texts of a type.
pub fn of_type(round: &mut Round, it: &Pair) {
    let text = told(&it.theirs);
    let spoiled = generate::spoiled(&mut round.random, &text);
    both! { round, it.text(), it = &it.ours, &it.theirs; "DType::to_string" => it.to_string(); }
    let (known, unknown) = round.or_spoiled((text.as_str(), spoiled.as_str()), ("i32", text.as_str()));
    same! { round, format!("{text} and {spoiled}");
        "DType::to_source" => it.ours.to_source(), text;
        "DType::from_str" => read_here::<ours::DType>(&text), read::<theirs::DType>(known);
        "DType::from_str of a spoiled text" => read_here::<ours::DType>(&spoiled), read::<theirs::DType>(unknown);
    }
}

/// The texts of a path.
pub fn of_path(round: &mut Round, path: &Paths) {
    let text = told(&path.theirs);
    let spoiled = generate::spoiled(&mut round.random, &text);
    both! { round, path.text(), it = &path.ours, &path.theirs; "FieldPath::to_string" => it.to_string(); }
    let (known, unknown) = round.or_spoiled((text.as_str(), spoiled.as_str()), ("x", text.as_str()));
    same! { round, format!("{text} and {spoiled}");
        "FieldPath::to_source" => path.ours.to_source(), text;
        "FieldPath::from_str" => read_here::<ours::FieldPath>(&text), read::<theirs::FieldPath>(known);
        "FieldPath::from_str of a spoiled text" =>
            read_here::<ours::FieldPath>(&spoiled), read::<theirs::FieldPath>(unknown);
    }
}

/// A type is read whose text has 128 levels, or one level more, which isn't read.
pub fn too_deep(round: &mut Round) {
    let shape = generate::shape(&mut round.random);
    let lists = (129 - shape.levels().min(128)) - usize::from(round.random.bool());
    let text = format!("{}{}{}", "list(".repeat(lists), shape.ours().to_source(), ")".repeat(lists));
    let there = round.or_spoiled(text.as_str(), "i32");
    same! { round, text.clone();
        "nested too deeply" => read_here::<ours::DType>(&text), read::<theirs::DType>(there);
    }
}

/// Why not, and at which byte if the text can't be read.
struct Unread(u32, usize);

impl Refusal for Unread {
    fn number(&self) -> u32 {
        self.0 + 1000 * self.1 as u32
    }
}

/// (The reader has one number for texts that can't be read, those that are nested too deeply too.)
fn read_here<T: std::str::FromStr<Err = Error>>(text: &str) -> Result<T, Unread> {
    text.parse().map_err(|error: Error| match (&error, error.position()) {
        (Error::Vortex(error), _) => Unread(Refusal::number(error), 0),
        (_, position) => Unread(UNREADABLE, position.unwrap_or(0)),
    })
}

/// What the reader of this folder reads, with blanks before and behind it.
fn read<T: Readable>(text: &str) -> Result<T, Unread> {
    let result = Reader::new(text).whole();
    result.map_err(|stop: Stop| {
        let position = stop.0.strip_prefix("unreadable at ").and_then(|it| it.parse().ok()).unwrap_or(0);
        Unread(stop.number(), position)
    })
}
