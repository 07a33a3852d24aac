// SPDX-License-Identifier: Apache-2.0
// SPDX-FileCopyrightText: Copyright the Vortex contributors

//! The table of the commands, by topic. `help` prints it, and lines are answered by it.

use crate::commands::{extensions, nested, numbers, paths, sessions, sets, types};
use crate::console::{Call, Console};
use crate::error::Result;
use crate::forms::{self, Form};
use crate::help;

/// A command.
pub struct Row {
    pub name: &'static str,
    /// The forms of its arguments, in the words of `docs/CONSOLE.md`.
    pub arguments: &'static str,
    /// The arguments of an example.
    pub example: &'static str,
    /// What it answers, as `help` says it.
    pub answer: &'static str,
    /// The errors of the call, each with its number, and its condition. Empty if it has none of its own.
    pub errors: &'static str,
    /// Reads the arguments, makes the call, and writes the answer.
    pub run: fn(&mut Call<'_>, &mut Console) -> Result<()>,
}

/// Builds a table of commands. A row has the command's name, its arguments, the arguments of an example, what it answers,
/// its errors and its condition if it has any, and how it is answered:
///
/// - `(a: A, b: B => value)` reads arguments of these types, and prints the value;
/// - `(a: A, b: B; if condition => value)` does so if the condition is met, which the row has in words;
/// - `(session; a: A => value)` reads a session before the arguments;
/// - `(T in integer; a: T => value)` reads the name of a native type before them, an `integer` or a `decimal` type;
/// - `(function)` calls a function with the call and the console.
macro_rules! rows {
    ($([$name:literal, $arguments:literal, $example:literal, $answer:literal $(, $errors:literal)?] $run:tt)*) => {
        &[$(crate::table::Row {
            name: $name,
            arguments: $arguments,
            example: $example,
            answer: $answer,
            errors: concat!($($errors)?),
            run: crate::table::rows!(@run concat!($($errors)?), $run),
        }),*]
    };
    (@say $call:ident, $errors:expr, ($($argument:ident: $kind:ty),* $(; if $condition:expr)? => $value:expr)) => {{
        let ($($argument,)*): ($($kind,)*) = $call.last()?;
        $(crate::error::unless($condition, $errors.trim_start_matches("condition: "))?;)?
        $call.say($value)
    }};
    (@run $errors:expr, ($session:ident; $($answer:tt)*)) => {
        |call, console| crate::commands::sessions::with_session(call, console, |call, $session| {
            crate::table::rows!(@say call, $errors, ($($answer)*))
        })
    };
    (@run $errors:expr, ($native:ident in $kind:tt; $($answer:tt)*)) => {
        |call, _| for_native!(call, $native in $kind, crate::table::rows!(@say call, $errors, ($($answer)*)))
    };
    (@run $errors:expr, ($function:ident)) => { $function };
    (@run $errors:expr, (|$call:ident, $console:ident| $answer:expr)) => { |$call, $console| $answer };
    (@run $errors:expr, $answer:tt) => {
        |call, _| crate::table::rows!(@say call, $errors, $answer)
    };
}
pub(crate) use rows;

impl Row {
    /// Returns whether the command needs an argument: it has one, and the first is neither `X..` nor `[X]`, which may
    /// be left out.
    pub fn needs_argument(&self) -> bool {
        self.arguments.split(' ').next().is_some_and(|it| !it.is_empty() && !it.ends_with("..") && !it.starts_with('['))
    }
}

/// The commands of one kind.
pub struct Topic {
    pub name: &'static str,
    /// The other headings under which `docs/CONSOLE.md` has it.
    pub headings: &'static [&'static str],
    pub about: &'static str,
    pub forms: &'static [Form],
    pub rows: &'static [Row],
}

/// The topics, as `help` lists them.
#[rustfmt::skip]
pub static TOPICS: [Topic; 20] = [
    Topic { name: "types", headings: &[], about: "types of every kind, their nullability and their parts; how a type is written", forms: forms::TYPES, rows: types::TYPES },
    Topic { name: "comparisons", headings: &[], about: "equality of types, with and without nullability, and hashes", forms: &[], rows: types::COMPARISONS },
    Topic { name: "structs", headings: &[], about: "the fields of structs: lookups, selections, and structs made of fields", forms: &[], rows: nested::STRUCTS },
    Topic { name: "unions", headings: &["unions and maps"], about: "the variants of unions and their tags", forms: &[], rows: nested::UNIONS },
    Topic { name: "maps", headings: &["unions and maps"], about: "the keys and the values of maps", forms: &[], rows: nested::MAPS },
    Topic { name: "extensions", headings: &[], about: "extension types, erased and typed", forms: &[], rows: extensions::EXTENSIONS },
    Topic { name: "names", headings: &[], about: "names of fields, and lists of names", forms: &[], rows: paths::NAMES },
    Topic { name: "decimals", headings: &[], about: "decimals and their storage types", forms: &[], rows: numbers::DECIMALS },
    Topic { name: "primitives", headings: &["primitive and native types"], about: "primitive types, and visitors of them", forms: &[], rows: numbers::PRIMITIVES },
    Topic { name: "native", headings: &["primitive and native types"], about: "native integers and the types that belong to native types", forms: &[], rows: numbers::NATIVE },
    Topic { name: "paths", headings: &["paths and masks"], about: "paths and their steps; how a path and a mask are written", forms: forms::PATHS, rows: paths::PATHS },
    Topic { name: "sets", headings: &["path sets"], about: "sets of paths, their covers, and projections to them", forms: &[], rows: sets::SETS },
    Topic { name: "masks", headings: &["paths and masks"], about: "masks of paths", forms: &[], rows: paths::MASKS },
    Topic { name: "sessions", headings: &["sessions and messages"], about: "sessions, their plugins, and the extensions that they read", forms: &[], rows: sessions::SESSIONS },
    Topic { name: "messages", headings: &["sessions and messages"], about: "messages of types and of paths; how a message is written", forms: forms::MESSAGES, rows: sessions::MESSAGES },
    Topic { name: "arguments", headings: &["forms"], about: "how all other arguments are written", forms: forms::ARGUMENTS, rows: &[] },
    Topic { name: "answers", headings: &[], about: "the forms of answers", forms: forms::ANSWERS, rows: &[] },
    Topic { name: "errors", headings: &[], about: "the errors of the library by their numbers", forms: forms::ERRORS, rows: &[] },
    Topic { name: "comments", headings: &[], about: "the parts of a line that aren't read", forms: forms::COMMENTS, rows: &[] },
    Topic { name: "console", headings: &[], about: "help, and how to end the console", forms: &[], rows: help::CONSOLE },
];

/// What words of other tools mean here.
#[rustfmt::skip]
const MEANT: [(&str, &str); 12] = [
    ("select", "project"), ("get", "field"), ("column", "field"), ("columns", "names"), ("drop", "without_field"),
    ("remove", "without_field"), ("count", "nfields"), ("len", "nfields"), ("parse", "type"), ("print", "text"),
    ("equals", "eq"), ("man", "help"),
];

/// Returns the commands of all topics.
pub fn commands() -> impl Iterator<Item = &'static Row> {
    TOPICS.iter().flat_map(|topic| topic.rows)
}

/// Returns the command of a name.
pub fn find(name: &str) -> Option<&'static Row> {
    commands().find(|row| row.name == name)
}

/// Returns the command that a word of another tool means, in any case.
pub fn meant(word: &str) -> Option<&'static str> {
    MEANT.iter().find(|(other, _)| other.eq_ignore_ascii_case(word)).map(|(_, name)| *name)
}

/// Returns the topics of a name, or of a heading of `docs/CONSOLE.md`, in any case.
pub fn topics_called(name: &str) -> impl Iterator<Item = &'static Topic> {
    let is_name = move |it: &str| it.eq_ignore_ascii_case(name);
    TOPICS.iter().filter(move |topic| is_name(topic.name) || topic.headings.iter().any(|it| is_name(it)))
}
