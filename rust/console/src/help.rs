// SPDX-License-Identifier: Apache-2.0
// SPDX-FileCopyrightText: Copyright the Vortex contributors

//! What `help` answers, from the table of the commands.

use crate::console::{Call, Console, Outcome};
use crate::error::{Error, Result};
use crate::forms::{self, Form};
use crate::table::{self, Row, TOPICS, Topic, rows};
use std::fmt::{self, Display, Formatter};
use vortex_logical_types::fallible::String as Text;
use vortex_logical_types::{VortexError, format_in};

pub const CONSOLE: &[Row] = rows! {
    ["help", "[TOPIC|COMMAND|FORM|N]", "", "explains a topic with its commands, a command with examples, a form of an argument, for example T, or the error with a number; without an argument it lists the topics"] (help)
    ["exit", "", "", "ends the console"] (exit)
    ["quit", "", "", "ends the console"] (exit)
};

fn exit(call: &mut Call<'_>, _: &mut Console) -> Result<()> {
    call.is_last = true;
    call.line.end()
}

/// Answers `help`: of all, or of what is named.
fn help(call: &mut Call<'_>, _: &mut Console) -> Result<()> {
    const FIRST: &str = "help TOPIC lists commands, help COMMAND shows one, help FORM how an argument is written, help N an error; exit ends the console";
    if call.line.is_at_end() {
        call.answer.push_str(FIRST)?;
        return Ok(TOPICS.iter().try_for_each(|topic| write!(call.answer, "\n{topic}"))?);
    }
    call.line.separate()?;
    let position = call.line.position();
    let text = call.line.take_while(|character| character != '#').trim_end_matches([' ', '\t']);
    let mut shown = Text::new();
    table::topics_called(text).try_for_each(|topic| write_topic(topic, &mut shown))?;
    table::find(text).map_or(Ok(()), |row| write_command(row, &mut shown))?;
    if shown.is_empty() {
        write_forms(text, &mut shown)?;
    }
    if shown.is_empty() {
        let names = TOPICS.iter().map(|topic| topic.name).chain(table::commands().map(|row| row.name));
        let expected = "a topic, a command, a form or an error's number";
        return Err(Error::expected_name(position, expected, text, None, names));
    }
    call.say(shown.trim_start_matches('\n'))
}

/// What a topic is about.
impl Display for Topic {
    fn fmt(&self, f: &mut Formatter<'_>) -> fmt::Result {
        write!(f, "{}: {}", self.name, self.about)
    }
}

/// Writes a topic: what it is about, its forms and its commands, each on a new line.
fn write_topic(topic: &Topic, out: &mut Text) -> Result<()> {
    write!(out, "\n{topic}")?;
    topic.forms.iter().try_for_each(|form| write!(out, "\n  {form}"))?;
    Ok(topic.rows.iter().try_for_each(|row| write!(out, "\n  {row}"))?)
}

/// A command with its arguments, and what it answers.
impl Display for Row {
    fn fmt(&self, f: &mut Formatter<'_>) -> fmt::Result {
        let blank = if self.arguments.is_empty() { "" } else { " " };
        write!(f, "{}{blank}{}: {}", self.name, self.arguments, self.answer)
    }
}

/// How a form is written, what it stands for, and an example.
impl Display for Form {
    fn fmt(&self, f: &mut Formatter<'_>) -> fmt::Result {
        let Form(written, what, example) = self;
        let between = if example.is_empty() { "" } else { "; for example " };
        write!(f, "{written}: {what}{between}{example}")
    }
}

/// Writes the forms that are called so, with those that they are made of.
fn write_forms(text: &str, out: &mut Text) -> Result<()> {
    let mut called = TOPICS.iter().flat_map(|topic| topic.forms).filter(|form| form.is_called(text));
    called.try_for_each(|form| write!(out, "\n{form}"))?;
    let parts = match text {
        "T" | "S" | "U" | "M" | "E" => forms::TYPES,
        "PATH" | "STEP" | "MASK" => forms::PATHS,
        "MSG" | "PART" => forms::MESSAGES,
        _ => &[],
    };
    Ok(parts.iter().try_for_each(|form| write!(out, "\n  {form}"))?)
}

/// Writes a command: its arguments and what it answers, examples with their answers, and its errors.
fn write_command(row: &Row, out: &mut Text) -> Result<()> {
    let own = format_in!("{} {}", row.name, row.example)?;
    let examples = match row.name {
        "help" | "exit" | "quit" => return Ok(write!(out, "\n{row}")?),
        "set" | "sets" => &SET_EXAMPLES[..],
        "session" | "sessions" => &SESSION_EXAMPLES[..],
        _ => &[own.trim_end()],
    };
    write!(out, "\n{row}")?;
    // (a console of their own: none of the user's sets and sessions changes)
    let mut console = Console::new();
    for line in examples {
        write!(out, "\nexample: {line}\nanswer: ")?;
        match console.answer(line.as_bytes()) {
            Ok(Outcome::Answer(answer)) => write!(out, "{answer}")?,
            Ok(Outcome::Nothing | Outcome::End) => {}
            Err(Error::Refused(VortexError::OutOfMemory)) => return Err(VortexError::OutOfMemory.into()),
            Err(error) => write!(out, "{error}")?,
        }
    }
    let errors = if row.errors.is_empty() { "none of its own" } else { row.errors };
    Ok(write!(out, "\nerrors: {errors}")?)
}

#[rustfmt::skip]
const SET_EXAMPLES: [&str; 14] = [
    "set s new", "set s insert a.c", "set s extend b.[].x b", "set s contains a.c", "set s below b",
    "set s missing {a={c=i32}}", "set s compare a.c b b.[].x x", "set s union x", "set s iter", "set s cover",
    "set s drain", "sets", "set s drop", "sets",
];

#[rustfmt::skip]
const SESSION_EXAMPLES: [&str; 8] = [
    "session s new", "session s register x.tag", "registry @s x.tag", "session s allow_unknown", "allows_unknown @s",
    "sessions", "session s drop", "sessions",
];
