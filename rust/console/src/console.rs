// SPDX-License-Identifier: Apache-2.0
// SPDX-FileCopyrightText: Copyright the Vortex contributors

//! The answer to a line, and the sets and sessions with a name, which stay from line to line.

use crate::answer::{Answer, Joined, text_of};
use crate::argument::Arguments;
use crate::error::{Error, Result, unless};
use crate::line::{Line, is_bare};
use crate::table::{self, Row};
use vortex_logical_types::fallible::{String as Text, Vec as List};
use vortex_logical_types::text_hints::Finding;
use vortex_logical_types::{DTypeSession, FieldName, FieldPathSet};

/// What stays from line to line.
pub struct Console {
    pub sets: Named<FieldPathSet>,
    pub sessions: Named<DTypeSession>,
}

/// A line that is being answered: what is left of it, and the answer so far.
pub struct Call<'a> {
    pub line: Line<'a>,
    pub answer: Text,
    pub is_last: bool,
}

/// What a line that can be read comes to.
pub enum Outcome {
    /// The answer, which may have several lines.
    Answer(Text),
    /// The line is blank, or only a comment.
    Nothing,
    /// The console ends.
    End,
}

impl Call<'_> {
    /// Reads the last arguments of the line.
    pub fn last<T: Arguments>(&mut self) -> Result<T> {
        T::read(&mut self.line)
    }

    /// Makes a value the answer.
    pub fn say(&mut self, value: impl Answer) -> Result<()> {
        value.write(&mut self.answer)
    }
}

impl Console {
    /// Returns a console with no set and no session.
    pub fn new() -> Self {
        Console {
            sets: Named::new("set", "at most 16 sets", FieldPathSet::new),
            sessions: Named::new("session", "at most 16 sessions", DTypeSession::new),
        }
    }

    /// Returns what a line comes to, which is given without its newline.
    ///
    /// # Errors
    ///
    /// Each [`Error`], whose text is the answer to the line.
    pub fn answer(&mut self, line: &[u8]) -> Result<Outcome> {
        let text = std::str::from_utf8(line).map_err(|error| Error::expected(error.valid_up_to() + 1, "UTF-8"))?;
        let mut call = Call { line: Line::new(text), answer: Text::new(), is_last: false };
        if call.line.is_at_end() {
            return Ok(Outcome::Nothing);
        }
        let row = read_command(&mut call.line)?;
        self.run(&mut call, row)?;
        Ok(if call.is_last { Outcome::End } else { Outcome::Answer(call.answer) })
    }

    /// Runs a command. If its first argument can't be read, the error ends with all of its arguments.
    fn run(&mut self, call: &mut Call<'_>, row: &Row) -> Result<()> {
        let first = call.line.position() + call.line.rest().len() - call.line.after_blanks().len();
        if row.needs_argument() && call.line.is_at_end() {
            return Err(Error::expected(first, row.arguments));
        }
        (row.run)(call, self).map_err(|error| match error {
            Error::Unreadable { position, expected, finding: Finding::Found } if position == first => {
                Error::expected(position, format_args!("{expected}; {} {}", row.name, row.arguments))
            }
            other => other,
        })
    }
}

/// Reads the word of a command, and returns its row.
fn read_command(line: &mut Line<'_>) -> Result<&'static Row> {
    line.skip_blanks();
    let position = line.position();
    if !line.peek().is_some_and(is_bare) {
        return Err(line.expected("a command; help lists all, # begins a comment"));
    }
    let word = line.word("a command")?;
    if let Some(row) = table::find(word) {
        return Ok(row);
    }
    let names = table::commands().map(|row| row.name);
    Err(Error::expected_name(position, "a command", word, table::meant(word), names))
}

/// How many values of a kind have a name at most.
const MOST: usize = 16;

/// Values of a kind by their names, in the order in which they were made.
pub struct Named<T> {
    kind: &'static str,
    limit: &'static str,
    new: fn() -> T,
    pub values: List<(FieldName, T)>,
}

impl<T> Named<T> {
    /// Returns no value of this kind, of which there may be as many as `limit` says. `new` makes one.
    pub fn new(kind: &'static str, limit: &'static str, new: fn() -> T) -> Self {
        Named { kind, limit, new, values: List::new() }
    }

    /// Returns the names that there are.
    pub fn names(&self) -> impl Iterator<Item = &FieldName> {
        self.values.iter().map(|(name, _)| name)
    }

    /// Returns the value of a name, or the error that there is none.
    pub fn get(&self, name: &FieldName) -> Result<&T> {
        let value = self.values.iter().find(|(it, _)| it == name).map(|(_, value)| value);
        value.ok_or_else(|| self.unknown(name))
    }

    /// Answers a command that changes the value of a name, which is its first argument, by one of these words, which is
    /// the next. The word `drop` removes the value. Some of the words make it if there is none.
    pub fn answer(
        &mut self,
        call: &mut Call<'_>,
        words: &'static str,
        makes: &[&str],
        change: fn(&mut Call<'_>, &str, &mut T) -> Result<()>,
    ) -> Result<()> {
        call.line.separate()?;
        let name = call.line.name()?;
        call.line.separate()?;
        let word = call.line.one_of(words)?;
        match self.values.iter().position(|(it, _)| *it == name) {
            Some(place) if word == "drop" => {
                call.line.end()?;
                call.say(())?;
                self.values.remove(place);
                Ok(())
            }
            Some(place) => change(call, word, &mut self.values[place].1),
            None if makes.contains(&word) => {
                let mut value = (self.new)();
                change(call, word, &mut value)?;
                unless(self.values.len() < MOST, self.limit)?;
                Ok(self.values.push((name, value))?)
            }
            None => Err(self.unknown(&name)),
        }
    }

    /// Returns the error that there is no value of this name, with the names that there are.
    fn unknown(&self, name: &FieldName) -> Error {
        self.text_of_unknown(name).map_or_else(|error| error, Error::Unknown)
    }

    fn text_of_unknown(&self, name: &FieldName) -> Result<Text> {
        let mut text = text_of(("no", self.kind, name))?;
        if self.values.is_empty() {
            return Ok(text.push_str("; there are none").map(|()| text)?);
        }
        text.push_str("; there are: ")?;
        Joined(", ", self.names()).write(&mut text).map(|()| text)
    }
}
