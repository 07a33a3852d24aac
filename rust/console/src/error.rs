// SPDX-License-Identifier: Apache-2.0
// SPDX-FileCopyrightText: Copyright the Vortex contributors

//! Why a line has no value for its answer, with the library's sentences about what was found in the line.

use std::fmt::Display;
use thiserror::Error;
use vortex_logical_types::dtype_text::TextError;
use vortex_logical_types::fallible::String as Text;
use vortex_logical_types::rattle_std::alloc::AllocError;
use vortex_logical_types::text_hints::{self, Finding, NearNames, Wording};
use vortex_logical_types::{MAX_LEVELS, VortexError};

/// The result of what reads a line, or makes a call.
pub type Result<T, E = Error> = std::result::Result<T, E>;

/// How the errors of texts are worded in a line.
const OF_LINES: Wording = Wording { end: "the line's end", help: "; help types lists all" };

/// Why a line has no value for its answer. Its text is the answer.
#[derive(Debug, Error)]
pub enum Error {
    /// The library returned an error.
    #[error("refused {}: {0}", .0.number())]
    Refused(VortexError),
    /// The library returned an error about a column or a number that its text doesn't name. The name follows the text.
    #[error("refused {}: {error}: {subject}", .error.number())]
    RefusedOf { error: VortexError, subject: Text },
    /// A condition isn't met, so the call wasn't made, or its result isn't kept.
    #[error("condition: {0}")]
    Condition(&'static str),
    /// The line can't be read from this byte on, counted from 1. If the text ends with a character or a number that was
    /// found there, the usage of the command follows it in the error of a first argument.
    #[error("unreadable at {position}: expected {expected}")]
    Unreadable { position: usize, expected: Text, finding: Finding },
    /// The line names a set or a session that isn't there.
    #[error("unknown: {0}")]
    Unknown(Text),
}

impl Error {
    /// Returns the error that a function writes what was expected at a position, or that there is no memory for the text.
    fn unreadable(position: usize, write: impl FnOnce(&mut Text) -> Result<Finding, AllocError>) -> Self {
        let mut expected = Text::new();
        match write(&mut expected) {
            Ok(finding) => Error::Unreadable { position, expected, finding },
            Err(error) => error.into(),
        }
    }

    /// Returns the error that this was expected at a position.
    pub fn expected(position: usize, expected: impl Display) -> Self {
        Self::unreadable(position, |text| write!(text, "{expected}").map(|()| Finding::Place))
    }

    /// Returns the error that this was expected at a position, with the character that was found, and with what may help.
    pub fn expected_not(position: usize, expected: impl Display, found: Option<char>, help: &str) -> Self {
        Self::unreadable(position, |text| {
            write!(text, "{expected}")?;
            text_hints::write_found(text, found, OF_LINES.end)?;
            text.push_str(help).map(|()| Finding::Found)
        })
    }

    /// Returns the error that this was expected at a position, with the word that was found.
    pub fn expected_word(position: usize, expected: impl Display, found: &str) -> Self {
        Self::unreadable(position, |text| write_not_word(text, expected, found).map(|()| Finding::Found))
    }

    /// Returns the error that a primitive type was expected at a position, with the word that isn't one, and with the types
    /// nearest to it.
    pub fn expected_ptype(position: usize, found: &str) -> Self {
        Self::unreadable(position, |text| {
            write_not_word(text, "a primitive type (u8 to u64, i8 to i64, f16, f32, f64)", found)?;
            let nearest = text_hints::nearest_ptype(text_hints::visible_part(found))?;
            text_hints::write_nearest(text, &nearest).map(|()| Finding::Word)
        })
    }

    /// Returns the error that this was expected at a position, with the word that isn't one, and with the name that it means
    /// in other tools, or else those of the names that are nearest to it.
    pub fn expected_name(
        position: usize,
        expected: &str,
        word: &str,
        meant: Option<&'static str>,
        mut names: impl Iterator<Item = &'static str>,
    ) -> Self {
        Self::unreadable(position, |text| {
            let visible = text_hints::visible_part(word);
            let mut nearest = NearNames::new(visible);
            match meant {
                Some(name) => nearest.names.push(name)?,
                None => names.try_for_each(|name| nearest.add(name, visible))?,
            }
            text.push_str(expected)?;
            text_hints::write_other(text, word)?;
            text_hints::write_nearest(text, &nearest.names)?;
            text.push_str("; help lists all").map(|()| Finding::Word)
        })
    }

    /// Returns the error of a part of this line that the library's reader of texts can't read.
    pub fn of_text(error: &TextError, line: &str) -> Self {
        match *error {
            TextError::OutOfMemory => VortexError::OutOfMemory.into(),
            TextError::Refused(error) => error.into(),
            TextError::TooDeep { position } => Error::expected(position, format_args!("at most {MAX_LEVELS} levels")),
            TextError::Misread { position, expected, .. } => {
                Self::unreadable(position, |text| text_hints::write_expected(text, OF_LINES, expected, position, line))
            }
        }
    }

    /// Returns the library's error about this subject, or without a subject if there is none.
    pub fn of_subject<E: Into<Error>>(error: VortexError, subject: Option<Result<Text, E>>) -> Self {
        match subject {
            Some(Ok(subject)) => Error::RefusedOf { error, subject },
            Some(Err(memory)) => memory.into(),
            None => error.into(),
        }
    }

    /// Returns whether the line couldn't be read, or names a set or a session that isn't there.
    pub fn is_of_line(&self) -> bool {
        matches!(self, Error::Unreadable { .. } | Error::Unknown(_))
    }
}

/// The error of the library, which a failed allocation is, too.
impl<E: Into<VortexError>> From<E> for Error {
    fn from(error: E) -> Self {
        Error::Refused(error.into())
    }
}

/// Returns the condition of a call as an error unless it holds.
pub fn unless(holds: bool, condition: &'static str) -> Result<()> {
    if holds { Ok(()) } else { Err(Error::Condition(condition)) }
}

/// Writes what was expected, and the word that was found.
fn write_not_word(text: &mut Text, expected: impl Display, found: &str) -> Result<(), AllocError> {
    write!(text, "{expected}, found `")?;
    text_hints::write_visible(text, found)?;
    text.push('`')
}
