// SPDX-License-Identifier: Apache-2.0
// SPDX-FileCopyrightText: Copyright the Vortex contributors

//! The rest of a line, and the words and numbers in it.

use crate::error::{Error, Result};
use std::fmt::Display;
use std::str::FromStr;
use vortex_logical_types::dtype_text::{self, Expected, Fault, TextError, is_bare_id, misread, not_an_id, quoted};
use vortex_logical_types::fallible::Vec as List;
use vortex_logical_types::rattle_std::iter_ext::IterExt;
use vortex_logical_types::{ExtId, FieldName};

/// The blanks of a line.
const BLANKS: [char; 2] = [' ', '\t'];

/// A line, and how much of it has been read.
pub struct Line<'a> {
    text: &'a str,
    read: usize,
}

impl<'a> Line<'a> {
    /// Returns the whole line, of which nothing has been read.
    pub fn new(text: &'a str) -> Self {
        Line { text, read: 0 }
    }

    /// Returns the position of the next byte in the line, counted from 1.
    pub fn position(&self) -> usize {
        self.read + 1
    }

    /// Returns what hasn't been read.
    pub fn rest(&self) -> &'a str {
        &self.text[self.read..]
    }

    /// Returns what hasn't been read, without the blanks before it.
    pub fn after_blanks(&self) -> &'a str {
        self.rest().trim_start_matches(BLANKS)
    }

    /// Returns the next character, if there is one, and doesn't read it.
    pub fn peek(&self) -> Option<char> {
        self.rest().chars().next()
    }

    /// Returns whether only blanks and a comment are left.
    pub fn is_at_end(&self) -> bool {
        matches!(self.after_blanks().chars().next(), None | Some('#'))
    }

    /// Reads with a reader of the library.
    pub fn read<T>(&mut self, reader: impl FnOnce(&'a [u8]) -> ReadResult<'a, T>) -> Result<T> {
        match reader(self.rest().as_bytes()) {
            Ok((value, rest)) => {
                self.read = self.text.len() - rest.len();
                Ok(value)
            }
            Err(fault) => Err(self.error_of(fault)),
        }
    }

    fn error_of(&self, fault: Fault) -> Error {
        Error::of_text(&TextError::of(fault, self.text.as_bytes()), self.text)
    }

    /// Returns the error that this was expected here.
    pub fn expected(&self, expected: impl Display) -> Error {
        Error::expected(self.position(), expected)
    }

    /// Returns the error that this was expected here, with the character that is here, and with what may help.
    pub fn expected_not(&self, expected: impl Display, hint: &str) -> Error {
        Error::expected_not(self.position(), expected, self.peek(), hint)
    }

    /// Returns the error that this was expected here, with the character that is here unless it is a blank or the end.
    pub fn expected_here(&self, expected: impl Display) -> Error {
        match self.peek() {
            None | Some(' ' | '\t') => self.expected(expected),
            Some(_) => self.expected_not(expected, ""),
        }
    }

    /// Reads the next character, if there is one, and returns it.
    pub fn next(&mut self) -> Option<char> {
        let next = self.peek()?;
        self.read += next.len_utf8();
        Some(next)
    }

    /// Reads the characters up to the first that fails the test, and returns them.
    pub fn take_while(&mut self, test: impl Fn(char) -> bool) -> &'a str {
        let rest = self.rest();
        let count = rest.find(|character| !test(character)).unwrap_or(rest.len());
        self.read += count;
        &rest[..count]
    }

    /// Reads the blanks that are next, if any.
    pub fn skip_blanks(&mut self) {
        self.read = self.text.len() - self.after_blanks().len();
    }

    /// Reads this text if it is next, and returns whether it was.
    pub fn accepts(&mut self, text: &str) -> bool {
        let is_next = self.rest().starts_with(text);
        self.read += if is_next { text.len() } else { 0 };
        is_next
    }

    /// Reads this text with the blanks before it, if it is next after blanks, and returns whether it was.
    pub fn accepts_after_blanks(&mut self, text: &str) -> bool {
        let after = self.after_blanks().strip_prefix(text);
        self.read = self.text.len() - after.unwrap_or(self.rest()).len();
        after.is_some()
    }

    /// Reads this text, or returns the error that it was expected.
    pub fn take(&mut self, text: &str) -> Result<()> {
        if self.accepts(text) { Ok(()) } else { Err(self.expected_not(format_args!("`{text}`"), "")) }
    }

    /// Reads the blanks between two arguments. Where the line goes on without one, an error is returned.
    pub fn separate(&mut self) -> Result<()> {
        let before = self.read;
        self.skip_blanks();
        if self.read > before || self.is_at_end() {
            return Ok(());
        }
        let is_comma = self.peek() == Some(',');
        Err(self.expected_not("a blank", if is_comma { "; arguments are separated by blanks" } else { "" }))
    }

    /// Reads the end of the line. Where the line goes on, an error is returned.
    pub fn end(&mut self) -> Result<()> {
        self.skip_blanks();
        if self.is_at_end() { Ok(()) } else { Err(self.expected("the line's end")) }
    }

    /// Reads a word, of ASCII letters and digits, `_` and characters beyond ASCII.
    pub fn word(&mut self, expected: &'static str) -> Result<&'a str> {
        let position = self.position();
        match self.take_while(is_bare) {
            "" => Err(Error::expected(position, expected)),
            word => Ok(word),
        }
    }

    /// Reads one of the words in an enumeration, such as `all, prefix or exact`.
    pub fn one_of(&mut self, words: &'static str) -> Result<&'static str> {
        let position = self.position();
        let read = self.take_while(is_bare);
        let word = words.split([',', ' ']).find(|word| *word == read && !["", "or"].contains(word));
        word.ok_or_else(|| Error::expected(position, words))
    }

    /// Reads the word of a number, which may have a minus.
    pub fn number_word(&mut self, expected: impl Display) -> Result<&'a str> {
        match self.take_while(|character| character == '-' || is_bare(character)) {
            "" => Err(self.expected_here(expected)),
            word => Ok(word),
        }
    }

    /// Reads a number.
    pub fn number<T: FromStr>(&mut self, expected: impl Display) -> Result<T> {
        let position = self.position();
        let word = self.number_word(&expected)?;
        word.parse().map_err(|_| Error::expected_word(position, expected, word))
    }

    /// Reads `0x` and the hexadecimal digits of bytes.
    pub fn hexadecimals(&mut self) -> Result<List<u8>> {
        if !self.accepts("0x") {
            return Err(self.expected_here("0x and two hexadecimal digits for each byte"));
        }
        let digits = self.take_while(|it| it.is_ascii_hexdigit());
        if digits.len() % 2 != 0 {
            return Err(Error::expected(self.position() - 1, "two hexadecimal digits"));
        }
        let bytes = (0..digits.len()).step_by(2).map(|at| u8::from_str_radix(&digits[at..at + 2], 16));
        Ok(bytes.filter_map(std::result::Result::ok).collect_in()?)
    }

    /// Reads a name, bare or in quotes.
    pub fn name(&mut self) -> Result<FieldName> {
        let name = self.read(dtype_text::name)?;
        self.end_word("-+#.")?;
        Ok(name)
    }

    /// Reads an id, bare or in quotes.
    pub fn id(&mut self) -> Result<ExtId> {
        if self.accepts("\"") {
            let text = self.read(quoted)?;
            return Ok(ExtId::try_new(text.as_str())?);
        }
        let rest = self.rest();
        let word = self.take_while(is_dotted);
        if !is_bare_id(word) {
            return Err(self.error_of(not_an_id(rest.as_bytes(), word.as_bytes())));
        }
        self.end_word("-+#")?;
        Ok(ExtId::try_new(word)?)
    }

    /// Returns an error if a name or an id without quotes was read last, and one of these signs is next, which may be
    /// meant as a part of it.
    pub fn end_word(&self, signs: &str) -> Result<()> {
        let is_sign = self.peek().is_some_and(|next| signs.contains(next));
        if is_sign && self.text[..self.read].ends_with(is_dotted) {
            return Err(self.error_of(misread(self.rest().as_bytes(), Expected::EndOfName)));
        }
        Ok(())
    }

    /// Reads a comma with the blanks around it, if it is next, and returns whether it was.
    pub fn accepts_comma(&mut self) -> bool {
        let is_comma = self.accepts_after_blanks(",");
        if is_comma {
            self.skip_blanks();
        }
        is_comma
    }
}

/// What a reader of the library returns: a value and the bytes after it, or a fault.
type ReadResult<'a, T> = std::result::Result<(T, &'a [u8]), Fault>;

/// Returns whether a character may be in a word.
pub fn is_bare(character: char) -> bool {
    character.is_ascii_alphanumeric() || character == '_' || !character.is_ascii()
}

fn is_dotted(character: char) -> bool {
    character == '.' || is_bare(character)
}
