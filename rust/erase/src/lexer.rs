// SPDX-License-Identifier: Apache-2.0
// SPDX-FileCopyrightText: Copyright the Vortex contributors

//! Splits a source into tokens. Whitespace and plain comments are left out of the list. Each bracket knows its partner.

use crate::error::{Error, Result};
use std::path::Path;

/// What a token is.
#[derive(Debug, Clone, Copy, PartialEq, Eq)]
pub enum Kind {
    /// A word: an identifier or a keyword, for example `ensures`.
    Word,
    /// A lifetime or a label, for example `'a`.
    Lifetime,
    /// A character or a byte, for example `'"'` or `b'\\'`.
    Char,
    /// A text of any of Rust's forms, for example `"a"`, `b"a"` or `r#"a"#`.
    Text,
    /// A number without a point, for example `0_u8`.
    Number,
    /// Punctuation. The forms in `PUNCTUATION` are one token each.
    Punct,
    /// An opening bracket: `(`, `[` or `{`.
    Open,
    /// A closing bracket.
    Close,
    /// A `///` line.
    Doc,
    /// A `//!` line.
    ModuleDoc,
    /// A character that isn't ASCII, outside texts and comments. Only contracts contain such characters.
    Symbol,
}

/// A token: its kind and where its text begins and ends.
#[derive(Debug, Clone, Copy)]
pub struct Token {
    pub kind: Kind,
    pub start: usize,
    pub end: usize,
    /// For a bracket the index of its partner in the list of tokens, otherwise the token's own index.
    pub mate: usize,
}

struct Lexer<'a> {
    path: &'a Path,
    text: &'a str,
    at: usize,
    tokens: Vec<Token>,
    open: Vec<usize>,
}

/// Returns the tokens of the text.
pub fn tokens(path: &Path, text: &str) -> Result<Vec<Token>> {
    let mut lexer = Lexer { path, text, at: 0, tokens: Vec::new(), open: Vec::new() };
    while let Some(first) = lexer.rest().chars().next() {
        match first.is_whitespace() {
            true => lexer.at += first.len_utf8(),
            false => lexer.step(first)?,
        }
    }
    match lexer.open.last() {
        Some(&open) => Err(lexer.error(lexer.tokens[open].start, "a bracket that isn't closed")),
        None => Ok(lexer.tokens),
    }
}

/// Returns the line of this place in the text, counted from 1.
pub fn line_of(text: &str, at: usize) -> usize {
    text.as_bytes()[..at].iter().filter(|&&byte| byte == b'\n').count() + 1
}

const PUNCTUATION: [&str; 11] = ["..=", "::", "->", "=>", "..", "==", "!=", "<=", ">=", "&&", "||"];

impl<'a> Lexer<'a> {
    fn rest(&self) -> &'a str {
        &self.text[self.at..]
    }

    fn error(&self, at: usize, message: &str) -> Error {
        Error::new(self.path, line_of(self.text, at), message)
    }

    fn push(&mut self, kind: Kind, length: usize) {
        let (start, mate) = (self.at, self.tokens.len());
        self.at += length;
        self.tokens.push(Token { kind, start, end: self.at, mate });
    }

    // Reads one token, or skips a comment.
    fn step(&mut self, first: char) -> Result<()> {
        let rest = self.rest();
        if rest.starts_with("/*") {
            return Err(self.error(self.at, "a block comment"));
        } else if rest.starts_with("//") {
            self.line_comment();
        } else if let Some(length) = self.text_length()? {
            self.push(Kind::Text, length);
        } else if first == '\'' || rest.starts_with("b'") {
            self.quote(usize::from(first == 'b'))?;
        } else if first == '_' || first.is_ascii_alphabetic() {
            self.push(Kind::Word, word_length(rest));
        } else if first.is_ascii_digit() {
            self.push(Kind::Number, word_length(rest));
        } else if matches!(first, '(' | '[' | '{') {
            self.open.push(self.tokens.len());
            self.push(Kind::Open, 1);
        } else if matches!(first, ')' | ']' | '}') {
            self.close(first)?;
        } else if !first.is_ascii() {
            self.push(Kind::Symbol, first.len_utf8());
        } else if let Some(long) = PUNCTUATION.iter().find(|long| rest.starts_with(**long)) {
            self.push(Kind::Punct, long.len());
        } else if "+-*/%^!&|=<>@.,;:#$?~`\\".contains(first) {
            self.push(Kind::Punct, 1);
        } else {
            return Err(self.error(self.at, &format!("no token begins with `{first}`")));
        }
        Ok(())
    }

    fn line_comment(&mut self) {
        let rest = self.rest();
        let length = rest.find('\n').unwrap_or(rest.len());
        if rest.starts_with("//!") {
            self.push(Kind::ModuleDoc, length);
        } else if rest.starts_with("///") && !rest.starts_with("////") {
            self.push(Kind::Doc, length);
        } else {
            self.at += length;
        }
    }

    // The length of a text that begins here, or `None` if none does.
    fn text_length(&self) -> Result<Option<usize>> {
        let rest = self.rest();
        let prefix = rest.len() - rest.trim_start_matches(['b', 'r', 'c']).len();
        if !matches!(&rest[..prefix], "" | "b" | "r" | "br" | "c" | "cr") {
            return Ok(None);
        }
        let behind = &rest[prefix..];
        let is_raw = rest[..prefix].contains('r');
        let marks = behind.len() - behind.trim_start_matches('#').len();
        if (marks > 0 && !is_raw) || !behind[marks..].starts_with('"') {
            return Ok(None);
        }
        if !is_raw {
            return Ok(Some(prefix + 1 + self.escaped_length(prefix + 1, '"')?));
        }
        let end = format!("\"{}", "#".repeat(marks));
        match behind[marks + 1..].find(&end) {
            Some(length) => Ok(Some(prefix + marks + 1 + length + end.len())),
            None => Err(self.error(self.at, "a raw text that doesn't end")),
        }
    }

    // The length up to and with the closing quote, from this offset behind the opening one.
    fn escaped_length(&self, from: usize, quote: char) -> Result<usize> {
        let mut characters = self.rest()[from..].char_indices();
        while let Some((length, next)) = characters.next() {
            if next == quote {
                return Ok(length + 1);
            }
            if next == '\\' {
                characters.next();
            }
        }
        Err(self.error(self.at, "a text or a character that doesn't end"))
    }

    // A character, a byte or a lifetime. A quote begins a character if a backslash follows, or if the next character
    // but one is a quote.
    fn quote(&mut self, prefix: usize) -> Result<()> {
        let mut behind = self.rest()[prefix + 1..].chars();
        let (first, second) = (behind.next(), behind.next());
        if first == Some('\\') || second == Some('\'') {
            let length = match first {
                Some('\\') => self.escaped_length(prefix + 1, '\'')?,
                other => other.map_or(0, char::len_utf8) + 1,
            };
            self.push(Kind::Char, prefix + 1 + length);
        } else if prefix == 0 && first.is_some_and(|c| c == '_' || c.is_ascii_alphabetic()) {
            self.push(Kind::Lifetime, 1 + word_length(&self.rest()[1..]));
        } else {
            return Err(self.error(self.at, "a quote that begins neither a character nor a lifetime"));
        }
        Ok(())
    }

    fn close(&mut self, bracket: char) -> Result<()> {
        let wanted = match bracket {
            ')' => "(",
            ']' => "[",
            _ => "{",
        };
        let here = self.tokens.len();
        let open = self.open.pop().filter(|open| self.text[self.tokens[*open].start..].starts_with(wanted));
        let Some(open) = open else {
            return Err(self.error(self.at, &format!("`{bracket}` closes no `{wanted}`")));
        };
        self.tokens[open].mate = here;
        self.push(Kind::Close, 1);
        self.tokens[here].mate = open;
        Ok(())
    }
}

// The number of bytes of the word characters at the beginning.
fn word_length(text: &str) -> usize {
    text.find(|c: char| c != '_' && !c.is_ascii_alphanumeric()).unwrap_or(text.len())
}
