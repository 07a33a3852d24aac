// SPDX-License-Identifier: Apache-2.0
// SPDX-FileCopyrightText: Copyright the Vortex contributors

//! A source with its tokens, and the questions that the rules ask about them. A rule names tokens by their indices.

use crate::error::{Error, Result};
use crate::items::{self, Item};
use crate::lexer::{self, Kind, Token, line_of};
use std::ops::Range;
use std::path::{Path, PathBuf};

/// A source: its text, its tokens and its items.
#[derive(Debug)]
pub struct File {
    /// The crate that it belongs to, for example `dtype_base`.
    pub krate: String,
    /// Where it lies in the `src` of its crate, for example `dtype/text.rt`.
    pub inner: PathBuf,
    /// Where it was read, for messages.
    pub path: PathBuf,
    /// The text.
    pub text: String,
    /// The tokens, without whitespace and plain comments.
    pub tokens: Vec<Token>,
    /// The items, in order.
    pub items: Vec<Item>,
}

impl File {
    /// Reads a source of this crate, whose `src` is `folder`.
    pub fn read(krate: &str, folder: &Path, path: &Path) -> Result<Self> {
        let text = std::fs::read_to_string(path).map_err(|error| Error::io(path, &error))?;
        let inner = path.strip_prefix(folder).unwrap_or(path).to_path_buf();
        File::new(krate, inner, path.to_path_buf(), text)
    }

    /// Returns the source with this text.
    pub fn new(krate: &str, inner: PathBuf, path: PathBuf, text: String) -> Result<Self> {
        let tokens = lexer::tokens(&path, &text)?;
        let mut file = File { krate: krate.to_owned(), inner, path, text, tokens, items: Vec::new() };
        file.items = items::items(&file, 0..file.tokens.len())?;
        Ok(file)
    }

    /// Returns the text of a token, or nothing behind the last one.
    pub fn word(&self, at: usize) -> &str {
        match self.tokens.get(at) {
            Some(token) => &self.text[token.start..token.end],
            None => "",
        }
    }

    /// Returns the text of the token before this one, or nothing before the first.
    pub fn before(&self, at: usize) -> &str {
        self.word(at.wrapping_sub(1))
    }

    /// Returns whether the tokens from `at` on have these texts.
    pub fn is(&self, at: usize, words: &[&str]) -> bool {
        words.iter().enumerate().all(|(i, word)| self.word(at + i) == *word)
    }

    /// Returns whether the token is a word.
    pub fn is_word(&self, at: usize) -> bool {
        self.kind(at) == Some(Kind::Word)
    }

    /// Returns the kind of the token.
    pub fn kind(&self, at: usize) -> Option<Kind> {
        self.tokens.get(at).map(|token| token.kind)
    }

    /// Returns the index of the bracket's partner.
    pub fn mate(&self, at: usize) -> usize {
        self.tokens[at].mate
    }

    /// Returns where the token begins in the text.
    pub fn start(&self, at: usize) -> usize {
        self.tokens.get(at).map_or(self.text.len(), |token| token.start)
    }

    /// Returns where the token ends in the text.
    pub fn end(&self, at: usize) -> usize {
        self.tokens[at].end
    }

    /// Returns the text of these tokens, with what is between them.
    pub fn source(&self, tokens: Range<usize>) -> &str {
        match tokens.is_empty() {
            true => "",
            false => &self.text[self.start(tokens.start)..self.end(tokens.end - 1)],
        }
    }

    /// Returns the last word of the path of the type that these tokens write, or nothing if it is none.
    pub fn head_of(&self, tokens: &Range<usize>) -> &str {
        let is_head = |at: &usize| {
            self.is_word(*at) && !matches!(self.word(*at), "mut" | "dyn" | "impl") && self.word(at + 1) != "::"
        };
        tokens.clone().find(is_head).map_or("", |at| self.word(at))
    }

    /// Returns the error with this message about this token.
    pub fn error(&self, at: usize, message: impl Into<String>) -> Error {
        Error::new(&self.path, self.line(self.start(at)), message)
    }

    /// Returns the line of this place of the text, counted from 1.
    pub fn line(&self, at: usize) -> usize {
        line_of(&self.text, at)
    }

    /// Returns the index behind a path of generic arguments that begins with `<` at this index. `->` and `=>` are
    /// tokens of their own, so each `<` and `>` here is a bracket.
    pub fn behind_angles(&self, at: usize) -> Result<usize> {
        let mut depth = 0_usize;
        let mut here = at;
        while here < self.tokens.len() {
            match self.word(here) {
                "<" => depth += 1,
                ">" => depth -= 1,
                _ if self.kind(here) == Some(Kind::Open) => here = self.mate(here),
                _ => {}
            }
            here += 1;
            if depth == 0 {
                return Ok(here);
            }
        }
        Err(self.error(at, "a `<` without its `>`"))
    }

    /// Returns the elements between the brackets that begin at `open`, which are separated by commas.
    pub fn elements(&self, open: usize) -> Vec<Range<usize>> {
        self.split(open + 1..self.mate(open))
    }

    /// Splits these tokens at the commas that are in no bracket and in no generic arguments. An empty last element isn't
    /// returned.
    pub fn split(&self, tokens: Range<usize>) -> Vec<Range<usize>> {
        let mut elements = Vec::new();
        let mut first = tokens.start;
        let mut here = tokens.start;
        while here < tokens.end {
            if self.kind(here) == Some(Kind::Open) {
                here = self.mate(here);
            } else if self.word(here) == "<" && self.opens_generics(here) {
                here = self.behind_angles(here).map_or(here, |behind| behind - 1);
            } else if self.word(here) == "," {
                elements.push(first..here);
                first = here + 1;
            }
            here += 1;
        }
        if first < tokens.end {
            elements.push(first..tokens.end);
        }
        elements
    }

    // Whether a `<` begins generic arguments and isn't a comparison: it follows `::`, `impl`, or a word that begins
    // with a capital letter, or it begins a qualified path.
    fn opens_generics(&self, at: usize) -> bool {
        let before = self.before(at);
        before == "::"
            || before == "impl"
            || before == "&"
            || (before.starts_with(|c: char| c.is_ascii_uppercase())
                && !before.chars().all(|c| c.is_ascii_uppercase() || c == '_' || c.is_ascii_digit())
                || before.len() == 1 && before != ")" && before.starts_with(|c: char| c.is_ascii_uppercase()))
    }
}
