// SPDX-License-Identifier: Apache-2.0
// SPDX-FileCopyrightText: Copyright the Vortex contributors

//! A reader of the texts of types and paths (docs/CONSOLE.md), a second one beside the library's: the original has none. A
//! text that can't be read fails at a byte.

use crate::types::{Answer, stop};

/// How deep types may be nested.
const DEEPEST: usize = 128;

/// What has a text.
pub trait Readable: Sized {
    fn read(text: &mut Reader) -> Answer<Self>;
}

/// A text, and where it is read.
pub struct Reader<'a> {
    text: &'a str,
    pub at: usize,
    level: usize,
}

impl<'a> Reader<'a> {
    pub fn new(text: &'a str) -> Self {
        let mut reader = Self { text, at: 0, level: 0 };
        reader.blanks();
        reader
    }

    /// What the whole text stands for. Blanks and a comment may follow.
    pub fn whole<T: Readable>(&mut self) -> Answer<T> {
        if self.is_at_end() {
            return self.fail(self.at);
        }
        let found = T::read(self)?;
        self.blanks();
        if self.is_at_end() { Ok(found) } else { self.fail(self.at) }
    }

    pub fn fail<T>(&self, at: usize) -> Answer<T> {
        stop(format!("unreadable at {}", at + 1))
    }

    /// What is found by what stands at a byte.
    pub fn found<T>(&self, at: usize, found: Option<T>) -> Answer<T> {
        found.map_or_else(|| self.fail(at), Ok)
    }

    pub fn rest(&self) -> &'a str {
        &self.text[self.at..]
    }

    /// Whether nothing follows but a comment.
    pub fn is_at_end(&self) -> bool {
        self.rest().is_empty() || self.rest().starts_with('#')
    }

    pub fn blanks(&mut self) {
        self.take(is_blank);
    }

    /// The characters of this kind that stand here.
    pub fn take(&mut self, is_meant: impl Fn(char) -> bool) -> &'a str {
        let rest = self.rest();
        let found = &rest[..rest.find(|sign| !is_meant(sign)).unwrap_or(rest.len())];
        self.at += found.len();
        found
    }

    /// Whether this text stands here: it is read.
    pub fn eat(&mut self, text: &str) -> bool {
        let is_here = self.rest().starts_with(text);
        self.at += if is_here { text.len() } else { 0 };
        is_here
    }

    pub fn expect(&mut self, text: &str) -> Answer<()> {
        if self.eat(text) { Ok(()) } else { self.fail(self.at) }
    }

    /// A text that stands here, and the blanks behind it.
    pub fn open(&mut self, text: &str) -> Answer<()> {
        self.expect(text).map(|()| self.blanks())
    }

    /// A text that stands behind blanks.
    pub fn close(&mut self, text: &str) -> Answer<()> {
        self.blanks();
        self.expect(text)
    }

    /// A sign with the blanks around it.
    pub fn between(&mut self, sign: &str) -> Answer<()> {
        self.close(sign).map(|()| self.blanks())
    }

    /// Items with commas between them, up to what closes them, behind which they begin.
    pub fn items<T>(&mut self, close: &str, read: impl Fn(&mut Self) -> Answer<T>) -> Answer<Vec<T>> {
        let mut found = Vec::new();
        if self.eat(close) {
            return Ok(found);
        }
        loop {
            found.push(read(self)?);
            self.blanks();
            if self.eat(close) {
                return Ok(found);
            }
            self.open(",")?;
        }
    }

    /// The value of the word of a type that stands here, in which dots may stand as in an id.
    pub fn word_of_type<T>(&mut self, meant: impl FnOnce(&str) -> Option<T>) -> Answer<T> {
        let at = self.at;
        let word = self.take(|sign| is_bare(sign) || sign == '.');
        self.found(at, meant(word))
    }

    pub fn number<T: std::str::FromStr>(&mut self) -> Answer<T> {
        let at = self.at;
        let word = self.take(|sign| is_bare(sign) || sign == '-');
        self.found(at, word.parse().ok())
    }

    pub fn byte(&mut self) -> Option<u8> {
        let digits = self.rest().get(..2).filter(|it| !it.starts_with('+'))?;
        let byte = u8::from_str_radix(digits, 16).ok()?;
        self.at += 2;
        Some(byte)
    }

    fn next(&mut self) -> Option<char> {
        let sign = self.rest().chars().next()?;
        self.at += sign.len_utf8();
        Some(sign)
    }

    /// A text in double quotes.
    pub fn text(&mut self) -> Answer<String> {
        let at = self.at;
        self.expect("\"")?;
        let bytes = self.quoted()?;
        self.found(at + 1, String::from_utf8(bytes).ok())
    }

    /// The bytes of what stands in quotes behind the opening one.
    fn quoted(&mut self) -> Answer<Vec<u8>> {
        let mut found = Vec::new();
        while let Some(sign) = self.next() {
            if sign == '"' {
                return Ok(found);
            }
            found.extend(if sign == '\\' { vec![self.escape()?] } else { sign.to_string().into_bytes() });
        }
        self.fail(self.at)
    }

    /// What an escape of a name means, behind its backslash.
    fn escape(&mut self) -> Answer<u8> {
        let at = self.at;
        match self.next() {
            Some('x') => {
                let at = self.at;
                let byte = self.byte();
                self.found(at, byte)
            }
            sign => self.found(at, sign.and_then(marked)),
        }
    }

    /// A name: bare, where a dot may follow that of a step, or in quotes.
    pub fn name(&mut self, is_step: bool) -> Answer<String> {
        if self.rest().starts_with('"') {
            return self.text();
        }
        let bare = self.bare(false)?;
        if !is_step && self.rest().starts_with('.') { self.fail(self.at) } else { Ok(bare) }
    }

    /// A name, or where dots may stand in it an id, that is bare. Signs that often stand in names need quotes there.
    pub fn bare(&mut self, dots: bool) -> Answer<String> {
        let at = self.at;
        let bare = self.take(|sign| is_bare(sign) || dots && sign == '.');
        self.plain(at, bare)?;
        if bare.is_empty() || self.rest().starts_with(['-', '+', '#']) {
            return self.fail(self.at);
        }
        Ok(bare.to_owned())
    }

    /// Fails where a bare text that begins at a byte has a character that no bare name has.
    pub fn plain(&self, at: usize, bare: &str) -> Answer<()> {
        let special = bare.char_indices().find(|(_, sign)| is_special(*sign));
        special.map_or(Ok(()), |(place, _)| self.fail(at + place))
    }

    /// A part of a type, a level deeper.
    pub fn inside<T>(&mut self, read: impl FnOnce(&mut Self) -> Answer<T>) -> Answer<T> {
        if self.level == DEEPEST {
            return self.fail(self.at);
        }
        self.level += 1;
        let found = read(self)?;
        self.level -= 1;
        Ok(found)
    }
}

/// The byte that an escape of this mark means.
fn marked(mark: char) -> Option<u8> {
    Some(match mark {
        't' => b'\t',
        'n' => b'\n',
        'r' => b'\r',
        '\\' | '"' | '\'' => mark as u8,
        _ => return None,
    })
}

pub fn is_blank(sign: char) -> bool {
    matches!(sign, ' ' | '\t')
}

/// Whether a name needs no quotes for this character.
pub fn is_bare(sign: char) -> bool {
    sign.is_ascii_alphanumeric() || sign == '_' || !sign.is_ascii()
}

/// Whether a name needs quotes for this character beyond ASCII: it can't be seen, or is a typographic quote.
pub fn is_special(sign: char) -> bool {
    matches!(sign as u32,
        0x80..=0xa0 | 0xab | 0xad | 0xbb | 0x61c | 0x1680 | 0x180e | 0x2000..=0x200f | 0x2018..=0x201f
        | 0x2028..=0x202f | 0x2039 | 0x203a | 0x205f..=0x206f | 0x3000 | 0xfeff | 0xfff9..=0xfffb)
}
