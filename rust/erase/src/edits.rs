// SPDX-License-Identifier: Apache-2.0
// SPDX-FileCopyrightText: Copyright the Vortex contributors

//! What the rules change in a source. A change replaces a range of the text, and a change inside a larger one is
//! dropped, because the larger one takes its place.

use crate::error::{Error, Result};
use crate::file::File;
use std::fmt;
use std::ops::Range;

/// A change: the range of the text, what stands there instead, and which rule asked for it.
#[derive(Debug, Clone)]
pub struct Edit {
    /// The range, in bytes.
    pub range: Range<usize>,
    /// What stands there instead.
    pub with: String,
    /// The name of the rule, for `--removed`.
    pub rule: &'static str,
}

/// Something that was taken away or replaced, for `--removed`.
#[derive(Debug, Clone)]
pub struct Removal {
    /// The file and the line at which it begins.
    pub place: String,
    /// The rule that took it away.
    pub rule: &'static str,
    /// What stood there.
    pub old: String,
    /// What stands there instead.
    pub new: String,
}

/// One change: its place, its rule, then each line that went after `-` and each that came after `+`.
impl fmt::Display for Removal {
    fn fmt(&self, f: &mut fmt::Formatter<'_>) -> fmt::Result {
        write!(f, "{}: {}", self.place, self.rule)?;
        for line in self.old.lines() {
            write!(f, "\n- {line}")?;
        }
        for line in self.new.lines() {
            write!(f, "\n+ {line}")?;
        }
        Ok(())
    }
}

/// The changes of one source.
#[derive(Debug, Default)]
pub struct Edits {
    list: Vec<Edit>,
}

impl Edits {
    /// Replaces the text of these tokens.
    pub fn replace(&mut self, file: &File, tokens: Range<usize>, with: &str, rule: &'static str) {
        let range = file.start(tokens.start)..file.end(tokens.end - 1);
        self.replace_text(range, with, rule);
    }

    /// Replaces a range of the text.
    pub fn replace_text(&mut self, range: Range<usize>, with: &str, rule: &'static str) {
        self.list.push(Edit { range, with: with.to_owned(), rule });
    }

    /// Inserts a text behind a token.
    pub fn insert_behind(&mut self, file: &File, token: usize, text: &str, rule: &'static str) {
        let at = file.end(token);
        self.replace_text(at..at, text, rule);
    }

    /// Takes these tokens away, with the whole lines if nothing else stands there.
    pub fn remove(&mut self, file: &File, tokens: Range<usize>, rule: &'static str) {
        let range = file.start(tokens.start)..file.end(tokens.end - 1);
        self.replace_text(whole_lines(&file.text, range), "", rule);
    }

    /// Takes an item away, with the comments that stand directly above it.
    pub fn remove_item(&mut self, file: &File, tokens: Range<usize>, rule: &'static str) {
        let range = file.start(tokens.start)..file.end(tokens.end - 1);
        let mut range = whole_lines(&file.text, range);
        while let Some(start) = comment_above(&file.text, range.start) {
            range.start = start;
        }
        self.replace_text(range, "", rule);
    }

    /// Takes an element of a list away, with one of the commas beside it.
    pub fn remove_element(&mut self, file: &File, tokens: &Range<usize>, rule: &'static str) {
        let (mut start, mut end) = (file.start(tokens.start), file.end(tokens.end - 1));
        if file.word(tokens.end) == "," {
            let text = &file.text[file.end(tokens.end)..];
            let space = text.len() - text.trim_start_matches([' ', '\n']).len();
            let is_last = file.kind(tokens.end + 1) == Some(crate::lexer::Kind::Close);
            end = file.end(tokens.end) + if is_last || text[space..].starts_with("//") { 0 } else { space };
        } else if file.word(tokens.start - 1) == "," {
            start = file.start(tokens.start - 1);
        }
        self.replace_text(start..end, "", rule);
    }

    /// Returns whether a change so far takes this token away.
    pub fn covers(&self, file: &File, token: usize) -> bool {
        let at = file.start(token);
        self.list.iter().any(|edit| edit.range.contains(&at))
    }

    /// Returns the changes from first to last, without those inside larger ones.
    pub fn ordered(mut self, file: &File) -> Result<Vec<Edit>> {
        self.list.sort_by_key(|edit| {
            let range = &edit.range;
            (range.start, !range.is_empty(), std::cmp::Reverse(range.end))
        });
        let mut kept: Vec<Edit> = Vec::new();
        for edit in self.list {
            let Some(last) = kept.last() else {
                kept.push(edit);
                continue;
            };
            if edit.range.start >= last.range.end {
                kept.push(edit);
            } else if edit.range.end > last.range.end {
                let line = file.line(edit.range.start);
                let message = format!("the rules `{}` and `{}` overlap", last.rule, edit.rule);
                return Err(Error::new(&file.path, line, message));
            }
        }
        Ok(kept)
    }
}

/// Returns the text after the changes.
pub fn apply(text: &str, edits: &[Edit]) -> String {
    let mut out = String::with_capacity(text.len());
    let mut at = 0;
    for edit in edits {
        out.push_str(&text[at..edit.range.start]);
        out.push_str(&edit.with);
        at = edit.range.end;
    }
    out.push_str(&text[at..]);
    out
}

/// Returns the changes as lines for `--removed`. Changes that only replace are listed too.
pub fn removals(file: &File, edits: &[Edit]) -> Vec<Removal> {
    edits
        .iter()
        .map(|edit| Removal {
            place: format!("{}:{}", file.path.display(), file.line(first_text(file, edit))),
            rule: edit.rule,
            old: file.text[edit.range.clone()].trim().to_owned(),
            new: edit.with.trim().to_owned(),
        })
        .filter(|removal| removal.old != removal.new)
        .collect()
}

// Where the text of a change begins, behind whitespace.
fn first_text(file: &File, edit: &Edit) -> usize {
    let old = &file.text[edit.range.clone()];
    edit.range.start + (old.len() - old.trim_start().len())
}

// The range with the whole lines, if nothing else stands on them.
fn whole_lines(text: &str, range: Range<usize>) -> Range<usize> {
    let start = text[..range.start].rfind('\n').map_or(0, |at| at + 1);
    let end = text[range.end..].find('\n').map_or(text.len(), |at| range.end + at + 1);
    let is_alone = text[start..range.start].trim().is_empty() && text[range.end..end].trim().is_empty();
    match is_alone {
        true => start..end,
        false => range,
    }
}

// Where the line above begins, if it is a comment that isn't a doc comment of the module.
fn comment_above(text: &str, at: usize) -> Option<usize> {
    let above = text[..at].strip_suffix('\n')?;
    let start = above.rfind('\n').map_or(0, |at| at + 1);
    let line = above[start..].trim_start();
    (line.starts_with("//") && !line.starts_with("//!")).then_some(start)
}

impl From<Vec<Edit>> for Edits {
    fn from(list: Vec<Edit>) -> Self {
        Edits { list }
    }
}
