// SPDX-License-Identifier: Apache-2.0
// SPDX-FileCopyrightText: Copyright the Vortex contributors

//! What is done with the text that is left: blank lines that were between things that went are closed, and a word that
//! only Rattle has is an error.

use crate::error::{Error, Result};
use crate::lexer::{self, Kind};
use crate::rules::Context;

// Words that no Rust file that is left may have: each belongs to a form that a rule should have taken away.
const RATTLE: [&str; 9] =
    ["ghost", "ensures", "requires", "prove", "Model", "allocator", "Global", "_alloc", "rattlefmt"];

/// Returns the text without runs of blank lines, and without blank lines behind an opening brace and before a closing
/// one.
pub fn tidy(text: &str) -> String {
    let mut out = String::with_capacity(text.len());
    let mut blank = false;
    for line in text.lines().map(str::trim_end) {
        if line.is_empty() {
            blank = true;
            continue;
        }
        let opens = out.is_empty() || out.ends_with("{\n");
        let closes = line.trim_start().starts_with(['}', ')']);
        if blank && !opens && !closes {
            out.push('\n');
        }
        blank = false;
        out.push_str(line);
        out.push('\n');
    }
    out
}

/// Checks that nothing is left that only Rattle has.
pub fn left(context: Context<'_>, text: &str) -> Result<()> {
    let path = &context.file.path;
    let tokens = lexer::tokens(path, text)?;
    for (at, token) in tokens.iter().enumerate() {
        let word = &text[token.start..token.end];
        let before = at.checked_sub(1).map_or("", |before| &text[tokens[before].start..tokens[before].end]);
        let is_left = match token.kind {
            Kind::Symbol => true,
            Kind::Word => RATTLE.contains(&word) || (word == "alloc" && before != "::"),
            _ => false,
        };
        if is_left {
            let line = lexer::line_of(text, token.start);
            let shown = text.lines().nth(line - 1).unwrap_or("").trim();
            let message = format!("`{word}` is left in what was erased: `{shown}`");
            return Err(Error::new(path, 0, message));
        }
    }
    Ok(())
}
