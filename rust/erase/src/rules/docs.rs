// SPDX-License-Identifier: Apache-2.0
// SPDX-FileCopyrightText: Copyright the Vortex contributors

//! Doc comments. A sentence about what the caller must prove becomes one about a panic, because the condition is checked.
//! What a contract doesn't specify just isn't specified. Sentences about the allocator, and about what a value is in
//! contracts, go. All others stay as they are.

use super::Context;
use crate::edits::Edits;
use crate::error::Result;
use crate::lexer::Kind;

const RULE: &str = "docs";

// The longest line of a doc comment.
const WIDTH: usize = 120;

// Sentences that begin or end so go.
const GONE: [&str; 7] = [
    "The parameter is there so that the signature",
    "It is a parameter so that",
    "`_alloc` isn't used: it is a parameter so that",
    // (What plugins and sessions are in contracts.)
    "In contracts a plugin is a function",
    "It takes metadata and a storage type, and returns the metadata that the plugin writes back",
    "In contracts a session is",
    "It consists of a function from ids",
];
const GONE_ENDS: [&str; 1] = ["keeps the allocator for later calls"];

// What a value is for the checker. The sentence stays if the next one says more about it.
const MEANING: &str = "In contracts ";

// Sentences end before these words.
const CUT: [&str; 3] = [", so it doesn't use `_alloc`", ", so `_alloc` isn't used", " from the allocator of"];

// Words that become others, in this order.
const WORDS: [(&str, &str); 14] = [
    ("The caller must prove that the iterator ends", "The iterator must end"),
    ("The caller must prove that ", "The call panics unless "),
    ("the caller must prove that ", "the call panics unless "),
    ("A caller that can't prove this calls ", "A caller that doesn't know this calls "),
    ("(alloc, ", "("),
    ("(alloc)", "()"),
    (
        "Each implementation proves two laws about `rewrites`",
        "Each implementation has to obey two laws, which `check_plugin` tries on samples",
    ),
    (
        "Each implementation proves the three laws of `Typed`",
        "`check_plugin` tries on samples what follows from the three laws that each implementation has to obey",
    ),
    ("its contract requires that kind", "it panics for a type of another kind"),
    ("`as_struct_fields` requires `Kind::Struct`", "`as_struct_fields` panics unless the kind is `Kind::Struct`"),
    ("the contract doesn't specify the result", "the result isn't specified"),
    ("the contract doesn't specify which ", "it isn't specified which "),
    ("the contract leaves open which ", "it isn't specified which "),
    // (The modules of laws go.)
    (" ([`laws`])", ""),
];

// What stands in parentheses goes if it refers to a law or to a definition.
const REFERENCES: [&str; 2] = ["`laws::", "`specs/"];

// Words that no doc comment has after that, and those that only the comment of a module may have.
const LEFT: [&str; 4] = ["_alloc", "(alloc", "the allocator", "must prove"];
const OF_MODULES: &str = "the contract";

/// Translates the doc comments.
pub fn apply(context: Context<'_>, edits: &mut Edits) -> Result<()> {
    let file = context.file;
    let mut at = 0;
    while at < file.tokens.len() {
        let kind = file.kind(at);
        let is_doc = matches!(kind, Some(Kind::Doc | Kind::ModuleDoc));
        let mut end = at + 1;
        while is_doc && file.kind(end) == kind {
            end += 1;
        }
        if is_doc {
            let old: Vec<&str> = (at..end).map(|line| file.word(line)).collect();
            let column = column(&file.text, file.start(at));
            let new = translated(&old, column);
            let is_left = |line: &&String| {
                LEFT.iter().any(|left| line.contains(left)) || kind == Some(Kind::Doc) && line.contains(OF_MODULES)
            };
            if let Some(line) = new.iter().find(is_left) {
                return Err(file.error(at, format!("a doc comment that isn't known: {line}")));
            }
            if new != old {
                let separator = format!("\n{}", " ".repeat(column));
                edits.replace(file, at..end, &new.join(&separator), RULE);
            }
        }
        at = end;
    }
    Ok(())
}

fn column(text: &str, at: usize) -> usize {
    at - text[..at].rfind('\n').map_or(0, |line| line + 1)
}

/// Returns the lines of a doc comment that begins in this column, translated.
pub fn translated(lines: &[&str], column: usize) -> Vec<String> {
    let mut out: Vec<String> = Vec::new();
    let mut at = 0;
    while at < lines.len() {
        let end = paragraph_end(lines, at);
        let paragraph = &lines[at..end];
        let old = paragraph.iter().map(|line| text_of(line)).collect::<Vec<_>>().join(" ");
        let new = sentences(&old);
        if new == old {
            out.extend(paragraph.iter().map(|line| (*line).to_owned()));
        } else if !new.is_empty() {
            out.extend(wrapped(paragraph[0], &new, column));
        } else if out.last().is_some_and(|line| text_of(line).is_empty()) {
            out.pop();
        }
        at = end;
    }
    out
}

// The text of a line behind the sign of its comment.
fn text_of(line: &str) -> &str {
    line.trim_start_matches(['/', '!']).trim()
}

// A paragraph or an item of a list ends before an empty line, a heading, a block of code or another item.
fn paragraph_end(lines: &[&str], at: usize) -> usize {
    let begins = |line: &str| ["- ", "# "].iter().any(|sign| text_of(line).starts_with(sign));
    let ends = |line: &str| text_of(line).is_empty() || begins(line) || text_of(line).starts_with("```");
    let is_heading = text_of(lines[at]).starts_with("# ");
    let mut end = at + 1;
    while !text_of(lines[at]).is_empty() && !is_heading && lines.get(end).is_some_and(|line| !ends(line)) {
        end += 1;
    }
    end
}

// The sentences of a paragraph, translated.
fn sentences(text: &str) -> String {
    let all: Vec<&str> = text.split(". ").collect();
    let mut kept = Vec::new();
    for (at, sentence) in all.iter().enumerate() {
        let is_explained = all.get(at + 1).is_some_and(|next| next.starts_with("It "));
        let is_meaning = sentence.starts_with(MEANING) && !is_explained;
        let bare = sentence.trim_end_matches('.');
        let is_gone =
            GONE.iter().any(|gone| bare.starts_with(gone)) || GONE_ENDS.iter().any(|gone| bare.ends_with(gone));
        if !is_meaning && !is_gone {
            kept.push(sentence_of(sentence));
        }
    }
    let text = kept.join(". ");
    let had_point = all.last().is_some_and(|last| last.ends_with('.'));
    match text.is_empty() || text.ends_with(['.', ':', '`', ')']) || !had_point {
        true => text,
        false => format!("{text}."),
    }
}

fn sentence_of(sentence: &str) -> String {
    let mut text = sentence.to_owned();
    for cut in CUT {
        if let Some(at) = text.find(cut) {
            let point = if sentence.ends_with('.') { "." } else { "" };
            text = format!("{}{point}", &text[..at]);
        }
    }
    for (old, new) in WORDS {
        if old.ends_with("prove that ") && text.contains(old) {
            text = text.replace(", and that ", ", and ");
        }
        text = text.replace(old, new);
    }
    without_references(text)
}

fn without_references(mut text: String) -> String {
    let mut from = 0;
    while let Some(open) = text[from..].find(" (") {
        let open = from + open;
        let Some(close) = text[open..].find(')') else {
            break;
        };
        let inside = &text[open..open + close];
        match REFERENCES.iter().any(|reference| inside.contains(reference)) {
            true => text.replace_range(open..=open + close, ""),
            false => from = open + 2,
        }
    }
    text
}

// The lines of a text, with the sign of the first line. Later lines of an item of a list are indented.
fn wrapped(first: &str, text: &str, column: usize) -> Vec<String> {
    let sign = if first.starts_with("//!") { "//!" } else { "///" };
    let indent = if text.starts_with("- ") { "  " } else { "" };
    let mut lines = Vec::new();
    let mut line = sign.to_owned();
    for word in text.split(' ') {
        if column + line.len() + 1 + word.len() > WIDTH {
            lines.push(line);
            line = format!("{sign}{indent}");
        }
        line.push(' ');
        line.push_str(word);
    }
    lines.push(line);
    lines
}
