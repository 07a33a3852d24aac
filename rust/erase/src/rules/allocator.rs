// SPDX-License-Identifier: Apache-2.0
// SPDX-FileCopyrightText: Copyright the Vortex contributors

//! The allocator: a value of no size, which Rattle passes to whoever allocates. In Rust each allocation uses the
//! program's allocator, so the parameter, the argument, the field and the local go.

use super::{Context, each_item};
use crate::edits::Edits;
use crate::error::Result;
use crate::items::What;
use crate::lexer::Kind;
use std::ops::Range;

const RULE: &str = "allocator";

// Words before an opening parenthesis that make it a tuple and not the arguments of a call.
const NOT_CALLS: [&str; 9] = ["return", "in", "match", "if", "while", "for", "else", "let", "break"];

/// Takes the allocator away.
pub fn apply(context: Context<'_>, edits: &mut Edits) -> Result<()> {
    let file = context.file;
    associated_types(context, edits)?;
    for at in 0..file.tokens.len() {
        if edits.covers(file, at) || super::imports::is_in_import(context, at) {
            continue;
        }
        if file.is(at, &["let", "alloc", "="]) {
            let end = (at..file.tokens.len()).find(|end| file.word(*end) == ";");
            let end = end.ok_or_else(|| file.error(at, "a `let` without its `;`"))?;
            edits.remove(file, at..end + 1, RULE);
        } else if file.kind(at) == Some(Kind::Open) {
            bracket(context, at, edits)?;
        }
    }
    Ok(())
}

// `type Alloc = Global;` in an `impl FromIterator`.
fn associated_types(context: Context<'_>, edits: &mut Edits) -> Result<()> {
    let file = context.file;
    each_item(&file.items, &mut |item| {
        if let What::Alias(value) = &item.what {
            if item.name == "Alloc" && file.source(value.clone()) == "= Global" {
                edits.remove_item(file, item.tokens.clone(), RULE);
            }
        }
        Ok(())
    })
}

// The elements of one bracket.
fn bracket(context: Context<'_>, open: usize, edits: &mut Edits) -> Result<()> {
    let file = context.file;
    if file.is(open + 1, &["in"]) && file.word(open.saturating_sub(1)) == "!" {
        let end = (open..file.mate(open)).find(|at| file.word(*at) == ";");
        let end = end.ok_or_else(|| file.error(open, "a macro's allocator without its `;`"))?;
        if !is_allocator(context, open + 2..end) {
            return Err(file.error(open, "a macro whose allocator isn't known"));
        }
        edits.replace_text(file.start(open + 1)..file.start(end + 1), "", RULE);
        return Ok(());
    }
    for element in file.elements(open) {
        if !is_element(context, element.clone()) {
            continue;
        }
        if !is_list(context, open) {
            return Err(file.error(element.start, "an allocator in a tuple, an array or a block"));
        }
        edits.remove_element(file, &element, RULE);
    }
    Ok(())
}

// Whether the bracket holds parameters, arguments, fields or the parts of a struct.
fn is_list(context: Context<'_>, open: usize) -> bool {
    let file = context.file;
    if open == 0 {
        return false;
    }
    let before = file.word(open - 1);
    match file.word(open) {
        "(" => (file.is_word(open - 1) && !NOT_CALLS.contains(&before)) || before == ">",
        "{" => before.starts_with(|c: char| c.is_ascii_uppercase()) || before == ">",
        _ => false,
    }
}

// A parameter or a field of the type `Global`, an argument, or a part `alloc: self.alloc`.
fn is_element(context: Context<'_>, element: Range<usize>) -> bool {
    let file = context.file;
    let mut first = element.start;
    while file.kind(first) == Some(Kind::Doc) {
        first += 1;
    }
    if file.word(first) == "pub" {
        first += 1;
    }
    let is_named = matches!(file.word(first), "alloc" | "_alloc") && file.word(first + 1) == ":";
    match is_named {
        true => is_allocator(context, first + 2..element.end),
        false => is_allocator(context, first..element.end),
    }
}

// An expression or a type of the allocator. `*x.allocator()` is the allocator of a collection.
fn is_allocator(context: Context<'_>, tokens: Range<usize>) -> bool {
    let source = context.file.source(tokens);
    matches!(source, "alloc" | "_alloc" | "Global" | "self.alloc" | "call.alloc" | "rt.alloc()")
        || (source.starts_with('*') && source.ends_with(".allocator()"))
}
