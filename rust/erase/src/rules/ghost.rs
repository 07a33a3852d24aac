// SPDX-License-Identifier: Apache-2.0
// SPDX-FileCopyrightText: Copyright the Vortex contributors

//! Ghost items, models and the bound `Drop`: they exist for the checker alone.

use super::{Context, each_item};
use crate::edits::Edits;
use crate::error::Result;
use crate::items::{Item, What};
use crate::lexer::Kind;
use std::ops::Range;

const RULE: &str = "ghost";
const DROP: &str = "the bound Drop";

/// Takes ghost items, models, `derive(Drop)` and the bounds `Drop` away.
pub fn apply(context: Context<'_>, edits: &mut Edits) -> Result<()> {
    let file = context.file;
    each_item(&file.items, &mut |item| one(context, item, edits))?;
    for at in 0..file.tokens.len() {
        if file.is(at, &["#", "["]) && file.word(at + 2).starts_with("derive") {
            derive(context, at, edits);
        } else if file.word(at) == "Drop" && !edits.covers(file, at) && !is_path_to_variant(context, at) {
            bound(context, at, edits)?;
        }
    }
    Ok(())
}

fn one(context: Context<'_>, item: &Item, edits: &mut Edits) -> Result<()> {
    let file = context.file;
    match &item.what {
        What::Ghost => edits.remove_item(file, item.tokens.clone(), RULE),
        What::Impl(parts) if is_word(context, &parts.of_trait, "Model") => {
            edits.remove_item(file, item.tokens.clone(), RULE);
        }
        What::Impl(parts) if is_word(context, &parts.of_trait, "Drop") => {
            return Err(file.error(item.head, "a type's own `Drop` isn't translated"));
        }
        What::Trait(bounds, inner) if file.is(bounds.start, &[":", "Drop", "{"]) && returns_self(context, inner) => {
            edits.replace(file, bounds.start + 1..bounds.end, "Sized", DROP);
        }
        What::Struct(Some(open)) if file.word(*open) == "{" => {
            for field in file.elements(*open) {
                let mut tokens = field.clone();
                let head = tokens.find(|at| file.kind(*at) != Some(Kind::Doc));
                if head.is_some_and(|at| file.word(at) == "ghost") {
                    let comma = usize::from(file.word(field.end) == ",");
                    edits.remove_item(file, field.start..field.end + comma, RULE);
                }
            }
        }
        _ => {}
    }
    Ok(())
}

// Whether a function of the trait returns its type by value, for which Rust wants a size. What Rattle may drop has one.
fn returns_self(context: Context<'_>, items: &[Item]) -> bool {
    items.iter().any(|item| match &item.what {
        What::Function(function) => {
            let mut returns = function.returns.clone();
            function.bounds.is_empty() && returns.any(|at| context.file.is(at, &["Self", ">"]))
        }
        _ => false,
    })
}

fn is_word(context: Context<'_>, tokens: &Range<usize>, word: &str) -> bool {
    tokens.len() == 1 && context.file.word(tokens.start) == word
}

// A variant of an enum may be called `Drop`: `Change::Drop`, or `Drop,` where it is declared.
fn is_path_to_variant(context: Context<'_>, at: usize) -> bool {
    let file = context.file;
    let is_declared = matches!(file.before(at), "," | "{") && file.word(at + 1) == ",";
    file.before(at) == "::" || is_declared
}

// `#[derive(Debug, Drop)]`. An attribute without another name goes as a whole.
fn derive(context: Context<'_>, at: usize, edits: &mut Edits) {
    let file = context.file;
    let names = file.elements(at + 3);
    let Some(drop) = names.iter().find(|name| file.word(name.start) == "Drop") else {
        return;
    };
    match names.len() {
        1 => edits.remove(file, at..file.mate(at + 1) + 1, DROP),
        _ => edits.remove_element(file, drop, DROP),
    }
}

// A bound: `T: Drop`, `trait A: Drop`, `type A: Drop`, or `where T: Drop,` with no other condition.
fn bound(context: Context<'_>, at: usize, edits: &mut Edits) -> Result<()> {
    let file = context.file;
    let is_only_condition = file.word(at - 3) == "where" && file.word(at + 1) == ",";
    match (file.before(at), file.word(at + 1)) {
        (":", ",") if is_only_condition => {
            let (end, with) = match file.word(at + 2) {
                "{" => (file.start(at + 2), " "),
                _ => (file.end(at + 1), ""),
            };
            edits.replace_text(file.end(at - 4)..end, with, DROP);
        }
        (":", ">" | "," | "{" | ";") => edits.replace_text(file.end(at - 2)..file.end(at), "", DROP),
        _ => return Err(file.error(at, "a `Drop` that is neither a bound nor derived")),
    }
    Ok(())
}
