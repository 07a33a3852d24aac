// SPDX-License-Identifier: Apache-2.0
// SPDX-FileCopyrightText: Copyright the Vortex contributors

//! Contracts: what a function ensures and requires, the hints of proofs, and what is proved in bodies. The checker has
//! proved all of it, so nothing of it runs.

use super::{Context, each_function, each_item};
use crate::edits::Edits;
use crate::error::Result;
use crate::items::{Function, What};

const RULE: &str = "contracts";

// Attributes that only the checker reads.
const HINTS: [&str; 5] = ["tactic", "cycle", "former", "measure", "opaque"];

// Attributes that have another name in Rust, and those that stay.
const RENAMED: [(&str, &str); 2] = [("derive_where", "derive"), ("rattlefmt", "rustfmt")];
const KEPT: [&str; 10] =
    ["repr", "derive", "inline", "error", "default", "from", "macro_export", "must_use", "non_exhaustive", "unsafe"];

// `#[cfg(test)] mod tests;` at the top of a crate: tests in Rattle, which are proved and run with the sources.
const TESTS: [&str; 10] = ["#", "[", "cfg", "(", "test", ")", "]", "mod", "tests", ";"];

/// Takes contracts, hints and tests away.
pub fn apply(context: Context<'_>, edits: &mut Edits) -> Result<()> {
    let file = context.file;
    for item in file.items.iter().filter(|item| file.is(item.tokens.start, &TESTS)) {
        edits.remove_item(file, item.tokens.clone(), "tests");
    }
    attributes(context, edits)?;
    proved(context, edits)?;
    each_function(&file.items, &mut |_, function| {
        clauses(context, function, edits);
        closures(context, function, edits)?;
        if let Some(at) = function.final_at {
            let range = file.start(at)..file.start(at + 1);
            edits.replace_text(range, "", RULE);
        }
        Ok(())
    })
}

// A signature without clauses ends with ` {`, or with a brace on a line of its own behind a `where`.
fn clauses(context: Context<'_>, function: &Function, edits: &mut Edits) {
    let file = context.file;
    let (Some(first), Some(last)) = (function.clauses.first(), function.clauses.last()) else {
        return;
    };
    let (before, behind) = (first.tokens.start - 1, last.tokens.end);
    let range = file.end(before)..file.start(behind);
    let with = match file.word(behind) {
        "{" if function.bounds.is_empty() => " ",
        "{" => "\n",
        _ => "",
    };
    edits.replace_text(range, with, RULE);
}

// The clauses of closures: they stand behind the parameters, and a body in braces follows.
fn closures(context: Context<'_>, function: &Function, edits: &mut Edits) -> Result<()> {
    let file = context.file;
    let Some(open) = function.body else {
        return Ok(());
    };
    let mut at = open;
    while at < file.mate(open) {
        let first = at;
        while matches!(file.word(at), "requires" | "ensures") {
            at += 1 + usize::from(file.word(at + 1) == "*");
            at += usize::from(file.is_word(at));
            if file.word(at) != "{" {
                return Err(file.error(at, "a clause without its braces"));
            }
            at = file.mate(at) + 1;
        }
        if at > first {
            let range = file.end(first - 1)..file.start(at);
            edits.replace_text(range, " ", RULE);
        } else {
            at += 1;
        }
    }
    Ok(())
}

fn attributes(context: Context<'_>, edits: &mut Edits) -> Result<()> {
    let file = context.file;
    for at in 0..file.tokens.len() {
        let is_inner = file.is(at, &["#", "!", "["]);
        if !is_inner && !file.is(at, &["#", "["]) {
            continue;
        }
        let open = at + 1 + usize::from(is_inner);
        let name = file.word(open + 1);
        if HINTS.contains(&name) {
            edits.remove(file, at..file.mate(open) + 1, RULE);
        } else if let Some((_, rust)) = RENAMED.iter().find(|(rattle, _)| *rattle == name) {
            edits.replace(file, open + 1..open + 2, rust, RULE);
        } else if (!KEPT.contains(&name) || is_inner) && !file.is(at, &TESTS) {
            return Err(file.error(at, format!("the attribute `{name}` isn't known")));
        }
    }
    Ok(())
}

// What is proved in a body is checked in debug builds. What is proved of constants isn't: some of it is the layout that
// Rattle's compiler chooses.
fn proved(context: Context<'_>, edits: &mut Edits) -> Result<()> {
    let file = context.file;
    let mut constants = Vec::new();
    each_item(&file.items, &mut |item| {
        let mut tokens = item.tokens.clone();
        if matches!(item.what, What::Constant) && tokens.any(|at| file.is(at, &["prove", "!"])) {
            edits.remove_item(file, item.tokens.clone(), RULE);
            constants.push(item.tokens.clone());
        }
        Ok(())
    })?;
    for at in 0..file.tokens.len() {
        if !file.is(at + 1, &["!"]) || constants.iter().any(|tokens| tokens.contains(&at)) {
            continue;
        }
        let rust = match file.word(at) {
            "prove" => "debug_assert",
            "prove_eq" => "debug_assert_eq",
            "prove_ne" => "debug_assert_ne",
            _ => continue,
        };
        edits.replace(file, at..at + 1, rust, RULE);
    }
    Ok(())
}
