// SPDX-License-Identifier: Apache-2.0
// SPDX-FileCopyrightText: Copyright the Vortex contributors

//! Finds the forms that Rust would accept and by which it would mean something else, and refuses them. The table
//! `tables::silent` has a row for each. What no rule translates is refused as well: unsafe code, and macros that aren't
//! exported.

use super::{Context, each_item};
use crate::error::Result;
use crate::file::File;
use crate::items::{Impl, What, is_export};
use crate::lexer::Kind;
use crate::tables::silent::{CLONE, NUMBER, RANGE, REFUSED, UPDATE};

// Words that are refused wherever they stand.
const UNTRANSLATED: [&str; 5] = ["unsafe", "async", "await", "thread_local", "extern"];

/// Refuses the forms of the table.
pub fn apply(context: Context<'_>) -> Result<()> {
    let file = context.file;
    for at in kept(context) {
        let word = file.word(at);
        if UNTRANSLATED.contains(&word) && !is_export(file, at) {
            return Err(file.error(at, format!("`{word}` isn't translated")));
        }
        let begins = |tokens: &str| {
            let mut tokens = tokens.split(' ').enumerate();
            tokens.all(|(i, token)| file.word(at + i) == token)
        };
        for (form, tokens) in REFUSED {
            if tokens.iter().any(|tokens| begins(tokens)) || is_here(context, form, at) {
                return Err(file.error(at, format!("Rust means something else by this: {form}")));
            }
        }
    }
    each_item(&file.items, &mut |item| {
        let mut attributes = item.attributes.iter();
        let is_exported = attributes.any(|one| file.word(one.start + 2) == "macro_export");
        let refused = match &item.what {
            What::Macro if !is_exported => "a macro that isn't exported isn't translated",
            What::Impl(parts) if is_for_parameter(file, parts) => {
                "an `impl` for every type that meets a bound isn't translated"
            }
            _ => return Ok(()),
        };
        Err(file.error(item.head, refused))
    })
}

// The words and signs outside imports, ghost items, clauses and constants that are only proved.
fn kept(context: Context<'_>) -> Vec<usize> {
    let file = context.file;
    let mut gone = Vec::new();
    let visited = each_item(&file.items, &mut |item| {
        let mut tokens = item.tokens.clone();
        match &item.what {
            What::Function(function) => {
                gone.extend(function.clauses.iter().map(|clause| clause.tokens.clone()));
            }
            What::Impl(parts) if file.word(parts.of_trait.start) != "Model" => {}
            What::Constant if !tokens.any(|at| file.is(at, &["prove", "!"])) => {}
            What::Ghost | What::Macro | What::Use(_) | What::Impl(_) | What::Constant => {
                gone.push(item.tokens.clone());
            }
            _ => {}
        }
        gone.extend(item.attributes.iter().cloned());
        Ok(())
    });
    debug_assert!(visited.is_ok());
    let is_kept = |at: &usize| !gone.iter().any(|one| one.contains(at));
    (0..file.tokens.len()).filter(is_kept).collect()
}

// The checks of the forms that no few tokens tell.
fn is_here(context: Context<'_>, form: &str, at: usize) -> bool {
    let file = context.file;
    let (before, word, behind) = (file.before(at), file.word(at), file.word(at + 1));
    match form {
        CLONE => file.is(at, &[".", "clone", "(", ")"]) && file.word(at + 4) != "?",
        RANGE => {
            let has_start = matches!(file.kind(at.wrapping_sub(1)), Some(Kind::Word | Kind::Number));
            let has_end = !matches!(behind, ")" | "{" | "," | ";");
            word == ".." && (has_start || before == ")") && !has_end
        }
        NUMBER => {
            file.word(at) == "."
                && file.word(at + 2) == "("
                && is_number_method(context, behind)
                && !is_parameter(file, at)
        }
        UPDATE => {
            let mut base =
                (at + 1..file.tokens.len()).take_while(|at| !matches!(file.word(*at), "}" | ")" | "]" | ","));
            word == ".." && matches!(before, "," | "{") && base.any(|at| file.word(at) == "[")
        }
        _ => false,
    }
}

// Methods that traits of the sources declare and that numbers have in Rust. A source calls that of a trait only if the
// trait is its crate's own, or if it imports something of the trait's crate.
fn is_number_method(context: Context<'_>, name: &str) -> bool {
    let file = context.file;
    let imports = |krate: &str| {
        let mut items = file.items.iter();
        items.any(|item| matches!(&item.what, What::Use(tree) if file.word(tree.start) == krate))
    };
    matches!(name, "to_le_bytes" | "is_nan" | "is_infinite")
        && (context.index).declares_method(name, |krate| krate == file.krate || imports(krate))
}

// Whether the receiver before this point is a parameter whose type is a generic parameter. Then Rust, too, calls the
// trait's method.
fn is_parameter(file: &File, at: usize) -> bool {
    let receiver = file.before(at);
    let inside = (0..at).rev().take_while(|here| file.word(*here) != "fn");
    let mut declared = inside.filter(|here| file.is(*here, &[receiver, ":"]));
    declared.next().is_some_and(|here| {
        let of_type = file.word(here + 2);
        of_type.len() == 1 && of_type.chars().all(|c| c.is_ascii_uppercase())
    })
}

fn is_for_parameter(file: &File, parts: &Impl) -> bool {
    let name = file.source(parts.for_type.clone());
    let mut generics = parts.generics.clone();
    !parts.of_trait.is_empty() && generics.any(|at| file.word(at) == name && matches!(file.before(at), "<" | ","))
}
