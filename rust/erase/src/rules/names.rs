// SPDX-License-Identifier: Apache-2.0
// SPDX-FileCopyrightText: Copyright the Vortex contributors

//! The names of std whose signatures differ: Rattle's allocations can fail, its formatter names its writer's type, and
//! functions with a handle (`rt`) work on the world. The first get the forms of `rattle_std`, the second Rust's
//! signature, and the third are written by hand in Rust and go here.

use super::{Context, each_function};
use crate::edits::Edits;
use crate::error::Result;
use crate::items::{Function, Item};
use crate::tables::std::{Owner, owner_of};

const RULE: &str = "names of std";

// What `rattle_std` has under another name: calls of a type, methods that are passed the allocator in Rattle (without it a
// call of a method of this name would be Rust's), and macros that are passed it.
const CALLS: [(&str, &str); 2] = [("new", "boxed::new"), ("into_inner", "boxed::into_inner")];
const METHODS: [(&str, &str); 2] = [("collect", "collect_in"), ("to_string", "to_string_in")];
const MACROS: [(&str, &str); 2] = [("vec", "vec_in"), ("format", "format_in")];

/// Translates the names of std.
pub fn apply(context: Context<'_>, edits: &mut Edits) -> Result<()> {
    let file = context.file;
    each_function(&file.items, &mut |item, function| {
        match has_handle(context, function) {
            true => edits.remove_item(file, item.tokens.clone(), "functions with a handle"),
            false => formatter(context, item, function, edits),
        }
        Ok(())
    })?;
    for at in 1..file.tokens.len() {
        let named = |table: [(&str, &'static str); 2]| {
            let row = table.into_iter().find(|(name, _)| *name == file.word(at));
            row.map(|(_, rust)| rust)
        };
        let is_of_box = file.is(at.saturating_sub(2), &["Box", "::"]) && file.word(at + 1) == "(";
        if let (Some(rust), "!") = (named(MACROS), file.word(at + 1)) {
            if file.word(at + 3) != "in" {
                return Err(file.error(at, format!("a `{}!` without an allocator", file.word(at))));
            }
            let rust = format!("{}::{rust}", context.layout.macros);
            edits.replace(file, at..at + 1, &rust, RULE);
        } else if let (Some(rust), ".") = (named(METHODS), file.before(at)) {
            edits.replace(file, at..at + 1, rust, RULE);
        } else if let (Some(rust), true) = (named(CALLS), is_of_box && !edits.covers(file, at - 2)) {
            edits.replace(file, at - 2..at + 1, rust, RULE);
        }
        std_path(context, at, edits)?;
    }
    Ok(())
}

/// Returns whether a function has a parameter `rt`: a handle, by which it works on the world.
pub fn has_handle(context: Context<'_>, function: &Function) -> bool {
    let file = context.file;
    let parameters = file.elements(function.parameters);
    parameters.iter().any(|one| file.word(one.start) == "rt")
}

// `fn fmt<W: fmt::Write>(&self, f: &mut fmt::Formatter<W>)`: Rust's formatter has a lifetime and no writer.
fn formatter(context: Context<'_>, item: &Item, function: &Function, edits: &mut Edits) {
    let file = context.file;
    if item.name != "fmt" || !file.is(function.generics.start, &["<", "W", ":", "fmt", "::", "Write", ">"]) {
        return;
    }
    edits.replace(file, function.generics.clone(), "", RULE);
    for at in function.parameters..file.mate(function.parameters) {
        if file.is(at, &["Formatter", "<", "W", ">"]) {
            edits.replace(file, at..at + 4, "Formatter<'_>", RULE);
        }
    }
}

// A path of std in a body, of which the first words are known. Imports are translated elsewhere.
fn std_path(context: Context<'_>, at: usize, edits: &mut Edits) -> Result<()> {
    let file = context.file;
    let is_path = file.is(at, &["std", "::"]) && file.before(at) != "::";
    if !is_path || edits.covers(file, at) || super::imports::is_in_import(context, at) {
        return Ok(());
    }
    let mut words = vec!["std".to_owned()];
    let mut here = at;
    while file.word(here + 1) == "::" && file.is_word(here + 2) {
        here += 2;
        words.push(file.word(here).to_owned());
        match owner_of(&words) {
            Some(Owner::Same) => return Ok(()),
            Some(Owner::RattleStd) => {
                edits.replace(file, at..at + 1, &context.layout.std, RULE);
                return Ok(());
            }
            _ => {}
        }
    }
    Err(file.error(at, format!("`{}` isn't known", words.join("::"))))
}
