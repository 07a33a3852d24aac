// SPDX-License-Identifier: Apache-2.0
// SPDX-FileCopyrightText: Copyright the Vortex contributors

//! The rules, one file for each: what is taken away and what is translated.

pub mod allocator;
pub mod by_hand;
pub mod conditions;
pub mod contracts;
pub mod crates;
pub mod docs;
pub mod forms;
pub mod ghost;
pub mod imports;
pub mod laws;
pub mod names;
pub mod shared;
pub mod silent;

use crate::Layout;
use crate::edits::Edits;
use crate::error::Result;
use crate::file::File;
use crate::index::Index;
use crate::items::{Function, Item, What};

/// What a rule sees: the source, what all sources declare, and where the modules of the Rust crate are.
#[derive(Debug, Clone, Copy)]
pub struct Context<'a> {
    /// The source.
    pub file: &'a File,
    /// What all sources declare.
    pub index: &'a Index,
    /// Where the modules of the Rust crate are.
    pub layout: &'a Layout,
}

/// Applies every rule to a source.
pub fn all(context: Context<'_>, edits: &mut Edits) -> Result<()> {
    silent::apply(context)?;
    contracts::apply(context, edits)?;
    docs::apply(context, edits)?;
    ghost::apply(context, edits)?;
    laws::apply(context, edits);
    allocator::apply(context, edits)?;
    shared::apply(context, edits)?;
    names::apply(context, edits)?;
    crates::apply(context, edits);
    conditions::apply(context, edits)?;
    by_hand::apply(context, edits)?;
    forms::apply(context, edits)
}

/// Calls a function with each item, and with the items in modules, traits and `impl`s.
pub fn each_item<'a>(items: &'a [Item], visit: &mut dyn FnMut(&'a Item) -> Result<()>) -> Result<()> {
    for item in items {
        visit(item)?;
        match &item.what {
            What::Module(Some(inner)) | What::Trait(_, inner) => each_item(inner, visit)?,
            What::Impl(parts) => each_item(&parts.items, visit)?,
            _ => {}
        }
    }
    Ok(())
}

/// Calls a function with each function of the source.
pub fn each_function<'a>(items: &'a [Item], visit: &mut dyn FnMut(&'a Item, &'a Function) -> Result<()>) -> Result<()> {
    each_item(items, &mut |item| match &item.what {
        What::Function(function) => visit(item, function),
        _ => Ok(()),
    })
}

/// A function that a module, a trait or an `impl` of the source declares.
#[derive(Debug, Clone, Copy)]
pub struct Call<'a> {
    /// The type of the `impl`, or the trait that declares it, or nothing.
    pub own: &'a str,
    /// The trait of the `impl`, or nothing.
    pub of_trait: &'a str,
    /// The item of the module in which it is: itself, the trait or the `impl`.
    pub outer: &'a Item,
    /// The function.
    pub item: &'a Item,
    /// Its parts.
    pub function: &'a Function,
}

impl Call<'_> {
    /// Returns whether a trait declares it.
    pub fn is_in_trait(&self) -> bool {
        matches!(self.outer.what, What::Trait(..))
    }

    /// Returns whether it is of the module itself, or of a type and of no trait.
    pub fn is_own(&self) -> bool {
        self.of_trait.is_empty() && !self.is_in_trait()
    }

    /// Returns by how much it is indented.
    pub fn indent(&self) -> &'static str {
        if self.own.is_empty() { "" } else { "    " }
    }

    /// Gives it another name where it is declared.
    pub fn rename(&self, file: &File, name: &str, rule: &'static str, edits: &mut Edits) {
        let mut tokens = self.item.head..self.item.tokens.end;
        if let Some(at) = tokens.find(|at| file.word(*at) == "fn") {
            edits.replace(file, at + 1..at + 2, name, rule);
        }
    }
}

/// Calls a function with each function of the source's module, of its traits and of its `impl`s.
pub fn each_call<'a>(file: &'a File, visit: &mut dyn FnMut(Call<'a>) -> Result<()>) -> Result<()> {
    for outer in &file.items {
        let (own, of_trait, items) = match &outer.what {
            What::Impl(parts) => {
                let of_trait = file.head_of(&parts.of_trait);
                (file.head_of(&parts.for_type), of_trait, &parts.items[..])
            }
            What::Trait(_, items) => (outer.name.as_str(), "", &items[..]),
            _ => ("", "", std::slice::from_ref(outer)),
        };
        for item in items {
            if let What::Function(function) = &item.what {
                visit(Call { own, of_trait, outer, item, function })?;
            }
        }
    }
    Ok(())
}
