// SPDX-License-Identifier: Apache-2.0
// SPDX-FileCopyrightText: Copyright the Vortex contributors

//! Imports: those of laws, models and the allocator go, and so do those that only contracts needed. The others get the
//! paths of the Rust crate. A name that Rattle's prelude has and Rust's prelude has otherwise is imported.

use super::Context;
use crate::edits::{Edit, Edits};
use crate::error::Result;
use crate::file::File;
use crate::index::is_law_module;
use crate::items::{Item, Visibility, What};
use crate::tables::std::{Owner, owner_of};
use std::collections::BTreeSet;
use std::ops::Range;

const RULE: &str = "imports";

// Words, the name by which a source would import what they stand for, and what is imported for them.
const PRELUDE: [(&str, &str, &str); 9] = [
    ("FromIterator", "FromIterator", "STD::iter_ext::FromIterator"),
    ("String", "String", "STD::string::String"),
    ("Vec", "Vec", "STD::vec::Vec"),
    ("boxed", "boxed", "STD::boxed"),
    ("Arc", "Arc", "ROOT::Arc"),
    ("str::", "str", "std::str"),
    ("collect_in", "", "STD::iter_ext::IterExt as _"),
    ("to_string_in", "", "STD::display_ext::DisplayExt as _"),
    ("write_char", "Write", "std::fmt::Write as _"),
];

/// An imported name: its path, and the name that it gets.
#[derive(Debug, Clone, PartialEq, Eq)]
pub struct Leaf {
    /// The words of the path. The last is `self` for the module itself.
    pub path: Vec<String>,
    /// The name behind `as`.
    pub alias: Option<String>,
}

impl Leaf {
    /// Returns the name by which the source knows what is imported.
    pub fn name(&self) -> &str {
        if let Some(alias) = &self.alias {
            return alias;
        }
        match self.path.as_slice() {
            [.., module, last] if last == "self" => module,
            [.., last] => last,
            [] => "",
        }
    }
}

/// Returns whether the token is in an import.
pub fn is_in_import(context: Context<'_>, at: usize) -> bool {
    context.file.items.iter().any(|item| matches!(item.what, What::Use(_)) && item.tokens.contains(&at))
}

/// Returns the imported names of a tree.
pub fn leaves(file: &File, tree: Range<usize>, before: &[String]) -> Result<Vec<Leaf>> {
    let mut path = before.to_vec();
    let mut here = tree.start;
    while here < tree.end {
        if file.word(here) == "{" {
            let mut all = Vec::new();
            for element in file.elements(here) {
                all.extend(leaves(file, element, &path)?);
            }
            return Ok(all);
        }
        if !file.is_word(here) {
            return Err(file.error(here, "an import of a form that isn't known"));
        }
        path.push(file.word(here).to_owned());
        here += 1;
        match file.word(here) {
            "::" if here < tree.end => here += 1,
            "as" if here < tree.end => {
                let alias = Some(file.word(here + 1).to_owned());
                return Ok(vec![Leaf { path, alias }]);
            }
            _ if here == tree.end => return Ok(vec![Leaf { path, alias: None }]),
            _ => return Err(file.error(here, "an import of a form that isn't known")),
        }
    }
    Err(file.error(tree.start, "an import without a name"))
}

/// Returns whether what a path imports or names is a function with two forms.
pub fn has_forms(context: Context<'_>, path: &[String]) -> bool {
    let (Some(first), Some(last)) = (path.first(), path.last()) else {
        return false;
    };
    let is_known = context.layout.module(&context.file.krate, first).is_some();
    let krate = match is_known && first != "crate" {
        true => first,
        false => &context.file.krate,
    };
    context.index.function_has_forms(Some(krate), last)
        || (is_known && context.index.is_exported(krate, last) && context.index.function_has_forms(None, last))
}

/// Translates the imports, when the other changes are known.
pub fn apply(context: Context<'_>, others: &[Edit], edits: &mut Edits) -> Result<()> {
    let words = Words::new(context, others);
    let mut imported = BTreeSet::new();
    for item in &context.file.items {
        if let What::Use(tree) = &item.what {
            let old = leaves(context.file, tree.clone(), &[])?;
            let mut new = Vec::new();
            for leaf in &old {
                new.extend(translated(context, item, leaf, &words)?);
            }
            imported.extend(new.iter().map(|leaf| leaf.name().to_owned()));
            if new != old {
                replace(context, item, &new, edits);
            }
        }
    }
    prelude(context, &words, &imported, edits);
    Ok(())
}

// What stands in place of an imported name: nothing, the name by its path in Rust, or both forms of a call.
fn translated(context: Context<'_>, item: &Item, leaf: &Leaf, words: &Words) -> Result<Vec<Leaf>> {
    let is_public = item.visibility != Visibility::Private;
    if is_law(context, leaf) || (!is_public && words.only_taken_away(leaf.name())) {
        return Ok(Vec::new());
    }
    let Some(path) = path_in_rust(context, item, leaf)? else {
        return Ok(Vec::new());
    };
    let alias = leaf.alias.clone();
    let mut new = Leaf { path, alias };
    if !has_forms(context, &leaf.path) {
        return Ok(vec![new]);
    }
    let both = new.clone();
    if let Some(last) = new.path.last_mut() {
        *last = format!("try_{last}");
    }
    match is_public {
        true => Ok(vec![both, new]),
        false => Ok(vec![new]),
    }
}

fn is_law(context: Context<'_>, leaf: &Leaf) -> bool {
    let mut words = leaf.path.iter();
    words.any(|word| is_law_module(word) || context.index.is_law(word))
}

// The path of an imported name in Rust, or `None` if it isn't there.
fn path_in_rust(context: Context<'_>, item: &Item, leaf: &Leaf) -> Result<Option<Vec<String>>> {
    let (file, layout) = (context.file, context.layout);
    let mut path = leaf.path.clone();
    let first = path[0].as_str();
    if let Some(module) = layout.module(&file.krate, first) {
        module.clone_into(&mut path[0]);
        return Ok(Some(path));
    }
    let is_here = |item: &Item| matches!(item.what, What::Module(_)) && item.name == first;
    if matches!(first, "self" | "super") || file.items.iter().any(is_here) {
        return Ok(Some(path));
    }
    match owner_of(&path) {
        Some(Owner::Same) => Ok(Some(path)),
        Some(Owner::RattleStd) => {
            path[0].clone_from(&layout.std);
            Ok(Some(path))
        }
        Some(Owner::At(name)) => Ok(Some(vec![layout.std.clone(), name.to_owned()])),
        Some(Owner::Nobody) => Ok(None),
        None => {
            let message = format!("`{}` isn't known", path.join("::"));
            Err(file.error(item.head, message))
        }
    }
}

// Writes the names by their modules, each module as one import.
fn replace(context: Context<'_>, item: &Item, leaves: &[Leaf], edits: &mut Edits) {
    let file = context.file;
    if leaves.is_empty() {
        edits.remove_item(file, item.tokens.clone(), RULE);
        return;
    }
    let visibility = file.source(item.head..item.tokens.end);
    let visibility = visibility.split("use").next().unwrap_or("");
    let mut modules: Vec<(String, Vec<String>)> = Vec::new();
    for leaf in leaves {
        let (last, module) = leaf.path.split_last().map_or(("", &[][..]), |(last, module)| (last, module));
        let module = module.join("::");
        let last = match &leaf.alias {
            Some(alias) => format!("{last} as {alias}"),
            None => last.to_owned(),
        };
        match modules.iter_mut().find(|(one, _)| *one == module) {
            Some((_, names)) => names.push(last),
            None => modules.push((module, vec![last])),
        }
    }
    let lines: Vec<String> = modules.iter().map(|(module, names)| line(visibility, module, names)).collect();
    edits.replace(file, item.head..item.tokens.end, &lines.join("\n"), RULE);
}

fn line(visibility: &str, module: &str, names: &[String]) -> String {
    match names {
        [only] if only == "self" => format!("{visibility}use {module};"),
        [name] if module.is_empty() => format!("{visibility}use {name};"),
        [name] => format!("{visibility}use {module}::{name};"),
        _ => format!("{visibility}use {module}::{{{}}};", names.join(", ")),
    }
}

// The imports of what Rattle has in its prelude: each where its word is left, and the name that it stands for isn't
// imported by the source itself.
fn prelude(context: Context<'_>, words: &Words, imported: &BTreeSet<String>, edits: &mut Edits) {
    let (file, std) = (context.file, &context.layout.std);
    let mut lines = String::new();
    for (word, name, path) in PRELUDE {
        if words.kept.contains(word) && !imported.contains(name) {
            let path = path.replace("STD", std).replace("ROOT", &context.layout.macros);
            lines.extend(["use ", &path, ";\n"]);
        }
    }
    let is_import = |item: &&Item| matches!(item.what, What::Use(_));
    let first = file.items.iter().find(is_import).or(file.items.first());
    if let (Some(first), false) = (first, lines.is_empty()) {
        let at = file.start(first.tokens.start);
        edits.replace_text(at..at, &lines, RULE);
    }
}

// The words of a source, outside its imports: those that are left, with `str::` for a path of that module, and those that
// were taken away.
struct Words {
    kept: BTreeSet<String>,
    gone: BTreeSet<String>,
}

impl Words {
    fn new(context: Context<'_>, edits: &[Edit]) -> Self {
        let file = context.file;
        let (mut kept, mut gone) = (BTreeSet::new(), BTreeSet::new());
        let mut edit = 0;
        for at in (0..file.tokens.len()).filter(|at| file.is_word(*at) && !is_in_import(context, *at)) {
            while edits.get(edit).is_some_and(|edit| edit.range.end <= file.start(at)) {
                edit += 1;
            }
            let is_gone = edits.get(edit).is_some_and(|edit| edit.range.contains(&file.start(at)));
            let words = if is_gone { &mut gone } else { &mut kept };
            words.insert(file.word(at).to_owned());
        }
        for edit in edits {
            let words = edit.with.split(|c: char| c != '_' && !c.is_ascii_alphanumeric());
            kept.extend(words.filter(|word| !word.is_empty()).map(str::to_owned));
        }
        if (0..file.tokens.len()).any(|at| file.is(at, &["str", "::"]) && file.before(at) != "::") {
            kept.insert("str::".to_owned());
        }
        Words { kept, gone }
    }

    // A call with two forms is called by its first one.
    fn only_taken_away(&self, name: &str) -> bool {
        let is_kept = self.kept.contains(name) || self.kept.contains(&format!("try_{name}"));
        self.gone.contains(name) && !is_kept
    }
}
