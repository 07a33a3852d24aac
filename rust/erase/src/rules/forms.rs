// SPDX-License-Identifier: Apache-2.0
// SPDX-FileCopyrightText: Copyright the Vortex contributors

//! Two forms of a call that can only lack memory. Its contract says so. `try_insert` is the call of the source and
//! returns the error. `insert` calls it and ends the program if memory runs out, as Rust's own collections do. The
//! sources call the first form. A public type with `try_clone` implements `Clone`.

use super::imports::{self, has_forms};
use super::{Call, Context, by_hand, docs, each_call};
use crate::edits::{Edit, Edits, apply as applied};
use crate::error::Result;
use crate::file::File;
use crate::index::{lacks_only_memory, never_fails};
use crate::items::{Function, Impl, Item, Visibility, What};
use crate::lexer::Kind;
use std::collections::BTreeSet;
use std::ops::Range;

const RULE: &str = "two forms";

// Methods of std's types that the sources call too. A call of one of these names gets the other form only if its
// receiver's type is known and has two forms of it.
const OF_STD: [&str; 5] = ["push", "insert", "extend", "iter", "into_iter"];

/// Renames the calls with two forms, where they are declared and where they are called.
pub fn apply(context: Context<'_>, edits: &mut Edits) -> Result<()> {
    let names = function_names(context)?;
    each_call(context.file, &mut |call| {
        if declares_forms(context, call) {
            call.rename(context.file, &format!("try_{}", call.item.name), RULE, edits);
        }
        calls(context, call, &names, edits)
    })
}

// The functions with two forms that the source names without a path.
fn function_names(context: Context<'_>) -> Result<BTreeSet<String>> {
    let mut names = BTreeSet::new();
    for item in &context.file.items {
        if let What::Use(tree) = &item.what {
            let leaves = imports::leaves(context.file, tree.clone(), &[])?;
            let with_forms = leaves.iter().filter(|leaf| has_forms(context, &leaf.path));
            names.extend(with_forms.map(|leaf| leaf.name().to_owned()));
        }
    }
    each_call(context.file, &mut |call| {
        if call.own.is_empty() && declares_forms(context, call) {
            names.insert(call.item.name.clone());
        }
        Ok(())
    })?;
    Ok(names)
}

fn declares_forms(context: Context<'_>, call: Call<'_>) -> bool {
    let (index, name) = (context.index, &call.item.name);
    match call.own {
        "" => index.function_has_forms(Some(&context.file.krate), name),
        own => {
            let is_public = call.item.visibility == Visibility::Public;
            call.is_own() && is_public && index.has_forms(own, name)
        }
    }
}

// The calls in a body.
fn calls(context: Context<'_>, call: Call<'_>, names: &BTreeSet<String>, edits: &mut Edits) -> Result<()> {
    let (file, own) = (context.file, if call.is_in_trait() { "" } else { call.own });
    let Some(open) = call.function.body else {
        return Ok(());
    };
    for at in (open + 1..file.mate(open)).filter(|at| file.is_word(*at)) {
        let is_called = file.word(at + 1) == "(";
        let is_renamed = match file.before(at) {
            "." => is_called && method_has_forms(context, own, at)?,
            "::" => path_has_forms(context, own, at),
            _ => is_called && names.contains(file.word(at)),
        };
        if is_renamed {
            edits.replace(file, at..at + 1, &format!("try_{}", file.word(at)), RULE);
        }
    }
    Ok(())
}

// A function or a call of a type by its path. A call can be a value, too, for example an argument.
fn path_has_forms(context: Context<'_>, own: &str, at: usize) -> bool {
    let file = context.file;
    let (before, is_called) = (file.word(at - 2), file.word(at + 1) == "(");
    if !before.starts_with(|c: char| c.is_ascii_lowercase()) {
        let of_type = if before == "Self" { own } else { before };
        let is_value = is_called || matches!(file.word(at + 1), "," | ")");
        return is_value && context.index.has_forms(of_type, file.word(at));
    }
    let mut first = at;
    while file.before(first) == "::" && file.is_word(first - 2) {
        first -= 2;
    }
    let words = (first..at + 1).step_by(2);
    let words = words.map(|at| file.word(at).to_owned());
    is_called && has_forms(context, &words.collect::<Vec<_>>())
}

// A method: by its name where that is enough, and otherwise by a `?` behind the call, if no other method of that name
// returns a result. Whatever is decided wrongly is a compile error, because the two forms return different types. It
// wouldn't be one where the result is dropped, so that is refused.
fn method_has_forms(context: Context<'_>, own: &str, at: usize) -> Result<bool> {
    let file = context.file;
    let name = file.word(at);
    let (some, all, all_fallible) = context.index.method_has_forms(&file.krate, name);
    let is_of_std = OF_STD.contains(&name);
    if !some || (all && !is_of_std) {
        return Ok(some);
    }
    let mut first = at;
    while !matches!(file.before(first), ";" | "{" | "}") {
        first -= 1;
    }
    if file.is(first, &["let", "_", "="]) || file.is(first, &["drop", "("]) {
        let message = "the result of this call is dropped, and which type it is of isn't known";
        return Err(file.error(at, message));
    }
    let is_tried = file.word(file.mate(at + 1) + 1) == "?";
    Ok(match is_of_std {
        true => context.index.has_forms(receiver(file, own, at - 2), name),
        false => is_tried && all_fallible,
    })
}

// The type of the receiver that ends with this token, or nothing if it isn't known: it is `self`, a parameter, a local
// with its type or a call of its type, or a copy of one of these.
fn receiver<'a>(file: &'a File, own: &'a str, mut at: usize) -> &'a str {
    if file.word(at) == "?" && file.word(at - 1) == ")" {
        at = file.mate(at - 1) - 1;
        if !file.is(at - 1, &[".", "try_clone"]) {
            return "";
        }
        at -= 2;
    }
    let name = file.word(at);
    if name == "self" || matches!(file.before(at), "." | "::") {
        return if name == "self" { own } else { "" };
    }
    for here in (0..at).rev().take_while(|here| file.word(*here) != "fn") {
        let is_let = matches!(file.before(here), "let" | "mut");
        if file.is(here, &[name, ":"]) {
            return file.head_of(&(here + 2..at));
        } else if is_let && file.is(here, &[name, "="]) {
            return file.word(here + 2);
        }
    }
    ""
}

/// Writes the second forms and the `Clone`s, when the other changes are known.
pub fn second(context: Context<'_>, others: &[Edit], edits: &mut Edits) -> Result<()> {
    each_call(context.file, &mut |call| {
        let is_by_hand = by_hand::has_short_form(call.own, &call.item.name);
        if declares_forms(context, call) && !is_by_hand {
            one(context, others, call, edits)?;
        }
        if let What::Impl(parts) = &call.outer.what {
            if call.item.name == "try_clone" && call.is_own() && is_cloned(context, call) {
                cloned(context, others, call.outer, parts, edits);
            }
        }
        Ok(())
    })
}

// The form that ends the program.
fn one(context: Context<'_>, others: &[Edit], call: Call<'_>, edits: &mut Edits) -> Result<()> {
    let Call { item, function, .. } = call;
    let (file, indent) = (context.file, call.indent());
    let parameters = file.elements(function.parameters).into_iter().map(|one| text(context, others, one));
    let parameters: Vec<String> = parameters.filter(|one| !one.is_empty()).collect();
    let arguments = parameters.iter().map(|one| argument(one));
    let Some(arguments) = arguments.collect::<Option<Vec<_>>>() else {
        return Err(file.error(item.head, "parameters that aren't names"));
    };
    let name = &item.name;
    let called = match arguments.first().map(String::as_str) {
        Some("self") => format!("self.try_{name}({})", arguments[1..].join(", ")),
        _ if call.own.is_empty() => format!("try_{name}({})", arguments.join(", ")),
        _ => format!("Self::try_{name}({})", arguments.join(", ")),
    };
    let parameters = parameters.iter().map(|one| one.trim_start_matches("mut "));
    let parameters = parameters.collect::<Vec<_>>().join(", ");
    let generics = text(context, others, function.generics.clone());
    let returned = returned(context, others, item, function)?;
    let bounds = match text(context, others, function.bounds.clone()).as_str() {
        "" => " ".to_owned(),
        bounds => format!("\n{indent}{bounds}\n{indent}"),
    };
    let head = format!("{name}{generics}({parameters}){returned}{bounds}");
    let docs = documented(context, item, indent);
    let body = format!("{indent}    crate::memory::or_abort({called})\n");
    let out = format!("\n\n{docs}{indent}pub fn {head}{{\n{body}{indent}}}");
    edits.insert_behind(file, item.tokens.end - 1, &out, RULE);
    Ok(())
}

// The arrow and the type that is made: the first argument of the result.
fn returned(context: Context<'_>, others: &[Edit], item: &Item, function: &Function) -> Result<String> {
    let file = context.file;
    let behind = file.behind_angles(function.returns.start + 1)?;
    let arguments = file.split(function.returns.start + 2..behind - 1);
    let Some(made) = arguments.into_iter().next() else {
        return Err(file.error(item.head, "a result of a form that isn't known"));
    };
    match text(context, others, made).as_str() {
        "()" => Ok(String::new()),
        made => Ok(format!(" -> {made}")),
    }
}

// The text of these tokens after the other changes.
fn text(context: Context<'_>, others: &[Edit], tokens: Range<usize>) -> String {
    let file = context.file;
    if tokens.is_empty() {
        return String::new();
    }
    let range = file.start(tokens.start)..file.end(tokens.end - 1);
    let inside: Vec<Edit> = others
        .iter()
        .filter(|edit| edit.range.start < range.end && edit.range.end > range.start)
        .map(|edit| Edit {
            range: edit.range.start.max(range.start) - range.start..edit.range.end.min(range.end) - range.start,
            with: edit.with.clone(),
            rule: edit.rule,
        })
        .collect();
    applied(&file.text[range], &inside).trim().to_owned()
}

// The argument that passes a parameter on.
fn argument(parameter: &str) -> Option<String> {
    let parameter = parameter.trim_start_matches("mut ");
    if matches!(parameter, "self" | "&self" | "&mut self") {
        return Some("self".to_owned());
    }
    let (name, _) = parameter.split_once(':')?;
    let is_name = name.chars().all(|c| c == '_' || c.is_ascii_alphanumeric());
    is_name.then(|| name.to_owned())
}

// The doc comment without its section of errors, and with what happens instead.
fn documented(context: Context<'_>, item: &Item, indent: &str) -> String {
    let file = context.file;
    let lines: Vec<&str> = (item.tokens.start..item.head)
        .filter(|at| file.kind(*at) == Some(Kind::Doc))
        .map(|at| file.word(at).trim_end())
        .collect();
    let mut out = String::new();
    let mut is_in_errors = false;
    for line in docs::translated(&lines, indent.len()) {
        if line.starts_with("/// # ") {
            is_in_errors = line == "/// # Errors";
        }
        if !is_in_errors {
            out.extend([indent, &line, "\n"]);
        }
    }
    while out.ends_with("///\n") {
        out.truncate(out.len() - "///\n".len() - indent.len());
    }
    if !out.is_empty() {
        out.extend([indent, "///\n"]);
    }
    let name = &item.name;
    let ends = "If memory runs out, the program ends, as with Rust's own collections.";
    format!("{out}{indent}/// {ends} `try_{name}` returns the error instead.\n")
}

// Whether the type is public, isn't cloned by a derive, and its `try_clone` can only lack memory.
fn is_cloned(context: Context<'_>, call: Call<'_>) -> bool {
    let file = context.file;
    let mut derives = file.items.iter().filter(|item| item.name == call.own);
    let is_derived = derives.any(|item| {
        let mut attributes = item.attributes.iter();
        attributes.any(|one| file.source(one.clone()).contains("Clone"))
    });
    let is_derived =
        is_derived || by_hand::derived(&file.krate, call.own).is_some_and(|traits| traits.contains("Clone"));
    let only_memory = lacks_only_memory(file, call.item, call.function) || never_fails(file, call.function);
    only_memory && context.index.is_exported(&file.krate, call.own) && !is_derived
}

fn cloned(context: Context<'_>, others: &[Edit], item: &Item, parts: &Impl, edits: &mut Edits) {
    let generics = text(context, others, parts.generics.clone());
    let for_type = text(context, others, parts.for_type.clone());
    let bounds = text(context, others, parts.bounds.clone());
    let out = format!(
        "\n\nimpl{generics} Clone for {for_type} {bounds}{{\n    fn clone(&self) -> Self {{\n        crate::memory::or_abort(self.try_clone())\n    }}\n}}"
    );
    edits.insert_behind(context.file, item.tokens.end - 1, &out, RULE);
}
