// SPDX-License-Identifier: Apache-2.0
// SPDX-FileCopyrightText: Copyright the Vortex contributors

//! What the Rust crate has by hand beside its modules, in `src/habits`. There a call takes what a Rust program expects to
//! pass, for example a text for a name, and calls that of the sources. So the call of the sources gets another name, or
//! only its form that returns an error is written. Types also get the traits that a `derive` of the sources lacks.
//!
//! Each row of a table must apply to exactly one declaration, so that none can outlive what it was about.

use super::{Call, Context, each_call};
use crate::edits::Edits;
use crate::error::{Error, Result};
use crate::index::Index;
use crate::items::{Function, Item, What};
use std::path::Path;

const RULE: &str = "by hand";

/// A type and a call of it.
type Name = (&'static str, &'static str);

// Calls with two forms of which the one that ends the program is by hand: each type with its calls.
const SHORT_FORMS: [&str; 8] = [
    "DType fixed_size_list list struct_",
    "DTypeSession register",
    "ExtDTypeRef from_parts",
    "FieldNames from_iter",
    "FieldPath from_field from_iter from_name push",
    "FieldPathSet extend from_iter",
    "ForeignExtDType from_parts",
    "StructFields from_fields from_iter new",
];

// Calls that can fail for another reason than memory too, and have two forms nevertheless. In vortex-array they panic, and
// so does that by hand.
const PANICKING: [&str; 2] = ["DType element_size", "ExtDType erased with_nullability"];

// Calls whose parameter `name: &str` is anything that is a text.
const OF_TEXTS: [&str; 3] = ["FieldNames find", "StructFields field find", "UnionVariants find variant"];

// Calls of traits with two forms. The one that ends the program is provided (`PROVIDED`), or by hand.
const OF_TRAITS: [&str; 2] = ["DTypeProto to_proto", "NativeDType dtype"];

// Calls that are compiled into their callers. Otherwise a type is moved twice for each, once with the error's place.
const INLINED: [&str; 1] = ["DType as_nullable with_nullability"];

// Calls that are by hand with other parameters. That of the sources has this name, and isn't documented.
const INNER: [(Name, &str); 5] = [
    (("DType", "map"), "map_of"),
    (("FieldPath", "exists_in"), "exists_inside"),
    (("FieldPath", "resolve"), "resolve_inside"),
    (("UnionVariants", "new"), "consecutive"),
    (("UnionVariants", "try_new"), "with_tags"),
];

// Types whose `{:#}` isn't their `{}`, and what it is.
const ALTERNATE: [(&str, &str); 3] = [
    ("DType", "crate::habits::plain(self, f)"),
    ("Nullability", "f.write_str(self.long_text())"),
    ("StructFields", "f.write_str(&self.try_indented().map_err(|_| fmt::Error)?)"),
];

// A trait whose values are shared between threads, and the trait of the type that implements it.
const SHARED: (&str, &str) = ("ExtDTypePlugin", "ExtVTable");

// Types with traits that their `derive` lacks.
const DERIVED: [(&str, &str); 6] = [
    // (A copy shares all that it contains, so that nothing is allocated for it.)
    ("DType", "Clone"),
    ("Kind", "PartialOrd, Ord"),
    ("MessageFault", "Clone, Copy"),
    ("Nullability", "PartialOrd, Ord"),
    ("TextError", "Clone, PartialEq, Eq"),
    ("VortexError", "Clone, Copy"),
];

/// The calls of a table whose rows are types with calls.
fn calls(table: &'static [&'static str]) -> impl Iterator<Item = Name> {
    table.iter().flat_map(|row| {
        let (of_type, names) = row.split_once(' ').unwrap_or((row, ""));
        names.split(' ').map(move |name| (of_type, name))
    })
}

fn is_in(table: &'static [&'static str], of_type: &str, name: &str) -> bool {
    calls(table).any(|call| call == (of_type, name))
}

/// Returns whether the form of this call that ends the program is by hand.
pub fn has_short_form(of_type: &str, name: &str) -> bool {
    is_in(&SHORT_FORMS, of_type, name) || is_panicking(of_type, name)
}

/// Returns whether this call has two forms although it can fail for another reason than memory.
pub fn is_panicking(of_type: &str, name: &str) -> bool {
    is_in(&PANICKING, of_type, name)
}

/// Returns the traits that the `derive` of this type lacks, if it is none of messages.
pub fn derived(krate: &str, of_type: &str) -> Option<&'static str> {
    let row = DERIVED.iter().find(|(name, _)| *name == of_type && krate != "dtype_messages");
    row.map(|(_, traits)| *traits)
}

/// Checks that the sources still have each call with two forms whose shorter one is by hand.
pub fn check(index: &Index) -> Result<()> {
    let is_outlived = |call: &Name| index.has_method(call.0, call.1) && !index.has_forms(call.0, call.1);
    match calls(&SHORT_FORMS).find(is_outlived) {
        Some((of_type, name)) => {
            let message = format!("`{of_type}::{name}` is in the table `SHORT_FORMS` and hasn't two forms");
            Err(Error::new(Path::new("by_hand.rs"), 0, message))
        }
        None => Ok(()),
    }
}

/// Renames and widens the calls that are by hand, and adds traits.
pub fn apply(context: Context<'_>, edits: &mut Edits) -> Result<()> {
    let file = context.file;
    for item in &file.items {
        match &item.what {
            What::Impl(parts) if file.head_of(&parts.of_trait) == SHARED.0 => {
                // `impl<V: ExtVTable> ExtDTypePlugin for ..` becomes `impl<V: ExtVTable + Send + Sync> ..`.
                let mut generics = parts.generics.clone();
                if let Some(at) = generics.find(|at| file.word(*at) == SHARED.1) {
                    edits.insert_behind(file, at, " + Send + Sync", RULE);
                }
            }
            What::Trait(bounds, _) if item.name == SHARED.0 => {
                // `trait ExtDTypePlugin: Drop` becomes `trait ExtDTypePlugin: Send + Sync`.
                edits.insert_behind(file, bounds.end - 1, ": Send + Sync", RULE);
            }
            What::Struct(_) | What::Enum => derives(context, item, edits),
            _ => {}
        }
    }
    each_call(file, &mut |call| {
        called(context, call.function, edits);
        let of_trait = if call.is_in_trait() { call.own } else { call.of_trait };
        let name = call.item.name.as_str();
        if is_in(&OF_TRAITS, of_trait, name) {
            call.rename(file, &format!("try_{name}"), RULE, edits);
            if call.is_in_trait() && name == "dtype" {
                edits.insert_behind(file, call.item.tokens.end - 1, PROVIDED, RULE);
            }
        } else if call.is_own() {
            own(context, call, edits)?;
        } else if (of_trait, name) == ("Display", "fmt") {
            // `{:#}`, of which no contract says anything.
            let row = ALTERNATE.iter().find(|(of_type, _)| *of_type == call.own);
            if let (Some((_, text)), Some(body)) = (row, call.function.body) {
                let text = format!("\n        if f.alternate() {{\n            return {text};\n        }}");
                edits.insert_behind(file, body, &text, RULE);
            }
        }
        Ok(())
    })
}

// A call that is by hand with other parameters, or a call of texts.
fn own(context: Context<'_>, call: Call<'_>, edits: &mut Edits) -> Result<()> {
    let (file, head) = (context.file, call.item.head);
    let key = (call.own, call.item.name.as_str());
    if let Some((_, name)) = INNER.iter().find(|(of, _)| *of == key) {
        edits.replace(file, head..head + 1, "#[doc(hidden)]\n    pub", RULE);
        call.rename(file, name, RULE, edits);
    }
    if is_in(&INLINED, key.0, key.1) {
        edits.replace(file, head..head + 1, "#[inline(always)]\n    pub", RULE);
    }
    if is_in(&OF_TEXTS, key.0, key.1) {
        let mut inside = call.function.parameters..file.mate(call.function.parameters);
        let text = inside.find(|at| file.is(*at, &["name", ":", "&", "str"]));
        let (Some(at), Some(body)) = (text, call.function.body) else {
            return Err(file.error(head, "a call of texts without `name: &str`"));
        };
        edits.replace(file, at + 2..at + 4, "impl AsRef<str>", RULE);
        edits.insert_behind(file, body, "\n        let name = name.as_ref();", RULE);
    }
    Ok(())
}

// The calls in a body: `UnionVariants::new(` by its path, which the sources call with what only their own call takes, and
// those of traits, whose names are theirs alone.
fn called(context: Context<'_>, function: &Function, edits: &mut Edits) {
    let file = context.file;
    let Some(open) = function.body else { return };
    for at in open..file.mate(open) {
        if !matches!(file.word(at + 1), "::" | ".") || file.word(at + 3) != "(" {
            continue;
        }
        let (of_type, name) = (file.word(at), file.word(at + 2));
        let mut inner = INNER.iter().filter(|_| of_type == "UnionVariants");
        if let Some((_, inner)) = inner.find(|(call, _)| *call == (of_type, name)) {
            edits.replace(file, at + 2..at + 3, inner, RULE);
        } else if calls(&OF_TRAITS).any(|(_, call)| call == name) {
            edits.replace(file, at + 2..at + 3, &format!("try_{name}"), RULE);
        }
    }
}

const PROVIDED: &str = "

    /// Returns the logical type for which the native type stands, as `try_dtype` does. If memory runs out, the program
    /// ends, as with Rust's own collections.
    #[must_use]
    fn dtype() -> DType {
        crate::memory::or_abort(Self::try_dtype())
    }";

// A type whose `derive` has `Eq` gets `Hash`, and some get more.
fn derives(context: Context<'_>, item: &Item, edits: &mut Edits) {
    let file = context.file;
    let mut attributes = item.attributes.iter();
    let derive = attributes.find(|one| file.word(one.start + 2).starts_with("derive"));
    let more = derived(&file.krate, &item.name);
    let has = |name: &str| {
        let mut tokens = item.attributes.iter().flat_map(Clone::clone);
        tokens.any(|at| file.word(at) == name)
    };
    let is_equal = has("Eq") || more.is_some_and(|names| names.contains("Eq"));
    let hash = (is_equal && !has("Hash")).then_some("Hash");
    let names: Vec<&str> = more.into_iter().chain(hash).collect();
    if let (Some(attribute), false) = (derive, names.is_empty()) {
        let last = file.mate(attribute.start + 3) - 1;
        edits.insert_behind(file, last, &format!(", {}", names.join(", ")), RULE);
    }
}

#[cfg(test)]
mod tests {
    use super::{ALTERNATE, DERIVED, INNER, OF_TEXTS, OF_TRAITS, PANICKING, RULE, SHORT_FORMS, calls};
    use crate::{LIBRARIES, Layout, Result, erase};
    use std::path::Path;

    // The sources have what each row of each table is about.
    #[test]
    fn each_row_applies() -> Result<()> {
        let crates = Path::new(env!("CARGO_MANIFEST_DIR")).join("../../crates");
        let erased = erase(&Layout::one_crate(&crates, &LIBRARIES))?;
        let changes = erased.removed.iter().filter(|one| one.rule == RULE).map(|one| one.new.as_str());
        let changes: Vec<&str> = changes.collect();
        let count = |part: &str| changes.iter().filter(|change| change.contains(part)).count();
        for (call, name) in INNER {
            assert!(count(name) > 0, "{call:?}");
        }
        for (of_type, text) in ALTERNATE.iter().chain(&DERIVED) {
            assert!(count(text) > 0, "{of_type}");
        }
        let texts = calls(&OF_TEXTS).count();
        assert_eq!((count("impl AsRef<str>"), count("Send + Sync")), (texts, 2));
        let text: String = erased.files.iter().map(|file| file.text.as_str()).collect();
        let others = calls(&PANICKING).chain(calls(&OF_TRAITS));
        for (of_type, name) in calls(&SHORT_FORMS).chain(others) {
            assert!(text.contains(&format!("fn try_{name}")), "{of_type}::{name}");
        }
        Ok(())
    }
}
