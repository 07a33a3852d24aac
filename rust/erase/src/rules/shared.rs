// SPDX-License-Identifier: Apache-2.0
// SPDX-FileCopyrightText: Copyright the Vortex contributors

//! What is shared in Rust and boxed in Rattle. The element of a list and the parts of an extension are in an `Arc`, as in
//! vortex-array, so that a copy shares them. In Rattle they are in a `Box`, and a copy copies them. A value behind a
//! `Box` that isn't changed and a value behind an `Arc` are the same to whoever reads them, and the sources change none.
//!
//! Two types that share their contents are equal at once. Equality is reflexive for each rule of comparison, which is a
//! law of `dtype_types` (`equal_where_the_same`).

use super::{Call, Context, each_call};
use crate::edits::Edits;
use crate::error::Result;

const RULE: &str = "shared";
const BODIES: &str = "shared, in bodies";

// The crates in which each box is the element of a list or the parts of an extension.
const CRATES: [&str; 2] = ["dtype_types", "dtype_native"];

// What changes in a body.
enum Change {
    // These tokens become this.
    Tokens(&'static str, &'static str),
    // This is the whole body.
    Body(&'static str),
    // This stands first in the body.
    First(&'static str),
}

use Change::{Body, First, Tokens};

// The changes, by the type or nothing, the function, and what is changed. Each must apply exactly once.
const CHANGES: [(&str, &str, Change); 9] = [
    // A copy of an element shares it.
    ("", "boxed_copy", Tokens("& DType", "&Arc<DType>")),
    ("", "boxed_copy", Body("Ok(dtype.clone())")),
    ("ExtDTypeRef", "try_clone", Body(SHARED)),
    // The parts of an extension are taken out if nobody else has them, and copied otherwise.
    ("ExtDTypeRef", "into_parts", Body(TAKEN_OR_COPIED)),
    // The storage type alone is shared and never copied, so that nothing is allocated where no error can be returned.
    (
        "ExtDType",
        "try_downcast",
        Tokens("let ( _ , _ , storage ) = erased . into_parts ( ) ;", "let storage = erased.storage_dtype().clone();"),
    ),
    // Whoever shares is equal.
    ("", "equal_under", First("if std::ptr::eq(a, b) {\n        return true;\n    }")),
    ("MapDType", "equal_under", First(SAME_SHARED)),
    ("StructFields", "equal_under", First(SAME_SHARED)),
    ("UnionVariants", "equal_under", First(SAME_SHARED)),
];

const SHARED: &str = "Ok(ExtDTypeRef {
            parts: self.parts.clone(),
        })";

const TAKEN_OR_COPIED: &str = "match Arc::try_unwrap(self.parts) {
            Ok(parts) => (parts.id, parts.metadata, parts.storage),
            Err(shared) => {
                let metadata = crate::memory::or_abort(Vec::from_slice(&shared.metadata));
                (shared.id.clone(), metadata, shared.storage.clone())
            }
        }";

const SAME_SHARED: &str = "if Rc::ptr_eq(&self.shared, &other.shared) {\n            return true;\n        }";

/// Shares what is boxed: `Box<DType>`, where `DType` is that of `dtype_types` and not a message, and the parts of an
/// extension. It is an error if a change of the table has nothing to change.
pub fn apply(context: Context<'_>, edits: &mut Edits) -> Result<()> {
    let file = context.file;
    let is_whole = CRATES.contains(&file.krate.as_str());
    for at in 0..file.tokens.len() {
        let is_box = file.is(at, &["Box", "<"])
            && matches!(file.word(at + 2), "DType" | "Parts")
            && matches!(file.word(at + 3), ">" | "<");
        if is_box && file.krate != "dtype_messages" {
            edits.replace(file, at..at + 1, "Arc", RULE);
        } else if is_whole && file.is(at, &["Box", "::", "new", "("]) {
            edits.replace(file, at..at + 3, "Arc::try_new", RULE);
        }
    }
    if !is_whole && file.krate != "vortex_dtype" {
        return Ok(());
    }
    each_call(file, &mut |call| {
        let rows = CHANGES.iter().filter(|_| call.is_own());
        for (_, _, change) in rows.filter(|row| (row.0, row.1) == (call.own, &call.item.name)) {
            changed(context, call, change, edits)?;
        }
        Ok(())
    })
}

fn changed(context: Context<'_>, call: Call<'_>, change: &Change, edits: &mut Edits) -> Result<()> {
    let file = context.file;
    let Some(open) = call.function.body else {
        return Ok(());
    };
    match change {
        First(first) => {
            let first = format!("\n    {}{first}", call.indent());
            edits.insert_behind(file, open, &first, BODIES);
        }
        Body(body) => edits.replace(file, open + 1..file.mate(open), body, BODIES),
        Tokens(old, new) => {
            let tokens: Vec<&str> = old.split(' ').collect();
            let mut all = call.function.parameters..file.mate(open);
            let Some(at) = all.find(|at| file.is(*at, &tokens)) else {
                let message = format!("`{}` has no `{old}` to share", call.item.name);
                return Err(file.error(open, message));
            };
            edits.replace(file, at..at + tokens.len(), new, BODIES);
        }
    }
    Ok(())
}

#[cfg(test)]
mod tests {
    use super::{BODIES, CHANGES};
    use crate::{LIBRARIES, Layout, Result, erase};
    use std::path::Path;

    // The sources have each body of the table.
    #[test]
    fn each_row_applies() -> Result<()> {
        let crates = Path::new(env!("CARGO_MANIFEST_DIR")).join("../../crates");
        let erased = erase(&Layout::one_crate(&crates, &LIBRARIES))?;
        let changed = erased.removed.iter().filter(|one| one.rule == BODIES);
        assert_eq!(changed.count(), CHANGES.len());
        Ok(())
    }
}
