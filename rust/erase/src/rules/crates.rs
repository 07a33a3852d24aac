// SPDX-License-Identifier: Apache-2.0
// SPDX-FileCopyrightText: Copyright the Vortex contributors

//! Crates become modules of one crate: `crate::x` in `dtype_base` becomes `crate::dtype_base::x`, and so does
//! `dtype_base::x` elsewhere. An exported macro goes: its arguments have the allocator, so the Rust crate has its own.

use super::Context;
use super::imports::is_in_import;
use crate::edits::Edits;
use crate::items::What;

const RULE: &str = "crates";

/// Translates the paths in bodies and signatures. Imports are translated elsewhere.
pub fn apply(context: Context<'_>, edits: &mut Edits) {
    let file = context.file;
    for item in &file.items {
        if matches!(item.what, What::Macro) {
            edits.remove_item(file, item.tokens.clone(), "exported macros");
        }
    }
    for at in 0..file.tokens.len() {
        let is_first = !matches!(file.before(at), "::" | "$");
        if !is_first || file.word(at + 1) != "::" || is_in_import(context, at) {
            continue;
        }
        if let Some(module) = context.layout.module(&file.krate, file.word(at)) {
            edits.replace(file, at..at + 1, module, RULE);
        }
    }
}
