// SPDX-License-Identifier: Apache-2.0
// SPDX-FileCopyrightText: Copyright the Vortex contributors

//! Laws: functions that state a theorem and do nothing. The modules of laws, the other laws, and the calls of laws in
//! bodies go. Their imports go with `imports`.

use super::{Context, each_item};
use crate::edits::Edits;
use crate::index::{does_nothing, is_law_module};
use crate::items::What;

const RULE: &str = "laws";

/// Takes laws and their calls away.
pub fn apply(context: Context<'_>, edits: &mut Edits) {
    let file = context.file;
    let visited = each_item(&file.items, &mut |item| {
        let is_law = match &item.what {
            What::Module(None) => is_law_module(&item.name),
            What::Function(function) => context.index.is_law(&item.name) && does_nothing(file, function),
            _ => false,
        };
        if is_law {
            edits.remove_item(file, item.tokens.clone(), RULE);
        }
        Ok(())
    });
    debug_assert!(visited.is_ok());
    for at in 1..file.tokens.len() {
        let begins = matches!(file.before(at), "{" | "}" | ";");
        if begins && file.word(at + 1) == "(" && context.index.is_law(file.word(at)) {
            let behind = file.mate(at + 1) + 1;
            if file.word(behind) == ";" {
                edits.remove_item(file, at..behind + 1, RULE);
            }
        }
    }
}
