// SPDX-License-Identifier: Apache-2.0
// SPDX-FileCopyrightText: Copyright the Vortex contributors

//! The conditions of public calls become checks. A public call with a condition that the table hasn't is refused.

use super::{Context, each_call};
use crate::edits::Edits;
use crate::error::Result;
use crate::items::Visibility;
use crate::tables::conditions::check_of;

/// Writes the checks of the source's public calls.
pub fn apply(context: Context<'_>, edits: &mut Edits) -> Result<()> {
    let file = context.file;
    each_call(file, &mut |call| {
        let declared = if call.is_in_trait() { call.outer } else { call.item };
        let (exported, name) = match call.own {
            "" => (call.item.name.as_str(), call.item.name.clone()),
            own => (own, format!("{own}::{}", call.item.name)),
        };
        let is_public = call.of_trait.is_empty()
            && declared.visibility == Visibility::Public
            && crate::LIBRARIES.contains(&file.krate.as_str())
            && context.index.is_exported(&file.krate, exported);
        if !is_public || !call.function.clauses.iter().any(|clause| clause.requires) {
            return Ok(());
        }
        let Some(check) = check_of(&name) else {
            let message = format!("`{name}` has a condition, and the table of conditions hasn't it");
            return Err(file.error(call.item.head, message));
        };
        if let (false, Some(open)) = (check.is_empty(), call.function.body) {
            let first = format!("\n    {}{check}", call.indent());
            edits.insert_behind(file, open, &first, "conditions");
        }
        Ok(())
    })
}
