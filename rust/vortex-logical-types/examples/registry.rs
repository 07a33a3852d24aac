// SPDX-License-Identifier: Apache-2.0
// SPDX-FileCopyrightText: Copyright the Vortex contributors

//! A registry of the versions of a schema. It accepts a new version if what was written with every earlier one can be read
//! as the new one, and otherwise says why not.

use vortex_logical_types::{DType, Error, Widening};

/// The versions that were accepted, from the first on.
#[derive(Default)]
struct Registry {
    versions: Vec<DType>,
}

impl Registry {
    /// Adds a version and returns its number, counted from 1.
    ///
    /// # Errors
    ///
    /// The reasons why the latest version that can't be read as the new one can't be.
    fn register(&mut self, new: DType) -> Result<usize, Vec<String>> {
        let mut latest_first = self.versions.iter().rev();
        let refused = latest_first.find(|old| !old.reads_as(&new, Widening::None));
        if let Some(old) = refused {
            return Err(reasons(old, &new));
        }
        self.versions.push(new);
        Ok(self.versions.len())
    }
}

/// Returns why values of the old type can't be read as the new one.
fn reasons(old: &DType, new: &DType) -> Vec<String> {
    // As the merged type both can be read. What the new one lacks is what differs.
    let Some(merged) = old.merge_columns(new, Widening::None) else {
        let conflict = old.merge_conflict(new, Widening::None);
        return conflict.map(|it| it.to_string()).into_iter().collect();
    };
    let mut reasons = Vec::new();
    for (path, part) in merged.parts() {
        match path.resolve(new) {
            None => reasons.push(format!("{} is missing", path.to_source())),
            Some(it) if part.is_nullable() && !it.is_nullable() => {
                reasons.push(format!("{} must be nullable", path.to_source()));
            }
            Some(_) => {}
        }
    }
    reasons.push(format!("try {}", merged.to_source()));
    reasons
}

fn main() -> Result<(), Error> {
    let mut registry = Registry::default();
    for text in [
        "{id=u64, customer={name=utf8, city=utf8?}}",
        "{id=u64, customer={name=utf8, city=utf8?}, note=utf8}",
        "{id=u64, customer={name=utf8}, note=utf8?}",
        "{note=utf8?, id=u64, customer={name=utf8, city=utf8?}?}",
        "{id=utf8, customer={name=utf8, city=utf8?}?, note=utf8?}",
    ] {
        match registry.register(text.parse()?) {
            Ok(version) => println!("version {version}: {text}"),
            Err(reasons) => println!("refused: {text}\n    {}", reasons.join("\n    ")),
        }
    }
    Ok(())
}
