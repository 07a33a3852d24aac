// SPDX-License-Identifier: Apache-2.0
// SPDX-FileCopyrightText: Copyright the Vortex contributors

//! What the sources declare together: which calls get two forms, which functions are laws, and what the crates export.

use crate::LIBRARIES;
use crate::error::Result;
use crate::file::File;
use crate::items::{Function, Item, Visibility, What};
use crate::rules::by_hand::is_panicking;
use std::collections::{BTreeMap, BTreeSet};

/// What the sources declare.
#[derive(Debug, Default)]
pub struct Index {
    // The calls with two forms: the type, or nothing for a function, and the name.
    forms: BTreeSet<(String, String)>,
    // For each name of a method, each declaration of that name.
    methods: BTreeMap<String, Vec<Method>>,
    // The crates that declare a function of this name with two forms.
    functions: BTreeMap<String, BTreeSet<String>>,
    laws: BTreeSet<String>,
    // The names that the root of a crate exports, and the types and functions of its public modules.
    exported: BTreeSet<(String, String)>,
}

// A declaration of a method.
#[derive(Debug)]
struct Method {
    of_type: String,
    krate: String,
    is_public: bool,
    has_forms: bool,
    is_fallible: bool,
}

/// Returns whether the file holds laws alone, by its name: `laws` or a name that ends with `_laws`.
pub fn is_law_file(file: &File) -> bool {
    let stem = file.inner.file_stem().and_then(|stem| stem.to_str());
    stem.is_some_and(is_law_module)
}

/// Returns whether a module of this name holds laws alone.
pub fn is_law_module(name: &str) -> bool {
    name == "laws" || name.ends_with("_laws")
}

impl Index {
    /// Returns the index of these files. It is an error if two types of one name declare a call, and only one of these
    /// calls has two forms.
    pub fn new(files: &[File]) -> Result<Self> {
        let mut index = Index::default();
        for file in files {
            index.exports(file);
        }
        for file in files {
            index.module(file, &file.items)?;
        }
        Ok(index)
    }

    /// Returns whether the call of this type has two forms. The type is empty for a function.
    pub fn has_forms(&self, of_type: &str, name: &str) -> bool {
        self.forms.contains(&(of_type.to_owned(), name.to_owned()))
    }

    /// Returns whether some function of this name has two forms and is declared in this crate, or in some crate if none
    /// is given.
    pub fn function_has_forms(&self, krate: Option<&str>, name: &str) -> bool {
        let crates = self.functions.get(name);
        crates.is_some_and(|crates| krate.is_none_or(|krate| crates.contains(krate)))
    }

    /// Returns, of the methods of this name that a source of this crate may call, whether some have two forms, whether
    /// all have, and whether all have that return a result. A library calls no crate that comes after it, and another
    /// crate only public methods.
    pub fn method_has_forms(&self, krate: &str, name: &str) -> (bool, bool, bool) {
        let place = |krate: &str| LIBRARIES.iter().position(|one| *one == krate);
        let own = place(krate).unwrap_or(usize::MAX);
        let all = self.methods.get(name).into_iter().flatten();
        let all = all.filter(|one| one.krate == krate || one.is_public);
        let all = all.filter(|one| place(&one.krate).is_none_or(|place| place <= own));
        let all: Vec<&Method> = all.collect();
        (
            all.iter().any(|one| one.has_forms),
            all.iter().all(|one| one.has_forms),
            all.iter().all(|one| one.has_forms || !one.is_fallible),
        )
    }

    /// Returns whether a type or a trait of one of these crates declares a method of this name.
    pub fn declares_method(&self, name: &str, is_one: impl Fn(&str) -> bool) -> bool {
        let mut all = self.methods.get(name).into_iter().flatten();
        all.any(|method| is_one(&method.krate))
    }

    /// Returns whether this type declares a method of this name.
    pub fn has_method(&self, of_type: &str, name: &str) -> bool {
        let mut all = self.methods.get(name).into_iter().flatten();
        all.any(|method| method.of_type == of_type)
    }

    /// Returns whether the function is a law: it states something and does nothing.
    pub fn is_law(&self, name: &str) -> bool {
        self.laws.contains(name)
    }

    /// Returns whether the crate's root exports this name, or one of its public modules has it.
    pub fn is_exported(&self, krate: &str, name: &str) -> bool {
        self.exported.contains(&(krate.to_owned(), name.to_owned()))
    }

    // Notes what the root of a crate exports. The public module `pb` exports all its public items.
    fn exports(&mut self, file: &File) {
        let is_root = matches!(file.inner.to_str(), Some("lib.rt" | "main.rt"));
        if !is_root && !file.inner.ends_with("pb.rt") {
            return;
        }
        let public = file.items.iter();
        for item in public.filter(|item| item.visibility == Visibility::Public) {
            let mut names = vec![item.name.clone()];
            if let What::Use(tree) = &item.what {
                names.extend(tree.clone().map(|at| file.word(at).to_owned()));
            }
            let names = names.into_iter().map(|name| (file.krate.clone(), name));
            self.exported.extend(names);
        }
    }

    fn module(&mut self, file: &File, items: &[Item]) -> Result<()> {
        for item in items {
            match &item.what {
                What::Function(function) => self.function(file, item, function),
                What::Module(Some(inner)) => self.module(file, inner)?,
                What::Impl(parts) => {
                    let is_inherent = parts.of_trait.is_empty();
                    self.block(file, file.head_of(&parts.for_type), is_inherent, &parts.items)?;
                }
                What::Trait(_, inner) => self.block(file, &item.name, false, inner)?,
                _ => {}
            }
        }
        Ok(())
    }

    fn function(&mut self, file: &File, item: &Item, function: &Function) {
        let states = function.returns.is_empty() && !function.clauses.is_empty();
        if is_law_file(file) || (states && does_nothing(file, function)) {
            self.laws.insert(item.name.clone());
        } else if self.is_exported(&file.krate, &item.name) && lacks_only_memory(file, item, function) {
            self.forms.insert((String::new(), item.name.clone()));
            let crates = self.functions.entry(item.name.clone()).or_default();
            crates.insert(file.krate.clone());
        }
    }

    // The items of an `impl` or of a trait.
    fn block(&mut self, file: &File, of_type: &str, inherent: bool, items: &[Item]) -> Result<()> {
        for item in items {
            let What::Function(function) = &item.what else {
                continue;
            };
            let name = &item.name;
            let has_forms = inherent
                && name != "try_clone"
                && self.is_exported(&file.krate, of_type)
                && (lacks_only_memory(file, item, function) || is_panicking(of_type, name));
            if has_forms && name.starts_with("try_") {
                let message = format!("`{name}` lacks only memory, so its second form has no name");
                return Err(file.error(item.head, message));
            }
            let key = (of_type.to_owned(), name.clone());
            if has_forms {
                self.forms.insert(key);
            } else if inherent && self.forms.contains(&key) {
                let message = format!("another type `{of_type}` has a `{name}` with two forms");
                return Err(file.error(item.head, message));
            }
            let method = Method {
                of_type: of_type.to_owned(),
                krate: file.krate.clone(),
                is_public: !inherent || item.visibility == Visibility::Public,
                has_forms,
                is_fallible: file.word(function.returns.start).ends_with("Result"),
            };
            self.methods.entry(name.clone()).or_default().push(method);
        }
        Ok(())
    }
}

/// Returns whether the function has a body of nothing, or only of `let _ = x;`.
pub fn does_nothing(file: &File, function: &Function) -> bool {
    let Some(open) = function.body else {
        return false;
    };
    let mut at = open + 1;
    while file.is(at, &["let", "_", "="]) && file.is_word(at + 3) && file.word(at + 4) == ";" {
        at += 5;
    }
    at == file.mate(open)
}

/// Returns whether the contract says that the public call can only lack memory: a clause is `Makes result ..`, or
/// `IsOkUnless result OutOfMemory`.
pub fn lacks_only_memory(file: &File, item: &Item, function: &Function) -> bool {
    let out_of_memory = ["IsOkUnless", "result", "OutOfMemory", "}"];
    item.visibility == Visibility::Public
        && matches!(file.word(function.returns.start), "VortexResult" | "Result")
        && (has_clause(file, function, &["Makes", "result"]) || has_clause(file, function, &out_of_memory))
}

/// Returns whether the contract says that the call never returns an error: a clause is `result ≡ Ok ..`.
pub fn never_fails(file: &File, function: &Function) -> bool {
    has_clause(file, function, &["result", "≡", "Ok"])
}

// Whether a clause begins with these words. A clause that begins with a premise doesn't.
fn has_clause(file: &File, function: &Function, words: &[&str]) -> bool {
    function.clauses.iter().any(|clause| {
        let open = clause.tokens.clone().find(|at| file.word(*at) == "{");
        open.is_some_and(|open| file.is(open + 1, words))
    })
}
