// SPDX-License-Identifier: Apache-2.0
// SPDX-FileCopyrightText: Copyright the Vortex contributors

//! The items of a source: which there are, and where their parts are. Bodies of functions aren't read further.

use crate::error::Result;
use crate::file::File;
use crate::lexer::Kind;
use std::ops::Range;

/// An item of a module, of a trait or of an `impl`. Its parts are given by the indices of their tokens.
#[derive(Debug)]
pub struct Item {
    /// All its tokens, doc comments and attributes included.
    pub tokens: Range<usize>,
    /// The first token behind doc comments and attributes.
    pub head: usize,
    /// Which attributes it has, each with its `#` and its brackets.
    pub attributes: Vec<Range<usize>>,
    pub visibility: Visibility,
    /// Its name, or nothing for a `use`, an `impl` and a call of a macro.
    pub name: String,
    pub what: What,
}

/// Who sees an item: the module alone, a part of the crate, for example by `pub(crate)`, or everybody.
#[derive(Debug, Clone, Copy, PartialEq, Eq)]
pub enum Visibility {
    Private,
    Restricted,
    Public,
}

/// What an item is.
#[derive(Debug)]
pub enum What {
    /// A `use`, with its tree.
    Use(Range<usize>),
    /// A module in another file, or one with its items here.
    Module(Option<Vec<Item>>),
    Function(Function),
    /// A struct, with the bracket that opens its fields.
    Struct(Option<usize>),
    Enum,
    /// A trait, with the tokens of its bounds and its items.
    Trait(Range<usize>, Vec<Item>),
    Impl(Impl),
    /// A constant or a static.
    Constant,
    /// An alias, or an associated type with its bounds.
    Alias(Range<usize>),
    /// A macro by rules.
    Macro,
    Ghost,
}

/// The parts of a function.
#[derive(Debug)]
pub struct Function {
    /// Where `final` stands, which makes a method of a trait one that no `impl` replaces.
    pub final_at: Option<usize>,
    /// The generic parameters, with their angle brackets.
    pub generics: Range<usize>,
    /// The bracket that opens the parameters.
    pub parameters: usize,
    /// The type that is returned, without `->`.
    pub returns: Range<usize>,
    /// The `where` clause, with its keyword.
    pub bounds: Range<usize>,
    /// The clauses of the contract.
    pub clauses: Vec<Clause>,
    /// The bracket that opens the body, or `None` for a method that a trait declares.
    pub body: Option<usize>,
}

/// A clause of a contract: whether it is a `requires`, and its tokens.
#[derive(Debug, Clone)]
pub struct Clause {
    pub requires: bool,
    pub tokens: Range<usize>,
}

/// The parts of an `impl`: the generic parameters, the trait or nothing, the type, the `where` clause, and the items.
#[derive(Debug)]
pub struct Impl {
    pub generics: Range<usize>,
    pub of_trait: Range<usize>,
    pub for_type: Range<usize>,
    pub bounds: Range<usize>,
    pub items: Vec<Item>,
}

struct Reader<'a> {
    file: &'a File,
    at: usize,
    end: usize,
}

/// Returns the items in these tokens.
pub fn items(file: &File, tokens: Range<usize>) -> Result<Vec<Item>> {
    let mut reader = Reader { file, at: tokens.start, end: tokens.end };
    let mut items = Vec::new();
    loop {
        reader.module_docs();
        if reader.at >= reader.end {
            return Ok(items);
        }
        items.push(reader.item()?);
    }
}

/// Returns whether `extern "C"` of a function that C calls stands here.
pub fn is_export(file: &File, at: usize) -> bool {
    file.is(at, &["extern", "\"C\"", "fn"]) && file.is_word(at + 3)
}

impl Reader<'_> {
    fn word(&self) -> &str {
        self.file.word(self.at)
    }

    fn take(&mut self, word: &str) -> bool {
        let is_here = self.at < self.end && self.word() == word;
        self.at += usize::from(is_here);
        is_here
    }

    fn unexpected(&self, wanted: &str) -> crate::Error {
        let found = self.word();
        self.file.error(self.at, format!("expected {wanted}, found `{found}`"))
    }

    // Skips this bracket with what is inside, and returns its index.
    fn bracket(&mut self, open: &str, wanted: &str) -> Result<usize> {
        if self.word() != open {
            return Err(self.unexpected(wanted));
        }
        let open = self.at;
        self.at = self.file.mate(open) + 1;
        Ok(open)
    }

    // Goes to the next token with one of these texts that is in no bracket, and returns the tokens before it.
    fn until(&mut self, words: &[&str]) -> Result<Range<usize>> {
        let first = self.at;
        while self.at < self.end {
            if words.contains(&self.word()) {
                return Ok(first..self.at);
            }
            match self.file.kind(self.at) {
                Some(Kind::Open) => self.at = self.file.mate(self.at) + 1,
                _ => self.at += 1,
            }
        }
        Err(self.unexpected(&format!("`{}`", words.join("` or `"))))
    }

    // Goes behind the next `;`, and returns the tokens before it.
    fn statement(&mut self) -> Result<Range<usize>> {
        let tokens = self.until(&[";"])?;
        self.at += 1;
        Ok(tokens)
    }

    fn name(&mut self) -> Result<String> {
        if !self.file.is_word(self.at) {
            return Err(self.unexpected("a name"));
        }
        self.at += 1;
        Ok(self.file.before(self.at).to_owned())
    }

    fn generics(&mut self) -> Result<Range<usize>> {
        let first = self.at;
        if self.word() == "<" {
            self.at = self.file.behind_angles(self.at)?;
        }
        Ok(first..self.at)
    }

    // The `where` clause, if there is one.
    fn bounds(&mut self) -> Result<Range<usize>> {
        match self.word() {
            "where" => self.until(&["{", ";", "requires", "ensures"]),
            _ => Ok(self.at..self.at),
        }
    }

    // Skips the doc comments and the attributes of the module, for example `#![tactic(auto)]`.
    fn module_docs(&mut self) {
        loop {
            if self.file.kind(self.at) == Some(Kind::ModuleDoc) {
                self.at += 1;
            } else if self.file.is(self.at, &["#", "!", "["]) {
                self.at = self.file.mate(self.at + 2) + 1;
            } else {
                return;
            }
        }
    }

    fn attributes(&mut self) -> Vec<Range<usize>> {
        let mut attributes = Vec::new();
        loop {
            if self.file.kind(self.at) == Some(Kind::Doc) {
                self.at += 1;
            } else if self.file.is(self.at, &["#", "["]) {
                let behind = self.file.mate(self.at + 1) + 1;
                attributes.push(self.at..behind);
                self.at = behind;
            } else {
                return attributes;
            }
        }
    }

    fn visibility(&mut self) -> Visibility {
        if !self.take("pub") {
            return Visibility::Private;
        }
        if self.word() != "(" {
            return Visibility::Public;
        }
        self.at = self.file.mate(self.at) + 1;
        Visibility::Restricted
    }

    fn item(&mut self) -> Result<Item> {
        let first = self.at;
        let attributes = self.attributes();
        let head = self.at;
        let visibility = self.visibility();
        let (name, what) = self.what()?;
        Ok(Item { tokens: first..self.at, head, attributes, visibility, name, what })
    }

    fn what(&mut self) -> Result<(String, What)> {
        let final_at = self.take("final").then(|| self.at - 1);
        if self.file.is(self.at, &["const", "fn"]) {
            self.at += 1;
        }
        if is_export(self.file, self.at) {
            self.at += 2;
        }
        let keyword = self.word().to_owned();
        if final_at.is_some() && keyword != "fn" {
            return Err(self.unexpected("a function behind `final`"));
        }
        self.at += 1;
        match keyword.as_str() {
            "use" => return Ok((String::new(), What::Use(self.statement()?))),
            "impl" => return Ok((String::new(), What::Impl(self.implementation()?))),
            "macro_rules" if self.take("!") => {}
            "fn" | "ghost" | "mod" | "struct" | "enum" | "trait" | "const" | "static" | "type" => {}
            _ => {
                self.at -= 1;
                return Err(self.unexpected("an item"));
            }
        }
        let name = self.name()?;
        let what = match keyword.as_str() {
            "fn" => What::Function(self.function(final_at)?),
            "mod" if self.take(";") => What::Module(None),
            "mod" => What::Module(Some(self.block()?)),
            "struct" => self.structure()?,
            "enum" => {
                self.until(&["{"])?;
                self.bracket("{", "the variants of an enum")?;
                What::Enum
            }
            "trait" => {
                self.generics()?;
                What::Trait(self.until(&["{"])?, self.block()?)
            }
            "macro_rules" => {
                self.bracket("{", "the rules of a macro in braces")?;
                What::Macro
            }
            "type" => {
                self.generics()?;
                What::Alias(self.statement()?)
            }
            // (A ghost item, a constant or a static.)
            _ => {
                self.statement()?;
                if keyword == "ghost" { What::Ghost } else { What::Constant }
            }
        };
        Ok((name, what))
    }

    // The items in braces.
    fn block(&mut self) -> Result<Vec<Item>> {
        let open = self.bracket("{", "`{`")?;
        items(self.file, open + 1..self.at - 1)
    }

    fn structure(&mut self) -> Result<What> {
        self.generics()?;
        self.bounds()?;
        if self.take(";") {
            return Ok(What::Struct(None));
        }
        let is_tuple = self.word() == "(";
        let open = self.bracket(if is_tuple { "(" } else { "{" }, "the fields of a struct")?;
        if is_tuple {
            self.statement()?;
        }
        Ok(What::Struct(Some(open)))
    }

    fn implementation(&mut self) -> Result<Impl> {
        let generics = self.generics()?;
        let (mut of_trait, mut for_type) = (self.at..self.at, self.until(&["for", "where", "{"])?);
        if self.take("for") {
            (of_trait, for_type) = (for_type, self.until(&["where", "{"])?);
        }
        Ok(Impl { generics, of_trait, for_type, bounds: self.bounds()?, items: self.block()? })
    }

    fn function(&mut self, final_at: Option<usize>) -> Result<Function> {
        let generics = self.generics()?;
        let parameters = self.bracket("(", "the parameters of a function")?;
        let returns = match self.take("->") {
            true => self.until(&["where", "requires", "ensures", "{", ";"])?,
            false => self.at..self.at,
        };
        let (bounds, clauses) = (self.bounds()?, self.clauses()?);
        let body = match self.take(";") {
            true => None,
            false => Some(self.bracket("{", "`;`")?),
        };
        Ok(Function { final_at, generics, parameters, returns, bounds, clauses, body })
    }

    // The clauses: `ensures`, perhaps a `*` and a label, and braces.
    fn clauses(&mut self) -> Result<Vec<Clause>> {
        let mut clauses = Vec::new();
        while matches!(self.word(), "requires" | "ensures") {
            let (first, requires) = (self.at, self.word() == "requires");
            self.at += 1;
            self.take("*");
            self.at += usize::from(self.file.is_word(self.at));
            self.bracket("{", "the braces of a clause")?;
            clauses.push(Clause { requires, tokens: first..self.at });
        }
        Ok(clauses)
    }
}
