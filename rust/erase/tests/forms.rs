// SPDX-License-Identifier: Apache-2.0
// SPDX-FileCopyrightText: Copyright the Vortex contributors

//! Each form of the language that the sources use, and the Rust that is left of it.

mod common;

use common::{erase_all, rust};
use erase::Result;

// Checks that the source is erased to this text.
macro_rules! erased {
    ($name:ident, $source:expr, $wanted:expr) => {
        #[test]
        fn $name() -> Result<()> {
            assert_eq!(rust($source)?, $wanted);
            Ok(())
        }
    };
}

// ---- What a token is ----

erased!(
    keeps_words_of_contracts_in_texts_and_comments,
    r##"// ensures { a }
fn f() -> &'static str {
    let brace = '{';
    let quote = '\'';
    let byte = b'}';
    g::<'static>(r#"a "ghost" }"#, b"requires {", "\" ensures {", brace, quote, byte)
}
"##,
    r##"// ensures { a }
fn f() -> &'static str {
    let brace = '{';
    let quote = '\'';
    let byte = b'}';
    g::<'static>(r#"a "ghost" }"#, b"requires {", "\" ensures {", brace, quote, byte)
}
"##
);

erased!(
    tells_lifetimes_from_characters,
    "fn f<'a>(x: &'a u8) -> char\n    ensures { x.now ≡ 'a' }\n{\n    'b'\n}\n",
    "fn f<'a>(x: &'a u8) -> char {\n    'b'\n}\n"
);

erased!(
    reads_numbers_ranges_and_fields_of_tuples,
    "fn f(x: (u8, (u8, u8))) -> u8 {\n    for _ in 0..x.1.0 {}\n    let m = 1.max(2);\n    1_u8 + 0xff - 2.5e3 as u8\n}\n",
    "fn f(x: (u8, (u8, u8))) -> u8 {\n    for _ in 0..x.1.0 {}\n    let m = 1.max(2);\n    1_u8 + 0xff - 2.5e3 as u8\n}\n"
);

// ---- Contracts ----

erased!(
    takes_clauses_with_labels_and_stars_away,
    "fn f(x: u8) -> u8\n    requires { x < 9 }\n    requires* low { 1 < x }\n    // why\n    ensures * { f { x } ≡ x }\n    ensures same { result ≡ x }\n{\n    x\n}\n",
    "fn f(x: u8) -> u8 {\n    x\n}\n"
);

erased!(
    takes_clauses_of_declared_methods_away,
    "trait T {\n    fn f(&self) -> u8\n        ensures { result ≡ 1 };\n}\n",
    "trait T {\n    fn f(&self) -> u8;\n}\n"
);

erased!(
    keeps_where_before_clauses,
    "fn f<T>(x: T) -> T\nwhere\n    T: Copy,\n    ensures { result ≡ x }\n{\n    x\n}\n",
    "fn f<T>(x: T) -> T\nwhere\n    T: Copy,\n{\n    x\n}\n"
);

erased!(
    takes_clauses_of_closures_away,
    "fn f(v: &mut [u8]) {\n    g(\n        |a, b|\n            requires { a < 9 }\n            requires two { b < 9 }\n        { a < b },\n    );\n}\n",
    "fn f(v: &mut [u8]) {\n    g(\n        |a, b| { a < b },\n    );\n}\n"
);

erased!(
    takes_hints_away,
    "#![tactic(auto, using(a::b))]\n\n#[tactic(none)]\n#[cycle(c)]\n#[former]\n#[measure(n)]\n#[opaque]\n#[inline(never)]\nfn f() {\n    g();\n}\n",
    "#[inline(never)]\nfn f() {\n    g();\n}\n"
);

erased!(takes_the_module_of_tests, "mod parts;\n#[cfg(test)]\nmod tests;\n\nfn f() {}\n", "mod parts;\n\nfn f() {}\n");

erased!(
    renames_attributes,
    "#[rattlefmt::skip]\nconst A: u8 = 1;\n\n#[derive_where(Clone, Copy)]\nstruct S<T>(T);\n",
    "#[rustfmt::skip]\nconst A: u8 = 1;\n\n#[derive(Clone, Copy)]\nstruct S<T>(T);\n"
);

erased!(
    checks_what_is_proved_in_debug_builds,
    "const _: () = prove!(size_of::<u8>() == 1);\n\nfn f(x: u8) {\n    prove!(x < 9);\n    prove_eq!(x, x);\n}\n",
    "fn f(x: u8) {\n    debug_assert!(x < 9);\n    debug_assert_eq!(x, x);\n}\n"
);

erased!(
    keeps_functions_that_c_calls,
    "#[unsafe(no_mangle)]\npub extern \"C\" fn f(alloc: Global, slot: &mut Slot, out: &mut [u8]) -> u32\n    ensures { result ≡ 0 }\n{\n    g(alloc, slot)\n}\n",
    "#[unsafe(no_mangle)]\npub extern \"C\" fn f(slot: &mut Slot, out: &mut [u8]) -> u32 {\n    g(slot)\n}\n"
);

erased!(
    takes_final_away,
    "trait T {\n    final fn f(&self) -> u8 {\n        1\n    }\n}\n",
    "trait T {\n    fn f(&self) -> u8 {\n        1\n    }\n}\n"
);

// ---- Ghosts ----

erased!(
    takes_ghost_items_with_their_comments_away,
    "ghost use A.{b, ◌≡◌};\n\ntrait T {\n    // The width.\n    ghost width: { ℕ };\n\n    /// A law.\n    ghost law: { (x : Self) → x ≡ x } = { refl };\n\n    fn f(&self);\n}\n",
    "trait T {\n    fn f(&self);\n}\n"
);

erased!(
    takes_ghost_fields_away,
    "struct S {\n    a: u8,\n    // It is small.\n    ghost small: { a < 9 },\n    b: u8,\n}\n",
    "struct S {\n    a: u8,\n    b: u8,\n}\n"
);

erased!(
    takes_models_away,
    "struct S;\n\n// What it stands for.\nimpl<'a, T: Copy> Model for S<'a, T> {\n    ghost Value = { List ℕ };\n}\n",
    "struct S;\n"
);

erased!(
    takes_drop_out_of_derives,
    "#[derive(Drop)]\nstruct A;\n\n#[derive(Debug, Drop)]\nstruct B;\n\n#[derive(Drop, Debug)]\nstruct C;\n\n#[derive(Debug, Drop, Clone)]\nstruct D;\n",
    "struct A;\n\n#[derive(Debug)]\nstruct B;\n\n#[derive(Debug)]\nstruct C;\n\n#[derive(Debug, Clone)]\nstruct D;\n"
);

erased!(
    takes_bounds_of_drop_away,
    "trait A: Drop {\n    type M: Drop;\n}\n\nfn f<T: Drop, U: Copy>(t: T) {}\n\nfn g<T>(t: T)\nwhere\n    T: Drop,\n{\n}\n\nfn h<T>(t: T) -> T\nwhere\n    T: Drop,\n    ensures { result ≡ t }\n{\n    t\n}\n",
    "trait A {\n    type M;\n}\n\nfn f<T, U: Copy>(t: T) {}\n\nfn g<T>(t: T) {\n}\n\nfn h<T>(t: T) -> T\n{\n    t\n}\n"
);

erased!(
    gives_a_size_to_what_is_returned,
    "trait A: Drop {\n    fn read(x: u8) -> Option<Self>;\n}\n",
    "trait A: Sized {\n    fn read(x: u8) -> Option<Self>;\n}\n"
);

erased!(
    keeps_variants_called_drop,
    "enum Change {\n    Keep,\n    Drop,\n}\n\nfn f(c: Change) -> bool {\n    match c {\n        Change::Drop => true,\n        Change::Keep => false,\n    }\n}\n",
    "enum Change {\n    Keep,\n    Drop,\n}\n\nfn f(c: Change) -> bool {\n    match c {\n        Change::Drop => true,\n        Change::Keep => false,\n    }\n}\n"
);

// ---- Laws ----

#[test]
fn takes_laws_and_their_calls_away() -> Result<()> {
    let root = "pub mod laws;\nmod more_laws;\n\npub use laws::a_law;\nuse crate::laws::holds;\n\nfn f(x: u8) -> u8 {\n    // It holds.\n    holds(x);\n    x\n}\n\n/// States something.\npub fn stated(x: u8)\n    ensures { x ≡ x }\n{}\n\nfn used(x: &u8)\n    ensures { x.now ≡ x.now }\n{\n    let _ = x;\n}\n";
    let laws = "pub fn holds(x: u8)\n    ensures { x ≡ x }\n{}\n\npub fn a_law()\n    ensures { 1 ≡ 1 }\n{}\n";
    let erased = erase_all(&[
        ("dtype_base", "lib.rt", root),
        ("dtype_base", "laws.rt", laws),
        ("dtype_base", "more_laws.rt", laws),
    ])?;
    let files: Vec<&str> = erased.files.iter().map(|file| file.text.as_str()).collect();
    assert_eq!(files, ["fn f(x: u8) -> u8 {\n    x\n}\n"]);
    Ok(())
}

// ---- The allocator ----

erased!(
    takes_parameters_and_arguments_away,
    "use std::alloc::Global;\n\nfn f(alloc: Global) -> u8 {\n    g(alloc, 1) + g(alloc, h(1, alloc)) + h(1, alloc)\n}\n\nfn g(_alloc: Global, x: u8) -> u8 {\n    x\n}\n\nfn h(\n    x: u8,\n    alloc: Global,\n) -> u8 {\n    k(\n        alloc,\n        x,\n    )\n}\n",
    "fn f() -> u8 {\n    g(1) + g(h(1)) + h(1)\n}\n\nfn g(x: u8) -> u8 {\n    x\n}\n\nfn h(\n    x: u8,\n) -> u8 {\n    k(\n        x,\n    )\n}\n"
);

erased!(
    takes_fields_and_locals_away,
    "struct S {\n    /// The allocator.\n    pub alloc: Global,\n    x: u8,\n}\n\nfn f(s: S, call: S) -> S {\n    let alloc = *s.x.allocator();\n    let S { alloc, x } = s;\n    g(call.alloc, x);\n    S {\n        alloc: self.alloc,\n        x,\n    }\n}\n",
    "struct S {\n    x: u8,\n}\n\nfn f(s: S, call: S) -> S {\n    let S { x } = s;\n    g(x);\n    S {\n        x,\n    }\n}\n"
);

erased!(
    takes_the_allocator_of_macros_and_methods_away,
    "use dtype_base::Vec;\nuse crate::String;\n\nfn f(alloc: Global) {\n    let a = vec![in alloc; 1, 2]?;\n    let b = format!(in alloc; \"{a}\")?;\n    let c = x.iter().collect::<Vec<u8>>(alloc)?;\n    c.to_string(alloc)?;\n}\n",
    "use crate::rattle_std::iter_ext::IterExt as _;\nuse crate::rattle_std::display_ext::DisplayExt as _;\nuse crate::dtype_base::Vec;\nuse crate::dtype_base::String;\n\nfn f() {\n    let a = crate::vec_in![1, 2]?;\n    let b = crate::format_in!(\"{a}\")?;\n    let c = x.iter().collect_in::<Vec<u8>>()?;\n    c.to_string_in()?;\n}\n"
);

erased!(
    takes_the_allocator_of_collections_away,
    "impl FromIterator<u8> for S {\n    type Alloc = Global;\n\n    fn from_iter<I: IntoIterator<Item = u8>>(alloc: Global, items: I) -> S {\n        S\n    }\n}\n",
    "use crate::rattle_std::iter_ext::FromIterator;\nimpl FromIterator<u8> for S {\n    fn from_iter<I: IntoIterator<Item = u8>>(items: I) -> S {\n        S\n    }\n}\n"
);

// ---- Names of std ----

erased!(
    writes_formatters_as_rust_does,
    "use std::fmt;\n\nimpl fmt::Display for S {\n    fn fmt<W: fmt::Write>(&self, f: &mut fmt::Formatter<W>) -> fmt::Result {\n        f.write_char('a')\n    }\n}\n",
    "use std::fmt::Write as _;\nuse std::fmt;\n\nimpl fmt::Display for S {\n    fn fmt(&self, f: &mut fmt::Formatter<'_>) -> fmt::Result {\n        f.write_char('a')\n    }\n}\n"
);

erased!(
    names_what_differs_in_std,
    "use std::marker::{Model, PhantomData};\nuse std::rc::Rc;\nuse std::{fmt, vec};\nuse num_traits::{Num, Number};\n\nfn f(x: Rc<u8>, y: std::vec::IntoIter<u8>) -> Vec<u8> {\n    let b = Box::new(alloc, 1)?;\n    std::mem::drop(Box::into_inner(b));\n}\n",
    "use crate::rattle_std::vec::Vec;\nuse crate::rattle_std::boxed;\nuse std::marker::PhantomData;\nuse crate::rattle_std::rc::Rc;\nuse std::fmt;\nuse crate::rattle_std::vec;\nuse num_traits::Num;\nuse crate::rattle_std::Number;\n\nfn f(x: Rc<u8>, y: crate::rattle_std::vec::IntoIter<u8>) -> Vec<u8> {\n    let b = boxed::new(1)?;\n    std::mem::drop(boxed::into_inner(b));\n}\n"
);

erased!(
    calls_the_fallible_form_of_strsim,
    "use strsim::osa_distance;\n\nfn f(alloc: Global) -> usize {\n    osa_distance(alloc, \"a\", \"b\")?\n}\n",
    "use crate::rattle_std::strsim::osa_distance;\n\nfn f() -> usize {\n    osa_distance(\"a\", \"b\")?\n}\n"
);

erased!(
    takes_functions_with_a_handle_away,
    "fn f() {}\n\n// Runs.\nfn main(rt: HostRuntime) {\n    f();\n}\n",
    "fn f() {}\n"
);

// ---- What is shared ----

#[test]
fn shares_the_elements_of_lists() -> Result<()> {
    let source = "pub enum DType {\n    List(Box<DType>, Nullability),\n}\n\nfn boxed_copy(alloc: Global, dtype: &DType) -> VortexResult<Box<DType>> {\n    let copy = dtype.try_clone(alloc)?;\n    Ok(Box::new(alloc, copy)?)\n}\n\nfn equal_under(a: &DType, b: &DType) -> bool {\n    Box::new(alloc, a)?;\n    other(a, b)\n}\n";
    let wanted = "use crate::Arc;\npub enum DType {\n    List(Arc<DType>, Nullability),\n}\n\nfn boxed_copy(dtype: &Arc<DType>) -> VortexResult<Arc<DType>> {\n    Ok(dtype.clone())\n}\n\nfn equal_under(a: &DType, b: &DType) -> bool {\n    if std::ptr::eq(a, b) {\n        return true;\n    }\n    Arc::try_new(a)?;\n    other(a, b)\n}\n";
    let erased = erase_all(&[("dtype_types", "lib.rt", source)])?;
    assert_eq!(erased.files[0].text, wanted);
    Ok(())
}

// ---- Crates and imports ----

erased!(
    makes_modules_of_crates,
    "pub(crate) mod a;\n\nuse crate::a::B;\nuse dtype_types::{DType, Kind};\n\nfn f(b: B, d: DType, k: Kind) -> crate::a::C {\n    dtype_paths::g(a::crate_of(b))\n}\n",
    "pub(crate) mod a;\n\nuse crate::dtype_base::a::B;\nuse crate::dtype_types::{DType, Kind};\n\nfn f(b: B, d: DType, k: Kind) -> crate::dtype_base::a::C {\n    crate::dtype_paths::g(a::crate_of(b))\n}\n"
);

erased!(
    drops_imports_that_only_contracts_need,
    "use crate::{A, B};\nuse std::hash::Hasher;\n\nfn f(a: A) -> u8\n    ensures { b a ≡ B }\n{\n    a.finish()\n}\n",
    "use crate::dtype_base::A;\nuse std::hash::Hasher;\n\nfn f(a: A) -> u8 {\n    a.finish()\n}\n"
);

erased!(
    drops_exported_macros,
    "/// A path.\n#[macro_export]\nmacro_rules! path {\n    ($alloc:expr) => {\n        $crate::root($alloc)\n    };\n}\n\nfn f() {}\n",
    "fn f() {}\n"
);

// ---- Two forms ----

const NAMES: &str = "pub struct Names {\n    items: Vec<u8>,\n}\n\nimpl Names {\n    /// Adds a name.\n    ///\n    /// # Errors\n    ///\n    /// - `OutOfMemory` (0): an allocation fails.\n    pub fn push(&mut self, alloc: Global, name: u8) -> VortexResult<()>\n        ensures { IsOkUnless result OutOfMemory }\n    {\n        self.items.push(name)?;\n        Ok(())\n    }\n\n    pub fn of<T: Copy>(alloc: Global, mut name: T) -> VortexResult<Self>\n        ensures { Makes result (λ n. n ≡ name) }\n    {\n        let mut names = Names { items: Vec::new(alloc) };\n        names.push(alloc, name)?;\n        Ok(names)\n    }\n\n    pub fn checked(alloc: Global) -> VortexResult<Self>\n        ensures { a ≡ b → Makes result (λ n. n ≡ name) }\n    {\n        Self::of(alloc, 1)\n    }\n}\n";

erased!(
    writes_two_forms_of_what_can_only_lack_memory,
    NAMES,
    "use crate::rattle_std::vec::Vec;\npub struct Names {\n    items: Vec<u8>,\n}\n\nimpl Names {\n    /// Adds a name.\n    ///\n    /// # Errors\n    ///\n    /// - `OutOfMemory` (0): an allocation fails.\n    pub fn try_push(&mut self, name: u8) -> VortexResult<()> {\n        self.items.push(name)?;\n        Ok(())\n    }\n\n    /// Adds a name.\n    ///\n    /// If memory runs out, the program ends, as with Rust's own collections. `try_push` returns the error instead.\n    pub fn push(&mut self, name: u8) {\n        crate::memory::or_abort(self.try_push(name))\n    }\n\n    pub fn try_of<T: Copy>(mut name: T) -> VortexResult<Self> {\n        let mut names = Names { items: Vec::new() };\n        names.try_push(name)?;\n        Ok(names)\n    }\n\n    /// If memory runs out, the program ends, as with Rust's own collections. `try_of` returns the error instead.\n    pub fn of<T: Copy>(name: T) -> Self {\n        crate::memory::or_abort(Self::try_of(name))\n    }\n\n    pub fn checked() -> VortexResult<Self> {\n        Self::try_of(1)\n    }\n}\n"
);

#[test]
fn exports_both_forms_and_imports_the_first() -> Result<()> {
    let root = "mod a;\nmod b;\n\npub use a::made;\n";
    let a = "pub fn made(alloc: Global, x: u8) -> VortexResult<u8>\n    ensures { Makes result (λ n. n ≡ x) }\n{\n    Ok(x)\n}\n";
    let b =
        "use crate::a::made;\n\nfn f() -> VortexResult<u8> {\n    made(alloc, 1)?;\n    crate::a::made(alloc, 1)\n}\n";
    let erased = erase_all(&[("dtype_base", "lib.rt", root), ("dtype_base", "a.rt", a), ("dtype_base", "b.rt", b)])?;
    assert_eq!(erased.files[0].text, "mod a;\nmod b;\n\npub use a::{made, try_made};\n");
    assert_eq!(
        erased.files[2].text,
        "use crate::dtype_base::a::try_made;\n\nfn f() -> VortexResult<u8> {\n    try_made(1)?;\n    crate::dtype_base::a::try_made(1)\n}\n"
    );
    Ok(())
}

// Methods that std's types have too: the receiver's declaration tells of which type it is.
#[test]
fn finds_the_types_of_receivers() -> Result<()> {
    let callers = "use crate::Names;\n\nfn all(parameter: &mut Names, list: &mut Vec<u8>) {\n    parameter.push(alloc, 1)?;\n    list.push(1)?;\n    let mut local = Names::of(alloc, 1)?;\n    local.push(alloc, 1)?;\n    let mut other = made()?;\n    other.push(1)?;\n    parameter.list.push(1)?;\n    parameter.try_clone()?.push(alloc, 1)?;\n    list.first()?.push(1)?;\n}\n";
    let erased = erase_all(&[("dtype_base", "lib.rt", NAMES), ("dtype_base", "callers.rt", callers)])?;
    let lines = erased.files[1].text.lines().map(str::trim);
    let called: Vec<&str> = lines.filter(|line| line.contains("push(")).collect();
    let wanted = [
        "parameter.try_push(1)?;",
        "list.push(1)?;",
        "local.try_push(1)?;",
        "other.push(1)?;",
        "parameter.list.push(1)?;",
        "parameter.try_clone()?.try_push(1)?;",
        "list.first()?.push(1)?;",
    ];
    assert_eq!(called, wanted);
    Ok(())
}

// Of other methods the name tells, if all of that name have two forms, or all that return a result and a `?` follows.
// Those of a library above don't count.
#[test]
fn tells_methods_by_their_names() -> Result<()> {
    let one = "pub struct S;\npub trait T {\n    fn size(&self) -> u8;\n}\n\nimpl S {\n    pub fn size(&self, alloc: Global) -> VortexResult<u8>\n        ensures { Makes result (λ n. n ≡ 1) }\n    {\n        Ok(1)\n    }\n\n    pub fn read(&self, alloc: Global) -> VortexResult<u8>\n        ensures { Makes result (λ n. n ≡ 1) }\n    {\n        Ok(1)\n    }\n}\n\nfn f(s: &S, t: &T) -> VortexResult<u8> {\n    t.size();\n    s.size(alloc)?;\n    s.read(alloc)\n}\n";
    let above = "pub trait U {\n    fn read(&self) -> VortexResult<u8>;\n}\n";
    let erased = erase_all(&[("dtype_base", "lib.rt", one), ("dtype_types", "lib.rt", above)])?;
    assert!(erased.files[0].text.ends_with("    t.size();\n    s.try_size()?;\n    s.try_read()\n}\n"));
    Ok(())
}

erased!(
    clones_what_has_a_copy,
    "pub struct Name<T> {\n    x: T,\n}\n\nimpl<T: Copy> Name<T> {\n    pub fn try_clone(&self, _alloc: Global) -> VortexResult<Self>\n        ensures { Makes result (λ n. n ≡ self.now) }\n    {\n        Ok(Name { x: self.x })\n    }\n}\n",
    "pub struct Name<T> {\n    x: T,\n}\n\nimpl<T: Copy> Name<T> {\n    pub fn try_clone(&self) -> VortexResult<Self> {\n        Ok(Name { x: self.x })\n    }\n}\n\nimpl<T: Copy> Clone for Name<T> {\n    fn clone(&self) -> Self {\n        crate::memory::or_abort(self.try_clone())\n    }\n}\n"
);

erased!(
    clones_only_what_can_only_lack_memory,
    "pub struct A;\n\npub struct B;\n\nimpl A {\n    pub fn try_clone(&self) -> VortexResult<A>\n        ensures { result ≡ Ok self.now }\n    {\n        Ok(A)\n    }\n}\n\nimpl B {\n    pub fn try_clone(&self) -> VortexResult<B>\n        ensures { IfOk result (λ b. b ≡ self.now) }\n    {\n        Ok(B)\n    }\n}\n",
    "pub struct A;\n\npub struct B;\n\nimpl A {\n    pub fn try_clone(&self) -> VortexResult<A> {\n        Ok(A)\n    }\n}\n\nimpl Clone for A {\n    fn clone(&self) -> Self {\n        crate::memory::or_abort(self.try_clone())\n    }\n}\n\nimpl B {\n    pub fn try_clone(&self) -> VortexResult<B> {\n        Ok(B)\n    }\n}\n"
);

// ---- Doc comments ----

erased!(
    says_in_docs_what_is_so_in_rust,
    "/// Returns the fields. The caller must prove that there are as many names as types, and that there is one. In\n/// contracts it is a list.\n///\n/// The set keeps the allocator for later calls.\n///\n/// - `f(alloc, x)`: calls it.\n/// - `g(alloc)`: The call doesn't allocate, so `_alloc` isn't used. It is a parameter so that it stays.\npub fn f() {}\n\n/// Adds items. The caller must prove that the iterator ends.\npub fn g() {}\n",
    "/// Returns the fields. The call panics unless there are as many names as types, and there is one.\n///\n/// - `f(x)`: calls it.\n/// - `g()`: The call doesn't allocate.\npub fn f() {}\n\n/// Adds items. The iterator must end.\npub fn g() {}\n"
);

erased!(
    leaves_references_to_definitions_out_of_docs,
    "/// A plugin. In contracts a plugin is a function, `rewrites`. It takes metadata and a storage type, and returns the metadata that the plugin writes back, or `None`.\n///\n/// Each implementation proves two laws about `rewrites` (`Lawful` of `specs/Meaning`). Others (like this) stay\n/// (`laws::a_law`).\npub fn f() {}\n",
    "/// A plugin.\n///\n/// Each implementation has to obey two laws, which `check_plugin` tries on samples. Others (like this) stay.\npub fn f() {}\n"
);

erased!(
    says_in_docs_what_is_not_specified,
    "//! Here the contract says more.\n\n/// Reads it. For another type, the contract doesn't specify\n/// the result.\n///\n/// If it isn't valid, the contract leaves open which name it has, and the contract doesn't specify which type.\npub fn f() {}\n",
    "//! Here the contract says more.\n\n/// Reads it. For another type, the result isn't specified.\n///\n/// If it isn't valid, it isn't specified which name it has, and it isn't specified which type.\npub fn f() {}\n"
);

// ---- Conditions ----

erased!(
    checks_conditions_first,
    "pub enum PType {}\n\npub fn match_each_float_ptype<V: PTypeVisitor>(ptype: PType, visitor: V) -> V::Answer\n    requires { IsFloat ptype }\n    ensures { V.answers visitor ptype result }\n{\n    visitor.visit_float(ptype)\n}\n",
    "pub enum PType {}\n\npub fn match_each_float_ptype<V: PTypeVisitor>(ptype: PType, visitor: V) -> V::Answer {\n    assert!(ptype.is_float(), \"expected a floating-point type, found {ptype}\");\n    visitor.visit_float(ptype)\n}\n"
);

// ---- What is by hand ----

erased!(
    leaves_the_shorter_form_to_what_is_by_hand,
    "pub struct FieldPath;\n\nimpl FieldPath {\n    pub fn from_name(alloc: Global, name: Name) -> VortexResult<Self>\n        ensures { Makes result (λ p. p ≡ name) }\n    {\n        Ok(FieldPath)\n    }\n}\n",
    "pub struct FieldPath;\n\nimpl FieldPath {\n    pub fn try_from_name(name: Name) -> VortexResult<Self> {\n        Ok(FieldPath)\n    }\n}\n"
);

erased!(
    renames_a_call_that_is_by_hand_where_it_is_declared_and_called,
    "pub struct UnionVariants;\n\nimpl UnionVariants {\n    pub fn new(n: u8) -> VortexResult<Self> {\n        g(n)\n    }\n}\n\nfn f() -> VortexResult<UnionVariants> {\n    UnionVariants::new(1)\n}\n",
    "pub struct UnionVariants;\n\nimpl UnionVariants {\n    #[doc(hidden)]\n    pub fn consecutive(n: u8) -> VortexResult<Self> {\n        g(n)\n    }\n}\n\nfn f() -> VortexResult<UnionVariants> {\n    UnionVariants::consecutive(1)\n}\n"
);

erased!(
    takes_what_is_a_text,
    "pub struct FieldNames;\n\nimpl FieldNames {\n    pub fn find(&self, name: &str) -> Option<usize> {\n        g(name)\n    }\n}\n",
    "pub struct FieldNames;\n\nimpl FieldNames {\n    pub fn find(&self, name: impl AsRef<str>) -> Option<usize> {\n        let name = name.as_ref();\n        g(name)\n    }\n}\n"
);

erased!(
    inlines_what_would_be_moved_twice,
    "pub struct DType;\n\nimpl DType {\n    pub fn as_nullable(&self) -> u8 {\n        1\n    }\n}\n",
    "pub struct DType;\n\nimpl DType {\n    #[inline(always)]\n    pub fn as_nullable(&self) -> u8 {\n        1\n    }\n}\n"
);

erased!(
    hashes_what_is_compared,
    "#[derive(Debug, PartialEq, Eq)]\npub struct A;\n\n#[derive(Clone, Copy, PartialEq, Eq)]\npub enum Kind {\n    One,\n}\n",
    "#[derive(Debug, PartialEq, Eq, Hash)]\npub struct A;\n\n#[derive(Clone, Copy, PartialEq, Eq, PartialOrd, Ord, Hash)]\npub enum Kind {\n    One,\n}\n"
);

erased!(
    shares_plugins_between_threads,
    "pub trait ExtDTypePlugin: Drop {\n    fn id(&self) -> u8;\n}\n\nimpl<V: ExtVTable> ExtDTypePlugin for PluginOf<V> {\n    fn id(&self) -> u8 {\n        1\n    }\n}\n",
    "pub trait ExtDTypePlugin: Send + Sync {\n    fn id(&self) -> u8;\n}\n\nimpl<V: ExtVTable + Send + Sync> ExtDTypePlugin for PluginOf<V> {\n    fn id(&self) -> u8 {\n        1\n    }\n}\n"
);

erased!(
    writes_the_longer_text_of_a_nullability,
    "pub struct Nullability;\n\nimpl fmt::Display for Nullability {\n    fn fmt<W: fmt::Write>(&self, f: &mut fmt::Formatter<W>) -> fmt::Result {\n        f.write_str(\"?\")\n    }\n}\n",
    "pub struct Nullability;\n\nimpl fmt::Display for Nullability {\n    fn fmt(&self, f: &mut fmt::Formatter<'_>) -> fmt::Result {\n        if f.alternate() {\n            return f.write_str(self.long_text());\n        }\n        f.write_str(\"?\")\n    }\n}\n"
);

// ---- What was taken away ----

#[test]
fn tells_what_was_taken_away() -> Result<()> {
    let source = "fn f(alloc: Global) -> u8\n    ensures { result ≡ 1 }\n{\n    1\n}\n";
    let erased = erase_all(&[("dtype_base", "lib.rt", source)])?;
    let told: Vec<String> = erased.removed.iter().map(ToString::to_string).collect();
    let wanted = ["lib.rt:1: allocator\n- alloc: Global", "lib.rt:2: contracts\n- ensures { result ≡ 1 }"];
    assert_eq!(told, wanted);
    Ok(())
}
