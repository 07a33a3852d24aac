// SPDX-License-Identifier: Apache-2.0
// SPDX-FileCopyrightText: Copyright the Vortex contributors

//! Forms that are refused, each with the line and a part of the message.

mod common;

use common::{erase_all, refused};

macro_rules! refused {
    ($name:ident, $line:expr, $message:expr, $source:expr) => {
        #[test]
        fn $name() {
            let told = refused($source).map(|error| (error.line(), error.to_string()));
            let is_told = told.as_ref().is_some_and(|(line, text)| *line == $line && text.contains($message));
            assert!(is_told, "expected line {} and {:?}, found {told:?}", $line, $message);
        }
    };
}

// ---- Tokens ----

refused!(open_comment, 2, "block comment", "fn f() {}\n/* /* */\n");
refused!(open_text, 1, "doesn't end", "const A: &str = \"a;\n");
refused!(open_raw_text, 1, "raw text", "const A: &str = r#\"a\";\n");
refused!(open_bracket, 1, "isn't closed", "fn f() {\n    g(1);\n");
refused!(other_bracket, 2, "closes no", "fn f() {\n    g(1];\n}\n");
refused!(lone_quote, 1, "neither a character nor a lifetime", "const A: u8 = '+;\n");
refused!(other_sign, 1, "no token begins", "const A: u8 = \u{7};\n");

// ---- Items and clauses ----

refused!(other_item, 3, "expected an item", "fn f() {}\n\nextern crate a;\n");
refused!(other_abi, 1, "expected an item", "extern \"system\" fn f() {}\n");
refused!(extern_block, 1, "expected an item", "extern \"C\" {\n    fn f();\n}\n");
refused!(pointer_to_extern_function, 1, "`extern` isn't translated", "fn f(g: extern \"C\" fn()) {}\n");
refused!(union_item, 1, "expected an item", "union U { a: u8 }\n");
refused!(clause_without_braces, 2, "braces of a clause", "fn f()\n    ensures a < b\n{\n}\n");
refused!(closure_clause_without_braces, 2, "without its braces", "fn f() {\n    g(|a| requires a < b { a });\n}\n");
refused!(final_constant, 2, "behind `final`", "trait T {\n    final const A: u8 = 1;\n}\n");
refused!(function_of_tests_alone, 1, "isn't known", "#[cfg(test)]\nfn f() {}\n");
refused!(other_attribute, 1, "isn't known", "#[cfg(unix)]\nfn f() {}\n");
refused!(glob, 1, "an import of a form", "use a::*;\n");
refused!(macro_of_its_own, 1, "isn't exported", "macro_rules! m {\n    () => {};\n}\n");

refused!(
    other_import_of_std,
    2,
    "`std::sync::Mutex` isn't known",
    "use std::fmt;\nuse std::sync::Mutex;\n\nfn f(m: Mutex) -> fmt::Result {}\n"
);
refused!(other_path_of_std, 2, "`std::env::args` isn't known", "fn f() {\n    std::env::args();\n}\n");
refused!(other_crate, 1, "`regex::Regex` isn't known", "use regex::Regex;\n\nfn f(r: Regex) {}\n");

// ---- Drop ----

refused!(own_drop, 3, "own `Drop`", "struct S;\n\nimpl Drop for S {\n    fn drop(self) {}\n}\n");
refused!(drop_elsewhere, 2, "neither a bound nor derived", "fn f() {\n    let x = Drop;\n}\n");

refused!(drop_beside_a_bound, 1, "neither a bound nor derived", "fn f<T: Copy + Drop>(t: T) {}\n");

// ---- The allocator ----

refused!(allocator_in_tuple, 2, "in a tuple", "fn f(alloc: Global) {\n    return (alloc, 1);\n}\n");
refused!(allocator_in_array, 2, "in a tuple, an array", "fn f(alloc: Global) {\n    g([alloc]);\n}\n");
refused!(allocator_of_closure, 0, "is left", "fn f() {\n    g(|alloc| h(1));\n}\n");
refused!(allocator_elsewhere, 0, "is left", "fn f(alloc: Global) {\n    alloc.grow();\n}\n");
refused!(macro_without_allocator, 2, "without an allocator", "fn f() {\n    vec![1];\n}\n");
refused!(macro_of_other_allocator, 2, "isn't known", "fn f() {\n    vec![in arena; 1];\n}\n");

// ---- What Rust means otherwise ----

refused!(
    clone_without_question_mark,
    2,
    "means something else",
    "fn f(v: &[u8]) {\n    v.iter().map(|x| x.clone()).count();\n}\n"
);
refused!(other_error, 1, "means something else", "fn f() -> anyhow::Error {\n}\n");
refused!(other_channel, 2, "means something else", "fn f() {\n    crossbeam_channel::bounded(1);\n}\n");
refused!(thread, 2, "means something else", "fn f() {\n    thread::spawn(g);\n}\n");
refused!(range_without_end, 2, "means something else", "fn f() {\n    (250u8..).take(9);\n}\n");
refused!(loop_without_end, 2, "means something else", "fn f() {\n    for i in 0.. {}\n}\n");
refused!(reference_to_self, 2, "means something else", "trait T {\n    fn f(w: W<&Self>);\n}\n");
refused!(index_bound, 1, "means something else", "fn f<T: Index<usize>>(t: T) {}\n");
refused!(once, 2, "means something else", "fn f() {\n    iter::once(1);\n}\n");
refused!(error_of_conversion, 1, "means something else", "fn f(e: TryFromIntError) {}\n");
refused!(impl_for_parameter, 1, "every type that meets a bound", "impl<X: Copy> A for X {}\n");
refused!(size, 2, "means something else", "fn f() -> usize {\n    size_of::<u8>()\n}\n");
refused!(update_from_index, 2, "means something else", "fn f() -> S {\n    S { a: 1, ..v[i] }\n}\n");
refused!(
    method_of_numbers,
    6,
    "means something else",
    "trait T {\n    fn is_nan(&self) -> bool;\n}\n\nfn f(x: u8) -> bool {\n    x.is_nan()\n}\n"
);
refused!(unsafe_block, 2, "`unsafe` isn't translated", "fn f() {\n    unsafe { g() }\n}\n");
refused!(wait, 2, "`await` isn't translated", "fn f() {\n    g().await;\n}\n");

// ---- Calls ----

refused!(
    condition_without_row,
    4,
    "the table of conditions hasn't it",
    "pub struct S;\n\nimpl S {\n    pub fn f(&self, x: u8)\n        requires { x < 9 }\n    {\n    }\n}\n"
);
refused!(
    name_of_second_form,
    4,
    "has no name",
    "pub struct S;\n\nimpl S {\n    pub fn try_of(x: u8) -> VortexResult<S>\n        ensures { Makes result (λ s. s ≡ x) }\n    {\n    }\n}\n"
);
refused!(
    pattern_as_parameter,
    4,
    "parameters that aren't names",
    "pub struct S;\n\nimpl S {\n    pub fn of((x, y): (u8, u8)) -> VortexResult<S>\n        ensures { Makes result (λ s. s ≡ x) }\n    {\n    }\n}\n"
);

refused!(
    other_sentence_about_the_allocator,
    3,
    "a doc comment that isn't known",
    "struct S;\n\n/// Asks the allocator.\nfn f() {}\n"
);

refused!(
    other_sentence_about_the_contract,
    3,
    "a doc comment that isn't known",
    "struct S;\n\n/// Does what the contract says.\nfn f() {}\n"
);

// A number ends before a method.
refused!(clone_of_a_field, 2, "means something else", "fn f(x: (u8, u8)) {\n    g(x.0.clone());\n}\n");

// The types of the two forms differ, so that a wrong one isn't compiled. Here nothing would tell.
refused!(
    dropped_result_of_unknown_type,
    12,
    "isn't known",
    "pub struct S;\n\nimpl S {\n    pub fn push(&mut self) -> VortexResult<()>\n        ensures { Makes result (λ s. s ≡ x) }\n    {\n    }\n}\n\nfn f() {\n    let x = unknown();\n    let _ = x.push();\n}\n"
);

// A proof's sign in a body.
refused!(sign_of_contracts, 0, "`≡` is left", "fn f() {\n    a ≡ b\n}\n");

// Two types of one name, of which one has a call with two forms: a call couldn't be told from the other.
#[test]
fn two_types_of_one_name() {
    let source = |clause: &str| {
        format!(
            "pub struct S;\n\nimpl S {{\n    pub fn of(x: u8) -> VortexResult<S>\n        ensures {{ {clause} }}\n    {{\n    }}\n}}\n"
        )
    };
    let (two, one) = (source("Makes result (λ s. s ≡ x)"), source("result ≡ x"));
    let erased = erase_all(&[("dtype_base", "lib.rt", &two), ("dtype_types", "lib.rt", &one)]);
    let told = erased.err().map(|error| error.to_string());
    assert_eq!(told.as_deref(), Some("lib.rt:4: another type `S` has a `of` with two forms"));
}

// ---- What is by hand ----

refused!(
    call_of_texts_without_a_text,
    4,
    "without `name: &str`",
    "pub struct FieldNames;\n\nimpl FieldNames {\n    pub fn find(&self, text: &str) -> Option<usize> {\n        g(text)\n    }\n}\n"
);
refused!(
    shorter_form_of_a_call_without_two_forms,
    0,
    "hasn't two forms",
    "pub struct FieldPath;\n\nimpl FieldPath {\n    pub fn from_name(name: Name) -> FieldPath {\n        FieldPath\n    }\n}\n"
);
