// SPDX-License-Identifier: Apache-2.0
// SPDX-FileCopyrightText: Copyright the Vortex contributors

//! The forms that Rattle and Rust both accept and by which they mean something else, as Rattle's documentation lists them
//! ("What differs silently" in the page from Rust to Rattle, "Where Rattle departs from Rust" in the page on the
//! language, and the page on macros). The sources mean the same in Rust, because each form is refused or translated.

/// The forms that are refused, each with the tokens by which it is found. Of the forms without tokens `rules/silent` has
/// a check of its own.
pub const REFUSED: [(&str, &[&str]); 14] = [
    (CLONE, &[]),
    (
        "`{:?}` of an `anyhow::Error` prints its causes, and `{:#}` or `{:?}` of one over a source leaves that cause out",
        &["anyhow ::"],
    ),
    (
        "a value that a thread returns is dropped only if the thread is joined",
        &["thread ::", "thread (", "spawn ::", "spawn ("],
    ),
    ("`try_send` and `try_recv` during another call of the channel", &["crossbeam_channel ::", "tokio ::"]),
    (RANGE, &[]),
    ("`w.f()` in a trait's body, where the type of `w` names `Self`", &["< & Self", ", & Self"]),
    ("`w.f()` where the type of `w` names `T::Output` under `T: Index`", &[": Index", "+ Index"]),
    ("an impl for what `iter::once`, `iter::empty` or `Option::into_iter` returns", &["iter :: once", "iter :: empty"]),
    ("an impl for the error of `u16::try_from(1u8)`", &["Infallible", "TryFromIntError"]),
    (PARAMETER, &[]),
    ("a closure that is used as a function pointer has a pointer's size", SIZES),
    (NUMBER, &[]),
    (UPDATE, &[]),
    ("fields lie in the order of the source, and an enum has its own tag", SIZES),
];

pub const CLONE: &str = "`s.clone()` returns a result, also where the clones are only counted or printed";
pub const RANGE: &str = "a range without an end stops below the greatest value";
pub const PARAMETER: &str = "an impl for every type that meets a bound, at a type that meets it only in Rattle";
pub const NUMBER: &str = "a method of a trait with the name of a method of std";
pub const UPDATE: &str = "`S { a: 1, ..v[i] }` with every field written doesn't read `v[i]`";
const SIZES: &[&str] = &["size_of", "size_of_val", "align_of", "transmute"];

// The others, each with what is done.
const OTHERWISE: &str = "\
the error of `write!` to a `String` is `AllocError`
    `write_fmt` of the `String` of `rattle_std` returns `AllocError`
the order in which the elements of an array are dropped after a pattern that fails
    `impl Drop` is refused, and nothing else tells in which order values are dropped
a pattern that names every field of a `Self` with `Drop` destructures it
    `impl Drop` is refused
an overflow, a bad index, an `unwrap` of nothing and `unreachable!` don't panic
    none happens, because each is proved and each public condition is checked
`as` loses nothing
    where nothing is lost, Rust's `as` returns the same
a value is dropped only if its type allows it
    what Rattle drops Rust drops at the same places, and `impl Drop` is refused
`drop` takes the value itself
    `impl Drop` is refused
an allocation that fails is an error
    `rattle_std` returns it, and second forms of calls end the program
printing, files and the end of the process need a handle
    functions with a handle are taken away and written by hand
what a macro by rules writes
    exported macros are taken away, and others are refused
`usize` has 64 bits
    the Rust crate doesn't compile for another width
";

/// Returns the forms as text: for each two lines, of which the second says what is done.
#[must_use]
pub fn differences() -> String {
    let refused = REFUSED.iter().map(|(form, _)| format!("{form}\n    refused\n"));
    refused.chain([OTHERWISE.to_owned()]).collect()
}
