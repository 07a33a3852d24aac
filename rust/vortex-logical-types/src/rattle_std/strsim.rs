// SPDX-License-Identifier: Apache-2.0
// SPDX-FileCopyrightText: Copyright the Vortex contributors

//! The distance of two words, with allocations that can fail. (The function of this name in the crate `strsim` ends the
//! program if it can't allocate.)
//!
//! ```
//! use vortex_logical_types::rattle_std::strsim::osa_distance;
//!
//! assert_eq!(osa_distance("in32", "i32")?, 1);
//! # Ok::<(), vortex_logical_types::rattle_std::alloc::AllocError>(())
//! ```
#![forbid(unsafe_code)]

use super::alloc::AllocError;
use super::iter_ext::IterExt;
use super::vec::Vec;
use std::mem;

/// Returns the optimal string alignment distance of two words: how many edits at least lead from one to the other, none
/// of which changes what another has changed. An edit adds, removes or replaces a character, or swaps two neighbours.
/// For example, `i32` is one edit from `in32`, and `ca` is three from `abc`.
///
/// # Errors
///
/// `AllocError` if an allocation fails.
pub fn osa_distance(a: &str, b: &str) -> Result<usize, AllocError> {
    let width = b.chars().count();
    // The distances of the beginnings of `b` from three beginnings of `a`, each a character longer than the last.
    let mut before_last = Vec::from_elem(0, width + 1)?;
    let mut last: Vec<usize> = (0..=width).collect_in()?;
    let mut row = Vec::from_elem(0, width + 1)?;
    let mut a_last = None;
    for (i, in_a) in a.chars().enumerate() {
        row[0] = i + 1;
        let mut b_last = None;
        for (j, in_b) in b.chars().enumerate() {
            let replaced = last[j] + usize::from(in_a != in_b);
            row[j + 1] = replaced.min(last[j + 1] + 1).min(row[j] + 1);
            if in_a != in_b && Some(in_a) == b_last && Some(in_b) == a_last {
                row[j + 1] = row[j + 1].min(before_last[j - 1] + 1);
            }
            b_last = Some(in_b);
        }
        a_last = Some(in_a);
        mem::swap(&mut before_last, &mut last);
        mem::swap(&mut last, &mut row);
    }
    Ok(last[width])
}
