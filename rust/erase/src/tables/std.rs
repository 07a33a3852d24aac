// SPDX-License-Identifier: Apache-2.0
// SPDX-FileCopyrightText: Copyright the Vortex contributors

//! What the sources may import from std and from crates outside the repository. Each was compared with Rust's: it means
//! the same there, or `rattle_std` has it. Another path isn't erased.

/// Who has the name in Rust.
#[derive(Debug, Clone, Copy, PartialEq, Eq)]
pub enum Owner {
    /// The crate that the source names.
    Same,
    /// The module `rattle_std`, at the same path behind `std`.
    RattleStd,
    /// The module `rattle_std` itself, at this path.
    At(&'static str),
    /// Nobody: it is for the checker or for the allocator alone.
    Nobody,
}

const SAME: &str = "
num_traits::Num num_traits::NumCast num_traits::PrimInt num_traits::Signed num_traits::cast std::char
std::cmp::Ordering std::error::Error std::fmt std::fmt::Display std::fmt::Write std::hash::BuildHasher
std::hash::DefaultHasher std::hash::Hash std::hash::Hasher std::io::Read std::io::Write std::iter::FusedIterator
std::marker::PhantomData std::mem std::ops::BitOr std::ops::BitOrAssign std::ops::Index std::slice std::str
std::str::FromStr thiserror::Error
";

const RATTLE_STD: &str = "
std::alloc::AllocError std::alloc::AllocFailed std::collections::BTreeMap std::collections::HashMap
std::collections::HashSet std::collections::btree_map std::collections::hash_map std::rc::Rc std::rc::RcStr
std::string::String std::vec
";

const AT: [(&str, &str); 2] = [("num_traits::Number", "Number"), ("strsim::osa_distance", "strsim::osa_distance")];

const NOBODY: [&str; 2] = ["std::alloc::Global", "std::marker::Model"];

/// Returns who has this path in Rust, or `None` if it isn't known. The last word `self` stands for the module.
pub fn owner_of(path: &[String]) -> Option<Owner> {
    let path = match path {
        [module @ .., last] if last == "self" => module,
        path => path,
    };
    let path = path.join("::");
    let is_in = |list: &str| list.split_whitespace().any(|known| known == path);
    let at = AT.iter().find(|(known, _)| *known == path);
    match at {
        Some((_, name)) => Some(Owner::At(name)),
        None if is_in(SAME) => Some(Owner::Same),
        None if is_in(RATTLE_STD) => Some(Owner::RattleStd),
        None => NOBODY.contains(&path.as_str()).then_some(Owner::Nobody),
    }
}
