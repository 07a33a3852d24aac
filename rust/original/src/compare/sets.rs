// SPDX-License-Identifier: Apache-2.0
// SPDX-FileCopyrightText: Copyright the Vortex contributors

//! Calls on sets of paths, and projections. The original has no call for what is below a path, for how two sets are
//! related, for the paths that don't exist, and for projections: these have a model.

use std::collections::{BTreeSet, HashSet};

use original::models;
use vortex_array::dtype::{self as theirs, Field};
use vortex_logical_types as ours;

use crate::generate;
use crate::plain::{Plain, Steps};
use crate::report::hash_of;
use crate::round::*;

/// A set on both sides, and the paths that it was made of.
struct Sets {
    given: Vec<Paths>,
    ours: ours::FieldPathSet,
    theirs: theirs::FieldPathSet,
}

/// Paths in an order of their own, because a set yields its paths in no particular order.
fn sorted<T: Plain<Data = Steps>>(paths: impl IntoIterator<Item = T>) -> Vec<Steps> {
    let mut all: Vec<Steps> = paths.into_iter().map(|it| it.plain()).collect();
    all.sort();
    all
}

/// The calls on a set of paths that often exist in the type, and on it with another.
pub fn of_type(round: &mut Round, it: &Pair) {
    let steps = generate::paths(&mut round.random, &it.shape);
    let given: Vec<Paths> = steps.into_iter().map(|steps| round.path(steps)).collect();
    let sets = made(round, given);
    let about = format!("{:?}", sets.ours);
    both! { round, about.clone(), set = &sets.ours, &sets.theirs;
        "FieldPathSet::iter" => sorted(set.iter());
        "FieldPathSet::clone" => sorted(set.clone().iter());
        "FieldPathSet::into_iter" => sorted(set.clone());
    }
    let parsed = ours::FieldPathSet::parse(sets.given.iter().map(Paths::text)).expect("texts of paths");
    same! { round, about.clone();
        "FieldPathSet::len" => sets.ours.len(), sets.theirs.iter().count();
        "FieldPathSet::is_empty" => sets.ours.is_empty(), sets.theirs.iter().next().is_none();
        "FieldPathSet::into_iter of &" => sorted(&sets.ours), sorted(sets.theirs.iter());
        "FieldPathSet::parse" => sorted(&parsed), sorted(sets.theirs.iter());
        "cover" => sorted(sets.ours.cover()), sorted(sets.theirs.clone());
        "into_iter_counted" => sets.ours.clone().into_iter_counted().1,
            models::visits(&sets.theirs.clone().into_iter().collect::<Vec<_>>()) as u64;
    }
    for _ in 0..3 {
        let sought = if sets.given.is_empty() || round.random.one_in(3) {
            generate::path(&mut round.random, &it.shape)
        } else {
            let mut steps = round.random.pick(&sets.given).steps.clone();
            steps.truncate(round.random.below(steps.len() + 1));
            steps
        };
        let sought = round.path(sought);
        at_path(round, &sets, &sought);
    }
    with_type(round, &sets, it);
    with_other(round, sets, it);
}

/// The set by each of the ways to make one.
fn made(round: &mut Round, given: Vec<Paths>) -> Sets {
    let skipped = usize::from(round.is_spoiled);
    let call = ["FieldPathSet::from_iter", "FieldPathSet::extend", "FieldPathSet::insert"][round.random.below(3)];
    let ours = made_by(call, given.iter().map(|it| it.ours.clone()), ours::FieldPathSet::insert);
    let theirs = made_by(call, given.iter().skip(skipped).map(|it| it.theirs.clone()), theirs::FieldPathSet::insert);
    same! { round, format!("{ours:?}"); call => sorted(ours.iter()), sorted(theirs.iter()); }
    Sets { given, ours, theirs }
}

/// A set by the call of this name.
fn made_by<P, S>(call: &str, paths: impl Iterator<Item = P>, insert: impl Fn(&mut S, P)) -> S
where
    S: Default + Extend<P> + FromIterator<P>,
{
    let mut set = S::default();
    match call {
        "FieldPathSet::from_iter" => return paths.collect(),
        "FieldPathSet::extend" => set.extend(paths),
        _ => paths.for_each(|it| insert(&mut set, it)),
    }
    set
}

/// The calls on a set and a path.
fn at_path(round: &mut Round, sets: &Sets, path: &Paths) {
    let about = || format!("{} below {:?}", path.text(), sets.ours);
    both! { round, about(), (set, path) = (&sets.ours, &path.ours), (&sets.theirs, &path.theirs);
        "contains" => set.contains(path);
    }
    let below = sets.ours.below(&path.ours).map(|it| (it.is_end, it.has_element, it.name_count));
    let names = sets.ours.names_below(&path.ours).map(|it| it.plain().into_iter().collect::<BTreeSet<String>>());
    let cursor = path.ours.iter().try_fold(sets.ours.cursor(), |cursor, step| cursor.step(step));
    let cursor = cursor.filter(|it| !it.is_empty()).map(|it| {
        (it.is_end(), it.element().is_some(), it.names().map(|(name, _)| name.plain()).collect::<BTreeSet<String>>())
    });
    let there = below_path(&sets.theirs, &path.theirs);
    let sorted = |names: BTreeSet<String>| names.into_iter().collect::<Vec<String>>();
    same! { round, about();
        "below" => below, there.clone().map(|(is_end, has_element, names)| (is_end, has_element, names.len()));
        "names_below" => names.map(sorted), there.clone().map(|it| sorted(it.2));
        "cursor" => cursor.map(|it| (it.0, it.1, sorted(it.2))), there.clone().map(|it| (it.0, it.1, sorted(it.2)));
    }
}

/// Whether a set ends at a path, whether it goes on with an element, and the names with which it goes on. None of this,
/// if no path of the set begins with the path.
fn below_path(set: &theirs::FieldPathSet, path: &theirs::FieldPath) -> Option<(bool, bool, BTreeSet<String>)> {
    let rests: HashSet<&[Field]> = set.iter().filter_map(|it| it.parts().strip_prefix(path.parts())).collect();
    if rests.is_empty() {
        return None;
    }
    let firsts: Vec<Option<String>> = rests.iter().filter_map(|it| it.first()).map(Plain::plain).collect();
    let names = firsts.iter().flatten().cloned().collect();
    Some((rests.contains(&[][..]), firsts.contains(&None), names))
}

/// The calls on a set and a type.
fn with_type(round: &mut Round, sets: &Sets, it: &Pair) {
    let unresolved = sets.theirs.iter().filter(|path| models::resolve(path, &it.theirs).is_none());
    let parts: Vec<&[Field]> = sets.given.iter().map(|it| it.theirs.parts()).collect();
    same! { round, format!("{:?} of {}", sets.ours, it.text());
        "unresolved" => sorted(sets.ours.unresolved(&it.ours).iter().copied()), sorted(unresolved);
        "project_paths" => Some(it.ours.project_paths(&sets.ours)), models::project_paths(&it.theirs, &parts).ok();
        "without_paths" => Some(it.ours.without_paths(&sets.ours)), models::without_paths(&it.theirs, &parts).ok();
    }
}

/// The calls on two sets, by Rust's own sets of the same paths.
fn with_other(round: &mut Round, mut sets: Sets, it: &Pair) {
    let kept = round.random.below(sets.given.len() + 1);
    let mut others: Vec<Paths> = sets.given.drain(..kept).collect();
    if round.random.bool() {
        let further = generate::path(&mut round.random, &it.shape);
        others.push(round.path(further));
    }
    let set: ours::FieldPathSet = others.iter().map(|it| &it.ours).collect();
    let (one, other): (HashSet<_>, HashSet<_>) =
        (sets.theirs.iter().collect(), others.iter().map(|it| &it.theirs).collect());
    same! { round, format!("{:?} and {set:?}", sets.ours);
        "FieldPathSet::eq" => sets.ours == set, one == other;
        "FieldPathSet::hash" => hash_of(&sets.ours) == hash_of(&set), one == other;
        "is_subset" => sets.ours.is_subset(&set), one.is_subset(&other);
        "is_superset" => sets.ours.is_superset(&set), one.is_superset(&other);
        "is_disjoint" => sets.ours.is_disjoint(&set), one.is_disjoint(&other);
        "union" => sorted(sets.ours.union(&set).iter()), sorted(one.union(&other).copied());
        "FieldPathSet::bitor" => sorted((&sets.ours | &set).iter()), sorted(one.union(&other).copied());
    }
    // A set to which paths are added after it was copied, and the set of which it was copied.
    let (mut copy, mut their_copy) = (sets.ours.clone(), sets.theirs.clone());
    copy.extend(others.iter().map(|it| &it.ours));
    their_copy.extend(others.iter().map(|it| it.theirs.clone()));
    same! { round, format!("{:?} and {set:?}", sets.ours);
        "FieldPathSet::extend of a clone" => sorted(copy.iter()), sorted(their_copy.iter());
        "FieldPathSet after its clone changed" => sorted(sets.ours.iter()), sorted(sets.theirs.iter());
    }
}
