// SPDX-License-Identifier: Apache-2.0
// SPDX-FileCopyrightText: Copyright the Vortex contributors

//! Calls on paths and masks.

use original::models;
use vortex_array::dtype::{self as theirs, Field, FieldMask};
use vortex_logical_types as ours;

use crate::generate;
use crate::plain::{Plain, caught};
use crate::report::hash_of;
use crate::round::*;

/// The calls on a path.
pub fn of_one(round: &mut Round, path: &Paths) {
    let step = if round.random.one_in(3) { None } else { Some(generate::name(&mut round.random)) };
    let name = step.clone().unwrap_or_else(|| generate::name(&mut round.random));
    let first = if round.random.bool() { path.steps.first().cloned().flatten().unwrap_or(name) } else { name };
    let there = round.or_spoiled((step.clone(), first.clone()), (Some("x".to_owned()), "x".to_owned()));
    let about = || format!("{} with {step:?} and {first:?}", path.text());
    let here = (&path.ours, ours_step(&step), first.as_str());
    both! { round, about(), (it, step, name) = here.clone(), (&path.theirs, theirs_step(&there.0), there.1.as_str());
        "FieldPath::from_name" => dtype::FieldPath::from_name(name);
        "FieldPath::from(Field)" => dtype::FieldPath::from(step.clone());
        "FieldPath::from(Vec)" => dtype::FieldPath::from(it.parts().to_vec());
        "parts" => it.parts();
        "is_root" => it.is_root();
        "FieldPath::clone" => it.clone();
        "FieldPath::step_into" => it.clone().step_into();
        "push" => it.clone().push(step);
    }
    // (At the root this library returns false.)
    if !path.steps.is_empty() && round.random.one_in(4) {
        both! { round, about(), (it, step, _) = here.clone(), (&path.theirs, theirs_step(&there.0), there.1.as_str());
            "starts_with_field" => caught(|| it.starts_with_field(&step));
        }
    }
    let (at, their_at) = (round.or_spoiled(path.steps.len(), 1000), path.theirs.parts());
    let mut twice = path.ours.clone();
    twice.extend(&path.ours);
    let their_twice = [their_at, their_at].concat();
    let parent = their_at.split_last().map(|(_, above)| theirs::FieldPath::from(above.to_vec()));
    same! { round, about();
        "FieldPath::from_field" => ours::FieldPath::from_field(ours_step(&step)),
            theirs::FieldPath::from(theirs_step(&there.0));
        "FieldPath::root" => (ours::FieldPath::root(), path.steps.len()), (theirs::FieldPath::root(), at);
        "FieldPath::len" => path.ours.len(), their_at.len();
        "FieldPath::iter" => path.ours.iter().cloned().collect::<Vec<_>>(), their_at;
        "FieldPath::extend" => twice, their_twice;
        "parent" => path.ours.parent(), parent;
        "starts_with_name" => path.ours.starts_with_name(&first), starts_with(&path.theirs, &there.1);
    }
}

/// Paths of names alone, by their texts.
pub fn of_names(round: &mut Round) {
    let names: Vec<String> = (0..round.random.below(4)).map(|_| generate::name(&mut round.random)).collect();
    let there: Vec<theirs::Field> = names.iter().skip(round.is_spoiled.into()).map(|it| it.as_str().into()).collect();
    same! { round, format!("{names:?}");
        "FieldPath::from_texts" =>
            ours::FieldPath::from_texts(&names.iter().map(String::as_str).collect::<Vec<_>>()), there;
    }
}

/// At a path whose first step is an element the original panics.
fn starts_with(path: &theirs::FieldPath, name: &str) -> bool {
    let is_named = path.parts().first().is_some_and(Field::is_named);
    is_named && models::starts_with_field(path, &Field::from(name))
}

/// The calls on two paths.
pub fn of_two(round: &mut Round, a: &Paths, b: &Paths) {
    let about = || format!("{} and {}", a.text(), b.text());
    both! { round, about(), (a, b) = (&a.ours, &b.ours), (&a.theirs, &b.theirs);
        "FieldPath::eq" => a == b;
        "FieldPath::hash" => hash_of(a) == hash_of(b);
        "overlap" => a.overlap(b);
    }
    let joined: theirs::FieldPath = a.theirs.parts().iter().chain(b.theirs.parts()).cloned().collect();
    same! { round, about();
        "join" => a.ours.join(&b.ours), joined;
        "starts_with" => a.ours.starts_with(&b.ours), a.theirs.parts().starts_with(b.theirs.parts());
        "FieldPath::cmp" => a.ours.cmp(&b.ours), ordered(&a.theirs, &b.theirs);
    }
}

/// The order of two paths: by their steps, an element before each name.
fn ordered(a: &theirs::FieldPath, b: &theirs::FieldPath) -> std::cmp::Ordering {
    // (`None` is below `Some`.)
    a.plain().cmp(&b.plain())
}

/// The calls on a path and a type.
pub fn in_type(round: &mut Round, path: &Paths, it: &Pair) {
    let found = models::resolve(&path.theirs, &it.theirs);
    same! { round, format!("{} in {}", path.text(), it.text());
        "exists_in" => path.ours.exists_in(&it.ours), found.is_some();
        "resolve" => path.ours.resolve(&it.ours), found;
        "resolve of a type" => path.ours.resolve(it.ours.clone()), found;
        "with_type_at" => Some(it.ours.with_type_at(&path.ours, &it.ours)),
            models::with_type_at(&it.theirs, path.theirs.parts(), &it.theirs).ok();
    }
}

/// The masks of the path on both sides, of which one is returned.
fn mask(round: &mut Round, path: &Paths) -> (ours::FieldMask, FieldMask) {
    let form = round.random.below(5);
    both! { round, path.text(), path = &path.ours, &path.theirs;
        "FieldMask::All" => (dtype::FieldMask::All, path);
        "FieldMask::Prefix" => dtype::FieldMask::Prefix(path.clone());
        "FieldMask::Exact" => dtype::FieldMask::Exact(path.clone());
    }
    let (ours, theirs) = (path.ours.clone(), path.theirs.clone());
    match form {
        0 => (ours::FieldMask::All, FieldMask::All),
        1 | 2 => (ours::FieldMask::Prefix(ours), FieldMask::Prefix(theirs)),
        _ => (ours::FieldMask::Exact(ours), FieldMask::Exact(theirs)),
    }
}

/// The calls on the masks of two paths.
pub fn of_masks(round: &mut Round, path: &Paths, other: &Paths) {
    let ((x, s), (y, t)) = (mask(round, path), mask(round, other));
    both! { round, format!("{x:?} and {y:?}"), (x, y) = (&x, &y), (&s, &t);
        "FieldMask::eq" => x == y;
        "FieldMask::clone" => x.clone();
        "FieldMask::step_into" => x.clone().step_into();
        "starting_field" => x.starting_field().map(|it| it.cloned());
        "matches_all" => x.matches_all();
        "matches_root" => x.matches_root();
    }
    same! { round, format!("{x:?}"); "FieldMask::path" => x.path(), s.plain().1; }
}
