// SPDX-License-Identifier: Apache-2.0
// SPDX-FileCopyrightText: Copyright the Vortex contributors

//! How many allocations calls make, which none, and what an insertion leaves when one of its allocations is refused.

mod refusing;

use refusing::{counted, in_use, refused, refused_from};
use std::hash::{DefaultHasher, Hash, Hasher};
use vortex_logical_types::Nullability::{NonNullable, Nullable};
use vortex_logical_types::{
    DType, DecimalDType, DecimalType, Field, FieldMask, FieldPath, FieldPathSet, PType,
    StructFields, VortexError,
};

fn path(text: &str) -> FieldPath {
    text.parse().unwrap()
}

fn paths(text: &str) -> Vec<FieldPath> {
    text.split_whitespace().map(path).collect()
}

fn set(text: &str) -> FieldPathSet {
    paths(text).into_iter().collect()
}

/// The paths `a.0`, `a.1` and so on, each with this ending.
fn numbered(count: usize, ending: &str) -> Vec<FieldPath> {
    (0..count)
        .map(|number| path(&format!("a.{number}{ending}")))
        .collect()
}

/// The set into which these paths were inserted in turn.
fn inserted<'a>(paths: impl IntoIterator<Item = &'a FieldPath>) -> FieldPathSet {
    let mut set = FieldPathSet::new();
    for path in paths {
        set.insert(path.clone());
    }
    set
}

/// Extends a set of some paths by others while each allocation is refused in turn, alone and with all after it. The set
/// then has the paths before the one that made this allocation, and nothing else. Returns how many allocations the
/// insertion of each path makes.
fn extends(old: &[FieldPath], added: &[FieldPath]) -> Vec<usize> {
    // (a copy of a set has no room to spare, so each set is made anew)
    let step = |count: usize| inserted(old.iter().chain(&added[..count]));
    let mut counts = Vec::new();
    for (place, new) in added.iter().enumerate() {
        let (mut before, new) = (step(place), new.clone());
        let (result, count) = counted(|| before.try_insert(new));
        assert_eq!(result, Ok(()));
        counts.push(count);
    }
    let whole: usize = counts.iter().sum();
    let (mut all, given) = (step(0), added.to_vec());
    let (result, count) = counted(|| all.try_extend(given));
    assert_eq!(
        (result, count),
        (Ok(()), whole),
        "its paths make {counts:?}"
    );
    assert_eq!(all, step(added.len()));
    let owners = counts
        .iter()
        .enumerate()
        .flat_map(|(place, count)| std::iter::repeat_n(place, *count));
    for (number, place) in owners.enumerate() {
        for is_onward in [false, true] {
            let (wanted, before) = (step(place), in_use());
            let (mut left, given) = (step(0), added.to_vec());
            let call = || left.try_extend(given);
            let (result, is_refused) = if is_onward {
                refused_from(number, call)
            } else {
                refused(number, call)
            };
            assert_eq!(result, Err(VortexError::OutOfMemory));
            assert!(is_refused, "allocation {number}");
            assert!(
                left == wanted,
                "allocation {number} fails, and not the first {place} paths are left"
            );
            let visits = |set: &FieldPathSet| set.clone().into_iter_counted().1;
            assert_eq!(visits(&left), visits(&wanted));
            drop(left);
            assert_eq!(in_use(), before, "something is left");
        }
    }
    counts
}

#[test]
fn an_insertion_is_made_or_not() {
    for (new, old) in [
        ("a.b", ""),
        ("a.c.d", "a.b"),
        ("x.y", "a b c"),
        ("a.b.c.d.e", "a.b x"),
    ] {
        assert!(
            extends(&paths(old), &[path(new)])[0] > 0,
            "{new} into {old}"
        );
    }
    // (a node's children are stored in other forms from 2, 17 and 129 on)
    for count in [1, 15, 16, 17, 128, 129] {
        for ending in ["", "_of_the_columns"] {
            let new = path(&format!("a.x{ending}.y"));
            extends(&numbered(count, ending), &[new]);
        }
    }
}

#[test]
fn an_extension_stops_at_the_path_that_lacks_memory() {
    for (added, old) in [
        ("a.b x a", ""),
        ("a.b.c a.b.d y", "a x"),
        ("b c d e f g h", "a"),
        (". a.a.a.a a.b a.a a.a.c x.y.z", "b"),
        ("b c d e f g h i j k l m n o p q r s t u", "a"),
    ] {
        extends(&paths(old), &paths(added));
    }
}

#[test]
fn a_cover_makes_as_many_allocations_and_visits_for_any_size() {
    let mut wide = numbered(1000, "");
    wide.push(path("a"));
    let [small, wide] = [set("a"), inserted(&wide)].map(|set| {
        let ((cover, visits), count) = counted(|| set.try_into_iter_counted().unwrap());
        (cover.len(), visits, count)
    });
    assert_eq!(small, wide);
    assert!(small.0 == 1 && small.1 == 2 && small.2 > 0, "{small:?}");
}

/// Makes a call, which may not allocate.
fn none<T>(call: impl FnOnce() -> T) -> T {
    let (result, count) = counted(call);
    assert_eq!(count, 0, "{count} allocations");
    result
}

fn hash_of(value: &impl Hash) -> u64 {
    let mut state = DefaultHasher::new();
    value.hash(&mut state);
    state.finish()
}

#[test]
fn paths_are_looked_at_without_allocations() {
    let (name, other) = ("a".into(), Field::from("a"));
    assert!(none(|| {
        let step = Field::Name(name);
        step.is_named()
            && (step.as_name() == Some("a"))
            && (step == other)
            && (step > Field::ElementType)
            && (hash_of(&step) == hash_of(&other))
            && Field::ElementType.as_name().is_none()
    }));
    let (steps, longer) = (vec![Field::ElementType], path("a.b"));
    assert!(none(|| {
        let (short, root) = (FieldPath::from_vec(steps.into()), FieldPath::root());
        root.is_root()
            && (short.parts().len() == 1)
            && root.overlap(&short)
            && (short != longer)
            && (hash_of(&short) != hash_of(&longer))
            && longer.starts_with_field(&other)
            && (longer.parts().first() == Some(&other))
            && root.step_into().is_none()
    }));
    assert!(none(|| longer.step_into().is_some()));
    let (dtype, element) = (
        DType::list(PType::U8, NonNullable),
        FieldPath::from(Field::ElementType),
    );
    assert!(none(
        || element.resolve(&dtype).is_some() && element.exists_in(&dtype)
    ));
}

#[test]
fn sets_and_masks_are_looked_at_without_allocations() {
    let (known, set) = (path("a.b"), set("a.b x"));
    assert!(none(
        || set.contains(&known) && !FieldPathSet::new().contains(&known)
    ));
    let step = Field::from("a");
    assert!(none(|| {
        let root = set.cursor();
        let below = root.step(&step);
        !root.is_end()
            && !root.is_empty()
            && root.element().is_none()
            && (root.names().len() == 2)
            && root.names().next().is_some()
            && below.is_some_and(|it| it.element().is_none())
    }));
    let (prefix, exact) = (
        FieldMask::Prefix(path("a.b")),
        FieldMask::Exact(path("a.b")),
    );
    assert!(none(|| {
        FieldMask::All.matches_all()
            && FieldMask::All.starting_field().is_err()
            && !exact.matches_root()
            && (exact != prefix)
            && exact.starting_field().is_ok()
            && FieldMask::All.step_into().is_ok()
            && prefix.step_into().is_ok()
            && exact.step_into().is_ok()
    }));
    // (paths that are in the set, or whose insertion only marks a node)
    for (new, old) in [(".", "a.b"), ("a", "a.b"), ("a.b", "a.b")] {
        assert_eq!(extends(&paths(old), &[path(new)]), [0], "{new} into {old}");
    }
}

#[test]
fn types_are_looked_at_without_allocations() {
    assert!(none(|| {
        (PType::U16.byte_width() == 2)
            && (PType::U16.bit_width() == 16)
            && (PType::U16.max_value_as_u64() == 65_535)
            && (PType::U16.to_signed() == PType::I16)
            && (PType::I16.to_unsigned() == PType::U16)
            && PType::F16.is_float()
            && (PType::min_unsigned_ptype_for_value(256) == PType::U16)
            && (hash_of(&PType::U8) != hash_of(&PType::I8))
            && DecimalDType::try_new(10, 2).is_ok()
            && DecimalType::try_from(PType::I8).is_ok()
            && (DecimalType::I256.byte_width() == 32)
    }));
    let fields: StructFields = [
        ("a", DType::Primitive(PType::U8, NonNullable)),
        ("b", DType::Primitive(PType::U8, Nullable)),
    ]
    .into_iter()
    .collect();
    assert!(none(|| {
        (fields.nfields() == 2)
            && (fields.find("b") == Some(1))
            && fields.find("c").is_none()
            && (fields.find_counted("b").1 == 2)
            && fields.field("a").is_some()
            && fields.field_by_index(1).is_some()
            && fields.field_name(0).is_some()
            && (fields.names().find("b") == Some(1))
            && (fields.fields().len() == 2)
    }));
    let (one, other) = (
        DType::Struct(fields.clone(), NonNullable),
        DType::Struct(fields, Nullable),
    );
    assert!(none(|| {
        (one != other)
            && one.eq_ignore_nullability(&other)
            && one.eq_with_nullability_subset(&other)
            && !one.eq_with_nullability_superset(&other)
            && (hash_of(&one) != hash_of(&other))
            && one.is_struct()
            && other.is_nullable()
            && one.can_be_nonnullable()
            && one.as_struct_fields_opt().is_some()
            && one.try_element_size().is_ok()
    }));
}
