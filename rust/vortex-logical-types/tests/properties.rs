// SPDX-License-Identifier: Apache-2.0
// SPDX-FileCopyrightText: Copyright the Vortex contributors

//! Properties of random types, paths and sets.

use proptest::collection::vec;
use proptest::prelude::*;
use std::collections::BTreeSet;
use vortex_logical_types::{
    DType, DTypeSession, DecimalDType, ExtDTypeRef, Field, FieldPath, FieldPathSet, Nullability,
    PType, StructFields, UnionVariants, Widening,
};

fn nullability() -> impl Strategy<Value = Nullability> {
    any::<bool>().prop_map(Nullability::from)
}

fn ptype() -> impl Strategy<Value = PType> {
    prop::sample::select(&PType::ALL[..])
}

fn decimal() -> impl Strategy<Value = DecimalDType> {
    (1_u8..=76, any::<i8>()).prop_map(|(precision, scale)| {
        let greatest = i8::try_from(precision).unwrap_or(i8::MAX);
        DecimalDType::new(precision, scale.min(greatest))
    })
}

/// Names of few letters, so that they repeat, and names of any characters.
fn name() -> impl Strategy<Value = String> {
    prop_oneof![3 => "[ab]{1,2}", 1 => any::<String>()]
}

fn leaf() -> impl Strategy<Value = DType> {
    prop_oneof![
        Just(DType::Null),
        nullability().prop_map(DType::Bool),
        (ptype(), nullability()).prop_map(|(ptype, n)| DType::Primitive(ptype, n)),
        (decimal(), nullability()).prop_map(|(decimal, n)| DType::Decimal(decimal, n)),
        nullability().prop_map(DType::Utf8),
        nullability().prop_map(DType::Binary),
        nullability().prop_map(DType::Variant),
    ]
}

/// A union of these variants, in which each name and each tag occurs once.
fn union(variants: Vec<(String, u8, DType)>) -> UnionVariants {
    let (mut names, mut tags, mut types) = (Vec::new(), Vec::new(), Vec::new());
    for (name, tag, dtype) in variants {
        if !names.contains(&name) && !tags.contains(&tag) {
            names.push(name);
            tags.push(tag);
            types.push(dtype);
        }
    }
    UnionVariants::try_new(names.into(), types, tags)
        .expect("names and tags are distinct, and there is one")
}

fn key(dtype: &DType) -> DType {
    if dtype.can_be_nonnullable() {
        dtype.as_nonnullable()
    } else {
        DType::Utf8(Nullability::NonNullable)
    }
}

fn dtype() -> impl Strategy<Value = DType> {
    leaf().prop_recursive(4, 24, 4, |inner| {
        let fields = vec((name(), inner.clone()), 0..4);
        let variants = vec((name(), any::<u8>(), inner.clone()), 1..4);
        let id = prop_oneof!["x\\.[a-z]{1,3}", any::<String>()];
        let list = (inner.clone(), nullability()).prop_map(|(element, n)| DType::list(element, n));
        let fixed = (inner.clone(), any::<u32>(), nullability());
        let map = (inner.clone(), inner.clone(), any::<bool>(), nullability());
        prop_oneof![
            list,
            fixed.prop_map(|(element, size, n)| DType::fixed_size_list(element, size, n)),
            map.prop_map(
                |(k, value, sorted, n)| DType::map(key(&k), value, sorted, n)
                    .expect("the key isn't nullable")
            ),
            (fields, nullability()).prop_map(|(fields, n)| DType::struct_(fields, n)),
            (variants, nullability()).prop_map(|(variants, n)| DType::Union(union(variants), n)),
            (id, vec(any::<u8>(), 0..4), inner).prop_map(|(id, metadata, storage)| {
                ExtDTypeRef::from_parts(id.into(), metadata, storage).into()
            }),
        ]
    })
}

fn field() -> impl Strategy<Value = Field> {
    prop_oneof![3 => name().prop_map(Field::from), 1 => Just(Field::ElementType)]
}

fn path() -> impl Strategy<Value = FieldPath> {
    vec(field(), 0..4).prop_map(FieldPath::from)
}

/// The paths of a set in a set of Rust's own.
fn found(paths: impl IntoIterator<Item = impl Into<FieldPath>>) -> BTreeSet<FieldPath> {
    paths.into_iter().map(Into::into).collect()
}

/// The steps that lead into a type, each with the type to which it leads.
fn steps(dtype: &DType) -> Vec<(Field, &DType)> {
    match dtype {
        DType::Struct(fields, _) => fields
            .iter()
            .map(|(name, dtype)| (name.into(), dtype))
            .collect(),
        DType::List(element, _) | DType::FixedSizeList(element, _, _) => {
            vec![(Field::ElementType, &**element)]
        }
        _ => vec![],
    }
}

/// The type at a path, step by step. A step leads to the first field of its name.
fn walked<'a>(path: &FieldPath, dtype: &'a DType) -> Option<&'a DType> {
    path.iter().try_fold(dtype, |here, step| {
        steps(here)
            .into_iter()
            .find(|(other, _)| other == step)
            .map(|(_, to)| to)
    })
}

/// All paths that lead to a part of the type.
fn inside(dtype: &DType) -> Vec<FieldPath> {
    let below = steps(dtype).into_iter().flat_map(|(step, dtype)| {
        inside(dtype)
            .into_iter()
            .map(move |path| FieldPath::from(step.clone()).join(&path))
    });
    [FieldPath::root()]
        .into_iter()
        .chain(below)
        .filter(|path| walked(path, dtype).is_some())
        .collect()
}

proptest! {
    #[test]
    fn a_text_is_read_back(dtype in dtype(), path in path()) {
        prop_assert_eq!(dtype.to_source().parse(), Ok(dtype));
        prop_assert_eq!(path.to_source().parse(), Ok(path));
    }

    #[test]
    fn a_message_is_read_back(dtype in dtype()) {
        let mut session = DTypeSession::new();
        session.allow_unknown();
        prop_assert_eq!(DType::from_proto(&dtype.to_proto(), &session), Ok(dtype));
    }

    #[test]
    fn any_text_is_read_or_refused_at_a_byte_of_it(text in any::<String>(), dtype in dtype(), at in any::<prop::sample::Index>()) {
        let mut spoiled: Vec<char> = dtype.to_source().chars().collect();
        spoiled.remove(at.index(spoiled.len()));
        for text in [text, spoiled.into_iter().collect()] {
            match text.parse::<DType>() {
                Ok(read) => prop_assert_eq!(read.to_source().parse(), Ok(read)),
                Err(error) => {
                    let is_inside = |place: usize| (1..=text.len() + 1).contains(&place);
                    prop_assert!(error.position().is_none_or(is_inside), "{error}");
                }
            }
        }
    }

    #[test]
    fn a_path_leads_where_its_steps_lead(dtype in dtype(), other in path()) {
        for path in inside(&dtype).iter().chain([&other]) {
            let there = walked(path, &dtype);
            prop_assert_eq!(path.resolve(&dtype), there);
            prop_assert_eq!(path.resolve(dtype.clone()), there.cloned());
            prop_assert_eq!(path.exists_in(&dtype), there.is_some());
        }
    }

    #[test]
    fn a_projection_has_the_types_at_its_paths(dtype in dtype(), at in vec(any::<prop::sample::Index>(), 1..4)) {
        let all = inside(&dtype);
        let wanted: FieldPathSet = at.iter().map(|at| at.get(&all)).collect();
        let part = dtype.project_paths(&wanted).expect("each path leads to a type");
        for path in wanted.cover() {
            prop_assert_eq!(path.resolve(&part), path.resolve(&dtype));
        }
    }

    #[test]
    fn what_is_left_out_leads_nowhere(dtype in dtype(), at in vec(any::<prop::sample::Index>(), 0..4)) {
        let all = inside(&dtype);
        let out: Vec<&FieldPath> = at.iter().map(|at| at.get(&all)).collect();
        let Some(left) = dtype.without_paths(&out.iter().copied().collect()) else {
            prop_assert!(out.iter().any(|path| !path.parts().iter().any(Field::is_named)));
            return Ok(());
        };
        for path in &all {
            if out.iter().any(|it| path.starts_with(it)) {
                prop_assert!(!path.exists_in(&left));
            } else if !out.iter().any(|it| path.overlap(it)) {
                prop_assert_eq!(path.resolve(&left), path.resolve(&dtype));
            }
        }
    }

    #[test]
    fn sets_are_like_sets_of_rust(one in vec(path(), 0..8), other in vec(path(), 0..8)) {
        let (a, b) = (found(&one), found(&other));
        let (x, y): (FieldPathSet, FieldPathSet) = (one.iter().collect(), other.into_iter().rev().collect());
        prop_assert_eq!((x.len(), x.is_empty(), found(&x)), (a.len(), a.is_empty(), a.clone()));
        prop_assert_eq!((x == y, x.is_subset(&y), x.is_superset(&y)), (a == b, a.is_subset(&b), a.is_superset(&b)));
        prop_assert_eq!((x.is_disjoint(&y), found(&(&x | &y))), (a.is_disjoint(&b), &a | &b));
        prop_assert!(b.iter().all(|path| x.contains(path) == a.contains(path)));
        let is_least = |path: &&FieldPath| !a.iter().any(|other| other != *path && path.starts_with(other));
        prop_assert_eq!(found(x.cover()), a.iter().filter(is_least).cloned().collect::<BTreeSet<_>>());
        for path in a.iter().chain(&b) {
            let below = x.below(path);
            prop_assert_eq!(below.is_some(), a.iter().any(|other| other.starts_with(path)));
            prop_assert_eq!(below.is_some_and(|below| below.is_end), a.contains(path));
        }
    }

    #[test]
    fn merging_nullabilities_is_the_least_above_both(one in dtype(), nullable in any::<bool>()) {
        let other = one.with_nullability(Nullability::from(nullable || !one.can_be_nonnullable()));
        let both = one.merge_nullability(&other).expect("they differ in nullabilities");
        prop_assert!(one.eq_with_nullability_subset(&both) && other.eq_with_nullability_subset(&both));
        prop_assert!(both == one || both == other);
        let least = one.intersect_nullability(&other).expect("they differ in nullabilities");
        prop_assert!(least.eq_with_nullability_subset(&one) && least.eq_with_nullability_subset(&other));
        prop_assert!(one.eq_ignore_nullability(&both) && one.eq_ignore_nullability(&least));
        prop_assert_eq!(one.merge_columns(&one, Widening::None), Some(one));
    }

    #[test]
    fn a_field_is_found_where_it_is_first(fields in vec((name(), ptype()), 0..40), wanted in name()) {
        let names: Vec<String> = fields.iter().map(|(name, _)| name.clone()).collect();
        let made: StructFields = fields.into_iter().collect();
        for name in names.iter().chain([&wanted]) {
            let first = names.iter().position(|other| other == name);
            prop_assert_eq!((made.find(name), made.names().find(name)), (first, first));
        }
    }
}
