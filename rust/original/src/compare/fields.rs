// SPDX-License-Identifier: Apache-2.0
// SPDX-FileCopyrightText: Copyright the Vortex contributors

//! Calls on what structs, unions, maps and extension types consist of.

use original::models;
use vortex_array::dtype as theirs;
use vortex_logical_types as ours;

use crate::generate;
use crate::plain::{Plain, caught};
use crate::report::hash_of;
use crate::round::*;

/// How many positions and names of a type are looked up.
const LOOKUPS: usize = 4;

/// A position that is often in range.
fn position(round: &mut Round, count: usize) -> usize {
    match round.random.below(12) {
        0 => usize::MAX,
        1 => count,
        _ => round.random.below(count + 1),
    }
}

/// One of these names, but in one of so many cases any name.
fn sought(round: &mut Round, names: &[String], misses: usize) -> String {
    if names.is_empty() || round.random.one_in(misses) {
        return generate::name(&mut round.random);
    }
    round.random.pick(names).clone()
}

/// The calls on a struct, and on it with another.
pub fn of_struct(round: &mut Round, it: &Pair, other: &Pair) {
    let (Some(ours), Some(theirs)) = (it.ours.as_struct_fields_opt(), it.theirs.as_struct_fields_opt()) else {
        return;
    };
    both! { round, it.text(), it = ours, theirs;
        "nfields" => it.nfields();
        "StructFields::names" => it.names();
        "fields" => it.fields().map(|it| it.plain()).collect::<Vec<_>>();
        "field_dtypes" => it.field_dtypes().map(|it| it.plain()).collect::<Vec<_>>();
        "StructFields::clone" => it.clone();
        "StructFields::to_string" => it.to_string();
    }
    let pairs: Vec<_> = theirs.names().iter().cloned().zip(theirs.fields()).collect();
    same! { round, it.text();
        "indented" => ours.indented(), format!("{theirs:#}");
        "StructFields::iter" => ours.iter().collect::<Vec<_>>(), pairs;
        "StructFields::into_iter" => ours.clone().into_iter().collect::<Vec<_>>(), pairs;
    }
    let names = ours.names().plain();
    for _ in 0..LOOKUPS {
        let (at, name) = (position(round, names.len()), sought(round, &names, 4));
        both! { round, format!("{at} and {name:?} of {}", it.text()), it = ours, theirs;
            "field_name" => it.field_name(at).cloned();
            "field_by_index" => it.field_by_index(at);
            "find" => it.find(&name);
            "field" => it.field(&name);
        }
        same! { round, format!("{name:?} of {}", it.text());
            "find_counted" => ours.find_counted(&name), (theirs.find(&name), u64::from(models::comparisons(theirs)));
        }
    }
    of_some(round, it, (ours, theirs), &names);
    if let (Some(more), Some(their_more)) = (other.ours.as_struct_fields_opt(), other.theirs.as_struct_fields_opt()) {
        both! { round, format!("{} and {}", it.text(), other.text()), (a, b) = (ours, more), (theirs, their_more);
            "disjoint_merge" => a.disjoint_merge(b);
            "StructFields::eq" => a == b;
            "StructFields::hash" => hash_of(a) == hash_of(b);
            "StructFields::eq_ignore_nullability" => a.eq_ignore_nullability(b);
        }
    }
    fields_as_types(round, it);
}

/// Structs of some of the fields.
fn of_some(
    round: &mut Round,
    it: &Pair,
    (ours, theirs): (&ours::StructFields, &theirs::StructFields),
    names: &[String],
) {
    let at = position(round, names.len());
    let count = round.random.below(5);
    let wanted: Vec<String> = (0..count).map(|_| sought(round, names, 20)).collect();
    let wanted_ours: ours::FieldNames = wanted.iter().map(String::as_str).collect();
    let wanted_theirs: theirs::FieldNames = wanted.iter().map(String::as_str).collect();
    both! { round, format!("{at} of {}", it.text()), it = ours, theirs; "without_field" => it.without_field(at); }
    same! { round, format!("{wanted:?} of {}", it.text());
        "project" => ours.project(wanted_ours.as_ref()), models::project(wanted_theirs.as_ref(), theirs);
    }
}

/// The types of fields as values of their own.
fn fields_as_types(round: &mut Round, it: &Pair) {
    let [one, nullable] = [it.ours.clone(), it.ours.as_nullable()].map(ours::FieldDType::from);
    let [their_one, their_nullable] = [it.theirs.clone(), it.theirs.as_nullable()].map(theirs::FieldDType::from);
    both! { round, it.text(), (one, nullable) = (&one, &nullable), (&their_one, &their_nullable);
        "FieldDType::from" => one;
        "FieldDType::clone" => nullable.clone();
        "FieldDType::eq" => one == nullable;
        "FieldDType::hash" => hash_of(one) == hash_of(nullable);
    }
}

/// The calls on a union, and on it with another.
pub fn of_union(round: &mut Round, it: &Pair, other: &Pair) {
    let (Some(ours), Some(theirs)) = (it.ours.as_union_variants_opt(), it.theirs.as_union_variants_opt()) else {
        return;
    };
    both! { round, it.text(), it = ours, theirs;
        "UnionVariants::len" => it.len();
        "UnionVariants::is_empty" => (it.is_empty(), it.len());
        "UnionVariants::names" => it.names();
        "type_ids" => it.type_ids();
        "is_consecutive" => it.is_consecutive();
        "variants" => it.variants().map(|it| it.plain()).collect::<Vec<_>>();
        "UnionVariants::clone" => it.clone();
        "UnionVariants::to_string" => it.to_string();
    }
    let pairs: Vec<_> = theirs.names().iter().cloned().zip(theirs.variants()).collect();
    same! { round, it.text(); "UnionVariants::iter" => ours.iter().collect::<Vec<_>>(), pairs; }
    let names = ours.names().plain();
    for _ in 0..LOOKUPS {
        let (at, name) = (position(round, names.len()), sought(round, &names, 4));
        let tag = if round.random.bool() { *round.random.pick(ours.type_ids()) } else { round.random.number() as u8 };
        both! { round, format!("{at}, {name:?} and tag {tag} of {}", it.text()), it = ours, theirs;
            "variant_name" => it.names().get(at).cloned();
            "variant_by_index" => it.variant_by_index(at);
            "UnionVariants::find" => it.find(&name);
            "variant" => it.variant(&name);
            "tag_to_child_index" => it.tag_to_child_index(tag);
            "child_index_to_tag" => caught(|| it.child_index_to_tag(at));
        }
    }
    if let (Some(more), Some(their_more)) = (other.ours.as_union_variants_opt(), other.theirs.as_union_variants_opt()) {
        both! { round, format!("{} and {}", it.text(), other.text()), (a, b) = (ours, more), (theirs, their_more);
            "UnionVariants::eq" => a == b;
            "UnionVariants::hash" => hash_of(a) == hash_of(b);
            "UnionVariants::eq_ignore_nullability" => a.eq_ignore_nullability(b);
        }
    }
}

/// The calls on a map, and on it with another.
pub fn of_map(round: &mut Round, it: &Pair, other: &Pair) {
    let (Some(ours), Some(theirs)) = (it.ours.as_map_opt(), it.theirs.as_map_opt()) else {
        return;
    };
    methods! { round, it.text(), "", ours, theirs; key_dtype value_dtype entries_dtype keys_sorted }
    both! { round, it.text(), it = ours, theirs;
        "MapDType::clone" => it.clone();
        "MapDType::to_string" => it.to_string();
    }
    if let (Some(more), Some(their_more)) = (other.ours.as_map_opt(), other.theirs.as_map_opt()) {
        both! { round, format!("{} and {}", it.text(), other.text()), (a, b) = (ours, more), (theirs, their_more);
            "MapDType::eq" => a == b;
            "MapDType::hash" => hash_of(a) == hash_of(b);
        }
    }
}
