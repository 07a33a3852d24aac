// SPDX-License-Identifier: Apache-2.0
// SPDX-FileCopyrightText: Copyright the Vortex contributors

//! Calls on types: constructors, what a type is, its nullability, and two types compared and merged.

use original::models;
use vortex_array::dtype as theirs;
use vortex_logical_types as ours;

use crate::generate;
use crate::plain::caught;
use crate::report::hash_of;
use crate::round::*;
use crate::shape::Shape;
use crate::translate;

/// The calls on one type.
pub fn of_one(round: &mut Round, it: &Pair) {
    methods! { round, it.text(), "", &it.ours, &it.theirs;
        is_boolean is_primitive is_unsigned_int is_signed_int is_int is_float is_decimal is_utf8 is_binary is_list
        is_fixed_size_list is_map is_struct is_union is_variant is_extension is_nested is_nullable nullability
        as_nullable as_decimal_opt as_list_element_opt as_fixed_size_list_element_opt as_any_size_list_element_opt
        as_map_opt as_struct_fields_opt as_union_variants_opt as_extension_opt
    }
    both! { round, it.text(), it = &it.ours, &it.theirs;
        "DType::clone" => it.clone();
        "into_decimal_opt" => it.clone().into_decimal_opt();
        "into_list_element_opt" => it.clone().into_list_element_opt();
        "into_fixed_size_list_element_opt" => it.clone().into_fixed_size_list_element_opt();
        "into_any_size_list_element_opt" => it.clone().into_any_size_list_element_opt();
        "into_map_opt" => it.clone().into_map_opt();
        "into_struct_fields_opt" => it.clone().into_struct_fields_opt();
        "into_union_variants_opt" => it.clone().into_union_variants_opt();
        "PType::try_from(&DType)" => dtype::PType::try_from(it);
        "DecimalDType::try_from(&DType)" => dtype::DecimalDType::try_from(it);
        "DecimalDType::try_from(DType)" => dtype::DecimalDType::try_from(it.clone());
    }
    partial(round, it);
    modelled(round, it);
}

/// Calls that panic if a condition isn't met, on both sides.
fn partial(round: &mut Round, it: &Pair) {
    let n = round.random.bool();
    both! { round, it.text(), it = &it.ours, &it.theirs;
        "as_nonnullable" => caught(|| it.as_nonnullable());
        "with_nullability" => caught(|| it.with_nullability(n.into()));
        "union_nullability" => it.union_nullability(n.into());
    }
    // (A panic takes long.)
    if round.random.one_in(8) {
        both! { round, it.text(), it = &it.ours, &it.theirs;
            "as_ptype" => caught(|| it.as_ptype());
            "as_struct_fields" => caught(|| it.as_struct_fields());
            "into_struct_fields" => caught(|| it.clone().into_struct_fields());
            "as_extension" => caught(|| it.as_extension());
        }
    }
}

/// Calls that the original lacks, or in which this library differs on purpose.
fn modelled(round: &mut Round, it: &Pair) {
    let ptype = match &it.theirs {
        theirs::DType::Primitive(ptype, _) => Some(*ptype),
        _ => None,
    };
    let size = match &it.theirs {
        theirs::DType::FixedSizeList(_, size, _) => Some(*size),
        _ => None,
    };
    let there = models::element_size(&it.theirs);
    same! { round, it.text();
        "kind" => it.ours.kind() as usize, kind_of(&it.theirs);
        "as_ptype_opt" => it.ours.as_ptype_opt(), ptype;
        "as_fixed_size_opt" => it.ours.as_fixed_size_opt(), size;
        "can_be_nonnullable" => it.ours.can_be_nonnullable(), models::can_be_nonnullable(&it.theirs);
        "try_element_size" => it.ours.try_element_size(), there;
        "element_size" => caught(|| it.ours.element_size()).ok(), there.ok();
        "to_proved" => it.shape, translate::to_proved(&it.theirs).expect("a type");
        "to_vortex" => translate::to_vortex(&it.ours).expect("a type"), it.theirs;
    }
}

fn kind_of(dtype: &theirs::DType) -> usize {
    use theirs::DType::*;
    match dtype {
        Null => 0,
        Bool(_) => 1,
        Primitive(..) => 2,
        Decimal(..) => 3,
        Utf8(_) => 4,
        Binary(_) => 5,
        List(..) => 6,
        FixedSizeList(..) => 7,
        Map(..) => 8,
        Struct(..) => 9,
        Union(..) => 10,
        Variant(_) => 11,
        Extension(_) => 12,
    }
}

/// The calls on two types.
pub fn of_two(round: &mut Round, a: &Pair, b: &Pair) {
    let about = || format!("{} and {}", a.text(), b.text());
    both! { round, about(), (x, y) = (&a.ours, &b.ours), (&a.theirs, &b.theirs);
        "DType::eq" => x == y;
        "DType::hash" => hash_of(x) == hash_of(y);
        "eq_ignore_nullability" => x.eq_ignore_nullability(y);
    }
    let (x, y, s, t) = (&a.ours, &b.ours, &a.theirs, &b.theirs);
    let erased = |it: &ours::DType| hash_of(&Erased(it));
    same! { round, about();
        "hash_ignore_nullability" => erased(x) == erased(y), s.eq_ignore_nullability(t);
        "eq_with_nullability_subset" => x.eq_with_nullability_subset(y), models::is_subset(s, t);
        "eq_with_nullability_superset" => x.eq_with_nullability_superset(y), models::is_subset(t, s);
        "merge_nullability" => Some(x.merge_nullability(y)), models::bound(|a, b| a || b, s, t).ok();
        "intersect_nullability" => Some(x.intersect_nullability(y)), models::bound(|a, b| a && b, s, t).ok();
    }
}

/// Two types merged by columns, and why they can't be.
pub fn merged(round: &mut Round, a: &Pair, b: &Pair) {
    let conflict = a.ours.merge_conflict(&b.ours, ours::Widening::None).map(|it| (it.path, it.left, it.right));
    let merged = models::merge_columns(&a.theirs, &b.theirs).ok();
    let all = ours::DType::merge_all([&a.ours, &b.ours, &a.ours], ours::Widening::None)
        .map_err(|it| (it.path, it.left, it.right));
    same! { round, format!("{} and {}", a.text(), b.text());
        "merge_columns" => Some(a.ours.merge_columns(&b.ours, ours::Widening::None)), merged;
        "merge_conflict" => Some(conflict), models::merge_conflict(&a.theirs, &b.theirs).ok();
        // (A merge with the first one again changes nothing.)
        "merge_all" => Some(all.ok().flatten()), merged;
    }
}

/// A type as `hash_ignore_nullability` hashes it.
struct Erased<'a>(&'a ours::DType);

impl std::hash::Hash for Erased<'_> {
    fn hash<H: std::hash::Hasher>(&self, state: &mut H) {
        self.0.hash_ignore_nullability(state);
    }
}

/// Constructors, of which some have arguments that they may refuse.
pub fn constructors(round: &mut Round) {
    for kind in [|_| Shape::Null, Shape::Bool, Shape::Utf8, Shape::Binary, Shape::Variant] {
        let nullable = round.random.bool();
        round.pair(kind(nullable));
    }
    of_parts(round);
    union_of_any(round);
    struct_of_any(round);
}

/// Lists and maps by the constructors that take what becomes a type.
fn of_parts(round: &mut Round) {
    let (key, value) = (generate::shape(&mut round.random), generate::leaf(&mut round.random));
    let (sorted, n) = (round.random.bool(), round.random.bool());
    let (key, value) = (round.pair(key), round.pair(value));
    let about = || format!("{} and {}", key.text(), value.text());
    same! { round, about();
        "DType::fixed_size_list" => ours::DType::fixed_size_list(&value.ours, 7, n.into()),
            theirs::DType::FixedSizeList(value.theirs.clone().into(), 7, n.into());
    }
    both! { round, about(), (key, value) = (&key.ours, &value.ours), (&key.theirs, &value.theirs);
        "DType::list" => dtype::DType::list(value.clone(), n.into());
        "DType::map" => dtype::DType::map(key.clone(), value.clone(), sorted, n.into());
        "MapDType::try_new" => dtype::MapDType::try_new(key.clone(), value.clone(), sorted);
    }
}

/// Unions of names and tags that may repeat, of none, of more than 256, and now and then of more types or tags than
/// names.
fn union_of_any(round: &mut Round) {
    let random = &mut round.random;
    let count = if random.one_in(200) { 250 + random.below(10) } else { random.below(5) };
    let is_many = count > 200;
    let names: Vec<String> =
        (0..count).map(|at| if is_many { format!("n{at}") } else { generate::name(random) }).collect();
    let [types, tags] = [(); 2].map(|()| count + usize::from(random.one_in(20)));
    let tags: Vec<u8> = (0..tags).map(|_| random.below(if is_many { 256 } else { 8 }) as u8).collect();
    let dtypes: Vec<Shape> = (0..types).map(|_| generate::leaf(random)).collect();
    let skipped = usize::from(round.is_spoiled && count > 0);
    let here = (&names[..], dtypes.iter().map(Shape::ours), &tags[..]);
    let there = (&names[skipped..], dtypes[skipped..].iter().map(Shape::theirs), &tags[skipped..]);
    both! { round, format!("{names:?} with {tags:?}"), (names, dtypes, tags) = here.clone(), there.clone();
        "UnionVariants::new" =>
            dtype::UnionVariants::new(names.iter().map(String::as_str).collect(), dtypes.collect());
        "UnionVariants::try_new" =>
            dtype::UnionVariants::try_new(names.iter().map(String::as_str).collect(), dtypes.collect(), tags.to_vec());
    }
}

/// Structs by each of their constructors, of names that may repeat, and now and then of more types than names.
fn struct_of_any(round: &mut Round) {
    let random = &mut round.random;
    let (count, more, n) = (random.below(6), usize::from(random.one_in(20)), random.bool());
    let names: Vec<String> = (0..count).map(|_| generate::name(random)).collect();
    let dtypes: Vec<Shape> = (0..count + more).map(|_| generate::leaf(random)).collect();
    let their_names = round.or_spoiled(names.clone(), vec!["spoiled".to_owned(); dtypes.len()]);
    let (here, there) = (dtypes.iter().map(Shape::ours), dtypes.iter().map(Shape::theirs));
    let (here, there) = ((names.iter().map(String::as_str), here), (their_names.iter().map(String::as_str), there));
    both! { round, format!("{names:?} of {dtypes:?}"), (names, dtypes) = here.clone(), there.clone();
        "StructFields::new" => caught(|| dtype::StructFields::new(names.collect(), dtypes.collect()));
        "StructFields::from_fields" =>
            caught(|| dtype::StructFields::from_fields(names.collect(), dtypes.map(Into::into).collect()));
        "StructFields::from_iter" => names.zip(dtypes).collect::<dtype::StructFields>();
        "DType::struct_" => dtype::DType::struct_(names.zip(dtypes), n.into());
    }
    let one = || theirs::StructFields::from_iter([("a", theirs::DType::Null)]);
    same! { round, "no fields".to_owned();
        "StructFields::empty" => ours::StructFields::empty(), round.or_spoiled(theirs::StructFields::empty(), one());
        "StructFields::default" => ours::StructFields::default(), round.or_spoiled(Default::default(), one());
    }
}
