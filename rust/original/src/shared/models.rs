// SPDX-License-Identifier: Apache-2.0
// SPDX-FileCopyrightText: Copyright the Vortex contributors

//! What the library answers where the original doesn't answer it: by a plain model of calls that it doesn't have, or,
//! where the library departs from it (docs/DIFFERENCES.md), by a rule with its reason. All else is the original's.

use std::collections::HashSet;
use std::panic::{self, AssertUnwindSafe};
use std::sync::Arc;

use vortex_array::dtype::extension::ForeignExtDType;
use vortex_array::dtype::proto::dtype as pb;
use vortex_array::dtype::proto::dtype::d_type::DtypeType;
use vortex_array::dtype::{DType, Field, FieldName, FieldPath, MapDType, Nullability, StructFields, UnionVariants};
use vortex_session::VortexSession;

use crate::errors::refused;
use crate::types::{Answer, Stop, name};

/// The types that a type is made of.
fn parts(dtype: &DType) -> Vec<DType> {
    match dtype {
        DType::List(element, _) | DType::FixedSizeList(element, ..) => vec![element.as_ref().clone()],
        DType::Map(map, _) => vec![map.key_dtype(), map.value_dtype()],
        DType::Struct(fields, _) => fields.fields().collect(),
        DType::Union(variants, _) => variants.variants().collect(),
        DType::Extension(extension) => vec![extension.storage_dtype().clone()],
        _ => Vec::new(),
    }
}

/// Whether the type is nullable by a mark of its own.
fn is_marked(dtype: &DType) -> bool {
    !matches!(dtype, DType::Null | DType::Extension(_)) && dtype.is_nullable()
}

/// The original looks at the outer nullability of the first type alone. Here a is a subset of b where they are equal
/// but for nullabilities and b is nullable wherever a is: then each value of a is a value of b.
pub fn is_subset(a: &DType, b: &DType) -> bool {
    fn holds(a: &DType, b: &DType) -> bool {
        (!is_marked(a) || is_marked(b)) && parts(a).iter().zip(&parts(b)).all(|(a, b)| holds(a, b))
    }
    a.eq_ignore_nullability(b) && holds(a, b)
}

/// The original multiplies unchecked, and panics where a sum is too large. Here a variable part that the size needs
/// gives none, at size 0 too; else a width of the whole or of a part beyond `usize` is the error 19. Widths of types
/// without parts are the original's, and each answer where nothing is wider, no sum before a variable field either.
pub fn element_size(dtype: &DType) -> Answer<Option<usize>> {
    fn width(dtype: &DType, widest: &mut u128) -> Option<u128> {
        let total = match dtype {
            DType::List(..) | DType::Map(..) | DType::Union(..) => None,
            DType::Struct(fields, _) => {
                let widths: Vec<Option<u128>> = fields.fields().map(|field| width(&field, widest)).collect();
                *widest = (*widest).max(widths.iter().flatten().sum());
                widths.into_iter().sum()
            }
            DType::FixedSizeList(element, size, _) => width(element, widest).map(|one| one * u128::from(*size)),
            DType::Extension(extension) => width(extension.storage_dtype(), widest),
            _ => dtype.element_size().map(|it| it as u128),
        };
        *widest = (*widest).max(total.unwrap_or(0));
        total
    }
    let mut widest = 0;
    let total = width(dtype, &mut widest);
    if widest <= usize::MAX as u128 {
        let total = total.map(|it| it as usize);
        assert_eq!(total, dtype.element_size(), "the original has another width");
        return Ok(total);
    }
    total.map_or(Ok(None), |_| Err(refused(19, &[])))
}

/// The original's element step gives none at a fixed-size list; here the element, as `Field::ElementType` documents.
pub fn resolve(path: &FieldPath, dtype: &DType) -> Option<DType> {
    path.resolve(dtype.clone()).or_else(|| {
        let elements = path.parts().iter().enumerate().filter(|(_, step)| !step.is_named());
        elements.map(|(place, _)| path.parts().split_at(place)).find_map(|(above, below)| {
            match FieldPath::from(above.to_vec()).resolve(dtype.clone()) {
                Some(DType::FixedSizeList(element, ..)) => Some(resolve(&below[1..].to_vec().into(), &element)),
                _ => None,
            }
        })?
    })
}

/// The original panics at the root, where here nothing starts with a field. Steps but names are a caller's condition.
pub fn starts_with_field(path: &FieldPath, step: &Field) -> bool {
    !(path.is_root() && step.is_named()) && path.starts_with_field(step)
}

/// The original names what it doesn't find; here the error 16 has the position in the projection, and the console the name.
pub fn project(names: &[FieldName], fields: &StructFields) -> Answer<StructFields> {
    fields.project(names).map_err(|_| {
        let missing = names.iter().position(|name| fields.find(name).is_none()).expect("a name isn't found");
        let Stop(text) = refused(16, &[("position", &missing.to_string())]);
        Stop(format!("{text}: {}", name(names[missing].as_ref())))
    })
}

/// The console names the first column that an earlier one is called like, which the original's error doesn't.
pub fn disjoint_merge(a: &StructFields, b: &StructFields) -> Answer<StructFields> {
    a.disjoint_merge(b).map_err(|error| {
        let Stop(text) = error.into();
        let names: Vec<&FieldName> = a.names().iter().chain(b.names().iter()).collect();
        let repeated = (0..names.len()).find(|&place| names[..place].contains(&names[place])).expect("a name repeats");
        Stop(format!("{text}: {}", name(names[repeated].as_ref())))
    })
}

/// The original has no test; it panics where it can't.
pub fn can_be_nonnullable(dtype: &DType) -> bool {
    panic::catch_unwind(AssertUnwindSafe(|| dtype.as_nonnullable())).is_ok()
}

/// The original's cover compares pairs of paths. Here it visits each beginning of those that it gives, the root too.
pub fn visits(cover: &[FieldPath]) -> usize {
    let beginnings = cover.iter().flat_map(|path| (1..=path.parts().len()).map(|end| &path.parts()[..end]));
    beginnings.collect::<HashSet<_>>().len() + 1
}

/// The original counts nothing. Here a search by halves compares as many names as are in the longest bucket
/// (`dtype_base/specs/Comparisons.antt`): one, and one for each binary digit of their number less one.
pub fn comparisons(fields: &StructFields) -> u32 {
    let buckets = || fields.names().iter().map(|it| bucket_of(fields.nfields(), it));
    let longest = buckets().map(|it| buckets().filter(|other| *other == it).count()).max();
    longest.map_or(0, |it| usize::BITS - (it - 1).leading_zeros() + 1)
}

/// The bucket of a name, as `dtype_base/specs/NameHashes.antt` defines it.
fn bucket_of(count: usize, name: &FieldName) -> u128 {
    let text = name.as_ref().as_bytes();
    let word = |at: usize| text[at..].iter().chain(&[0; 8]).take(8).fold(0, |word, byte| word << 8 | u128::from(*byte));
    let starts = (0..text.len().saturating_sub(1) / 8).map(|k| 8 * k).chain([text.len().saturating_sub(8)]);
    let hash = starts.map(word).fold(text.len() as u128, |hash, word| {
        let product = (hash + word) % (1 << 64) * 0x9E37_79B9_7F4A_7C15;
        ((product >> 64) + product % (1 << 64)) % (1 << 64)
    });
    let bits = usize::BITS - count.leading_zeros();
    ((hash >> bits << bits) * count as u128) >> 64
}

/// The messages within a message, as they are read.
fn children(message: &pb::DType) -> Vec<Option<&pb::DType>> {
    match &message.dtype_type {
        Some(DtypeType::List(it)) => vec![it.element_type.as_deref()],
        Some(DtypeType::FixedSizeList(it)) => vec![it.element_type.as_deref()],
        Some(DtypeType::Extension(it)) => vec![it.storage_dtype.as_deref()],
        Some(DtypeType::Map(it)) => vec![it.key_type.as_deref(), it.value_type.as_deref()],
        Some(DtypeType::Struct(it)) => it.dtypes.iter().map(Some).collect(),
        Some(DtypeType::Union(it)) => it.dtypes.iter().map(Some).collect(),
        _ => Vec::new(),
    }
}

/// The original takes an unknown primitive number as `u8`, and panics at a struct of more names than types, or fewer.
/// Here they are errors, 25, to which the console adds the number, and 32. Faults are met in the order of reading: each part before what holds it, and a part
/// that is absent before the parts after it; all others are those that the original meets.
pub fn read(session: &VortexSession, message: &pb::DType) -> Answer<DType> {
    for child in children(message) {
        child.map_or_else(|| Ok(DType::from_proto(message, session)?), |child| read(session, child))?;
    }
    match &message.dtype_type {
        Some(DtypeType::Primitive(it)) if !(0..=10).contains(&it.r#type) => {
            let Stop(text) = refused(25, &[]);
            Err(Stop(format!("{text}: {}; U8 to F64 have the numbers 0 to 10", it.r#type)))
        }
        Some(DtypeType::Struct(it)) if it.names.len() != it.dtypes.len() => Err(refused(32, &[])),
        _ => Ok(DType::from_proto(message, session)?),
    }
}

/// The type with other parts, and with this nullability where it has one of its own.
fn with_parts(dtype: &DType, mut parts: Vec<DType>, nullability: Nullability) -> Answer<DType> {
    Ok(match dtype {
        DType::Null => DType::Null,
        DType::List(..) => DType::List(Arc::new(parts.remove(0)), nullability),
        DType::FixedSizeList(_, size, _) => DType::FixedSizeList(Arc::new(parts.remove(0)), *size, nullability),
        DType::Map(map, _) => {
            let (key, value) = (parts.remove(0), parts.remove(0));
            DType::Map(MapDType::try_new(key, value, map.keys_sorted())?, nullability)
        }
        DType::Struct(fields, _) => DType::Struct(StructFields::new(fields.names().clone(), parts), nullability),
        DType::Union(it, _) => {
            let variants = UnionVariants::try_new(it.names().clone(), parts, it.type_ids().to_vec())?;
            DType::Union(variants, nullability)
        }
        DType::Extension(it) => {
            DType::Extension(ForeignExtDType::from_parts(it.id(), it.serialize_metadata()?, parts.remove(0))?)
        }
        _ => dtype.with_nullability(nullability),
    })
}

/// The least type that takes the values of two, and the greatest whose values two have: of types that are equal but for
/// nullabilities the first type, at each node nullable where the rule says so of the marks of both.
pub fn bound(rule: fn(bool, bool) -> bool, a: &DType, b: &DType) -> Answer<Option<DType>> {
    fn marked(rule: fn(bool, bool) -> bool, a: &DType, b: &DType) -> Answer<DType> {
        let inner = parts(a).iter().zip(&parts(b)).map(|(a, b)| marked(rule, a, b)).collect::<Answer<Vec<DType>>>()?;
        with_parts(a, inner, rule(is_marked(a), is_marked(b)).into())
    }
    a.eq_ignore_nullability(b).then(|| marked(rule, a, b)).transpose()
}

/// The fields of a struct beside those of another: for each field its name, its type, and the type of the field of that
/// name in the other. A column is found by its name, so there are none where a name repeats in one of the two.
fn columns(a: &StructFields, b: &StructFields) -> Option<Vec<(FieldName, DType, Option<DType>)>> {
    let repeats = |it: &StructFields| it.names().iter().collect::<HashSet<_>>().len() < it.nfields();
    if repeats(a) || repeats(b) {
        return None;
    }
    Some(a.names().iter().zip(a.fields()).map(|(name, here)| (name.clone(), here, b.field(name))).collect())
}

/// The least type as which both types can be read: by adding nulls for columns that a struct lacks, and by putting its
/// columns into another order. It has the columns of the first, each merged with that of its name in the second, and
/// then the columns that the first lacks. What one of the two lacks is nullable. Structs in which a name repeats have
/// their names in the same order, and are merged part by part. Unions are merged in the same way as columns, by tag and
/// name, but that what one of the two lacks stays as it is. The keys of a map are sorted if
/// those of both are, and if the key types are equal but for nullabilities: a reader that puts the columns of a key into
/// another order, or adds one, has sorted keys no more. Null is a value of every nullable type, so a type is merged with
/// `null` to its nullable form. What else has no parts is merged by nullability alone.
pub fn merge_columns(a: &DType, b: &DType) -> Answer<Option<DType>> {
    match (a, b) {
        (DType::Null, it) | (it, DType::Null) => return Ok(Some(it.as_nullable())),
        _ => {}
    }
    let by_nullability = || bound(|a, b| a || b, a, b);
    let nullability = (is_marked(a) || is_marked(b)).into();
    let are_alike = match (a, b) {
        (DType::Struct(fields, _), DType::Struct(others, _)) => {
            if let (Some(here), Some(there)) = (columns(fields, others), columns(others, fields)) {
                let mut merged = Vec::new();
                for (name, dtype, other) in here {
                    let column =
                        other.map_or_else(|| Ok(Some(dtype.as_nullable())), |it| merge_columns(&dtype, &it))?;
                    let Some(column) = column else {
                        return Ok(None);
                    };
                    merged.push((name, column));
                }
                let further = there.into_iter().filter(|(_, _, here)| here.is_none());
                merged.extend(further.map(|(name, dtype, _)| (name, dtype.as_nullable())));
                return Ok(Some(DType::Struct(StructFields::from_iter(merged), nullability)));
            }
            fields.names() == others.names()
        }
        (DType::Union(variants, _), DType::Union(others, _)) => {
            let merged = merge_variants(variants, others)?;
            return Ok(merged.map(|it| DType::Union(it, nullability)));
        }
        (DType::List(..), DType::List(..)) | (DType::Map(..), DType::Map(..)) => true,
        (DType::FixedSizeList(_, size, _), DType::FixedSizeList(_, other, _)) => size == other,
        (DType::Extension(it), DType::Extension(other)) => {
            it.id() == other.id() && it.serialize_metadata()? == other.serialize_metadata()?
        }
        _ => return by_nullability(),
    };
    if !are_alike {
        return Ok(None);
    }
    let mut merged = Vec::new();
    for (part, other) in parts(a).iter().zip(&parts(b)) {
        merged.extend(merge_columns(part, other)?);
    }
    if merged.len() != parts(a).len() {
        return Ok(None);
    }
    if let (DType::Map(map, _), DType::Map(other, _)) = (a, b) {
        let are_same_keys = parts(a)[0].eq_ignore_nullability(&parts(b)[0]);
        let keys_sorted = map.keys_sorted() && other.keys_sorted() && are_same_keys;
        // (a merged key is non-nullable, because both keys are)
        let merged = MapDType::try_new(merged.remove(0), merged.remove(0), keys_sorted)?;
        return Ok(Some(DType::Map(merged, nullability)));
    }
    with_parts(a, merged, nullability).map(Some)
}

/// The variants of the first union, each merged with the one of its tag and its name in the second, and then those that
/// only the second has; none where a tag or a name repeats then.
fn merge_variants(variants: &UnionVariants, others: &UnionVariants) -> Answer<Option<UnionVariants>> {
    type Key = (FieldName, u8);
    let keyed = |it: &UnionVariants| -> Vec<(Key, DType)> {
        let keys = it.names().iter().cloned().zip(it.type_ids().iter().copied());
        keys.zip(it.variants()).collect()
    };
    let (mut merged, mut further) = (Vec::new(), keyed(others));
    for (key, dtype) in keyed(variants) {
        let place = further.iter().position(|(other, _)| *other == key);
        let both = match place.map(|place| further.remove(place)) {
            Some((_, other)) => merge_columns(&dtype, &other)?,
            None => Some(dtype),
        };
        let Some(both) = both else {
            return Ok(None);
        };
        merged.push((key, both));
    }
    merged.extend(further);
    let names: HashSet<&FieldName> = merged.iter().map(|((name, _), _)| name).collect();
    let tags: HashSet<u8> = merged.iter().map(|((_, tag), _)| *tag).collect();
    if names.len() < merged.len() || tags.len() < merged.len() {
        return Ok(None);
    }
    let (keys, dtypes): (Vec<Key>, Vec<DType>) = merged.into_iter().unzip();
    let (names, tags): (Vec<FieldName>, Vec<u8>) = keys.into_iter().unzip();
    Ok(Some(UnionVariants::try_new(names.into(), dtypes, tags)?))
}

/// The least type as which all of these types can be read, which are merged by columns one after another.
pub fn merge_all(first: &DType, others: &[DType]) -> Answer<Option<DType>> {
    let mut merged = first.clone();
    for other in others {
        let Some(both) = merge_columns(&merged, other)? else {
            return Ok(None);
        };
        merged = both;
    }
    Ok(Some(merged))
}

/// The first place at which two types can't be merged by columns, and the two types there: of the columns of a struct
/// that the other has too, and of the elements of lists, the first that can't be merged, and the place in it.
pub fn merge_conflict(a: &DType, b: &DType) -> Answer<Option<(FieldPath, DType, DType)>> {
    if merge_columns(a, b)?.is_some() {
        return Ok(None);
    }
    let inner: Vec<(Field, DType, Option<DType>)> = match (a, b) {
        (DType::Struct(fields, _), DType::Struct(others, _)) => {
            let named = columns(fields, others).into_iter().flatten();
            named.map(|(name, here, there)| (Field::Name(name), here, there)).collect()
        }
        (DType::FixedSizeList(_, size, _), DType::FixedSizeList(_, other, _)) if size != other => Vec::new(),
        (DType::List(..), DType::List(..)) | (DType::FixedSizeList(..), DType::FixedSizeList(..)) => {
            vec![(Field::ElementType, parts(a).remove(0), parts(b).pop())]
        }
        _ => Vec::new(),
    };
    for (step, here, there) in inner.into_iter().filter_map(|(step, here, there)| Some((step, here, there?))) {
        if let Some((path, left, right)) = merge_conflict(&here, &there)? {
            let steps: Vec<Field> = std::iter::once(step).chain(path.parts().iter().cloned()).collect();
            return Ok(Some((steps.into(), left, right)));
        }
    }
    Ok(Some((FieldPath::root(), a.clone(), b.clone())))
}

/// The step to each of the parts into which paths lead.
fn steps(dtype: &DType) -> Vec<Field> {
    match dtype {
        DType::List(..) | DType::FixedSizeList(..) => vec![Field::ElementType],
        DType::Struct(fields, _) => fields.names().iter().cloned().map(Field::Name).collect(),
        _ => Vec::new(),
    }
}

/// The type with the part at a path replaced, none where no part is there. Of the fields of a name the first counts.
pub fn with_type_at(dtype: &DType, path: &[Field], new: &DType) -> Answer<Option<DType>> {
    let Some((first, rest)) = path.split_first() else {
        return Ok(Some(new.clone()));
    };
    let mut parts = parts(dtype);
    let Some(place) = steps(dtype).iter().position(|step| step == first) else {
        return Ok(None);
    };
    let Some(part) = with_type_at(&parts[place], rest, new)? else {
        return Ok(None);
    };
    parts[place] = part;
    with_parts(dtype, parts, is_marked(dtype).into()).map(Some)
}

/// A type without what the paths lead to, none where nothing is left of it: a list goes with its element, and a struct
/// stays. Each field of a name counts.
pub fn without_paths(dtype: &DType, paths: &[&[Field]]) -> Answer<Option<DType>> {
    if paths.iter().any(|path| path.is_empty()) {
        return Ok(None);
    }
    let steps = steps(dtype);
    if steps.is_empty() {
        return Ok(Some(dtype.clone()));
    }
    let (mut names, mut left) = (Vec::new(), Vec::new());
    for (step, part) in steps.iter().zip(parts(dtype)) {
        let below = paths
            .iter()
            .filter_map(|path| path.split_first().filter(|(first, _)| *first == step).map(|(_, rest)| rest));
        if let Some(part) = without_paths(&part, &below.collect::<Vec<_>>())? {
            names.extend(step.as_name().map(FieldName::from));
            left.push(part);
        }
    }
    match dtype {
        DType::Struct(_, nullability) => Ok(Some(DType::Struct(StructFields::new(names.into(), left), *nullability))),
        _ if left.is_empty() => Ok(None),
        _ => with_parts(dtype, left, is_marked(dtype).into()).map(Some),
    }
}

/// The projection of a type to paths, none where no path exists in it: a part is whole where a path ends at it, else
/// what is kept of it by the paths through it. Of the fields of a name the first counts.
pub fn project_paths(dtype: &DType, paths: &[&[Field]]) -> Answer<Option<DType>> {
    if paths.iter().any(|path| path.is_empty()) {
        return Ok(Some(dtype.clone()));
    }
    let steps = steps(dtype);
    let (mut names, mut kept) = (Vec::new(), Vec::new());
    for (place, part) in parts(dtype).iter().enumerate().take(steps.len()) {
        let is_here = |(step, _): &(&Field, &[Field])| **step == steps[place];
        let below = paths.iter().filter_map(|path| path.split_first().filter(is_here).map(|(_, rest)| rest));
        if !steps[..place].contains(&steps[place])
            && let Some(part) = project_paths(part, &below.collect::<Vec<_>>())?
        {
            names.extend(steps[place].as_name().map(FieldName::from));
            kept.push(part);
        }
    }
    match dtype {
        _ if kept.is_empty() => Ok(None),
        DType::Struct(_, nullability) => Ok(Some(DType::Struct(StructFields::new(names.into(), kept), *nullability))),
        _ => with_parts(dtype, kept, is_marked(dtype).into()).map(Some),
    }
}
