// SPDX-License-Identifier: Apache-2.0
// SPDX-FileCopyrightText: Copyright the Vortex contributors

//! What the original has no call for, written as a program would write it with the original's calls, to be measured. (The
//! models say what is right, and don't care how long that takes.)

use std::collections::BTreeMap;
use std::sync::Arc;

use vortex_array::dtype::{DType, Field, StructFields};

/// The least type that takes the values of both, a copy where one is it; `None` where more than nullability differs.
pub fn merged(a: &DType, b: &DType) -> Option<DType> {
    if a == b {
        return Some(a.clone());
    }
    let nullability = a.nullability() | b.nullability();
    match (a, b) {
        (DType::Struct(a, _), DType::Struct(b, _)) if a.names() == b.names() => {
            let fields = a.fields().zip(b.fields()).map(|(a, b)| merged(&a, &b)).collect::<Option<Vec<DType>>>()?;
            Some(DType::Struct(StructFields::new(a.names().clone(), fields), nullability))
        }
        (DType::List(a, _), DType::List(b, _)) => Some(DType::List(Arc::new(merged(a, b)?), nullability)),
        (DType::FixedSizeList(a, m, _), DType::FixedSizeList(b, n, _)) if m == n => {
            Some(DType::FixedSizeList(Arc::new(merged(a, b)?), *m, nullability))
        }
        _ if a.eq_ignore_nullability(b) => Some(a.with_nullability(nullability)),
        _ => None,
    }
}

/// The struct that has the columns of both, by name: those of the first in their order, then those of the second that the
/// first lacks. What one of them lacks is nullable. `None` where the types of a column differ in more than nullability.
pub fn merged_columns(a: &DType, b: &DType) -> Option<DType> {
    let (DType::Struct(one, _), DType::Struct(other, _)) = (a, b) else {
        return merged(a, b);
    };
    let mut columns = Vec::with_capacity(one.nfields());
    for (name, dtype) in one.names().iter().zip(one.fields()) {
        let column = match other.find(name) {
            Some(place) => merged_columns(&dtype, &other.field_by_index(place)?)?,
            None => dtype.as_nullable(),
        };
        columns.push((name.clone(), column));
    }
    for (name, dtype) in other.names().iter().zip(other.fields()) {
        if one.find(name).is_none() {
            columns.push((name.clone(), dtype.as_nullable()));
        }
    }
    Some(DType::Struct(StructFields::from_iter(columns), a.nullability() | b.nullability()))
}

/// The part of a type that a reader of the paths opens: a part is whole where a path ends at it.
pub fn projected(dtype: &DType, paths: &[&[Field]]) -> Option<DType> {
    if paths.iter().any(|path| path.is_empty()) {
        return Some(dtype.clone());
    }
    let inside = || -> Vec<&[Field]> {
        paths.iter().filter_map(|path| path.split_first()).filter(|it| !it.0.is_named()).map(|it| it.1).collect()
    };
    match dtype {
        DType::Struct(fields, nullability) => {
            let mut below: BTreeMap<usize, Vec<&[Field]>> = BTreeMap::new();
            for path in paths {
                if let Some((Field::Name(name), rest)) = path.split_first()
                    && let Some(place) = fields.find(name)
                {
                    below.entry(place).or_default().push(rest);
                }
            }
            let mut kept = Vec::with_capacity(below.len());
            for (place, rest) in below {
                let part = projected(&fields.field_by_index(place)?, &rest);
                kept.extend(part.map(|part| (fields.names()[place].clone(), part)));
            }
            (!kept.is_empty()).then(|| DType::Struct(StructFields::from_iter(kept), *nullability))
        }
        DType::List(element, nullability) => {
            projected(element, &inside()).map(|it| DType::List(Arc::new(it), *nullability))
        }
        DType::FixedSizeList(element, size, nullability) => {
            projected(element, &inside()).map(|it| DType::FixedSizeList(Arc::new(it), *size, *nullability))
        }
        _ => None,
    }
}
