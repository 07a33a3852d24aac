// SPDX-License-Identifier: Apache-2.0
// SPDX-FileCopyrightText: Copyright the Vortex contributors

//! The commands on names, on paths and their steps, and on masks.

use super::prelude::*;
use super::types::hash_of;
use crate::argument::Index;

pub const NAMES: &[Row] = rows! {
    ["name", "NAME", r#""a b""#, "the name itself, as the console writes it"] (name: FieldName => name)
    ["name_text", "NAME", r#""a\tb""#, "the text that the library prints of the name"] (name: FieldName => Shown(&name))
    ["name_cmp", "NAME NAME", "a B", "how the first name compares to the second, byte by byte"] (name: FieldName, other: FieldName => name.cmp(&other))
    ["name_eq", "NAME NAME", "a A", "whether the two names are equal"] (name: FieldName, other: FieldName => name == other)
    ["name_eq_str", "NAME NAME", "a a", "whether the two are equal. The call takes the second as a text."] (name: FieldName, other: FieldName => name.eq_str(other.as_str()))
    ["name_hash_eq", "NAME NAME", "a a", "whether the standard library's hasher returns the same hash for both names"] (name: FieldName, other: FieldName => hash_of(&name) == hash_of(&other))
    ["names_text", "NAMES", r#"a,"b c""#, "the text that the library prints of the names"] (names: FieldNames => Shown(&names))
    ["names_len", "NAMES", "a,b", "the number of names"] (names: FieldNames => names.len())
    ["names_is_empty", "NAMES", "-", "whether there is no name"] (names: FieldNames => names.is_empty())
    ["names_get", "I NAMES", "2 a,b", "the name at this index, or none"] (index: Index, names: FieldNames => names.get(index.0))
    ["names_at", "I NAMES", "1 a,b", "the name at this index", "condition: needs an index in range"] (index: Index, names: FieldNames; if index.0 < names.len() => &names[index.0])
    ["names_find", "NAME NAMES", "b a,b", "the index of the first occurrence of the name, or none"] (name: FieldName, names: FieldNames => names.find(name.as_str()))
    ["names_eq", "NAMES NAMES", "a,b b,a", "whether the two lists of names are equal"] (names: FieldNames, other: FieldNames => names == other)
    ["names_hash_eq", "NAMES NAMES", "a,b a,b", "whether the standard library's hasher returns the same hash for both lists of names"] (names: FieldNames, other: FieldNames => hash_of(&names) == hash_of(&other))
    ["names_eq_texts", "NAMES NAMES", "a,b a,b", "whether the two lists are equal. The call takes the second as a list of texts."] (names: FieldNames, other: FieldNames => {
        let texts: fallible::Vec<&str> = other.iter().map(FieldName::as_str).collect_in()?;
        names.eq_texts(&texts)
    })
    ["names_copy", "NAMES", "a,b", "a copy of the names"] (names: FieldNames => names.try_clone()?)
    ["names_iter", "NAMES", "a,b", "the names that the iterator over references yields"] (names: FieldNames => Joined(",", names.iter()))
    ["names_into_iter", "NAMES", "a,b", "the names that the consuming iterator yields"] (names: FieldNames => Joined(",", names))
    ["names_left", "I NAMES", "1 a,b,c", "two numbers: how many names the iterator over references has left after I steps, and how many the consuming iterator has left"] (steps: Index, names: FieldNames => {
        let borrowed = left_after(steps.0, names.iter());
        (borrowed, left_after(steps.0, names.into_iter()))
    })
};

pub const PATHS: &[Row] = rows! {
    ["path", "PATH", r#"a.[]."b c""#, "the path itself, as the console writes it"] (path: FieldPath => path)
    ["path_copy", "PATH", "a.[]", "a copy of the path"] (path: FieldPath => path.try_clone()?)
    ["path_text", "PATH", "a.[]", "the text that the library prints of the path"] (path: FieldPath => Shown(&path))
    ["parts", "PATH", "a.[].b", "the steps of the path, separated by spaces"] (path: FieldPath => Joined(" ", path.parts()))
    ["resolve", "PATH T", "a.[].b {a=list({b=u32})?}", "the type at the path, or none"] (path: FieldPath, dtype: DType => path.resolve(&dtype))
    ["exists_in", "PATH T", "a.c {a=list({b=u32})?}", "whether there is a type at the path"] (path: FieldPath, dtype: DType => path.exists_in(&dtype))
    ["with_type_at", "PATH T T", "a.[] {a=list(i32)?, b=u8} utf8", "the type with the part at the path replaced by the second type, or none if there is no part at the path"] (path: FieldPath, dtype: DType, new: DType => dtype.try_with_type_at(&path, &new)?)
    ["overlap", "PATH PATH", "a a.b", "whether one of the two paths is a prefix of the other"] (path: FieldPath, other: FieldPath => path.overlap(&other))
    ["path_eq", "PATH PATH", "a a.b", "whether the two paths are equal"] (path: FieldPath, other: FieldPath => path == other)
    ["path_hash_eq", "PATH PATH", "a a", "whether the standard library's hasher returns the same hash for both paths"] (path: FieldPath, other: FieldPath => hash_of(&path) == hash_of(&other))
    ["is_root", "PATH", ".", "whether the path has no step"] (path: FieldPath => path.is_root())
    ["push", "PATH STEP", "a.b []", "the path with one more step"] (path: FieldPath, step: Field => path.try_push(step)?)
    ["step_into", "PATH", "a.b", "the path without its first step, or none at the root"] (path: FieldPath => path.step_into())
    ["starts_with_field", "PATH STEP", "a.b a", "whether the path's first step is this one", "condition: needs a path whose first step is a name, and a name"] (path: FieldPath, step: Field; if step.is_named() && path.parts().first().is_none_or(Field::is_named) => path.starts_with_field(&step))
    ["as_name", "STEP", "[]", "the name of the step, or none"] (step: Field => step.as_name().map(FieldName::try_new).transpose()?)
    ["is_named", "STEP", "a", "whether the step is a name"] (step: Field => step.is_named())
    ["step_text", "STEP", "a", "the text that the library prints of the step"] (step: Field => Shown(&step))
    ["step_from_text", "NAME", r#""a b""#, "the step of this name"] (name: FieldName => Field::try_from_text(name.as_str())?)
    ["step_eq", "STEP STEP", "a []", "whether the two steps are equal"] (step: Field, other: Field => step == other)
    ["step_hash_eq", "STEP STEP", "a a", "whether the standard library's hasher returns the same hash for both steps"] (step: Field, other: Field => hash_of(&step) == hash_of(&other))
    ["from_step", "STEP", "[]", "the path of one step"] (step: Field => FieldPath::try_from_field(step)?)
    ["from_steps", "STEP..", "a [] b", "the path of these steps"] (steps: Vec<Field> => FieldPath::try_from_iter(steps)?)
    ["from_name", "NAME", "a", "the path of one name"] (name: FieldName => FieldPath::try_from_name(name)?)
};

pub const MASKS: &[Row] = rows! {
    ["mask", "MASK", "prefix a.b", "the mask itself"] (mask: FieldMask => mask.try_clone()?)
    ["mask_step_into", "MASK", "exact .", "the mask of what is selected below the first step of the mask's path. For example, for prefix a.b the answer is prefix b.", "ExactRoot (20)"] (mask: FieldMask => mask.step_into()?)
    ["starting_field", "MASK", "all", "the first step of the mask's path, or none at the root", "AllMask (21)"] (mask: FieldMask => mask.starting_field()?)
    ["matches_all", "MASK", "prefix .", "whether the mask selects every path"] (mask: FieldMask => mask.matches_all())
    ["matches_root", "MASK", "exact .", "whether the mask selects the root"] (mask: FieldMask => mask.matches_root())
    ["mask_eq", "MASK MASK", "all prefix .", "whether the two masks are equal"] (mask: FieldMask, other: FieldMask => mask == other)
};

/// Returns how many names an iterator has left after so many steps.
fn left_after(steps: usize, mut names: impl ExactSizeIterator) -> usize {
    names.by_ref().take(steps).for_each(drop);
    names.len()
}
