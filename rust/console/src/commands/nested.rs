// SPDX-License-Identifier: Apache-2.0
// SPDX-FileCopyrightText: Copyright the Vortex contributors

//! The commands on structs, unions and maps.

use super::prelude::*;
use crate::argument::{Index, Tag, Tags};
use vortex_logical_types::fallible::Vec as List;

pub const STRUCTS: &[Row] = rows! {
    ["names", "S", r#"{a=i32, "b c"=utf8}"#, "the names of the fields"] (fields: StructFields => fields.names())
    ["nfields", "S", "{a=i32, b=utf8}", "the number of fields"] (fields: StructFields => fields.nfields())
    ["field_name", "I S", "1 {a=i32, b=utf8}", "the name of the field at this index, or none"] (index: Index, fields: StructFields => fields.field_name(index.0))
    ["find", "NAME S", "b {a=i32, b=utf8}", "the index of the first field of this name, or none"] (name: FieldName, fields: StructFields => fields.find(name.as_str()))
    ["find_counted", "NAME S", "b {a=i32, b=utf8}", "two values: the index of the first field of this name, or none; and the number of names that were compared to find it"] (name: FieldName, fields: StructFields => fields.find_counted(name.as_str()))
    ["field", "NAME S", "b {a=i32, b=utf8}", "the type of the first field of this name, or none"] (name: FieldName, fields: StructFields => fields.field(name.as_str()))
    ["field_by_index", "I S", "1 {a=i32, b=utf8}", "the type of the field at this index, or none"] (index: Index, fields: StructFields => fields.field_by_index(index.0))
    ["fields", "S", "{a=i32, b=utf8}", "the types of the fields, in order"] (fields: StructFields => Joined(" ", fields.fields()))
    ["field_dtypes", "S", "{}", "the types of the fields, in order. The answer is the same as that of fields, but the call returns each type as a FieldDType."] (fields: StructFields => Joined(" ", fields.field_dtypes()))
    ["project", "NAMES S", "int_col,x {int_col=i32?}", "the struct of the fields with these names, in the order of the names", "FieldNotFound (16)"] (names: FieldNames, fields: StructFields => project(&fields, &names)?)
    ["without_field", "I S", "0 {a=i32, b=utf8}", "the struct without the field at this index", "IndexOutOfBounds (17)"] (index: Index, fields: StructFields => fields.without_field(index.0)?)
    ["disjoint_merge", "S S", "{a=i32} {b=utf8}", "the struct of the fields of both", "DuplicateNames (18)"] (fields: StructFields, other: StructFields => disjoint_merge(&fields, &other)?)
    ["push_field", "NAME T S", "c u8 {a=i32, b=utf8}", "the struct with one more field at the end"] (name: FieldName, dtype: DType, fields: StructFields => fields.try_push_field(name, dtype)?)
    ["with_field", "NAME T S", "a u8 {a=i32, b=utf8}", "the struct with the type of the first field of this name replaced, or with one more field at the end if there is none"] (name: FieldName, dtype: DType, fields: StructFields => fields.try_with_field(name, dtype)?)
    ["with_field_at", "I NAME T S", "1 c u8 {a=i32, b=utf8}", "the struct with one more field at this index", "IndexOutOfBounds (17)"] (index: Index, name: FieldName, dtype: DType, fields: StructFields => fields.with_field_at(index.0, name, dtype)?)
    ["with_fields_renamed", "NAMES NAMES S", "a,b b,a {a=i32, b=utf8}", "the struct whose fields have the second names in place of the first names", "DuplicateNames (18); condition: needs as many new names as old names"] (old: FieldNames, new: FieldNames, fields: StructFields => with_fields_renamed(&fields, old, new)?)
    ["with_fields_renamed_allowing_repeats", "NAMES NAMES S", "a b {a=i32, b=utf8}", "the same, even if a name then occurs twice", "condition: needs as many new names as old names"] (old: FieldNames, new: FieldNames, fields: StructFields => fields.try_with_fields_renamed_allowing_repeats(&renames(old, new)?)?)
    ["fields_text", "S", "{a=i32}?", "the text that the library prints of the fields"] (fields: StructFields => Shown(&fields))
    ["indented", "S", "{a={b=i32}}", "the text of the fields on lines of their own, indented"] (fields: StructFields => Shown(&fields.try_indented()?))
    ["fields_copy", "S", "{a=i32}", "a copy of the fields"] (fields: StructFields => fields.try_clone()?)
    ["struct_new", "NAMES T..", "a,b i32 utf8", "the struct of these names and types", "condition: needs as many names as types"] (names: FieldNames, dtypes: Vec<DType>; if names.len() == dtypes.len() => StructFields::try_new(names, dtypes.into())?)
    ["struct_from_fields", "NAMES T..", "a,b i32 utf8", "the struct of these names and field types", "condition: needs as many names as types"] (names: FieldNames, dtypes: Vec<FieldDType>; if names.len() == dtypes.len() => StructFields::try_from_fields(names, dtypes.into())?)
    ["struct_from_iter", "NAMES T..", "a,b i32", "the struct of an iterator over these names and field types", "condition: needs as many names as types"] (names: FieldNames, dtypes: Vec<FieldDType>; if names.len() == dtypes.len() => StructFields::try_from_iter(names.into_iter().zip(dtypes))?)
    ["struct_empty", "", "", "the struct without fields"] (=> StructFields::try_empty()?)
};

pub const UNIONS: &[Row] = rows! {
    ["variant_names", "U", "union(a=i32, b=utf8)", "the names of the variants"] (variants: UnionVariants => variants.names())
    ["variants_len", "U", "union(a=i32, b=utf8)", "the number of variants"] (variants: UnionVariants => variants.len())
    ["variants_is_empty", "U", "union(a=i32)", "whether there is no variant"] (variants: UnionVariants => variants.is_empty())
    ["is_consecutive", "U", "union(a@5=i32, b@9=utf8)", "whether the tags are 0, 1, 2 and so on"] (variants: UnionVariants => variants.is_consecutive())
    ["type_ids", "U", "union(a@5=i32, b@9=utf8)", "the tags of the variants"] (variants: UnionVariants => Joined(",", variants.type_ids()))
    ["find_variant", "NAME U", "b union(a=i32, b=utf8)", "the index of the variant of this name, or none"] (name: FieldName, variants: UnionVariants => variants.find(name.as_str()))
    ["variant", "NAME U", "b union(a=i32, b=utf8)", "the type of the variant of this name, or none"] (name: FieldName, variants: UnionVariants => variants.variant(name.as_str()))
    ["variant_by_index", "I U", "1 union(a=i32, b=utf8)", "the type of the variant at this index, or none"] (index: Index, variants: UnionVariants => variants.variant_by_index(index.0))
    ["variants", "U", "union(a=i32, b=utf8)", "the types of the variants, in order"] (variants: UnionVariants => Joined(" ", variants.variants()))
    ["tag_to_child_index", "TAG U", "9 union(a@5=i32, b@9=utf8)", "the index of the variant with this tag, or none"] (tag: Tag, variants: UnionVariants => variants.tag_to_child_index(tag.0))
    ["child_index_to_tag", "I U", "1 union(a@5=i32, b@9=utf8)", "the tag of the variant at this index", "condition: needs an index in range"] (index: Index, variants: UnionVariants; if index.0 < variants.len() => variants.child_index_to_tag(index.0))
    ["variants_text", "U", "union(a@5=i32, b@9=utf8)?", "the text that the library prints of the variants"] (variants: UnionVariants => Shown(&variants))
    ["variants_copy", "U", "union(a=i32)", "a copy of the variants"] (variants: UnionVariants => variants.try_clone()?)
    ["union_new", "NAMES T..", "a,b i32 utf8", "the union of these names and types, with the tags 0, 1, 2 and so on", "UnionTypesLength (10), UnionEmpty (12), UnionTooMany (14), UnionNamesRepeat (15)"] (names: FieldNames, dtypes: Vec<DType> => UnionVariants::new(names, dtypes)?)
    ["union_try_new", "NAMES TAGS T..", "a,b 5,5 i32 utf8", "the union of these names, tags and types", "UnionTypesLength (10), UnionTagsLength (11), UnionEmpty (12), UnionTagsRepeat (13), UnionNamesRepeat (15)"] (names: FieldNames, tags: Tags, dtypes: Vec<DType> => UnionVariants::try_new(names, dtypes, tags.0)?)
};

pub const MAPS: &[Row] = rows! {
    ["map_try_new", "BOOL T T", "true utf8? i32", "the map whose keys have the first type and whose values have the second type. BOOL says whether its keys are sorted.", "MapKeyNullable (9)"] (keys_sorted: bool, key: DType, value: DType => MapDType::try_new(key, value, keys_sorted)?)
    ["key_dtype", "M", "map(utf8, i32?, keys_sorted=true)", "the type of the keys"] (map: MapDType => map.key_dtype())
    ["value_dtype", "M", "map(utf8, i32?, keys_sorted=true)", "the type of the values"] (map: MapDType => map.value_dtype())
    ["entries_dtype", "M", "map(utf8, i32?, keys_sorted=true)", "the struct of a key and a value, the entries' type"] (map: MapDType => map.try_entries_dtype()?)
    ["keys_sorted", "M", "map(utf8, i32?, keys_sorted=true)", "whether the keys are declared sorted"] (map: MapDType => map.keys_sorted())
    ["map_text", "M", "map(utf8, i32, keys_sorted=false)?", "the text that the library prints of the map"] (map: MapDType => Shown(&map))
    ["map_copy", "M", "map(utf8, i32, keys_sorted=false)?", "a copy of the map"] (map: MapDType => map.try_clone()?)
};

/// Returns the fields of these names. The error that a name isn't found ends with the name.
fn project(fields: &StructFields, names: &FieldNames) -> Result<StructFields> {
    fields.project(names.as_slice()).map_err(|error| match error {
        VortexError::FieldNotFound { position } => Error::of_subject(error, names.get(position).map(text_of)),
        other => other.into(),
    })
}

/// Returns the fields of both structs. The error that a name repeats ends with the first such name.
fn disjoint_merge(fields: &StructFields, other: &StructFields) -> Result<StructFields> {
    fields.disjoint_merge(other).map_err(|error| match error {
        VortexError::DuplicateNames => Error::of_subject(error, first_repeated(fields, other).map(text_of)),
        other => other.into(),
    })
}

/// Returns the fields with the new names in place of the old names. The error that a name repeats ends with the name.
fn with_fields_renamed(fields: &StructFields, old: FieldNames, new: FieldNames) -> Result<StructFields> {
    fields
        .try_with_fields_renamed(&renames(old, new)?)?
        .map_err(|name| Error::of_subject(VortexError::DuplicateNames, Some(text_of(&name))))
}

/// Returns the pairs of an old name and a new name.
fn renames(old: FieldNames, new: FieldNames) -> Result<List<(FieldName, FieldName)>> {
    unless(old.len() == new.len(), "needs as many new names as old names")?;
    Ok(old.into_iter().zip(new).collect_in()?)
}

/// Returns the first name, of the fields of both structs in order, that an earlier field has, too.
fn first_repeated<'a>(fields: &'a StructFields, other: &'a StructFields) -> Option<&'a FieldName> {
    let find = |name: &FieldName| match fields.find(name.as_str()) {
        Some(index) => Some(index),
        None => Some(fields.nfields() + other.find(name.as_str())?),
    };
    let mut names = fields.names().iter().chain(other.names()).enumerate();
    names.find(|(index, name)| find(name) != Some(*index)).map(|(_, name)| name)
}
