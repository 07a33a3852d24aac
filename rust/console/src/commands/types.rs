// SPDX-License-Identifier: Apache-2.0
// SPDX-FileCopyrightText: Copyright the Vortex contributors

//! The commands on types of every kind, and those that compare two.

use super::prelude::*;
use crate::argument::Size;
use std::hash::{DefaultHasher, Hash, Hasher};

/// Compares what two types of one kind contain. Types of two kinds, or of another, don't meet the condition.
macro_rules! inner {
    ($a:ident, $b:ident, [$($kind:ident)*], |$left:ident, $right:ident| $compared:expr) => {
        match (&$a, &$b) {
            $((DType::$kind($left, ..), DType::$kind($right, ..)) => $compared,)*
            _ => return Err(Error::Condition("needs two types of one such kind")),
        }
    };
}

/// Returns the differences, each as its path and the types before and after.
fn listed(found: Vec<Difference<'_>>) -> Joined<impl Iterator<Item = (FieldPath, Option<&DType>, Option<&DType>)>> {
    Joined("; ", found.into_iter().map(|it| (it.path, it.before, it.after)))
}

pub const TYPES: &[Row] = rows! {
    ["type", "T", r#"{a=list({b=u32})?, "x y"=x.tag[0x6162](utf8?)}"#, "the type itself, as the console writes it"] (dtype: DType => dtype)
    ["copy", "T", "map(utf8, i32?, keys_sorted=true)", "a copy of the type"] (dtype: DType => dtype.try_clone()?)
    ["text", "T", r#"{a=list({b=u32})?, "x y"=x.tag[0x6162](utf8?)}"#, "the text that the library prints of the type"] (dtype: DType => Shown(&dtype))
    ["nullability", "T", "list(i32?)", "the outer nullability of the type; an extension has that of its storage type, and null is nullable"] (dtype: DType => dtype.nullability().long_text())
    ["is_nullable", "T", "variant?", "whether the type is nullable"] (dtype: DType => dtype.is_nullable())
    ["can_be_nonnullable", "T", "null", "whether the type can be made non-nullable. This is true of all types except null and extensions over null."] (dtype: DType => dtype.can_be_nonnullable())
    ["as_nonnullable", "T", "list(i32?)?", "the type, non-nullable", "condition: needs a type that can be non-nullable"] (dtype: DType; if dtype.can_be_nonnullable() => dtype.try_as_nonnullable()?)
    ["as_nullable", "T", "{a=i32}", "the type, nullable"] (dtype: DType => dtype.try_as_nullable()?)
    ["with_nullability", "N T", "Nullable utf8", "the type with this nullability", "condition: needs a type that can be non-nullable"] (n: Nullability, dtype: DType; if n.is_nullable() || dtype.can_be_nonnullable() => dtype.try_with_nullability(n)?)
    ["union_nullability", "N T", "NonNullable utf8?", "the type, nullable if it was or if N is Nullable"] (n: Nullability, dtype: DType => dtype.try_union_nullability(n)?)
    ["merge_nullability", "T T", "{a=i32, b=list(utf8?)} {a=i32?, b=list(utf8)}", "the least type of which both are subsets, or none if they differ in more than nullability"] (a: DType, b: DType => a.try_merge_nullability(&b)?)
    ["intersect_nullability", "T T", "{a=i32, b=list(utf8?)?} {a=i32?, b=list(utf8?)}", "the greatest type that is a subset of both, or none if they differ in more than nullability"] (a: DType, b: DType => a.try_intersect_nullability(&b)?)
    ["reads_as", "W T T", "None {b=utf8, a=i32} {a=i32, b=utf8?, c=u8?}", "whether the first type can be read as the second: its further columns are nullable, and each column of the first can be read as the one of its name"] (widening: Widening, a: DType, b: DType => a.reads_as(&b, widening))
    ["merge_columns", "W T T", "None {a=i32, b=utf8} {c=u8, a=i32?}", "the least type as which both can be read, or none if there is none. A field that one of the two lacks is nullable."] (widening: Widening, a: DType, b: DType => a.try_merge_columns(&b, widening)?)
    ["merge_all", "W T T..", "Integers {id=u32} {note=utf8, id=u64} {id=null}", "the least type as which all can be read, or none if there is none"] (widening: Widening, first: DType, others: Vec<DType> => vortex_logical_types::dtype_merging::try_merge_all(&first, &others, widening)?)
    ["merge_conflict", "W T T", "None {a=list(u64), b=i8} {b=i8, a=list(utf8)}", "three values: the path to the first place at which the two can't be merged by columns, and the type there in each of the two; or none if they can be merged"] (widening: Widening, a: DType, b: DType => a.try_merge_conflict(&b, widening)?.map(|it| (it.path, it.left, it.right)))
    ["differences", "T T", "{a=i32, b={x=u8}} {b={x=i8, y=u8}}", "what differs between the two types: for each part that is changed, removed or added three values, which are its path, the type before and the type after, or none in place of a type; behind each but the last is a semicolon"] (a: DType, b: DType => listed(a.try_differences(&b)?))
    ["differences_ignoring", "BOOL BOOL T T", "true true {a=i32, b=u8} {b=u16, a=i32?}", "what differences answers, if nullabilities are ignored (the first BOOL), and the order of fields (the second BOOL)"] (nullability: bool, order: bool, a: DType, b: DType => listed(a.try_differences_ignoring(&b, Ignoring { nullability, order })?))
    ["nullability_or", "N N", "NonNullable Nullable", "Nullable if one of the two is, otherwise NonNullable"] (n: Nullability, other: Nullability => (n | other).long_text())
    ["nullability_text", "N", "Nullable", "the text of a nullability within a type: ? or nothing"] (n: Nullability => Shown(&n))
    ["nullability_long_text", "N", "Nullable", "the word for a nullability"] (n: Nullability => n.long_text())
    ["kinds", "T", "fixed_size_list(i32)[3]", "the names of the calls is_.. that return true for the type, each without its prefix is_. The call is_nullable isn't among them. For example, for a fixed-size list the answer is fixed_size_list nested."] (dtype: DType => words([
        ("boolean", dtype.is_boolean()), ("primitive", dtype.is_primitive()), ("unsigned_int", dtype.is_unsigned_int()),
        ("signed_int", dtype.is_signed_int()), ("int", dtype.is_int()), ("float", dtype.is_float()),
        ("decimal", dtype.is_decimal()), ("utf8", dtype.is_utf8()), ("binary", dtype.is_binary()),
        ("list", dtype.is_list()), ("fixed_size_list", dtype.is_fixed_size_list()), ("map", dtype.is_map()),
        ("struct", dtype.is_struct()), ("union", dtype.is_union()), ("variant", dtype.is_variant()),
        ("extension", dtype.is_extension()), ("nested", dtype.is_nested()),
    ]))
    ["element_size", "T", "fixed_size_list(f64)[20]", "the number of bytes that each value takes, or none if the type has a part of variable width, such as utf8", "WidthOverflow (19)"] (dtype: DType => dtype.try_element_size()?)
    ["as_decimal_opt", "T", "decimal(10,-2)?", "the decimal of a decimal type, or none"] (dtype: DType => dtype.as_decimal_opt())
    ["into_decimal_opt", "T", "utf8", "the decimal of a decimal type, which is consumed, or none"] (dtype: DType => dtype.into_decimal_opt())
    ["as_list_element_opt", "T", "list(i32?)", "the type of a list's elements, or none"] (dtype: DType => dtype.as_list_element_opt())
    ["into_list_element_opt", "T", "list(i32?)", "the type of a list's elements, which is consumed, or none"] (dtype: DType => dtype.into_list_element_opt().as_deref())
    ["as_fixed_size_list_element_opt", "T", "fixed_size_list(u8)[4]", "the type of a fixed-size list's elements, or none"] (dtype: DType => dtype.as_fixed_size_list_element_opt())
    ["into_fixed_size_list_element_opt", "T", "list(u8)", "the type of a fixed-size list's elements, which is consumed, or none"] (dtype: DType => dtype.into_fixed_size_list_element_opt().as_deref())
    ["as_any_size_list_element_opt", "T", "fixed_size_list(u8)[4]", "the type of the elements of a list of either kind, or none"] (dtype: DType => dtype.as_any_size_list_element_opt())
    ["into_any_size_list_element_opt", "T", "fixed_size_list(u8)[4]", "the type of the elements of a list of either kind, which is consumed, or none"] (dtype: DType => dtype.into_any_size_list_element_opt().as_deref())
    ["as_map_opt", "T", "map(utf8, i32, keys_sorted=false)?", "the map of a map type, or none"] (dtype: DType => dtype.as_map_opt())
    ["into_map_opt", "T", "utf8", "the map of a map type, which is consumed, or none"] (dtype: DType => dtype.into_map_opt())
    ["as_struct_fields_opt", "T", "{a=i32}?", "the fields of a struct type, or none"] (dtype: DType => dtype.as_struct_fields_opt())
    ["into_struct_fields_opt", "T", "{a=i32}?", "the fields of a struct type, which is consumed, or none"] (dtype: DType => dtype.into_struct_fields_opt())
    ["as_union_variants_opt", "T", "union(a=i32, b=utf8)?", "the variants of a union type, or none"] (dtype: DType => dtype.as_union_variants_opt())
    ["into_union_variants_opt", "T", "union(a=i32, b=utf8)?", "the variants of a union type, which is consumed, or none"] (dtype: DType => dtype.into_union_variants_opt())
    ["as_extension_opt", "T", "x.tag[0x](utf8)", "the extension of an extension type, or none"] (dtype: DType => dtype.as_extension_opt())
    ["as_ptype", "T", "i32?", "the primitive type of a primitive type", "condition: needs a primitive type"] (dtype: DType; if dtype.is_primitive() => dtype.as_ptype())
    ["as_struct_fields", "T", "{a=i32}?", "the fields of a struct type", "condition: needs a struct type"] (dtype: DType; if dtype.is_struct() => dtype.as_struct_fields())
    ["into_struct_fields", "T", "{a=i32}?", "the fields of a struct type, which is consumed", "condition: needs a struct type"] (dtype: DType; if dtype.is_struct() => dtype.into_struct_fields())
    ["as_extension", "T", "utf8", "the extension of an extension type", "condition: needs an extension type"] (dtype: DType; if dtype.is_extension() => dtype.as_extension())
    ["to_decimal", "T", "utf8", "the decimal of a decimal type", "NotDecimal (5)"] (dtype: DType => DecimalDType::try_from(&dtype)?)
    ["to_ptype", "T", "u16?", "the primitive type of a primitive type", "NotPrimitive (6)"] (dtype: DType => PType::try_from(&dtype)?)
    ["bytes_type", "", "", "the type DType::BYTES, that of a byte"] (=> DType::BYTES)
    ["from_ptype", "PT", "f16", "the non-nullable type of this primitive type"] (ptype: PType => DType::from(ptype))
    ["list", "N T", "Nullable i32", "the list type with this nullability and this element type"] (n: Nullability, element: DType => DType::try_list(element, n)?)
    ["fixed_size_list", "N COUNT T", "NonNullable 3 i32", "the fixed-size list type with this nullability, COUNT elements, and this element type"] (n: Nullability, size: Size, element: DType => DType::try_fixed_size_list(element, size.0, n)?)
    ["map", "N BOOL T T", "Nullable true utf8 i32?", "the map type with this nullability. BOOL says whether the keys are sorted, the first T is the type of the keys, and the second T is the type of the values.", "MapKeyNullable (9)"] (n: Nullability, keys_sorted: bool, key: DType, value: DType => DType::map(key, value, keys_sorted, n)?)
    ["struct", "N NAMES T..", "NonNullable a,b i32 utf8?", "the struct type with this nullability, these field names, and these field types", "condition: needs as many names as types"] (n: Nullability, names: FieldNames, dtypes: Vec<FieldDType>; if names.len() == dtypes.len() => DType::try_struct_(names.into_iter().zip(dtypes), n)?)
};

pub const COMPARISONS: &[Row] = rows! {
    ["eq", "T T", "list(i32) list(i32?)", "whether the two types are equal"] (a: DType, b: DType => a == b)
    ["eq_ignore_nullability", "T T", "list(i32) list(i32?)?", "whether the two types are equal but for nullability, at every depth"] (a: DType, b: DType => a.eq_ignore_nullability(&b))
    ["subset", "T T", "list(i32) list(i32?)", "whether the second type is nullable wherever the first is, and they are equal but for nullability"] (a: DType, b: DType => a.eq_with_nullability_subset(&b))
    ["superset", "T T", "list(i32) list(i32?)", "whether the first type is nullable wherever the second is, and they are equal but for nullability"] (a: DType, b: DType => a.eq_with_nullability_superset(&b))
    ["hash_eq", "T T", "i32 i32?", "whether the standard library's hasher returns the same hash for both types"] (a: DType, b: DType => hash_of(&a) == hash_of(&b))
    ["hash_ignore_nullability_eq", "T T", "i32 i32?", "whether the standard library's hasher returns the same hash for both types if nullability is ignored"] (a: DType, b: DType => hash_ignoring_nullability(&a) == hash_ignoring_nullability(&b))
    ["inner_eq", "T T", "{a=i32} {a=i32}?", "whether what two structs, unions, maps or extensions contain is equal. Of structs, unions and maps, the nullability of the type itself isn't compared.", "condition: needs two types of one such kind"] (a: DType, b: DType => inner!(a, b, [Struct Union Map Extension], |a, b| a == b))
    ["inner_hash_eq", "T T", "{a=i32} {a=i32}?", "whether the standard library's hasher returns the same hash for what two structs, unions, maps or extensions contain", "condition: needs two types of one such kind"] (a: DType, b: DType => inner!(a, b, [Struct Union Map Extension], |a, b| hash_of(a) == hash_of(b)))
    ["inner_eq_ignore_nullability", "T T", "{a=i32} {a=i32?}", "whether what two structs, unions or extensions contain is equal, except for nullability. The library has no such call for maps.", "condition: needs two types of one such kind"] (a: DType, b: DType => inner!(a, b, [Struct Union Extension], |a, b| a.eq_ignore_nullability(b)))
};

/// Returns what a new hasher of the standard library returns for a value.
pub fn hash_of(value: &impl Hash) -> u64 {
    let mut state = DefaultHasher::new();
    value.hash(&mut state);
    state.finish()
}

fn hash_ignoring_nullability(dtype: &DType) -> u64 {
    let mut state = DefaultHasher::new();
    dtype.hash_ignore_nullability(&mut state);
    state.finish()
}
