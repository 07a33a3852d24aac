// SPDX-License-Identifier: Apache-2.0
// SPDX-FileCopyrightText: Copyright the Vortex contributors

//! The commands on decimals, primitive types, native integers, and the types of native types.

use super::prelude::*;
use super::types::hash_of;
use crate::argument::{Argument, Bytes, Count, Precision, Scale};
use crate::line::Line;

/// Evaluates an expression with the native type of a name, which is one of these. Of an `integer` or a `decimal` type, the
/// name is read first.
macro_rules! for_native {
    ($name:expr, $native:ident in [$($one:ident)*], $value:expr, $other:expr) => {
        match $name {
            $(stringify!($one) => {
                type $native = $one;
                $value
            })*
            _ => $other,
        }
    };
    ($call:ident, $native:ident in decimal, $value:expr) => {{
        const EXPECTED: &str = "a native decimal type";
        $call.line.separate()?;
        let position = $call.line.position();
        let name = $call.line.word(EXPECTED)?;
        for_native!(name, $native in [i8 i16 i32 i64 i128], $value, Err(Error::expected(position, EXPECTED)))
    }};
    ($call:ident, $native:ident in integer, $value:expr) => {{
        $call.line.separate()?;
        let position = $call.line.position();
        let name = format_in!("{}", PType::read(&mut $call.line)?)?;
        for_native!(name.as_str(), $native in [u8 u16 u32 u64 i8 i16 i32 i64], $value,
            Err(Error::expected(position, "an integer type (u8 to u64, i8 to i64)")))
    }};
}

pub const DECIMALS: &[Row] = rows! {
    ["decimal", "P S", "10 11", "the decimal of this precision and scale, made by try_new", "PrecisionZero (1), PrecisionTooLarge (2), ScaleTooLarge (3), ScaleAbovePrecision (4)"] (precision: Precision, scale: Scale => DecimalDType::try_new(precision.0, scale.0)?)
    ["decimal_new", "P S", "0 0", "the decimal of this precision and scale, made by new, which has a condition", "condition: needs a valid precision and scale"] (precision: Precision, scale: Scale; if DecimalDType::try_new(precision.0, scale.0).is_ok() => DecimalDType::new(precision.0, scale.0))
    ["precision", "D", "decimal(10,-2)", "the precision of the decimal"] (decimal: DecimalDType => decimal.precision())
    ["scale", "D", "decimal(10,-2)", "the scale of the decimal"] (decimal: DecimalDType => decimal.scale())
    ["required_bit_width", "D", "decimal(10,2)", "the least number of bits in which each value of the decimal fits, without its sign"] (decimal: DecimalDType => decimal.required_bit_width())
    ["decimal_text", "D", "decimal(10,2)", "the text that the library prints of the decimal"] (decimal: DecimalDType => Shown(&decimal))
    ["decimal_eq", "D D", "decimal(10,2) decimal(10,3)", "whether the two decimals are equal"] (decimal: DecimalDType, other: DecimalDType => decimal == other)
    ["decimal_hash_eq", "D D", "decimal(10,2) decimal(10,2)", "whether the standard library's hasher returns the same hash for both decimals"] (decimal: DecimalDType, other: DecimalDType => hash_of(&decimal) == hash_of(&other))
    ["smallest_decimal_value_type", "D", "decimal(39,0)", "the smallest storage type that each value of the decimal fits"] (decimal: DecimalDType => DecimalType::smallest_decimal_value_type(&decimal))
    ["is_compatible_decimal_value_type", "DT D", "i64 decimal(19,0)", "whether the storage type is wide enough for each value of the decimal"] (stored: DecimalType, decimal: DecimalDType => stored.is_compatible_decimal_value_type(decimal))
    ["decimal_type_width", "DT", "i256", "the number of bytes that a value of the storage type takes"] (stored: DecimalType => stored.byte_width())
    ["decimal_type_cmp", "DT DT", "i8 i16", "how the first storage type compares to the second"] (stored: DecimalType, other: DecimalType => stored.cmp(&other))
    ["decimal_type_from", "PT", "u8", "the storage type of this primitive type", "NotDecimalPType (7)"] (ptype: PType => DecimalType::try_from(ptype)?)
    ["decimal_maxima", "", "", "the greatest precision and the greatest scale"] (=> (MAX_PRECISION, MAX_SCALE))
    ["precision_scale", "DI P S", "i8 3 0", "this precision and scale, checked against the greatest ones of the native type. For example, for i8 3 0 the answer is an error, because 2 is the greatest precision of i8.", "PrecisionZero (1), PrecisionTooLarge (2), ScaleTooLarge (3), ScaleAbovePrecision (4)"] (D in decimal; precision: Precision, scale: Scale => Shown(&PrecisionScale::<D>::try_new(precision.0, scale.0)?))
    ["precision_scale_from", "DI D", "i8 decimal(2,1)", "the precision and scale of the decimal, checked in the same way", "PrecisionZero (1), PrecisionTooLarge (2), ScaleTooLarge (3), ScaleAbovePrecision (4)"] (D in decimal; decimal: DecimalDType => Shown(&PrecisionScale::<D>::try_from(&decimal)?))
    ["precision_scale_to", "DI P S", "i16 4 -1", "the decimal with this precision and scale, after the same check", "PrecisionZero (1), PrecisionTooLarge (2), ScaleTooLarge (3), ScaleAbovePrecision (4)"] (D in decimal; precision: Precision, scale: Scale => DecimalDType::from(PrecisionScale::<D>::try_new(precision.0, scale.0)?))
    ["precision_scale_is_valid", "DI P S V", "i8 2 1 -100", "whether the value has at most P digits. The scale makes no difference. For example, 99 is valid for i8 2 1, and 100 isn't.", "PrecisionZero (1), PrecisionTooLarge (2), ScaleTooLarge (3), ScaleAbovePrecision (4)"] (D in decimal; precision: Precision, scale: Scale, value: D => PrecisionScale::<D>::try_new(precision.0, scale.0)?.is_valid(value))
    ["by_precision", "DI P", "i16 4", "the least and the greatest number of at most P digits, as values of the native type", "condition: needs a precision up to the greatest of the type"] (D in decimal; precision: Precision; if precision.0 <= D::MAX_PRECISION => (D::min_by_precision(precision.0), D::max_by_precision(precision.0)))
    ["native_decimal", "DI", "i128", "the storage type, greatest precision, greatest scale and name of a native type"] (D in decimal; => (D::DECIMAL_TYPE, D::MAX_PRECISION, D::MAX_SCALE, D::NAME))
};

pub const PRIMITIVES: &[Row] = rows! {
    ["ptype", "PT", "f16", "the primitive type itself"] (ptype: PType => ptype)
    ["byte_width", "PT", "f16", "the number of bytes that a value takes"] (ptype: PType => ptype.byte_width())
    ["bit_width", "PT", "f16", "the number of bits that a value takes"] (ptype: PType => ptype.bit_width())
    ["max_value_as_u64", "PT", "i16", "the greatest value of the primitive type, or the greatest u64 if a u64 can't be that great"] (ptype: PType => ptype.max_value_as_u64())
    ["to_signed", "PT", "u8", "the signed integer type of the same width, or the same type if it is a floating-point type"] (ptype: PType => ptype.to_signed())
    ["to_unsigned", "PT", "i64", "the unsigned integer type of the same width, or the same type if it is a floating-point type"] (ptype: PType => ptype.to_unsigned())
    ["ptype_kinds", "PT", "u8", "the names of the calls is_.. that return true for the primitive type, without is_. For example, for u8 the answer is unsigned_int int."] (ptype: PType => words([
        ("unsigned_int", ptype.is_unsigned_int()), ("signed_int", ptype.is_signed_int()), ("int", ptype.is_int()),
        ("float", ptype.is_float()),
    ]))
    ["ptype_cmp", "PT PT", "i8 u64", "how the first primitive type compares to the second. Primitive types are in the order of their numbers in messages: u8, u16, u32, u64, i8, i16, i32, i64, f16, f32, f64."] (ptype: PType, other: PType => ptype.cmp(&other))
    ["ptype_hash_eq", "PT PT", "u8 u8", "whether the standard library's hasher returns the same hash for both primitive types"] (ptype: PType, other: PType => hash_of(&ptype) == hash_of(&other))
    ["min_unsigned_ptype_for_value", "V", "256", "the narrowest unsigned integer type that the value fits"] (value: u64 => PType::min_unsigned_ptype_for_value(value))
    ["min_signed_ptype_for_value", "V", "-129", "the narrowest signed integer type that the value fits"] (value: i64 => PType::min_signed_ptype_for_value(value))
    ["max_unsigned_ptype", "PT PT", "u8 u32", "the wider of two unsigned integer types", "condition: needs two unsigned integer types"] (ptype: PType, other: PType; if ptype.is_unsigned_int() && other.is_unsigned_int() => ptype.max_unsigned_ptype(other))
    ["max_signed_ptype", "PT PT", "i8 u8", "the wider of two signed integer types", "condition: needs two signed integer types"] (ptype: PType, other: PType; if ptype.is_signed_int() && other.is_signed_int() => ptype.max_signed_ptype(other))
    ["match_each", "PT", "f32", "the primitive type for which match_each_native_ptype calls the visitor. It takes every primitive type."] (ptype: PType => match_each_native_ptype(ptype, Visited))
    ["match_each_simd", "PT", "f16", "the primitive type for which match_each_native_simd_ptype calls the visitor. It takes every primitive type that has SIMD lanes, that is, all but f16.", "condition: needs a primitive type other than f16"] (ptype: PType; if ptype != PType::F16 => match_each_native_simd_ptype(ptype, Visited))
    ["match_each_integer", "PT", "i8", "the primitive type for which match_each_integer_ptype calls the visitor. It takes the integer types.", "condition: needs an integer type"] (ptype: PType; if ptype.is_int() => match_each_integer_ptype(ptype, Visited))
    ["match_each_unsigned", "PT", "i8", "the primitive type for which match_each_unsigned_integer_ptype calls the visitor. It takes the unsigned integer types.", "condition: needs an unsigned integer type"] (ptype: PType; if ptype.is_unsigned_int() => match_each_unsigned_integer_ptype(ptype, Visited))
    ["match_each_signed", "PT", "i8", "the primitive type for which match_each_signed_integer_ptype calls the visitor. It takes the signed integer types.", "condition: needs a signed integer type"] (ptype: PType; if ptype.is_signed_int() => match_each_signed_integer_ptype(ptype, Visited))
    ["match_each_float", "PT", "f64", "the primitive type for which match_each_float_ptype calls the visitor. It takes the floating-point types.", "condition: needs a float type"] (ptype: PType; if ptype.is_float() => match_each_float_ptype(ptype, Visited))
    ["match_smallest_offset_type", "COUNT", "256", "the narrowest of u8, u16, u32 and u64 that the number COUNT fits"] (count: Count => match_smallest_offset_type(count.0, Visited))
    ["match_smallest_list_offset_type", "COUNT", "4294967296", "u32 if the number COUNT fits it, otherwise u64"] (count: Count => match_smallest_list_offset_type(count.0, Visited))
};

pub const NATIVE: &[Row] = rows! {
    ["to_le_bytes", "INT V", "i16 -2", "the bytes of the value, the least significant byte first"] (T in integer; value: T => Hex(T::bytes_of(&<T as ToBytes>::to_le_bytes(&value))))
    ["try_from_le_bytes", "INT HEX", "u32 0x010203", "the value with these bytes, of which the first is the least significant", "BytesLength (8)"] (T in integer; bytes: Bytes => T::try_from_le_bytes(&bytes.0)?)
    ["total_compare", "INT V V", "i8 -1 1", "how the first value compares to the second"] (T in integer; value: T, other: T => value.total_compare(other))
    ["native_compare", "INT V V", "i8 1 1", "which of the calls is_le, is_lt, is_ge, is_gt and is_eq return true for the two values"] (T in integer; value: T, other: T => words([
        ("is_le", value.is_le(other)), ("is_lt", value.is_lt(other)), ("is_ge", value.is_ge(other)),
        ("is_gt", value.is_gt(other)), ("is_eq", value.is_eq(other)),
    ]))
    ["native_tests", "INT V", "u8 1", "which of the calls is_nan and is_infinite return true for the value. For an integer neither does, so the answer is -."] (T in integer; value: T => words([("is_nan", value.is_nan()), ("is_infinite", value.is_infinite())]))
    ["native_integer", "INT", "i16", "the primitive type and the greatest value of an integer type, and the unsigned type of the same width"] (T in integer; => (T::PTYPE, T::max_value_as_u64(), <T as PhysicalPType>::Physical::PTYPE))
    ["native_dtype", "NATIVE", "Vec<Option<&str>>", "the logical type that has the values of the native type"] (native_dtype)
};

/// A visitor that returns the primitive type for which it is called.
struct Visited;

macro_rules! visits {
    ($($method:ident $ptype:ident)*) => {
        impl PTypeVisitor for Visited {
            type Answer = PType;

            $(fn $method(self) -> PType {
                PType::$ptype
            })*

            fn visit_float(self, ptype: PType) -> PType {
                ptype
            }
        }
    };
}
visits! {
    visit_u8 U8 visit_u16 U16 visit_u32 U32 visit_u64 U64 visit_i8 I8 visit_i16 I16 visit_i32 I32 visit_i64 I64
}

fn native_dtype(call: &mut Call<'_>, _: &mut Console) -> Result<()> {
    call.line.separate()?;
    let around = [read_around(&mut call.line), read_around(&mut call.line)];
    let dtype = read_native(&mut call.line, around)?;
    for _ in around.iter().filter(|it| !it.is_empty()) {
        call.line.take(">")?;
    }
    call.line.end()?;
    call.say(dtype)
}

/// Reads what is around a native type, if something is.
fn read_around(line: &mut Line<'_>) -> &'static str {
    ["Option<", "Vec<"].into_iter().find(|around| line.accepts(around)).unwrap_or_default()
}

/// Reads a native type, and returns the type of its values in what is around it.
fn read_native(line: &mut Line<'_>, around: [&str; 2]) -> Result<DType> {
    const EXPECTED: &str =
        "a native type: u8 to u64, i8 to i64, bool, String, &str or &[u8], in up to two of Option<..> and Vec<..>";
    if line.accepts("&str") {
        return dtype_of::<&str>(around);
    }
    if line.accepts("&[u8]") {
        return dtype_of::<&[u8]>(around);
    }
    let position = line.position();
    let name = line.word(EXPECTED)?;
    let other = || Err(Error::expected_word(position, EXPECTED, name));
    for_native!(name, Native in [u8 u16 u32 u64 i8 i16 i32 i64 bool String], dtype_of::<Native>(around), other())
}

fn dtype_of<T: NativeDType>(around: [&str; 2]) -> Result<DType> {
    Ok(match around {
        ["", _] => T::try_dtype(),
        ["Option<", ""] => Option::<T>::try_dtype(),
        ["Option<", "Option<"] => Option::<Option<T>>::try_dtype(),
        ["Option<", _] => Option::<Vec<T>>::try_dtype(),
        [_, ""] => Vec::<T>::try_dtype(),
        [_, "Option<"] => Vec::<Option<T>>::try_dtype(),
        [_, _] => Vec::<Vec<T>>::try_dtype(),
    }?)
}
