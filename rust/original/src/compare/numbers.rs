// SPDX-License-Identifier: Apache-2.0
// SPDX-FileCopyrightText: Copyright the Vortex contributors

//! Calls on nullabilities, primitive types, decimals, and the integers of Rust that are values of primitive types.

use std::fmt::Debug;

use original::types::PTYPES;
use vortex_array::dtype as theirs;
use vortex_logical_types as ours;

use crate::plain::{Plain, caught};
use crate::report::hash_of;
use crate::round::*;

/// The calls on values without parts.
pub fn all(round: &mut Round) {
    nullabilities(round);
    ptypes(round);
    decimals(round);
    natives(round);
}

fn nullabilities(round: &mut Round) {
    let (one, other) = (round.random.bool(), round.random.bool());
    let spoiled = round.or_spoiled(one, !one);
    both! { round, format!("{one} and {other}"), (one, other) = (one, other), (spoiled, other);
        "Nullability::from" => dtype::Nullability::from(one);
        "Nullability::bitor" => dtype::Nullability::from(one) | dtype::Nullability::from(other);
        "bool::from(Nullability)" => bool::from(dtype::Nullability::from(one));
        "Nullability::to_string" => dtype::Nullability::from(one).to_string();
    }
    same! { round, format!("{one}");
        "long_text" => ours::Nullability::from(one).long_text(), format!("{:#}", theirs::Nullability::from(spoiled));
        "Nullability::default" => ours::Nullability::default(),
            round.or_spoiled(theirs::Nullability::default(), theirs::Nullability::Nullable);
    }
}

fn ptypes(round: &mut Round) {
    let (number, other) = (round.random.below(11), round.random.below(11));
    let there = (PTYPES[round.or_spoiled(number, (number + 4) % 11)], PTYPES[other]);
    let here = (ours::PType::ALL[number], ours::PType::ALL[other]);
    let (value, signed) = (wide(round), wide(round) as i64);
    let (value_there, signed_there) = (round.or_spoiled(value, !value), round.or_spoiled(signed, 7));
    methods! { round, here.0.to_string(), "PType::", here.0, there.0;
        to_string byte_width bit_width is_unsigned_int is_signed_int is_int is_float to_signed to_unsigned
    }
    both! { round, format!("{here:?}"), (it, other) = here, there;
        "PType::partial_cmp" => it.partial_cmp(&other);
        "PType::eq" => it == other;
        "PType::hash" => hash_of(&it) == hash_of(&other);
        "DType::from(PType)" => dtype::DType::from(it);
        "&DType::from(PType)" => <&dtype::DType>::from(it);
        "DecimalType::try_from(PType)" => dtype::DecimalType::try_from(it);
    }
    // (The original asserts this in builds with debug assertions. The greatest values of floats are a choice.)
    if here.0.is_unsigned_int() && here.1.is_unsigned_int() {
        both! { round, format!("{here:?}"), (it, other) = here, there;
            "max_unsigned_ptype" => it.max_unsigned_ptype(other);
        }
    }
    if here.0.is_signed_int() && here.1.is_signed_int() {
        both! { round, format!("{here:?}"), (it, other) = here, there;
            "max_signed_ptype" => it.max_signed_ptype(other);
        }
    }
    if here.0.is_int() {
        both! { round, format!("{here:?}"), (it, _) = here, there; "max_value_as_u64" => it.max_value_as_u64(); }
    }
    // (The original's conversion is one that prost derives.)
    let of_message = signed.rem_euclid(16) as i32 - 2;
    let (found, there) = (ours::pb::PType::from_number(of_message), round.or_spoiled(of_message, 7 - of_message));
    let known = |number: i32| PTYPES.get(usize::try_from(number).ok()?).copied();
    same! { round, format!("number {of_message}");
        "pb::PType::from_number" => found.map(ours::PType::from), known(there);
        "pb::PType::number" => found.map(|it| it.number()), known(there).map(|_| there);
    }
    both! { round, format!("{value} and {signed}"), (value, signed) = (value, signed), (value_there, signed_there);
        "min_unsigned_ptype_for_value" => dtype::PType::min_unsigned_ptype_for_value(value);
        "min_signed_ptype_for_value" => dtype::PType::min_signed_ptype_for_value(signed);
    }
}

/// A number of any width, often at the border of a width.
fn wide(round: &mut Round) -> u64 {
    let number = round.random.number() >> round.random.below(64);
    match round.random.below(4) {
        0 => u64::MAX >> round.random.below(64),
        1 => (1 << round.random.below(64)) - u64::from(round.random.bool()),
        2 => number.wrapping_neg(),
        _ => number,
    }
}

/// Precisions and scales, of which many make no decimal.
fn decimals(round: &mut Round) {
    let (precision, scale) = (round.random.number() as u8, round.random.number() as i8);
    let precision = if round.random.bool() { precision % 80 } else { precision };
    let (ptype, value) = (round.random.below(11), wide(round));
    let given = (precision, scale, ptype, value);
    let there = round.or_spoiled(given, (1 + precision % 76, 1, (ptype + 4) % 11, !value));
    let about = || format!("precision {precision}, scale {scale}");
    both! { round, about(), (precision, scale, ..) = given, there;
        "DecimalDType::try_new" => dtype::DecimalDType::try_new(precision, scale);
    }
    if round.random.one_in(8) {
        both! { round, about(), (precision, scale, ..) = given, there;
            "DecimalDType::new" => caught(|| dtype::DecimalDType::new(precision, scale));
        }
    }
    let (Ok(decimal), Ok(there_decimal)) =
        (ours::DecimalDType::try_new(precision, scale), theirs::DecimalDType::try_new(there.0, there.1))
    else {
        return;
    };
    methods! { round, about(), "DecimalDType::", decimal, there_decimal; precision scale to_string required_bit_width }
    let all = [
        theirs::DecimalType::I8,
        theirs::DecimalType::I16,
        theirs::DecimalType::I32,
        theirs::DecimalType::I64,
        theirs::DecimalType::I128,
        theirs::DecimalType::I256,
    ];
    let number = round.random.below(6);
    let there_type = all[round.or_spoiled(number, (number + 3) % 6)];
    let here_type: ours::DecimalType = all[number].to_string().parse().expect("a type of decimals");
    both! { round, about(), (kind, decimal) = (here_type, decimal), (there_type, there_decimal);
        "smallest_decimal_value_type" => dtype::DecimalType::smallest_decimal_value_type(&decimal);
        "is_compatible_decimal_value_type" => kind.is_compatible_decimal_value_type(decimal);
        "DecimalType::byte_width" => kind.byte_width();
        "DecimalType::to_string" => kind.to_string();
        "DecimalType::cmp" => kind.cmp(&dtype::DecimalType::I32);
    }
    let value = i128::from(value as i64) * i128::from(round.random.number() >> round.random.below(64));
    scaled::<i8>(round, given, there, value);
    scaled::<i16>(round, given, there, value);
    scaled::<i32>(round, given, there, value);
    scaled::<i64>(round, given, there, value);
    scaled::<i128>(round, given, there, value);
}

/// The calls of decimals on one of Rust's integers.
fn scaled<T>(round: &mut Round, given: (u8, i8, usize, u64), there: (u8, i8, usize, u64), value: i128)
where
    T: ours::NativeDecimalType + theirs::NativeDecimalType + TryFrom<i128> + Plain<Data: Clone>,
{
    let value = T::try_from(value >> round.random.below(128)).unwrap_or_else(|_| T::try_from(0).ok().expect("zero"));
    let spoiled = round.is_spoiled;
    both! { round, format!("{given:?} and {value}"), (precision, scale, ..) = given, there;
        "PrecisionScale::try_new" => dtype::PrecisionScale::<T>::try_new(precision, scale).map(|it| {
            (it.precision(), it.scale(), it.is_valid(value))
        });
        "PrecisionScale::try_from(&DecimalDType)" => dtype::DecimalDType::try_new(precision, scale).and_then(|it| {
            dtype::PrecisionScale::<T>::try_from(&it).map(dtype::DecimalDType::from)
        });
    }
    let most = <T as ours::NativeDecimalType>::MAX_PRECISION;
    let precision = round.random.below(usize::from(most) + 1) as u8;
    let at = usize::from(if spoiled { (precision + 1) % (most + 1) } else { precision });
    same! { round, format!("precision {precision} of at most {most}");
        "max_by_precision" => T::max_by_precision(precision), T::MAX_BY_PRECISION[at];
        "min_by_precision" => T::min_by_precision(precision), T::MIN_BY_PRECISION[at];
    }
}

/// Rust's integers as values of primitive types, and the types of values of Rust's types.
fn natives(round: &mut Round) {
    let (number, other, length) = (wide(round), wide(round), round.random.below(10));
    let bytes = &other.to_le_bytes()[..length.min(8)];
    macro_rules! native {
        ($($kind:ty)*) => {$({
            let one = number as $kind;
            let there = round.or_spoiled(one, one.wrapping_add(1));
            let width = round.or_spoiled(length, 3).min(8);
            native::<$kind>(round, (one, bytes), (there, &bytes[..width.min(bytes.len())]), other as $kind);
        })*};
    }
    native! { u8 u16 u32 u64 i8 i16 i32 i64 }
    fn types<T: ours::NativeDType + theirs::NativeDType>(round: &mut Round, name: &'static str) {
        let there = <T as theirs::NativeDType>::dtype();
        same! { round, name.to_owned();
            name => <T as ours::NativeDType>::dtype(), round.or_spoiled(there.clone(), there.as_nullable());
        }
    }
    types::<bool>(round, "bool::dtype");
    types::<String>(round, "String::dtype");
    types::<&str>(round, "&str::dtype");
    types::<&[u8]>(round, "&[u8]::dtype");
    types::<f32>(round, "f32::dtype");
    types::<f64>(round, "f64::dtype");
    offsets(round, number as usize);
    visited(round);
}

/// The calls on an integer, and on an integer and another.
fn native<T>(round: &mut Round, here: (T, &[u8]), there: (T, &[u8]), other: T)
where
    T: ours::NativePType + theirs::NativePType + ours::NativeDType + theirs::NativeDType + Plain + Debug,
{
    both! { round, format!("{here:?} and {other:?}"), (one, bytes) = here, there;
        "NativePType::PTYPE" => (<T as dtype::NativePType>::PTYPE, one);
        "NativeDType::dtype" => (<T as dtype::NativeDType>::dtype(), one);
        "NativeDType of an Option" => (<Option<T> as dtype::NativeDType>::dtype(), one);
        "NativeDType of a Vec" => (<Vec<T> as dtype::NativeDType>::dtype(), one);
        "total_compare" => dtype::NativePType::total_compare(one, other);
        "is_le" => dtype::NativePType::is_le(one, other);
        "is_lt" => dtype::NativePType::is_lt(one, other);
        "is_ge" => dtype::NativePType::is_ge(one, other);
        "is_gt" => dtype::NativePType::is_gt(one, other);
        "is_eq" => dtype::NativePType::is_eq(one, other);
        "is_nan" => (dtype::NativePType::is_nan(one), one);
        "is_infinite" => (dtype::NativePType::is_infinite(one), one);
        "try_from_le_bytes" => <T as dtype::TryFromBytes>::try_from_le_bytes(bytes);
    }
    same! { round, format!("{here:?}");
        "to_le_bytes" => T::bytes_of(&ours::ToBytes::to_le_bytes(&here.0)), theirs::ToBytes::to_le_bytes(&there.0);
    }
}

/// Answers with the primitive type that is visited.
struct Visited;

impl ours::PTypeVisitor for Visited {
    type Answer = ours::PType;

    fn visit_u8(self) -> ours::PType {
        ours::PType::U8
    }

    fn visit_u16(self) -> ours::PType {
        ours::PType::U16
    }

    fn visit_u32(self) -> ours::PType {
        ours::PType::U32
    }

    fn visit_u64(self) -> ours::PType {
        ours::PType::U64
    }

    fn visit_i8(self) -> ours::PType {
        ours::PType::I8
    }

    fn visit_i16(self) -> ours::PType {
        ours::PType::I16
    }

    fn visit_i32(self) -> ours::PType {
        ours::PType::I32
    }

    fn visit_i64(self) -> ours::PType {
        ours::PType::I64
    }

    fn visit_float(self, ptype: ours::PType) -> ours::PType {
        ptype
    }
}

/// The types of offsets. (The original's are macros over a piece of code, and here they are functions over a visitor.)
fn offsets(round: &mut Round, count: usize) {
    let there = round.or_spoiled(count, !count);
    same! { round, format!("{count}");
        "match_smallest_offset_type" => ours::match_smallest_offset_type(count, Visited),
            vortex_array::match_smallest_offset_type!(there, |T| { <T as theirs::NativePType>::PTYPE });
        "match_smallest_list_offset_type" => ours::match_smallest_list_offset_type(count, Visited),
            vortex_array::match_smallest_list_offset_type!(there, |T| { <T as theirs::NativePType>::PTYPE });
    }
}

/// Visits of primitive types, which panic at a type that isn't of the kind that is visited.
fn visited(round: &mut Round) {
    let number = round.random.below(11);
    let (here, there) = (ours::PType::ALL[number], PTYPES[round.or_spoiled(number, (number + 4) % 11)]);
    macro_rules! visits {
        ($($name:ident)*) => {
            same! { round, here.to_string(); $(
                stringify!($name) => caught(|| ours::$name(here, Visited)),
                    caught(|| vortex_array::$name!(there, |T| { <T as theirs::NativePType>::PTYPE }));
            )* }
        };
    }
    visits! { match_each_native_ptype }
    if round.random.one_in(8) {
        visits! {
            match_each_integer_ptype match_each_unsigned_integer_ptype match_each_signed_integer_ptype
            match_each_float_ptype match_each_native_simd_ptype
        }
    }
}
