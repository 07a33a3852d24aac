// SPDX-License-Identifier: Apache-2.0
// SPDX-FileCopyrightText: Copyright the Vortex contributors

//! The conditions of public calls. In Rattle each caller proves them. In Rust the call checks them first, and a call with
//! a condition that isn't in this table isn't erased.

// The calls, each by its type or its trait and its name, or by its name if it is a function, and the statements that
// stand first in its body. Without statements the condition is that an iterator ends. As in std, that is the caller's,
// and a call that never ends is safe.
const CONDITIONS: &str = r#"
PType::max_unsigned_ptype: assert!(self.is_unsigned_int() && other.is_unsigned_int(), "expected two unsigned integer types, found {self} and {other}");
PType::max_signed_ptype: assert!(self.is_signed_int() && other.is_signed_int(), "expected two signed integer types, found {self} and {other}");
DecimalDType::new: if let Err(error) = check_precision_and_scale(precision, scale, MAX_PRECISION) { panic!("{error}"); }
check_precision_and_scale: assert!(max < 128, "expected a greatest precision from 0 to 127, found {max}");
FieldNames::from_iter:
DType::as_nonnullable: assert!(self.can_be_nonnullable(), "DType::Null cannot be made non-nullable: {self}");
DType::with_nullability: assert!(n.is_nullable() || self.can_be_nonnullable(), "DType::Null cannot be made non-nullable: {self}");
ExtDTypeRef::with_nullability: assert!(n.is_nullable() || self.can_be_nonnullable(), "DType::Null cannot be made non-nullable: {self}");
ExtDType::with_nullability: assert!(n.is_nullable() || self.storage.can_be_nonnullable(), "DType::Null cannot be made non-nullable: {}", self.storage);
DType::struct_:
DType::as_ptype: assert!(self.is_primitive(), "expected a primitive type, found {self}");
DType::as_struct_fields: assert!(self.is_struct(), "expected a struct, found {self}");
DType::into_struct_fields: assert!(self.is_struct(), "expected a struct, found {self}");
DType::as_extension: assert!(self.is_extension(), "expected an extension type, found {self}");
StructFields::new: assert!(names.len() == dtypes.len(), "the numbers of names and types differ: {} and {}", names.len(), dtypes.len());
StructFields::from_fields: assert!(names.len() == dtypes.len(), "the numbers of names and types differ: {} and {}", names.len(), dtypes.len());
StructFields::from_iter:
UnionVariants::child_index_to_tag: assert!(index < self.len(), "index out of bounds: the len is {} but the index is {index}", self.len());
match_each_integer_ptype: assert!(ptype.is_int(), "expected an integer type, found {ptype}");
match_each_unsigned_integer_ptype: assert!(ptype.is_unsigned_int(), "expected an unsigned integer type, found {ptype}");
match_each_signed_integer_ptype: assert!(ptype.is_signed_int(), "expected a signed integer type, found {ptype}");
match_each_float_ptype: assert!(ptype.is_float(), "expected a floating-point type, found {ptype}");
match_each_native_simd_ptype: assert!(ptype != PType::F16, "expected a type that SIMD has, found {ptype}");
NativeDecimalType::max_by_precision: assert!(precision <= Self::MAX_PRECISION, "expected a precision from 0 to {}, found {precision}", Self::MAX_PRECISION);
NativeDecimalType::min_by_precision: assert!(precision <= Self::MAX_PRECISION, "expected a precision from 0 to {}, found {precision}", Self::MAX_PRECISION);
PrecisionScale::new: if let Err(error) = check_precision_and_scale(precision, scale, D::MAX_PRECISION) { panic!("{error}"); }
PrecisionScale::new_unchecked: if let Err(error) = check_precision_and_scale(precision, scale, D::MAX_PRECISION) { panic!("{error}"); }
FieldPath::from_iter:
FieldPath::starts_with_field: assert!(field.is_named() && self.parts().first().is_none_or(crate::dtype_paths::Field::is_named), "only names can be compared: the step is {field}, and the path is {self}");
FieldPathSet::from_iter:
FieldPathSet::extend:
"#;

/// Returns the calls with conditions, each with the statements that check its condition.
pub fn conditions() -> impl Iterator<Item = (&'static str, &'static str)> {
    let rows = CONDITIONS.lines().filter(|row| !row.is_empty());
    rows.map(|row| row.split_once(": ").unwrap_or((row.trim_end_matches(':'), "")))
}

/// Returns the statements that check the condition of this call, or `None` if the table hasn't it.
pub fn check_of(call: &str) -> Option<&'static str> {
    conditions().find(|(name, _)| *name == call).map(|(_, check)| check)
}
