// SPDX-License-Identifier: Apache-2.0
// SPDX-FileCopyrightText: Copyright the Vortex contributors

//! The conditions of calls: each is violated, and the call panics with a message that says what was wrong. The proofs hold
//! for calls whose conditions are met, so nothing may go on after a violation.

use erase::conditions;
use std::collections::BTreeSet;
use std::panic::{AssertUnwindSafe, catch_unwind};
use vortex_logical_types::Nullability::NonNullable;
use vortex_logical_types::dtype_base::check_precision_and_scale;
use vortex_logical_types::time::{Date, TimeUnit, Timestamp};
use vortex_logical_types::{
    DType, DecimalDType, ExtDType, ExtVTable, Field, FieldDType, FieldNames, FieldPath,
    NativeDecimalType, NativePType, PType, PTypeVisitor, PrecisionScale, StructFields,
    UnionVariants, VortexResult, fallible, field_path, match_each_float_ptype,
    match_each_integer_ptype, match_each_native_simd_ptype, match_each_signed_integer_ptype,
    match_each_unsigned_integer_ptype,
};

/// A visitor that does nothing.
struct Nothing;

impl PTypeVisitor for Nothing {
    type Answer = ();

    fn visit_u8(self) {}
    fn visit_u16(self) {}
    fn visit_u32(self) {}
    fn visit_u64(self) {}
    fn visit_i8(self) {}
    fn visit_i16(self) {}
    fn visit_i32(self) {}
    fn visit_i64(self) {}
    fn visit_float(self, _: PType) {}
}

/// An extension type over any storage type.
#[derive(Debug, Default)]
struct Any;

impl ExtVTable for Any {
    type Metadata = ();

    fn id(&self) -> &'static str {
        "x.any"
    }

    fn serialize_metadata(&self, (): &()) -> VortexResult<fallible::Vec<u8>> {
        Ok(vec![].into())
    }

    fn deserialize_metadata(&self, _: &[u8]) -> VortexResult<()> {
        Ok(())
    }

    fn validate_dtype(&self, (): &(), _: &DType) -> VortexResult<()> {
        Ok(())
    }
}

/// Returns the message with which a call panics.
fn panic_of(call: &dyn Fn()) -> String {
    let caught = catch_unwind(AssertUnwindSafe(call)).expect_err("the condition is violated");
    match caught.downcast::<String>() {
        Ok(message) => *message,
        Err(caught) => caught
            .downcast::<&str>()
            .map_or_else(|_| String::new(), |message| (*message).to_owned()),
    }
}

/// A call whose condition is checked, one that violates it, and the message.
type Violation = (&'static str, Box<dyn Fn()>, &'static str);

fn violation<T: 'static>(
    call: &'static str,
    made: impl Fn() -> T + 'static,
    message: &'static str,
) -> Violation {
    let called = move || drop(made());
    (call, Box::new(called), message)
}

fn null_extension() -> DType {
    DType::from(ExtDType::<Any>::try_new((), DType::Null).expect("any storage is accepted"))
}

fn one_type() -> Vec<DType> {
    vec![DType::from(PType::I8)]
}

fn names() -> FieldNames {
    ["a", "b"].into()
}

fn of_types() -> Vec<Violation> {
    let text = || DType::Utf8(NonNullable);
    let fields = || one_type().into_iter().map(FieldDType::from).collect();
    let union = || UnionVariants::new(["a"].into(), one_type()).expect("one variant");
    vec![
        violation(
            "DType::as_nonnullable",
            || DType::Null.as_nonnullable(),
            "DType::Null cannot be made non-nullable: null",
        ),
        violation(
            "DType::with_nullability",
            || null_extension().with_nullability(NonNullable),
            "DType::Null cannot be made non-nullable: x.any[0B](null)",
        ),
        violation(
            "ExtDTypeRef::with_nullability",
            || {
                null_extension()
                    .as_extension()
                    .with_nullability(NonNullable)
            },
            "DType::Null cannot be made non-nullable: x.any[0B](null)",
        ),
        violation(
            "ExtDType::with_nullability",
            || {
                ExtDType::<Any>::try_new((), DType::Null)
                    .map(|typed| typed.with_nullability(NonNullable))
            },
            "DType::Null cannot be made non-nullable: null",
        ),
        violation(
            "DType::as_ptype",
            move || text().as_ptype(),
            "expected a primitive type, found utf8",
        ),
        violation(
            "DType::as_struct_fields",
            move || text().as_struct_fields().nfields(),
            "expected a struct, found utf8",
        ),
        violation(
            "DType::into_struct_fields",
            move || text().into_struct_fields(),
            "expected a struct, found utf8",
        ),
        violation(
            "DType::as_extension",
            move || text().as_extension().clone(),
            "expected an extension type, found utf8",
        ),
        violation(
            "StructFields::new",
            || StructFields::new(names(), one_type()),
            "the numbers of names and types differ: 2 and 1",
        ),
        violation(
            "StructFields::from_fields",
            move || StructFields::from_fields(names(), fields()),
            "the numbers of names and types differ: 2 and 1",
        ),
        violation(
            "UnionVariants::child_index_to_tag",
            move || union().child_index_to_tag(1),
            "index out of bounds: the len is 1 but the index is 1",
        ),
    ]
}

fn of_numbers() -> Vec<Violation> {
    let precision = "decimal precision must be between 1 and 76 (inclusive)";
    vec![
        violation(
            "PType::max_unsigned_ptype",
            || PType::U8.max_unsigned_ptype(PType::I8),
            "expected two unsigned integer types, found u8 and i8",
        ),
        violation(
            "PType::max_signed_ptype",
            || PType::F32.max_signed_ptype(PType::I8),
            "expected two signed integer types, found f32 and i8",
        ),
        violation("DecimalDType::new", || DecimalDType::new(0, 0), precision),
        violation(
            "check_precision_and_scale",
            || check_precision_and_scale(1, 1, 128),
            "expected a greatest precision from 0 to 127, found 128",
        ),
        violation(
            "PrecisionScale::new",
            || PrecisionScale::<i8>::new(3, 0),
            "decimal precision 3 exceeds MAX_PRECISION 2",
        ),
        violation(
            "PrecisionScale::new_unchecked",
            || PrecisionScale::<i16>::new_unchecked(2, 3),
            "decimal scale 3 is greater than precision 2",
        ),
        violation(
            "NativeDecimalType::max_by_precision",
            || i8::max_by_precision(3),
            "expected a precision from 0 to 2, found 3",
        ),
        violation(
            "NativeDecimalType::min_by_precision",
            || i128::min_by_precision(39),
            "expected a precision from 0 to 38, found 39",
        ),
    ]
}

fn of_functions() -> Vec<Violation> {
    vec![
        violation(
            "match_each_integer_ptype",
            || match_each_integer_ptype(PType::F16, Nothing),
            "expected an integer type, found f16",
        ),
        violation(
            "match_each_unsigned_integer_ptype",
            || match_each_unsigned_integer_ptype(i8::PTYPE, Nothing),
            "expected an unsigned integer type, found i8",
        ),
        violation(
            "match_each_signed_integer_ptype",
            || match_each_signed_integer_ptype(u64::PTYPE, Nothing),
            "expected a signed integer type, found u64",
        ),
        violation(
            "match_each_float_ptype",
            || match_each_float_ptype(PType::U8, Nothing),
            "expected a floating-point type, found u8",
        ),
        violation(
            "match_each_native_simd_ptype",
            || match_each_native_simd_ptype(PType::F16, Nothing),
            "expected a type that SIMD has, found f16",
        ),
        violation(
            "FieldPath::starts_with_field",
            || field_path!(a.b).starts_with_field(&Field::ElementType),
            "only names can be compared: the step is [], and the path is $a.$b",
        ),
    ]
}

#[test]
fn each_violated_condition_panics_with_a_message() {
    for (call, violate, message) in of_types()
        .into_iter()
        .chain(of_numbers())
        .chain(of_functions())
    {
        assert_eq!(panic_of(&violate), message, "{call}");
    }
}

/// The table beside `erase` has each call with a condition, because `erase` refuses one that it hasn't.
#[test]
fn no_condition_is_left_out() {
    let checked = conditions().filter(|(_, check)| !check.is_empty());
    let checked: BTreeSet<&str> = checked.map(|(call, _)| call).collect();
    let violated = of_types()
        .into_iter()
        .chain(of_numbers())
        .chain(of_functions());
    assert_eq!(
        violated.map(|(call, _, _)| call).collect::<BTreeSet<_>>(),
        checked
    );
}

/// The first step of the path is the step to an element here, and not the step that is asked for.
#[test]
fn the_first_step_has_to_be_a_name_too() {
    let path = field_path!([], "a");
    let message = panic_of(&|| assert!(path.starts_with_field(&"a".into())));
    assert_eq!(
        message,
        "only names can be compared: the step is $a, and the path is [].$a"
    );
    assert!(!FieldPath::root().starts_with_field(&"a".into()));
}

/// What the crate has by hand has conditions, too.
#[test]
fn conditions_of_what_is_by_hand() {
    let wide = || {
        DType::fixed_size_list(
            DType::fixed_size_list(PType::I64, u32::MAX, NonNullable),
            u32::MAX,
            NonNullable,
        )
    };
    let zone =
        |zone: &str| Timestamp::new_with_tz(TimeUnit::Seconds, Some(zone.into()), NonNullable);
    for (call, violate, message) in [
        violation(
            "index",
            || names()[2].clone(),
            "index out of bounds: the len is 2 but the index is 2",
        ),
        violation(
            "element_size",
            move || wide().element_size(),
            "element size is bigger than usize: ",
        ),
        violation(
            "Date::new",
            || Date::new(TimeUnit::Seconds, NonNullable),
            "s isn't a unit of this extension type",
        ),
        violation(
            "new_with_tz",
            move || zone(""),
            "a time zone has from 1 to 65,535 bytes",
        ),
        violation(
            "new_with_tz",
            move || zone(&"x".repeat(65_536)),
            "a time zone has from 1 to 65,535 bytes",
        ),
    ] {
        let told = panic_of(&violate);
        assert!(told.starts_with(message), "{call}: {told}");
    }
}
