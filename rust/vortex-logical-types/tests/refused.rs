// SPDX-License-Identifier: Apache-2.0
// SPDX-FileCopyrightText: Copyright the Vortex contributors

//! Memory runs out in the calls that the crate has by hand and that return an error then: each allocation of each call is
//! refused in turn. The call returns the error, and nothing is left of what it made.

mod refusing;

use refusing::{each_refused, each_refused_on};
use std::fmt::Debug;
use std::sync::Arc;
#[cfg(feature = "arrow")]
use vortex_logical_types::ErrorKind;
use vortex_logical_types::Nullability::{NonNullable, Nullable};
#[cfg(feature = "arrow")]
use vortex_logical_types::arrow::FieldMetadata;
use vortex_logical_types::time::{Date, TimeUnit, Timestamp};
use vortex_logical_types::{
    DType, DTypeSession, Error, FieldNames, FieldPath, FieldPathSet, NativeDType, PType,
    UnionVariants, VortexError, Widening, pb,
};

const ORDERS: &str =
    "{id=u64, customer={city=utf8?}, lines=list({sku=utf8, price=decimal(10,2)?})}";

fn dtype(text: &str) -> DType {
    text.parse()
        .unwrap_or_else(|error| panic!("{text}: {error}"))
}

fn path(text: &str) -> FieldPath {
    text.parse()
        .unwrap_or_else(|error| panic!("{text}: {error}"))
}

/// Refuses each allocation of a call, of which there must be some, and returns what it returns if none is refused.
fn refuse<T, E: Into<Error> + Debug>(call: impl Fn() -> Result<T, E>) -> T {
    let (value, count) = each_refused(|| {
        call().map_err(|error| assert_eq!(error.into(), Error::from(VortexError::OutOfMemory)))
    });
    assert!(count > 0, "the call allocates");
    value
}

#[test]
fn texts() {
    assert_eq!(refuse(|| ORDERS.parse::<DType>()), dtype(ORDERS));
    assert_eq!(
        refuse(|| "lines.[].sku".parse::<FieldPath>()),
        path("lines.[].sku")
    );
    assert_eq!(refuse(|| FieldPathSet::parse(["a.b", "a"])).len(), 2);
    let (orders, steps) = (dtype(ORDERS), path("lines.[].\"a b\""));
    assert_eq!(refuse(|| orders.try_to_source()), ORDERS);
    assert_eq!(refuse(|| steps.try_to_source()), "lines.[].\"a b\"");
}

#[test]
fn paths_and_sets() {
    let (steps, orders) = (path("lines.[].sku"), dtype(ORDERS));
    assert_eq!(
        refuse(|| steps.try_join(&steps)),
        path("lines.[].sku.lines.[].sku")
    );
    assert_eq!(refuse(|| steps.try_parent()), Some(path("lines.[]")));
    let set = FieldPathSet::from([steps, path("lines"), path("id")]);
    assert_eq!(refuse(|| set.try_cover()).len(), 2);
    let part = dtype("{id=u64, lines=list({sku=utf8, price=decimal(10,2)?})}");
    assert_eq!(refuse(|| orders.try_project_paths(&set)), Some(part));
}

#[test]
fn merging() {
    let (one, other) = (dtype("{a={b=i32, c=utf8?}}"), dtype("{a={b=i32?, c=utf8}}"));
    let above = refuse(|| one.try_merge_nullability(&other));
    assert_eq!(above, Some(dtype("{a={b=i32?, c=utf8?}}")));
    let below = refuse(|| one.try_intersect_nullability(&other));
    assert_eq!(below, Some(dtype("{a={b=i32, c=utf8}}")));
    let wider = dtype("{a={c=utf8, d=i8}, e=i8}");
    let both = dtype("{a={b=i32?, c=utf8?, d=i8?}, e=i8?}");
    assert_eq!(
        refuse(|| one.try_merge_columns(&wider, Widening::None)),
        Some(both)
    );
    let wrong = dtype("{a={b=utf8}}");
    assert_eq!(
        refuse(|| one.try_merge_conflict(&wrong, Widening::None)).map(|it| it.path),
        Some(path("a.b"))
    );
    assert_eq!(
        refuse(|| DType::try_merge_all([&one, &wider, &wrong], Widening::None))
            .map_err(|it| it.index),
        Err(2)
    );
}

#[test]
fn messages() {
    let session = DTypeSession::default();
    let paid = dtype("{paid=vortex.timestamp[0x010300555443](i64), born=vortex.date[0x04](i32?)}");
    let message = refuse(|| paid.try_to_proto());
    assert_eq!(refuse(|| DType::from_proto(&message, &session)), paid);
    assert_eq!(refuse(|| pb::DType::try_from(&paid)), message);
    let part = pb::Field {
        field_type: Some(pb::FieldType::Name("a".into())),
    };
    let message = pb::FieldPath {
        path: vec![part].into(),
    };
    assert_eq!(refuse(|| FieldPath::try_from(&message)), path("a"));
}

/// What a union is made of, until it is.
type Parts = Option<(FieldNames, Vec<DType>, Vec<u8>)>;

#[test]
fn constructors() {
    let zone: Arc<str> = "UTC".into();
    let paid =
        refuse(|| Timestamp::try_new_with_tz(TimeUnit::Seconds, Some(Arc::clone(&zone)), Nullable));
    assert_eq!(
        refuse(|| paid.try_with_nullability(NonNullable)).nullability(),
        NonNullable
    );
    assert_eq!(
        refuse(|| Date::try_new(TimeUnit::Days, Nullable)?.try_erased()).metadata_bytes(),
        [4]
    );
    assert_eq!(
        refuse(Vec::<Option<String>>::try_dtype),
        dtype("list(utf8?)")
    );
    let make = || -> Parts {
        Some((
            ["a", "b"].into(),
            vec![PType::I8.into(), DType::Null],
            vec![5, 9],
        ))
    };
    let call = |parts: &mut Parts| {
        let (names, dtypes, tags) = parts.take().expect("each call has parts of its own");
        UnionVariants::try_new(names, dtypes, tags)
    };
    let ((variants, _), count) = each_refused_on(make, call, Option::is_none);
    assert_eq!(
        (variants.to_string().as_str(), count > 0),
        ("a@5=i8, b@9=null", true)
    );
}

#[cfg(feature = "arrow")]
#[test]
fn arrow() {
    let orders = dtype(ORDERS);
    let schema = refuse(|| orders.to_arrow());
    assert_eq!(refuse(|| DType::from_arrow(&schema)), orders);
    let about = |name: &str| FieldMetadata {
        path: vec![name.to_owned()],
        key: b"key".to_vec(),
        value: b"value".to_vec(),
    };
    let metadata = [about("id"), about("lines")];
    let schema = refuse(|| orders.to_arrow_with_metadata(&metadata));
    let (found, read) = refuse(|| DType::from_arrow_with_metadata(&schema));
    assert_eq!((found, &read[..]), (orders.clone(), &metadata[..]));
    let like = refuse(|| orders.to_arrow_like(&schema, &metadata));
    let copied = refuse(|| like.try_clone());
    assert_eq!(DType::from_arrow(&copied), Ok(dtype(ORDERS)));
    let wrong = [about("none")];
    let error = refuse(|| told(orders.to_arrow_with_metadata(&wrong)));
    assert!(error.to_string().contains("no such field"), "{error}");
    let deep = (0..130).fold(dtype("i8"), |it, _| DType::list(it, NonNullable));
    let error = refuse(|| told(deep.to_arrow()));
    assert_eq!(error.kind(), ErrorKind::TooDeep);
}

/// The error of a call that has to fail. That there is no memory for it is an error of the call.
#[cfg(feature = "arrow")]
fn told<T>(result: Result<T, Error>) -> Result<Error, Error> {
    match result {
        Ok(_) => panic!("the call has to fail"),
        Err(error) if error.kind() == ErrorKind::OutOfMemory => Err(error),
        Err(error) => Ok(error),
    }
}
