// SPDX-License-Identifier: Apache-2.0
// SPDX-FileCopyrightText: Copyright the Vortex contributors

//! Types from and to Arrow. Which Arrow type is which is tested in C (`c/tests`), over the same proved source.
#![cfg(feature = "arrow")]
#![allow(unsafe_code, reason = "a producer of Arrow's structs is C")]

use std::ffi::{CStr, c_char, c_void};
use std::ptr;
use std::sync::atomic::{AtomicUsize, Ordering};
use std::thread;
use vortex_logical_types::Nullability::{NonNullable, Nullable};
use vortex_logical_types::arrow::ArrowSchema;
use vortex_logical_types::time::{TimeUnit, Timestamp};
use vortex_logical_types::{DType, Error, ErrorKind, VortexError};

fn dtype(text: &str) -> DType {
    text.parse()
        .unwrap_or_else(|error| panic!("{text}: {error}"))
}

/// The struct as another library declares it, for example `arrow::ffi::FFI_ArrowSchema`.
#[repr(C)]
struct Foreign {
    format: *const c_char,
    name: *const c_char,
    metadata: *const c_char,
    flags: i64,
    n_children: i64,
    children: *mut *mut Foreign,
    dictionary: *mut Foreign,
    release: Option<unsafe extern "C" fn(*mut Foreign)>,
    private_data: *mut c_void,
}

/// Marks a struct as released, as a producer does that owns nothing.
unsafe extern "C" fn release_nothing(it: *mut Foreign) {
    unsafe { (*it).release = None };
}

fn foreign(format: &'static CStr) -> Foreign {
    Foreign {
        format: format.as_ptr(),
        name: ptr::null(),
        metadata: ptr::null(),
        flags: 2,
        n_children: 0,
        children: ptr::null_mut(),
        dictionary: ptr::null_mut(),
        release: Some(release_nothing),
        private_data: ptr::null_mut(),
    }
}

/// Moves a struct out of its place.
fn taken(exported: &mut Foreign) -> ArrowSchema {
    unsafe { ArrowSchema::from_raw(ptr::from_mut(exported).cast()) }
}

fn refusal(exported: &mut Foreign) -> (ErrorKind, String) {
    let error = DType::from_arrow(&taken(exported)).expect_err("a struct without a type");
    (error.kind(), error.to_string())
}

#[test]
fn there_and_back() -> Result<(), Error> {
    for text in [
        "null",
        "bool?",
        "decimal(76,-2)",
        "list(utf8?)?",
        "fixed_size_list(u8)[16]",
        "map(utf8, {a=i8}, keys_sorted=true)?",
        "{}",
        r#"{a=i8, a=i16, "b c"=null, d=x.tag[0x610062](utf8?)}?"#,
        "union(a@5=i8, b@127={c=utf8})",
        "x.tag[0x](vortex.timestamp[0x020300555443](i64))",
        "{id=u64, paid=vortex.date[0x04](i32), at=vortex.time[0x00](i64?)}",
        "{a=vortex.date[0x02](i64), b=vortex.time[0x03](i32), c=vortex.time[0x02](i32?), d=vortex.time[0x01](i64)}",
    ] {
        let schema = dtype(text).to_arrow()?;
        assert_eq!(DType::from_arrow(&schema)?, dtype(text));
        // (It is left as it was.)
        assert_eq!(DType::try_from(&schema)?, dtype(text));
        assert!(!schema.is_released());
    }
    let columns = (0..1000).map(|at| (format!("column_{at}"), DType::Utf8(Nullable)));
    let wide = DType::struct_(columns, NonNullable);
    assert_eq!(DType::from_arrow(&ArrowSchema::try_from(&wide)?)?, wide);
    Ok(())
}

#[test]
fn a_struct_is_released_once() -> Result<(), Error> {
    static RELEASED: AtomicUsize = AtomicUsize::new(0);
    unsafe extern "C" fn release(it: *mut Foreign) {
        RELEASED.fetch_add(1, Ordering::Relaxed);
        unsafe { (*it).release = None };
    }
    let counted = |format| Foreign {
        release: Some(release),
        ..foreign(format)
    };
    let mut exported = counted(c"i");
    let moved = taken(&mut exported);
    assert!(exported.release.is_none());
    assert_eq!(DType::from_arrow(&moved)?, dtype("i32?"));
    assert_eq!(RELEASED.load(Ordering::Relaxed), 0);
    drop(moved);
    assert_eq!(RELEASED.load(Ordering::Relaxed), 1);
    // What was moved out has no type, and isn't released again.
    assert!(taken(&mut exported).is_released());
    assert_eq!(refusal(&mut exported).0, ErrorKind::Arrow);
    assert_eq!(RELEASED.load(Ordering::Relaxed), 1);
    // Given away, and back.
    exported = counted(c"u");
    let raw = taken(&mut exported).into_raw();
    assert_eq!(unsafe { (*raw.cast::<Foreign>()).flags }, 2);
    drop(unsafe { Box::from_raw(raw) });
    assert_eq!(RELEASED.load(Ordering::Relaxed), 2);
    Ok(())
}

#[test]
fn another_library_consumes_it() -> Result<(), Error> {
    let mut made = dtype("{a=i8, b=list(utf8)}").to_arrow()?;
    // (As `FFI_ArrowSchema::from_raw` moves a struct out, and then a child out of it.)
    let mut moved: Foreign = unsafe { ptr::read((&raw const made).cast()) };
    unsafe { (*(&raw mut made).cast::<Foreign>()).release = None };
    assert!(made.is_released());
    drop(made);
    assert_eq!(moved.n_children, 2);
    let second = unsafe { ArrowSchema::from_raw((*moved.children.add(1)).cast()) };
    unsafe { moved.release.expect("a schema")(&raw mut moved) };
    assert!(moved.release.is_none());
    assert_eq!(DType::from_arrow(&second)?, dtype("list(utf8)"));
    Ok(())
}

#[test]
fn errors_name_the_part() {
    for (text, part) in [
        ("variant", "variant"),
        ("{b=i8, a=list(variant?)}", "a.item"),
        ("union(a@200=i8)", "127"),
    ] {
        let error = dtype(text).to_arrow().unwrap_err();
        assert_eq!(
            (error.kind(), error.number(), error.position()),
            (ErrorKind::Arrow, None, None)
        );
        assert!(error.to_string().contains(part), "{error}");
    }
    let (kind, told) = refusal(&mut foreign(c"tdX"));
    assert!(
        kind == ErrorKind::Arrow && told.contains("\"tdX\""),
        "{told}"
    );
    assert_eq!(
        refusal(&mut foreign(c"d:77,0")).0,
        ErrorKind::PrecisionTooLarge
    );
    assert_eq!(
        refusal(&mut foreign(c"d:3,4")).1,
        "decimal scale 4 is greater than precision 3"
    );
    // (Names and formats are escaped, and long ones cut.)
    let mut odd = Foreign {
        name: c"b\x1b[31m\"".as_ptr(),
        ..foreign(c"t\n")
    };
    let mut children = [&raw mut odd];
    let mut with_odd = Foreign {
        n_children: 1,
        children: children.as_mut_ptr(),
        ..foreign(c"+s")
    };
    assert_eq!(
        refusal(&mut with_odd).1,
        r#"column "b\x1b[31m\"": the Arrow format "t\n" has no type here"#
    );
    let long: &'static CStr = c"xxxxxxxxxxxxxxxxxxxxxxxxxxxxxxxxxxxxxxxxxxxxxxxxxxxxxxxxxxxxxxxxyz";
    assert_eq!(
        refusal(&mut foreign(long)).1,
        format!(
            "the Arrow format \"{}.. (66 bytes)\" has no type here",
            "x".repeat(64)
        )
    );
}

/// The errors of the library, and those of types that are too deep, name the column, and keep their kind and number.
#[test]
fn errors_of_the_library_name_the_column() {
    let mut odd = Foreign {
        name: c"odd".as_ptr(),
        ..foreign(c"d:2,4")
    };
    let mut good = Foreign {
        name: c"good".as_ptr(),
        ..foreign(c"i")
    };
    let mut children = [&raw mut good, &raw mut odd];
    let exported = Foreign {
        n_children: 2,
        children: children.as_mut_ptr(),
        ..foreign(c"+s")
    };
    // (It isn't moved out, so that its children stay in their places.)
    let schema = unsafe { &*(&raw const exported).cast::<ArrowSchema>() };
    let error = DType::from_arrow(schema).unwrap_err();
    let text = "column \"odd\": decimal scale 4 is greater than precision 2";
    assert_eq!(
        (error.to_string().as_str(), error.number(), error.position()),
        (text, Some(4), None)
    );
    assert_eq!(error.kind(), ErrorKind::ScaleAbovePrecision);
    let Error::ArrowField { error, .. } = error else {
        panic!("{error:?}");
    };
    assert!(matches!(
        *error,
        Error::Vortex(VortexError::ScaleAbovePrecision { .. })
    ));

    let deep = (0..130).fold(dtype("i8"), |element, _| DType::list(element, NonNullable));
    let error = DType::struct_([("a", deep)], NonNullable)
        .to_arrow()
        .unwrap_err();
    assert_eq!((error.kind(), error.number()), (ErrorKind::TooDeep, None));
    let text = format!(
        "column \"a{}\": nested more than 128 levels deep",
        ".item".repeat(127)
    );
    assert_eq!(error.to_string(), text);
}

/// Each fault of a struct that the walk finds, before anything behind it is read.
#[test]
fn structs_that_are_wrong_are_refused() {
    let null: *const c_char = ptr::null();
    let wrong = |change: fn(&mut Foreign)| {
        let mut exported = foreign(c"+s");
        change(&mut exported);
        refusal(&mut exported).1
    };
    let mut without_format = Foreign {
        format: null,
        ..foreign(c"i")
    };
    assert!(
        refusal(&mut without_format)
            .1
            .contains("the format is NULL")
    );
    assert!(wrong(|it| it.n_children = -1).contains("negative or too large"));
    assert!(wrong(|it| it.n_children = i64::MAX).contains("negative or too large"));
    assert!(wrong(|it| it.n_children = 1 << 24).contains("more than 16777216 fields"));
    assert!(wrong(|it| it.n_children = 1).contains("is NULL"));
    let mut missing = [ptr::null_mut(); 2];
    let mut with_missing = Foreign {
        n_children: 2,
        children: missing.as_mut_ptr(),
        ..foreign(c"+s")
    };
    assert!(refusal(&mut with_missing).1.contains("is NULL"));
    let negative = (-1_i32).to_ne_bytes();
    let mut with_metadata = Foreign {
        metadata: negative.as_ptr().cast(),
        ..foreign(c"i")
    };
    assert!(
        refusal(&mut with_metadata)
            .1
            .contains("negative or too large")
    );
}

/// A field inside itself: the walk ends where more than 300 fields are inside one another.
#[test]
fn a_field_inside_itself_is_refused() {
    let mut exported = foreign(c"+l");
    let mut children = [&raw mut exported];
    exported.n_children = 1;
    exported.children = children.as_mut_ptr();
    // (It isn't moved out, so that its child stays in its place.)
    let schema = unsafe { &*(&raw const exported).cast::<ArrowSchema>() };
    let error = DType::from_arrow(schema).unwrap_err();
    assert_eq!(error.kind(), ErrorKind::TooDeep, "{error}");
}

/// Metadata, and the values of a dictionary, are read.
#[test]
fn metadata_and_dictionaries_are_read() -> Result<(), Error> {
    let key = b"ARROW:extension:name";
    let mut metadata = Vec::new();
    for part in [
        &1_i32.to_ne_bytes()[..],
        &20_i32.to_ne_bytes(),
        key,
        &5_i32.to_ne_bytes(),
        b"x.tag",
    ] {
        metadata.extend_from_slice(part);
    }
    // (At an address that isn't aligned, as C allows.)
    metadata.insert(0, 0);
    let mut tagged = Foreign {
        metadata: metadata[1..].as_ptr().cast(),
        ..foreign(c"u")
    };
    assert_eq!(
        DType::from_arrow(&taken(&mut tagged))?,
        dtype("x.tag[0x](utf8?)")
    );
    let mut values = foreign(c"u");
    let mut codes = Foreign {
        dictionary: &raw mut values,
        flags: 0,
        ..foreign(c"c")
    };
    // (The field isn't nullable. The flag of the values has no meaning.)
    assert_eq!(DType::from_arrow(&taken(&mut codes))?, dtype("utf8"));
    codes = Foreign {
        dictionary: &raw mut values,
        ..foreign(c"c")
    };
    assert_eq!(DType::from_arrow(&taken(&mut codes))?, dtype("utf8?"));
    Ok(())
}

/// The format, the flags and the number of children with which a type is written.
fn written(text: &str) -> (String, i64, i64) {
    let schema = dtype(text).to_arrow().expect("a type that can be written");
    assert_eq!(DType::from_arrow(&schema), Ok(dtype(text)));
    let it = unsafe { &*(&raw const schema).cast::<Foreign>() };
    let format = unsafe { CStr::from_ptr(it.format) };
    (
        format.to_str().expect("a format").to_owned(),
        it.flags,
        it.n_children,
    )
}

/// Bytes of one length are binary strings, unless some may be null, or Arrow wants a list.
#[test]
fn lists_of_bytes_are_binary_strings() {
    for (text, format, flags, children) in [
        ("fixed_size_list(u8)[16]", "w:16", 0, 0),
        ("fixed_size_list(u8)[0]?", "w:0", 2, 0),
        ("arrow.uuid[0x](fixed_size_list(u8)[16]?)", "w:16", 2, 0),
        ("fixed_size_list(u8?)[16]", "+w:16", 0, 1),
        ("fixed_size_list(i8)[16]", "+w:16", 0, 1),
        (
            "arrow.fixed_shape_tensor[0x7b7d](fixed_size_list(u8)[4])",
            "+w:4",
            0,
            1,
        ),
    ] {
        assert_eq!(
            written(text),
            (format.to_owned(), flags, children),
            "{text}"
        );
    }
}

/// Durations and intervals keep their formats. Extensions with their ids and another metadata or storage type are like others.
#[test]
fn durations_and_intervals_are_kept() {
    for (text, format, children) in [
        ("arrow.duration[0x744473](i64)", "tDs", 0),
        ("arrow.duration[0x74446d](i64)", "tDm", 0),
        ("arrow.duration[0x744475](i64)", "tDu", 0),
        ("arrow.duration[0x74446e](i64)", "tDn", 0),
        ("arrow.interval[0x74694d](i32)", "tiM", 0),
        ("arrow.interval[0x746944](fixed_size_list(u8)[8])", "tiD", 0),
        (
            "arrow.interval[0x74696e](fixed_size_list(u8)[16])",
            "tin",
            0,
        ),
        ("x.tag[0x01](arrow.duration[0x744473](i64))", "tDs", 0),
        ("arrow.duration[0x744473](i32)", "i", 0),
        ("arrow.duration[0x74694d](i64)", "l", 0),
        ("arrow.duration[0x7444](i64)", "l", 0),
        ("arrow.interval[0x744473](i64)", "l", 0),
        (
            "arrow.interval[0x746944](fixed_size_list(u8)[16])",
            "w:16",
            0,
        ),
        (
            "arrow.interval[0x746944](fixed_size_list(u8?)[8])",
            "+w:8",
            1,
        ),
        ("arrow.interval[0x74696e](i32)", "i", 0),
    ] {
        assert_eq!(written(text), (format.to_owned(), 0, children), "{text}");
    }
    // Their storage type takes levels as any other.
    let whole = |lists| {
        let interval = dtype("arrow.interval[0x74696e](fixed_size_list(u8)[16])");
        (0..lists).fold(interval, |element, _| DType::list(element, NonNullable))
    };
    assert!(
        whole(126)
            .to_arrow()
            .is_ok_and(|it| DType::from_arrow(&it) == Ok(whole(126)))
    );
    assert_eq!(
        whole(127).to_arrow().unwrap_err().kind(),
        ErrorKind::TooDeep
    );
}

/// Structs are made, sent, read and released on eight threads at once.
#[test]
fn structs_are_sent_to_other_threads() {
    let whole = dtype("{id=u64, lines=list({sku=utf8, price=decimal(10,2)?})}");
    thread::scope(|scope| {
        for _ in 0..8 {
            scope.spawn(|| {
                for _ in 0..200 {
                    let schema = whole.to_arrow().expect("a type that can be written");
                    let read = thread::spawn(move || DType::from_arrow(&schema))
                        .join()
                        .expect("no panic");
                    assert_eq!(read.as_ref(), Ok(&whole));
                }
            });
        }
    });
}

#[test]
fn empty_structs() {
    assert!(ArrowSchema::empty().is_released() && ArrowSchema::default().is_released());
    assert_eq!(
        format!("{:?}", ArrowSchema::empty()),
        "ArrowSchema { is_released: true, .. }"
    );
    assert_eq!(size_of::<ArrowSchema>(), 72);
}

#[test]
fn timestamps_have_zones_and_no_days() -> Result<(), Error> {
    for unit in TimeUnit::ALL {
        for zone in ["UTC", "+01:00", "ä", &"x".repeat(65_535)] {
            let dtype = DType::from(Timestamp::new_with_tz(unit, Some(zone.into()), Nullable));
            assert_eq!(
                (dtype.time_unit(), dtype.time_zone()),
                (Some(unit), Some(zone))
            );
            match unit {
                TimeUnit::Days => assert!(
                    dtype
                        .to_arrow()
                        .is_ok_and(|it| DType::from_arrow(&it) == Ok(dtype))
                ),
                _ => assert_eq!(DType::from_arrow(&dtype.to_arrow()?)?, dtype),
            }
        }
    }
    Ok(())
}
