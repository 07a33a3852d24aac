// SPDX-License-Identifier: Apache-2.0
// SPDX-FileCopyrightText: Copyright the Vortex contributors

//! Sessions, plugins, and dates and times. A plugin that breaks a law must be found by `check_plugin`.

use std::sync::atomic::{AtomicBool, Ordering};
use vortex_logical_types::Nullability::{NonNullable, Nullable};
use vortex_logical_types::time::{Date, Time, TimeUnit, Timestamp, TimestampOptions};
use vortex_logical_types::{
    DType, DTypeSession, ExtDType, ExtDTypePlugin, PType, PluginOf, VortexError, VortexResult,
    check_plugin, fallible,
};

fn dtype(text: &str) -> DType {
    text.parse()
        .unwrap_or_else(|error| panic!("{text}: {error}"))
}

/// A plugin that a function describes.
struct Plugin(fn(&[u8], &DType) -> VortexResult<Vec<u8>>);

impl ExtDTypePlugin for Plugin {
    fn id(&self) -> &'static str {
        "x.tag"
    }

    fn deserialize(&self, metadata: &[u8], storage: &DType) -> VortexResult<fallible::Vec<u8>> {
        self.0(metadata, storage).map(Into::into)
    }
}

/// A plugin with another id at each second call.
struct Changing(AtomicBool);

impl ExtDTypePlugin for Changing {
    fn id(&self) -> &'static str {
        if self.0.fetch_xor(true, Ordering::Relaxed) {
            "x.one"
        } else {
            "x.other"
        }
    }

    fn deserialize(&self, _: &[u8], _: &DType) -> VortexResult<fallible::Vec<u8>> {
        Err(VortexError::MetadataRefused)
    }
}

/// Returns the law that a plugin breaks.
fn broken(plugin: &dyn ExtDTypePlugin) -> Option<&'static str> {
    let storage = DType::Utf8(NonNullable);
    check_plugin(plugin, [(&b"A"[..], &storage), (b"", &storage)])
        .err()
        .map(|broken| broken.law)
}

#[test]
fn each_broken_law_is_found() {
    assert_eq!(
        broken(&Plugin(|bytes, _| Ok(bytes.to_ascii_lowercase()))),
        None
    );
    assert_eq!(
        broken(&Plugin(|_, _| Err(VortexError::MetadataRefused))),
        None
    );
    assert_eq!(broken(&PluginOf::new(Timestamp)), None);
    let longer = Plugin(|bytes, _| Ok([bytes, b"!"].concat()));
    assert_eq!(
        broken(&longer),
        Some("what was written back is read and written back unchanged")
    );
    let by_nullability = Plugin(|bytes, storage| {
        Ok(if storage.is_nullable() {
            vec![]
        } else {
            bytes.to_vec()
        })
    });
    assert_eq!(
        broken(&by_nullability),
        Some("the outer nullability of the storage type makes no difference")
    );
    let other_error = Plugin(|_, _| Err(VortexError::UnionEmpty));
    assert_eq!(
        broken(&other_error),
        Some("a plugin refuses by MetadataRefused or OutOfMemory")
    );
    assert_eq!(
        broken(&Changing(AtomicBool::new(false))),
        Some("the id is the same at each call")
    );
    let told = check_plugin(&longer, [(&b"a"[..], &DType::Null)]).unwrap_err();
    assert_eq!(
        (told.metadata.as_slice(), &told.storage),
        (&b"a"[..], &DType::Null)
    );
    assert!(
        told.to_string()
            .ends_with("broken with the metadata [97] over null"),
        "{told}"
    );
}

#[test]
fn sessions_keep_plugins() {
    let mut session = DTypeSession::new();
    session.register(Date);
    session.register(
        Box::new(Plugin(|bytes, _| Ok(bytes.to_ascii_lowercase()))) as Box<dyn ExtDTypePlugin>
    );
    assert_eq!(session.registered(), ["vortex.date", "x.tag"]);
    let kept = session
        .deserialize("x.tag", b"AB", DType::Utf8(NonNullable))
        .unwrap();
    assert_eq!(
        (kept.metadata_bytes(), kept.id().as_ref()),
        (&b"ab"[..], "x.tag")
    );
    assert_eq!(
        session.deserialize("vortex.date", &[9], PType::I32.into()),
        Err(VortexError::MetadataRefused)
    );
    // (A session is shared between threads.)
    let read =
        |session: &DTypeSession| DType::from_proto(&dtype("x.tag[0x41](utf8)").to_proto(), session);
    let of_threads = std::thread::scope(|scope| {
        let threads: Vec<_> = (0..4).map(|_| scope.spawn(|| read(&session))).collect();
        threads
            .into_iter()
            .map(|thread| thread.join().unwrap())
            .collect::<Vec<_>>()
    });
    assert_eq!(of_threads, vec![Ok(dtype("x.tag[0x61](utf8)")); 4]);
}

#[test]
fn dates_and_times_have_units_and_zones() {
    for (text, unit, zone) in [
        ("vortex.date[0x04](i32?)", Some(TimeUnit::Days), None),
        ("vortex.date[0x02](i64)", Some(TimeUnit::Milliseconds), None),
        ("vortex.date[0x02](i32)", None, None),
        ("vortex.date[0x03](i64)", None, None),
        ("vortex.date[0x0400](i32)", None, None),
        ("vortex.date[0x](i32)", None, None),
        ("vortex.time[0x03](i32)", Some(TimeUnit::Seconds), None),
        ("vortex.time[0x00](i64?)", Some(TimeUnit::Nanoseconds), None),
        ("vortex.time[0x00](i32)", None, None),
        (
            "vortex.timestamp[0x010000](i64)",
            Some(TimeUnit::Microseconds),
            Some(""),
        ),
        (
            "vortex.timestamp[0x010300555443](i64?)",
            Some(TimeUnit::Microseconds),
            Some("UTC"),
        ),
        ("vortex.timestamp[0x0103005554](i64)", None, None),
        ("vortex.timestamp[0x010100ff](i64)", None, None),
        ("vortex.timestamp[0x010300555443](i32)", None, None),
        ("vortex.date[0x05](i32)", None, None),
        ("vortex.date[0x04](utf8)", None, None),
        ("vortex.time[0x04](i32)", None, None),
        ("vortex.time[0xff](i64)", None, None),
        ("vortex.timestamp[0x](i64)", None, None),
        ("vortex.timestamp[0x0300](i64)", None, None),
        ("vortex.timestamp[0x030100](i64)", None, None),
        ("vortex.timestamp[0x03000055](i64)", None, None),
        ("x.date[0x04](i32)", None, None),
        ("i32", None, None),
    ] {
        assert_eq!(
            (dtype(text).time_unit(), dtype(text).time_zone()),
            (unit, zone),
            "{text}"
        );
        // (A session that knows dates and times accepts those that have a unit.)
        let read = DType::from_proto(&dtype(text).to_proto(), &DTypeSession::default());
        assert_eq!(read.is_ok(), unit.is_some() || text == "i32", "{text}");
    }
    let made = [
        (
            DType::from(Date::new(TimeUnit::Days, Nullable)),
            "vortex.date[0x04](i32?)",
        ),
        (
            DType::from(Time::new(TimeUnit::Milliseconds, NonNullable)),
            "vortex.time[0x02](i32)",
        ),
        (
            DType::from(Timestamp::new(TimeUnit::Seconds, NonNullable)),
            "vortex.timestamp[0x030000](i64)",
        ),
    ];
    for (made, text) in made {
        assert_eq!(made, dtype(text));
    }
    // (In the order of `ALL`: nanoseconds, microseconds, milliseconds, seconds and days.)
    let storage_of_dates = [None, None, Some("i64"), None, Some("i32")];
    let storage_of_times = [Some("i64"), Some("i64"), Some("i32"), Some("i32"), None];
    for (number, unit) in TimeUnit::ALL.into_iter().enumerate() {
        let type_of = |id: &str, storage: Option<&str>| {
            storage.map(|storage| dtype(&format!("vortex.{id}[0x0{number}]({storage})")))
        };
        let (date, time) = (
            Date::try_new(unit, NonNullable),
            Time::try_new(unit, NonNullable),
        );
        let refused = [date.as_ref().err(), time.as_ref().err()];
        assert!(
            refused
                .into_iter()
                .flatten()
                .all(|it| *it == VortexError::MetadataRefused)
        );
        assert_eq!(
            date.ok().map(DType::from),
            type_of("date", storage_of_dates[number])
        );
        assert_eq!(
            time.ok().map(DType::from),
            type_of("time", storage_of_times[number])
        );
    }
    let long = Some("x".repeat(65_536).into());
    let refused = Timestamp::try_new_with_tz(TimeUnit::Seconds, long, NonNullable);
    assert_eq!(refused.unwrap_err(), VortexError::MetadataRefused);
    assert_eq!(
        TimeUnit::ALL.map(|unit| unit.to_string()),
        ["ns", "us", "ms", "s", "days"]
    );
}

#[test]
fn typed_extensions_are_values() {
    let typed = Timestamp::new_with_tz(TimeUnit::Seconds, Some("UTC".into()), NonNullable);
    assert_eq!(typed.clone(), typed);
    assert_eq!(
        typed.metadata(),
        &TimestampOptions {
            unit: TimeUnit::Seconds,
            tz: Some("UTC".into())
        }
    );
    assert_eq!(typed.with_nullability(Nullable).nullability(), Nullable);
    let erased = typed.clone().erased();
    assert_eq!(erased.clone().try_downcast::<Timestamp>(), Ok(typed));
    let (unchanged, reason) = ExtDType::try_downcast(erased.clone(), Date).unwrap_err();
    assert_eq!(
        (unchanged, reason),
        (erased, VortexError::ExtensionIdDiffers)
    );
}
