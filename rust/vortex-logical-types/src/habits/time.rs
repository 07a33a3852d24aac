// SPDX-License-Identifier: Apache-2.0
// SPDX-FileCopyrightText: Copyright the Vortex contributors

//! Dates, times and timestamps: the extension types that Vortex writes for them.
//!
//! ```
//! use vortex_logical_types::{DType, Nullability::{NonNullable, Nullable}, time::{Date, TimeUnit, Timestamp}};
//!
//! let born = DType::from(Date::new(TimeUnit::Days, Nullable));
//! assert_eq!(born.to_source(), "vortex.date[0x04](i32?)");
//! let paid = DType::from(Timestamp::new_with_tz(TimeUnit::Microseconds, Some("UTC".into()), NonNullable));
//! assert_eq!((paid.time_unit(), paid.time_zone()), (Some(TimeUnit::Microseconds), Some("UTC")));
//! ```
//!
//! The first byte of the metadata is the number of the unit, from 0 for nanoseconds to 4 for days. In the metadata of a
//! timestamp follow the length of the time zone, in two bytes with the lower one first, and the time zone. A length of 0
//! stands for no time zone.

use crate::dtype_base::{Nullability, PType, VortexError, VortexResult};
use crate::dtype_types::{DType, ExtDTypeRef};
use crate::fallible;
use crate::vortex_dtype::{ExtDType, ExtVTable};
use std::fmt;
use std::sync::Arc;

type Bytes = fallible::Vec<u8>;

/// The unit in which dates, times and timestamps count. Units are ordered by their numbers, 0 to 4.
#[derive(Debug, Clone, Copy, PartialEq, Eq, PartialOrd, Ord, Hash)]
pub enum TimeUnit {
    /// Number 0.
    Nanoseconds,
    /// Number 1.
    Microseconds,
    /// Number 2.
    Milliseconds,
    /// Number 3.
    Seconds,
    /// Number 4.
    Days,
}

impl TimeUnit {
    /// All units, in the order of their numbers.
    pub const ALL: [Self; 5] = [
        Self::Nanoseconds,
        Self::Microseconds,
        Self::Milliseconds,
        Self::Seconds,
        Self::Days,
    ];

    /// Returns the number that the metadata of an extension has for the unit, from 0 to 4.
    ///
    /// ```
    /// use vortex_logical_types::time::TimeUnit;
    ///
    /// assert_eq!(TimeUnit::Days.number(), 4);
    /// ```
    #[must_use]
    pub fn number(&self) -> u8 {
        *self as u8
    }

    // Returns the unit with the number that is the first of these bytes, and the other bytes.
    fn read(metadata: &[u8]) -> VortexResult<(Self, &[u8])> {
        let (number, rest) = metadata.split_first().ok_or(VortexError::MetadataRefused)?;
        let unit = Self::ALL
            .get(usize::from(*number))
            .ok_or(VortexError::MetadataRefused)?;
        Ok((*unit, rest))
    }

    // Returns the unit that these bytes consist of.
    fn read_all(metadata: &[u8]) -> VortexResult<Self> {
        match Self::read(metadata)? {
            (unit, []) => Ok(unit),
            _ => Err(VortexError::MetadataRefused),
        }
    }

    // Returns the storage type of dates with this unit.
    fn of_dates(self) -> VortexResult<PType> {
        match self {
            Self::Days => Ok(PType::I32),
            Self::Milliseconds => Ok(PType::I64),
            Self::Nanoseconds | Self::Microseconds | Self::Seconds => {
                Err(VortexError::MetadataRefused)
            }
        }
    }

    // Returns the storage type of times of a day with this unit.
    fn of_times(self) -> VortexResult<PType> {
        match self {
            Self::Seconds | Self::Milliseconds => Ok(PType::I32),
            Self::Microseconds | Self::Nanoseconds => Ok(PType::I64),
            Self::Days => Err(VortexError::MetadataRefused),
        }
    }
}

/// Writes the unit as it stands behind a number, such as `ns` or `days`.
impl fmt::Display for TimeUnit {
    fn fmt(&self, f: &mut fmt::Formatter<'_>) -> fmt::Result {
        f.pad(match self {
            Self::Nanoseconds => "ns",
            Self::Microseconds => "us",
            Self::Milliseconds => "ms",
            Self::Seconds => "s",
            Self::Days => "days",
        })
    }
}

/// The vtable of dates: days as `i32`, or milliseconds as `i64`, since 1 January 1970.
#[derive(Debug, Clone, Copy, PartialEq, Eq, Hash, Default)]
pub struct Date;

/// The vtable of times of a day: seconds or milliseconds as `i32`, or microseconds or nanoseconds as `i64`.
#[derive(Debug, Clone, Copy, PartialEq, Eq, Hash, Default)]
pub struct Time;

/// The vtable of timestamps: a number of units as `i64`, with or without a time zone.
#[derive(Debug, Clone, Copy, PartialEq, Eq, Hash, Default)]
pub struct Timestamp;

/// The metadata of a timestamp.
#[derive(Debug, Clone, PartialEq, Eq, Hash)]
pub struct TimestampOptions {
    /// The unit in which timestamps count.
    pub unit: TimeUnit,
    /// The time zone, such as `Europe/Berlin` or `+01:00`, of at most 65,535 bytes. It isn't the empty text.
    pub tz: Option<fallible::String>,
}

// Returns what a constructor made, or ends with a sentence that names the unit.
fn of_unit<V: ExtVTable>(made: VortexResult<ExtDType<V>>, unit: TimeUnit) -> ExtDType<V> {
    made.unwrap_or_else(|_| panic!("{unit} isn't a unit of this extension type"))
}

// Returns the bytes, in a list whose allocation can fail.
fn bytes_of(bytes: &[u8]) -> VortexResult<Bytes> {
    Ok(Bytes::from_slice(bytes)?)
}

// Checks that the storage type is this primitive type, of either nullability.
fn check_storage(storage: &DType, ptype: PType) -> VortexResult<()> {
    match storage.as_ptype_opt() {
        Some(found) if found == ptype => Ok(()),
        _ => Err(VortexError::MetadataRefused),
    }
}

impl Date {
    /// Returns the type of dates: the extension `vortex.date` over `i32` for days, or over `i64` for milliseconds.
    ///
    /// # Panics
    ///
    /// For another unit. `try_new` returns an error in this case.
    #[must_use]
    pub fn new(unit: TimeUnit, nullability: Nullability) -> ExtDType<Self> {
        of_unit(Self::try_new(unit, nullability), unit)
    }

    /// Returns what `new` returns.
    ///
    /// # Errors
    ///
    /// - `MetadataRefused` (22): the unit is neither days nor milliseconds.
    pub fn try_new(unit: TimeUnit, nullability: Nullability) -> VortexResult<ExtDType<Self>> {
        ExtDType::try_new(unit, DType::Primitive(unit.of_dates()?, nullability))
    }
}

impl ExtVTable for Date {
    type Metadata = TimeUnit;

    fn id(&self) -> &'static str {
        "vortex.date"
    }

    fn serialize_metadata(&self, unit: &TimeUnit) -> VortexResult<Bytes> {
        bytes_of(&[unit.number()])
    }

    fn deserialize_metadata(&self, bytes: &[u8]) -> VortexResult<TimeUnit> {
        TimeUnit::read_all(bytes)
    }

    fn validate_dtype(&self, unit: &TimeUnit, storage: &DType) -> VortexResult<()> {
        check_storage(storage, unit.of_dates()?)
    }
}

impl Time {
    /// Returns the type of times of a day: the extension `vortex.time` over `i32` for seconds and milliseconds, or over
    /// `i64` for microseconds and nanoseconds.
    ///
    /// # Panics
    ///
    /// For days. `try_new` returns an error in this case.
    #[must_use]
    pub fn new(unit: TimeUnit, nullability: Nullability) -> ExtDType<Self> {
        of_unit(Self::try_new(unit, nullability), unit)
    }

    /// Returns what `new` returns.
    ///
    /// # Errors
    ///
    /// - `MetadataRefused` (22): the unit is days.
    pub fn try_new(unit: TimeUnit, nullability: Nullability) -> VortexResult<ExtDType<Self>> {
        ExtDType::try_new(unit, DType::Primitive(unit.of_times()?, nullability))
    }
}

impl ExtVTable for Time {
    type Metadata = TimeUnit;

    fn id(&self) -> &'static str {
        "vortex.time"
    }

    fn serialize_metadata(&self, unit: &TimeUnit) -> VortexResult<Bytes> {
        bytes_of(&[unit.number()])
    }

    fn deserialize_metadata(&self, bytes: &[u8]) -> VortexResult<TimeUnit> {
        TimeUnit::read_all(bytes)
    }

    fn validate_dtype(&self, unit: &TimeUnit, storage: &DType) -> VortexResult<()> {
        check_storage(storage, unit.of_times()?)
    }
}

impl Timestamp {
    /// Returns the type of timestamps without a time zone: the extension `vortex.timestamp` over `i64`.
    #[must_use]
    pub fn new(unit: TimeUnit, nullability: Nullability) -> ExtDType<Self> {
        Self::new_with_tz(unit, None, nullability)
    }

    /// Returns the type of timestamps with this time zone, such as `Europe/Berlin` or `+01:00`.
    ///
    /// # Panics
    ///
    /// If the time zone is the empty text or has more than 65,535 bytes. `try_new_with_tz` returns an error in this
    /// case.
    #[must_use]
    pub fn new_with_tz(
        unit: TimeUnit,
        tz: Option<Arc<str>>,
        nullability: Nullability,
    ) -> ExtDType<Self> {
        Self::try_new_with_tz(unit, tz, nullability)
            .unwrap_or_else(|_| panic!("a time zone has from 1 to 65,535 bytes"))
    }

    /// Returns what `new_with_tz` returns.
    ///
    /// # Errors
    ///
    /// - `MetadataRefused` (22): the time zone is the empty text, or has more than 65,535 bytes.
    /// - `OutOfMemory` (0): an allocation fails.
    pub fn try_new_with_tz(
        unit: TimeUnit,
        tz: Option<Arc<str>>,
        nullability: Nullability,
    ) -> VortexResult<ExtDType<Self>> {
        let tz = tz.map(|tz| fallible::String::from_str(&tz)).transpose()?;
        ExtDType::try_new(
            TimestampOptions { unit, tz },
            DType::Primitive(PType::I64, nullability),
        )
    }
}

impl TimestampOptions {
    // Returns the time zone, which is the empty text if there is none, and its length.
    fn zone(&self) -> VortexResult<(&str, u16)> {
        let zone = self.tz.as_deref().unwrap_or_default();
        match u16::try_from(zone.len()) {
            Ok(length) if length > 0 || self.tz.is_none() => Ok((zone, length)),
            _ => Err(VortexError::MetadataRefused),
        }
    }
}

// Returns the time zone of the metadata behind the unit, which is the empty text if there is none.
fn zone_of(bytes: &[u8]) -> Option<&str> {
    let (length, zone) = bytes.split_first_chunk()?;
    let is_whole = zone.len() == usize::from(u16::from_le_bytes(*length));
    std::str::from_utf8(zone).ok().filter(|_| is_whole)
}

impl ExtVTable for Timestamp {
    type Metadata = TimestampOptions;

    fn id(&self) -> &'static str {
        "vortex.timestamp"
    }

    fn serialize_metadata(&self, options: &TimestampOptions) -> VortexResult<Bytes> {
        let (zone, length) = options.zone()?;
        let mut bytes = bytes_of(&[options.unit.number()])?;
        bytes.extend_from_slice(&length.to_le_bytes())?;
        bytes.extend_from_slice(zone.as_bytes())?;
        Ok(bytes)
    }

    fn deserialize_metadata(&self, bytes: &[u8]) -> VortexResult<TimestampOptions> {
        let (unit, rest) = TimeUnit::read(bytes)?;
        let zone = zone_of(rest).ok_or(VortexError::MetadataRefused)?;
        let tz = fallible::String::from_str(zone)?;
        Ok(TimestampOptions {
            unit,
            tz: (!zone.is_empty()).then_some(tz),
        })
    }

    fn validate_dtype(&self, options: &TimestampOptions, storage: &DType) -> VortexResult<()> {
        options.zone()?;
        check_storage(storage, PType::I64)
    }
}

// Returns the unit of an extension type if its vtable accepts its metadata and its storage type.
fn unit_of<V: ExtVTable>(
    extension: &ExtDTypeRef,
    vtable: &V,
    unit: fn(&V::Metadata) -> TimeUnit,
) -> Option<TimeUnit> {
    let metadata = vtable
        .deserialize_metadata(extension.metadata_bytes())
        .ok()?;
    vtable
        .validate_dtype(&metadata, extension.storage_dtype())
        .ok()?;
    Some(unit(&metadata))
}

impl DType {
    /// Returns the unit of a date, a time or a timestamp, and `None` for every type that isn't one. An extension with the
    /// id of one of these, but with other metadata or another storage type, isn't one.
    ///
    /// ```
    /// use vortex_logical_types::{DType, time::TimeUnit};
    ///
    /// assert_eq!("vortex.time[0x03](i32)".parse::<DType>()?.time_unit(), Some(TimeUnit::Seconds));
    /// assert_eq!("vortex.time[0x04](i32)".parse::<DType>()?.time_unit(), None);
    /// # Ok::<(), vortex_logical_types::Error>(())
    /// ```
    #[must_use]
    pub fn time_unit(&self) -> Option<TimeUnit> {
        let extension = self.as_extension_opt()?;
        match extension.id().as_str() {
            "vortex.date" => unit_of(extension, &Date, |unit| *unit),
            "vortex.time" => unit_of(extension, &Time, |unit| *unit),
            "vortex.timestamp" => unit_of(extension, &Timestamp, |options| options.unit),
            _ => None,
        }
    }

    /// Returns the time zone of a timestamp, which is the empty text if it has none, and `None` for every type that isn't
    /// a timestamp.
    ///
    /// ```
    /// use vortex_logical_types::DType;
    ///
    /// assert_eq!("vortex.timestamp[0x010300555443](i64)".parse::<DType>()?.time_zone(), Some("UTC"));
    /// # Ok::<(), vortex_logical_types::Error>(())
    /// ```
    #[must_use]
    pub fn time_zone(&self) -> Option<&str> {
        let extension = self
            .as_extension_opt()
            .filter(|extension| *extension.id() == *Timestamp.id())?;
        unit_of(extension, &Timestamp, |options| options.unit)?;
        zone_of(extension.metadata_bytes().get(1..)?)
    }
}
