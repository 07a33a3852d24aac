// SPDX-License-Identifier: Apache-2.0
// SPDX-FileCopyrightText: Copyright the Vortex contributors

//! With the feature `serde`, types and paths are written and read as their texts, names as texts, and sets of paths as
//! lists of paths.
//!
//! ```
//! use vortex_logical_types::{DType, FieldPathSet};
//!
//! let orders: DType = "{id=u64, note=utf8?}".parse()?;
//! assert_eq!(serde_json::to_string(&orders)?, r#""{id=u64, note=utf8?}""#);
//! assert_eq!(serde_json::from_str::<DType>(r#""{id=u64, note=utf8?}""#)?, orders);
//! assert_eq!(serde_json::from_str::<FieldPathSet>(r#"["id"]"#)?, FieldPathSet::parse(["id"])?);
//! # Ok::<(), Box<dyn std::error::Error>>(())
//! ```

use crate::dtype_base::{DecimalType, FieldName, FieldNames, PType};
use crate::dtype_paths::{Field, FieldPath, FieldPathSet};
use crate::dtype_types::{DType, Kind};
use serde::de::{Deserialize, Deserializer, Error};
use serde::ser::{Serialize, Serializer};

// Implements both traits for types that are written as a text: how the text is made, and how it is read.
macro_rules! as_texts {
    ($($type:ty, $write:expr, $read:expr;)*) => {$(
        /// Writes the value as the text that stands for it.
        impl Serialize for $type {
            fn serialize<S: Serializer>(&self, to: S) -> Result<S::Ok, S::Error> {
                let write: fn(&$type) -> String = $write;
                to.serialize_str(&write(self))
            }
        }

        /// Reads the value for which a text stands.
        impl<'de> Deserialize<'de> for $type {
            fn deserialize<D: Deserializer<'de>>(from: D) -> Result<Self, D::Error> {
                let read: fn(&str) -> Result<$type, crate::Error> = $read;
                read(&String::deserialize(from)?).map_err(D::Error::custom)
            }
        }
    )*};
}

as_texts! {
    DType, Self::to_source, str::parse;
    FieldPath, Self::to_source, str::parse;
    Field, |field| FieldPath::from_field(field).to_source(), one_step;
    FieldName, |name| name.as_str().to_owned(), |text| Ok(text.into());
    PType, ToString::to_string, str::parse;
    DecimalType, ToString::to_string, str::parse;
    Kind, ToString::to_string, str::parse;
}

// Reads the text of a path of one step.
fn one_step(text: &str) -> Result<Field, crate::Error> {
    match text.parse::<FieldPath>()?.parts() {
        [field] => Ok(field.clone()),
        _ => Err(crate::Error::Unreadable {
            position: 1,
            message: "expected one step".to_owned(),
        }),
    }
}

/// Writes the names as a list of texts.
impl Serialize for FieldNames {
    fn serialize<S: Serializer>(&self, to: S) -> Result<S::Ok, S::Error> {
        to.collect_seq(self)
    }
}

/// Reads the names from a list of texts.
impl<'de> Deserialize<'de> for FieldNames {
    fn deserialize<D: Deserializer<'de>>(from: D) -> Result<Self, D::Error> {
        Ok(Vec::<FieldName>::deserialize(from)?.into())
    }
}

/// Writes the paths as a list of texts, sorted.
impl Serialize for FieldPathSet {
    fn serialize<S: Serializer>(&self, to: S) -> Result<S::Ok, S::Error> {
        let mut paths: Vec<&FieldPath> = self.iter().collect();
        paths.sort_unstable();
        to.collect_seq(paths)
    }
}

/// Reads the paths from a list of texts.
impl<'de> Deserialize<'de> for FieldPathSet {
    fn deserialize<D: Deserializer<'de>>(from: D) -> Result<Self, D::Error> {
        Ok(Vec::<FieldPath>::deserialize(from)?.into_iter().collect())
    }
}
