// SPDX-License-Identifier: Apache-2.0
// SPDX-FileCopyrightText: Copyright the Vortex contributors

//! The columns that a query reads of a table, kept of its type by one call, and by hand. (vortex-array has no such call.)

use std::hint::black_box;

use vortex_logical_types::{DType, Field, FieldName, FieldPath, FieldPathSet, Nullability::NonNullable, StructFields};

use crate::fixture::{Shape, column, mixed, path_of};
use crate::meter::Meter;

/// The level of the columns that a query asks for.
#[derive(Clone, Copy, Debug, PartialEq)]
enum Level {
    /// At the top: the table is a wide struct.
    Top,
    /// The table has one column, a wide struct.
    Nested,
    /// Below one column of a wide table: that column is as wide as the table.
    Below,
}

impl Level {
    fn table(self, count: usize) -> DType {
        let wide = || Shape::Wide.make(count, false);
        match self {
            Level::Top => wide(),
            Level::Nested => around(wide()),
            Level::Below => {
                let table = wide();
                let mut fields: Vec<_> =
                    table.as_struct_fields().iter().map(|(name, dtype)| (name.clone(), dtype.clone())).collect();
                fields.insert(count / 2, ("a".into(), wide()));
                DType::Struct(StructFields::from_iter(fields), NonNullable)
            }
        }
    }

    /// The names of the columns on the way to the struct that is asked for columns.
    fn parents(self) -> impl Iterator<Item = String> {
        (self != Level::Top).then(|| "a".to_owned()).into_iter()
    }
}

/// A struct of one field of this type.
fn around(dtype: DType) -> DType {
    DType::struct_([("a", dtype)], NonNullable)
}

/// A query of some columns of a table.
struct Query {
    level: Level,
    /// The table, twice.
    tables: [DType; 2],
    /// The path to the struct that has the columns.
    parent: FieldPath,
    /// The paths of the columns, shuffled.
    paths: Vec<FieldPath>,
    /// The set of these paths.
    set: FieldPathSet,
}

impl Query {
    fn new(level: Level, asked: usize, count: usize) -> Self {
        let path = |i| path_of(level.parents().chain([column(mixed(i, count))]));
        let paths = || (0..asked).map(path).collect::<Vec<FieldPath>>();
        Self {
            level,
            tables: [level.table(count), level.table(count)],
            parent: path_of(level.parents()),
            paths: paths(),
            set: paths().into_iter().collect(),
        }
    }

    /// What a caller writes who knows where the columns are: the names of those that exist, selected of the struct that
    /// has them, and the parent made anew around them.
    fn by_hand(&self, table: &DType) -> Option<DType> {
        let parent = self.parent.resolve(table)?;
        let name = |path: &FieldPath| match path.resolve(table).and(path.parts().last()) {
            Some(Field::Name(name)) => Some(name.clone()),
            _ => None,
        };
        let names: Vec<FieldName> = self.paths.iter().filter_map(name).collect();
        let fields = parent.as_struct_fields().project(&names).ok()?;
        let kept = DType::Struct(fields, parent.nullability());
        Some(if self.level == Level::Top { kept } else { around(kept) })
    }
}

/// Measures the cases.
pub fn all(meter: &Meter) {
    for (level, asked, count) in [
        (Level::Top, 3, 1000),
        (Level::Top, 100, 10_000),
        (Level::Top, 10_000, 10_000),
        (Level::Nested, 10, 1000),
        (Level::Below, 100, 1000),
    ] {
        let query = Query::new(level, asked, count);
        let of = format!("/{level:?}/{asked}_of_{count}").to_lowercase();
        let used = |kept: Option<DType>| black_box(kept).is_some().into();
        meter.each("project_paths", &of, |i, _| used(query.tables[i % 2].project_paths(&query.set)));
        meter.each("project_by_hand", &of, |i, _| used(query.by_hand(&query.tables[i % 2])));
    }
}

#[cfg(test)]
mod tests {
    use super::*;

    #[test]
    fn both_ways_keep_the_same_columns() {
        for level in [Level::Top, Level::Nested, Level::Below] {
            let query = Query::new(level, 3, 100);
            let sorted = |kept: Option<DType>| {
                let mut names: Vec<_> =
                    query.parent.resolve(&kept?)?.as_struct_fields().names().iter().cloned().collect();
                names.sort();
                Some(names)
            };
            let kept = sorted(query.tables[0].project_paths(&query.set));
            assert_eq!(kept.as_ref().map(Vec::len), Some(3), "{level:?}");
            assert_eq!(kept, sorted(query.by_hand(&query.tables[1])), "{level:?}");
        }
    }
}
