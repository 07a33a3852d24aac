// SPDX-License-Identifier: Apache-2.0
// SPDX-FileCopyrightText: Copyright the Vortex contributors

//! Structs of so many columns: made, dropped, looked into, and cut down.

use std::hint::black_box;

use original::by_hand::projected;
use original::reader::{Readable, Reader};
use vortex_array::dtype::{self as theirs, DType as Theirs, Field, FieldPath, Nullability};
use vortex_logical_types::{self as ours, DType as Ours};

use crate::fixture::{self, Turns, Types, column, leaf_of_ours, leaf_of_theirs, mixed, path_of_ours};
use crate::looks::{Seen, used};
use crate::meter::{Meter, alike, consuming, each};

const PLAIN: Nullability = Nullability::NonNullable;
const PLAIN_OURS: ours::Nullability = ours::Nullability::NonNullable;

fn struct_of_theirs(names: &[String]) -> Theirs {
    let fields = names.iter().enumerate().map(|(at, name)| (name.as_str(), leaf_of_theirs(at)));
    Theirs::Struct(fields.collect(), PLAIN)
}

fn struct_of_ours(names: &[String]) -> Ours {
    let fields = names.iter().enumerate().map(|(at, name)| (name.as_str(), leaf_of_ours(at)));
    Ours::Struct(fields.collect(), PLAIN_OURS)
}

/// Structs are made of names and types, read from a text, and dropped.
pub fn made(meter: &mut Meter, count: usize) {
    let names = fixture::columns(count);
    let (theirs, ours) = (|| struct_of_theirs(&names), || struct_of_ours(&names));
    meter.case("build and drop", count, each(|_| used(theirs())), each(|_| used(ours())));
    let text = fixture::struct_text(count);
    let read = |_| Theirs::read(&mut Reader::new(&text)).map_or(7, used);
    meter.case("parse and drop", count, each(read), each(|_| text.parse::<Ours>().map_or(7, used)));
    meter.case("drop", count, consuming(theirs, used), consuming(ours, used));
}

/// Small types are made and dropped.
pub fn made_small(meter: &mut Meter) {
    alike!(meter, "build and drop", "i32", _i, n = black_box(PLAIN), black_box(PLAIN_OURS);
        used(dtype::DType::Primitive(dtype::PType::I32, n)));
    alike!(meter, "build and drop", "list(i32)", _i, n = black_box(PLAIN), black_box(PLAIN_OURS);
        used(dtype::DType::list(dtype::PType::I32, n)));
}

/// Names are looked up.
pub fn found(meter: &mut Meter, count: usize) {
    let it = Types::columns(count);
    let theirs = it.theirs.each_ref().map(|it| it.as_struct_fields());
    let ours = it.ours.each_ref().map(|it| it.as_struct_fields());
    let names = fixture::columns(count);
    for (family, name) in [("find first", column(0)), ("find last", column(count - 1)), ("find absent", column(count))]
    {
        alike!(meter, family, count, i, it = black_box(theirs[i % 2]), black_box(ours[i % 2]);
            it.find(black_box(name.as_str())).unwrap_or(7));
    }
    let (mut turns, mut our_turns) = (Turns::new(), Turns::new());
    alike!(meter, "find any, from the type", count, i, (it, name) = (it.theirs(i), &names[turns.below(count)]),
        (it.ours(i), &names[our_turns.below(count)]); it.as_struct_fields().find(name).unwrap_or(7));
    let (mut turns, mut our_turns) = (Turns::new(), Turns::new());
    alike!(meter, "field by name", count, i, (it, name) = (black_box(theirs[i % 2]), &names[turns.below(count)]),
        (black_box(ours[i % 2]), &names[our_turns.below(count)]); it.field(name).map_or(7, |it| it.seen()));
    let (mut turns, mut our_turns) = (Turns::new(), Turns::new());
    alike!(meter, "field_by_index", count, i, (it, at) = (black_box(theirs[i % 2]), turns.below(count)),
        (black_box(ours[i % 2]), our_turns.below(count)); it.field_by_index(at).map_or(7, |it| it.seen()));
}

/// The length and the first byte, so that the name is read.
fn size(name: &str) -> usize {
    name.len() + name.as_bytes().first().map_or(0, |it| usize::from(*it))
}

/// All names are read, and all pairs of a name and a type.
pub fn read(meter: &mut Meter, count: usize) {
    let it = Types::columns(count);
    alike!(meter, "names", count, i, it = it.theirs(i), it.ours(i);
        it.as_struct_fields().names().iter().map(|it| size(it.as_ref())).sum());
    alike!(meter, "pairs (original borrows)", count, i, fields = it.theirs(i).as_struct_fields(),
        it.ours(i).as_struct_fields();
        fields.names().iter().zip(fields.field_dtypes()).map(|(name, it)| size(name.as_ref()) + it.seen()).sum());
    let theirs = |i| -> usize {
        let fields = it.theirs(i).as_struct_fields();
        fields.names().iter().zip(fields.fields()).map(|(name, it)| size(name.as_ref()) + used(it)).sum()
    };
    let ours = |i| -> usize {
        let fields = it.ours(i).as_struct_fields();
        fields.iter().map(|(name, it)| size(name.as_ref()) + used(it.clone())).sum()
    };
    meter.case("pairs (original copies)", count, each(theirs), each(ours));
}

/// A struct of so many columns is cut down to `most` of them.
pub fn projected_to(meter: &mut Meter, most: usize, count: usize) {
    let (it, of) = (Types::columns(count), format!("{most} of {count}"));
    let names: Vec<String> = (0..most).map(|at| column(mixed(at, count))).collect();
    let set: ours::FieldPathSet = names.iter().map(ours::FieldPath::from_name).collect();
    let paths: Vec<FieldPath> = set.iter().map(path_of_ours).collect();
    cut(meter, &of, &it, (&paths, &set));
    let theirs: Vec<theirs::FieldName> = names.iter().map(|it| it.as_str().into()).collect();
    let ours: Vec<ours::FieldName> = names.iter().map(|it| it.as_str().into()).collect();
    alike!(meter, "project by names", &of, i, (it, names, n) = (it.theirs(i), &theirs, PLAIN),
        (it.ours(i), &ours, PLAIN_OURS);
        it.as_struct_fields().project(names).map_or(7, |it| used(dtype::DType::Struct(it, n))));
}

fn cut(meter: &mut Meter, of: &str, it: &Types, (paths, set): (&[FieldPath], &ours::FieldPathSet)) {
    let theirs = |i| {
        let steps: Vec<&[Field]> = paths.iter().map(FieldPath::parts).collect();
        projected(it.theirs(i), &steps).map_or(7, used)
    };
    meter.case("project_paths", of, each(theirs), each(|i| it.ours(i).project_paths(set).map_or(7, used)));
}

/// A nested type is cut down to four paths.
pub fn projected_nested(meter: &mut Meter) {
    let it = Types::read(
        "{id=u64, who={name=utf8, address={street=utf8, city=utf8?, code=utf8}}, lines=list({sku=utf8, count=i32, \
         price=decimal(10,2)?}), at=i64, note=utf8?}",
    );
    let set = ours::FieldPathSet::parse(["who.address.city", "lines.[].sku", "lines.[].price", "id"]).expect("paths");
    let paths: Vec<FieldPath> = set.iter().map(path_of_ours).collect();
    cut(meter, "4 nested", &it, (&paths, &set));
}

/// A struct without its middle column.
pub fn without(meter: &mut Meter, count: usize) {
    let it = Types::columns(count);
    alike!(meter, "without_field", count, i, (it, n) = (it.theirs(i), PLAIN), (it.ours(i), PLAIN_OURS);
        it.as_struct_fields().without_field(count / 2).map_or(7, |it| used(dtype::DType::Struct(it, n))));
}
