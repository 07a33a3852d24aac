// SPDX-License-Identifier: Apache-2.0
// SPDX-FileCopyrightText: Copyright the Vortex contributors

//! The cases: what is measured of types, of structs, whose names are looked up, and of paths. A case is named by its
//! operation, and then by its input. What an operation consumes is made before the clock starts, except in the cases
//! `build/and_drop`.

use std::fmt::Display;
use std::hash::{DefaultHasher, Hash, Hasher};
use std::hint::black_box;

use crate::fixture::{
    self, OTHER_NAMINGS, SETS, Shape, Types, WIDE, column, leaf, mixed, name_of, names, path_of, wide_type,
};
use crate::library::{
    DType, Field, FieldName, FieldNames, FieldPath, FieldPathSet, GREATEST_COVER, MERGES_EXTENSIONS, Nullability,
    StructFields, merged, merged_columns, read, resolves, session, written,
};
use crate::meter::Meter;

/// Measures every case. Nested boxes come first, while memory isn't fragmented: scattered boxes take up to twice as long to
/// walk.
pub fn all(meter: &Meter) {
    let of = Types::new(Shape::Wide, 10);
    meter.each("empty", "", |i, _| of.turn(i).is_nullable().into());
    nested(meter);
    wide(meter);
    let paths = [(); 2].map(|()| path_of((0..10).map(column)));
    hashed(meter, "/path/10", &paths);
    text(meter, "/path/10", &paths);
    if meter.wants_some("set/") {
        for (of, path) in SETS {
            sets(meter, of, path);
        }
    }
}

/// Structs of many fields.
fn wide(meter: &Meter) {
    for count in [10, 1000, 10_000] {
        let of = Types::new(Shape::Wide, count);
        if count < 10_000 {
            types(meter, &of);
            index(meter, &of.of, &of.two, &fixture::texts(WIDE, count));
            texts(meter, &of);
        }
        column_merges(meter, &of);
        lookups(meter, &of);
        whole(meter, &of);
        messages(meter, &of);
    }
    for (naming, count) in OTHER_NAMINGS.into_iter().flat_map(|it| [10, 100, 1000, 10_000].map(|count| (it, count))) {
        let (of, texts) = (name_of(naming.0, count), fixture::texts(naming, count));
        let two = [wide_type(&texts, false), wide_type(&texts, false)];
        find_mixed(meter, &of, &two, &texts);
        index(meter, &of, &two, &texts);
    }
}

/// Lists, fixed-size lists, extensions and structs inside one another.
fn nested(meter: &Meter) {
    for shape in [Shape::Lists, Shape::Fixed, Shape::Extensions] {
        types(meter, &Types::new(shape, 64));
    }
    resolve(meter, &Types::new(Shape::Lists, 64), FieldPath::from(vec![Field::ElementType; 64]));
    for depth in [64, 1000] {
        let of = Types::new(Shape::Deep, depth);
        types(meter, &of);
        whole(meter, &of);
        resolve(meter, &of, path_of((0..depth).map(|_| "a".to_owned())));
    }
}

/// What is done to types of every shape. Which two are compared depends on earlier results, so that none starts early.
fn types(meter: &Meter, types: &Types) {
    let of = &types.of;
    meter
        .each("eq_ignore_nullability", of, |i, sum| types.turn(sum).eq_ignore_nullability(&types.others[i % 2]).into());
    meter.each("eq", of, |i, sum| (*types.turn(sum) == types.sames[i % 2]).into());
    hashed(meter, of, &types.two);
    meter.each("element_size", of, |i, _| types.turn(i).element_size().unwrap_or(7));
    meter.each("copy", of, |i, _| used(types.turn(i).clone()));
    meter.each("with_nullability", of, |i, _| used(types.turn(i).with_nullability(Nullability::Nullable)));
    text(meter, of, &types.two);
    if types.shape != Shape::Extensions || MERGES_EXTENSIONS {
        merges(meter, types);
    }
}

/// Merges with types that differ in nullabilities alone, of which neither takes the values of the other, with equal types
/// that were made separately, and with types that differ from those in the nullability of the whole alone.
fn merges(meter: &Meter, types: &Types) {
    let merge = |i: usize, others: &[DType; 2]| black_box(merged(types.turn(i), &others[i % 2])).is_some().into();
    let nullables = types.sames.each_ref().map(DType::as_nullable);
    meter.each("merge", &types.of, |i, _| merge(i, &types.others));
    meter.each("merge_equal", &types.of, |i, _| merge(i, &types.sames));
    meter.each("merge_one", &types.of, |i, _| merge(i, &nullables));
}

/// Uses a type, so that it has to be made.
fn used(dtype: DType) -> usize {
    black_box(dtype).is_struct().into()
}

/// The hash of one of two.
fn hashed<T: Hash>(meter: &Meter, of: &str, two: &[T; 2]) {
    meter.each("hash", of, |i, _| {
        let mut state = DefaultHasher::new();
        two[i % 2].hash(&mut state);
        usize::from(state.finish() % 2 == 0)
    });
}

/// The text of one of two.
fn text<T: Display>(meter: &Meter, of: &str, two: &[T; 2]) {
    meter.each("text", of, |i, _| two[i % 2].to_string().len());
}

/// The type at a path.
fn resolve(meter: &Meter, types: &Types, path: FieldPath) {
    let paths = [path.clone(), path];
    meter.each("resolve", &types.of, |i, _| resolves(&paths[i / 2 % 2], types.turn(i)).into());
}

/// Building a whole type and dropping it.
fn whole(meter: &Meter, types: &Types) {
    let texts = fixture::texts(WIDE, types.count);
    meter.each("build/and_drop", &types.of, |_, _| match types.shape {
        Shape::Wide => used(wide_type(&texts, false)),
        shape => used(shape.make(types.count, false)),
    });
}

/// Types read from messages, and written.
fn messages(meter: &Meter, types: &Types) {
    let (session, messages) = (session(), types.two.each_ref().map(written));
    meter.each("read", &types.of, |i, _| used(read(&messages[i % 2], &session)));
    meter.each("write", &types.of, |i, _| black_box(written(types.turn(i))).dtype_type.is_some().into());
}

/// `find` of one name, and of all.
fn lookups(meter: &Meter, types: &Types) {
    let (count, of) = (types.count, &types.of);
    for (place, at) in [("first", 0), ("middle", count / 2), ("last", count - 1), ("miss", count)] {
        let names = [column(at), column(at)];
        let find = |i, _| types.turn(i).as_struct_fields().find(&names[i / 2 % 2]).unwrap_or(7);
        meter.each(&format!("find/{place}"), of, find);
    }
    find_mixed(meter, of, &types.two, &fixture::texts(WIDE, count));
}

/// `find` of all names, shuffled, so that no branch can be predicted.
fn find_mixed(meter: &Meter, of: &str, types: &[DType; 2], texts: &[String]) {
    let fields = types[0].as_struct_fields();
    let repeat = |(), times| {
        let (mut sum, mut seed) = (0usize, 1u64);
        for _ in 0..times {
            seed = seed.wrapping_mul(6_364_136_223_846_793_005).wrapping_add(1_442_695_040_888_963_407);
            let at = (seed >> 33) % texts.len() as u64;
            sum = sum.wrapping_add(fields.find(&texts[at as usize]).unwrap_or(7));
        }
        sum
    };
    meter.measure(&format!("find/mixed{of}"), |_| (), repeat);
}

/// What makes a struct with an index of these names.
fn index(meter: &Meter, of: &str, types: &[DType; 2], texts: &[String]) {
    let count = texts.len();
    for (what, most) in [("project", count / 10), ("project_all", count)] {
        let asked = names((0..most).map(|i| &texts[mixed(i, count)]));
        let project = |i: usize, _| types[i % 2].as_struct_fields().project(&asked).expect("it has these").nfields();
        meter.each(what, of, project);
    }
    let (names, leaves) = (names(texts), leaves(count));
    let given = || (names.clone(), leaves.clone());
    meter.consuming("build/names", of, given, |(names, types)| used(of_names(names, types)));
    meter.consuming("build/and_find", of, given, |(names, types)| {
        black_box(of_names(names, types)).as_struct_fields().find(&texts[count - 1]).unwrap_or(7)
    });
}

/// Merges with a struct of the same columns in another order, by hand.
fn column_merges(meter: &Meter, types: &Types) {
    let (count, texts) = (types.count, fixture::texts(WIDE, types.count));
    let order = names((0..count).map(|i| &texts[mixed(i, count)]));
    let other = |i: usize| {
        let fields = types.two[i].as_struct_fields().project(&order).expect("it has these");
        DType::Struct(fields, Nullability::NonNullable)
    };
    let others = [other(0), other(1)];
    let merge = |i: usize, _| black_box(merged_columns(types.turn(i), &others[i % 2])).is_some().into();
    meter.each("merge_columns", &types.of, merge);
}

/// A wide struct made of texts.
fn texts(meter: &Meter, types: &Types) {
    let (texts, leaves) = (fixture::texts(WIDE, types.count), leaves(types.count));
    let build = |types: Vec<DType>| {
        let fields: StructFields = texts.iter().map(String::as_str).zip(types).collect();
        used(DType::Struct(fields, Nullability::NonNullable))
    };
    meter.consuming("build/texts", &types.of, || leaves.clone(), build);
}

fn leaves(count: usize) -> Vec<DType> {
    (0..count).map(|i| leaf(i, false)).collect()
}

fn of_names(names: Vec<FieldName>, types: Vec<DType>) -> DType {
    DType::Struct(StructFields::new(FieldNames::from(names), types), Nullability::NonNullable)
}

/// What is done with path sets of this form, shuffled.
fn sets(meter: &Meter, form: &str, path: fn(usize) -> FieldPath) {
    for count in [10, 100, 1000, 10_000, 100_000] {
        let made_paths = || -> Vec<FieldPath> { (0..count).map(|i| path(mixed(i, count))).collect() };
        let (of, paths) = (name_of(form, count), made_paths());
        let set = FieldPathSet::from_iter(made_paths());
        let made = |set: FieldPathSet| {
            drop(black_box(set));
            count
        };
        meter.consuming("set/from_iter", &of, || paths.clone(), |paths| made(FieldPathSet::from_iter(paths)));
        if GREATEST_COVER.is_none_or(|greatest| count <= greatest) || form == "chains" {
            let cover = |set: FieldPathSet| black_box(set.into_iter()).len();
            meter.consuming("set/into_iter", &of, || set.clone(), cover);
        }
        meter.each("set/contains", &of, |_, _| paths.iter().filter(|path| set.contains(path)).count());
        meter.each("set/copy", &of, |_, _| made(set.clone()));
    }
}
