// SPDX-License-Identifier: Apache-2.0
// SPDX-FileCopyrightText: Copyright the Vortex contributors

//! Memory runs out in each call of the erased modules whose name begins with `try_`: each allocation of each call is
//! refused in turn. The call returns the error, nothing is left of what it made, and what it would have changed is as
//! it was.

mod refusing;

use erase::{LIBRARIES, Layout, erase};
use refusing::each_refused_on;
use std::collections::BTreeSet;
use std::fmt::Debug;
use std::path::Path;
use vortex_logical_types::Nullability::{NonNullable, Nullable};
use vortex_logical_types::time::{Date, TimeUnit, Timestamp, TimestampOptions};
use vortex_logical_types::{
    DType, DTypeSession, DecimalDType, ExtDType, ExtDTypeRef, ExtId, Field, FieldDType, FieldMask,
    FieldName, FieldNames, FieldPath, FieldPathSet, ForeignExtDType, ForeignExtMetadata, Ignoring,
    IndexedNames, MapDType, PType, PluginOf, PrecisionScale, StructFields, UnionVariants,
    VortexError, VortexResult, Widening, dtype_edits, dtype_merging, dtype_projection, dtype_text,
    dtype_types, fallible, pb,
};

const WIDE: &str = "{id=u64, \"a b\"=map(utf8, i32, keys_sorted=true)?, u=union(a=i8, b=utf8?), \
    x=x.y[0x01](i32), l=list({a=i8}), f=fixed_size_list(utf8)[3]?, born=vortex.date[0x04](i32)}";

fn wide() -> DType {
    dtype(WIDE)
}

fn dtype(text: &str) -> DType {
    text.parse()
        .unwrap_or_else(|error| panic!("{text}: {error}"))
}

fn path() -> FieldPath {
    "l.[].\"a b\"".parse().expect("it is a path")
}

fn set() -> FieldPathSet {
    FieldPathSet::from(["a.b", "c", "d", "l.[]"].map(|it| it.parse::<FieldPath>().expect("a path")))
}

/// A call by its name, and how many allocations it made.
type Tried = (&'static str, usize);

/// Refuses each allocation of a call that takes what `make` makes.
fn given<S, T>(
    name: &'static str,
    make: impl Fn() -> S,
    call: impl Fn(S) -> VortexResult<T>,
) -> Tried {
    let make = || Some(make());
    let call = |it: &mut Option<S>| only_memory(call(it.take().expect("it is made for each call")));
    (name, each_refused_on(make, call, Option::is_none).1)
}

/// Refuses each allocation of a call.
fn tried<T>(name: &'static str, call: impl Fn() -> VortexResult<T>) -> Tried {
    given(name, || (), |()| call())
}

fn only_memory<T>(result: VortexResult<T>) -> VortexResult<T> {
    result.inspect_err(|error| assert_eq!(*error, VortexError::OutOfMemory))
}

/// Refuses each allocation of a call that appends to a text. After an error the text is as it was.
fn written(name: &'static str, call: impl Fn(&mut fallible::String) -> VortexResult<()>) -> Tried {
    let call = |out: &mut fallible::String| only_memory(call(out));
    let (_, count) = each_refused_on(|| "> ".into(), call, |out| *out == "> ");
    assert!(count > 0, "{name} allocates");
    (name, count)
}

/// Refuses each allocation of `try_clone`, and compares the copy.
fn copied<T: PartialEq + Debug>(
    name: &'static str,
    value: &T,
    try_clone: impl Fn(&T) -> VortexResult<T>,
) -> Tried {
    let count = tried(name, || try_clone(value)).1;
    assert_eq!(try_clone(value).as_ref(), Ok(value), "{name}");
    (name, count)
}

fn of_names() -> Vec<Tried> {
    let names = || FieldNames::from(["id", "note", "born"]);
    let text = FieldName::from("a b");
    vec![
        tried("FieldName::try_new", || FieldName::try_new("a b")),
        tried("FieldName::try_to_text", || text.try_to_text()),
        copied("FieldName::try_clone", &text, FieldName::try_clone),
        tried("FieldNames::try_from_texts", || {
            FieldNames::try_from_texts(&["id", "note"])
        }),
        given("FieldNames::try_from_iter", names, |names| {
            FieldNames::try_from_iter(names)
        }),
        copied("FieldNames::try_clone", &names(), FieldNames::try_clone),
        given("IndexedNames::try_new", names, IndexedNames::try_new),
        tried("IndexedNames::try_clone", {
            let indexed = IndexedNames::try_new(names()).expect("there is memory");
            move || indexed.try_clone()
        }),
        tried("DecimalDType::try_new", || DecimalDType::try_new(10, 2)),
        tried("PrecisionScale::try_new", || {
            PrecisionScale::<i64>::try_new(10, 2)
        }),
    ]
}

fn of_types() -> Vec<Tried> {
    let type_of = || dtype("{a={b=i32, c=utf8?}}");
    let other = dtype("{a={b=i32?, c=utf8}}");
    let more = || {
        (
            type_of().into_struct_fields(),
            (FieldName::from("b"), wide()),
        )
    };
    let (whole, list) = (wide(), dtype("list(i32)"));
    vec![
        copied("DType::try_clone", &wide(), DType::try_clone),
        given("DType::try_list", wide, |it| {
            DType::try_list(it, NonNullable)
        }),
        given("DType::try_fixed_size_list", wide, |it| {
            DType::try_fixed_size_list(it, 3, NonNullable)
        }),
        given(
            "DType::try_struct_",
            || [(FieldName::from("a"), FieldDType::from(wide()))],
            |fields| DType::try_struct_(fields, Nullable),
        ),
        tried("DType::try_as_nullable", || whole.try_as_nullable()),
        tried("DType::try_as_nonnullable", || whole.try_as_nonnullable()),
        tried("DType::try_with_nullability", || {
            whole.try_with_nullability(Nullable)
        }),
        tried("DType::try_union_nullability", || {
            whole.try_union_nullability(Nullable)
        }),
        tried("DType::try_element_size", || list.try_element_size()),
        tried("try_merge_nullability", {
            let (a, b) = (type_of(), other.clone());
            move || dtype_types::try_merge_nullability(&a, &b)
        }),
        tried("try_intersect_nullability", {
            let (a, b) = (type_of(), other.clone());
            move || dtype_types::try_intersect_nullability(&a, &b)
        }),
        tried("try_merge_columns", {
            let (a, b) = (type_of(), dtype("{a={c=utf8, d=i8}, e=i8}"));
            move || dtype_merging::try_merge_columns(&a, &b, Widening::None)
        }),
        tried("try_merge_all", {
            let (first, others) = (
                dtype("{a=i8}"),
                [dtype("{b=utf8, a=null}"), dtype("{c={d=i8}}")],
            );
            move || dtype_merging::try_merge_all(&first, &others, Widening::None)
        }),
        tried("try_merge_conflict", {
            let (a, b) = (type_of(), dtype("{a={b=utf8}}"));
            move || dtype_merging::try_merge_conflict(&a, &b, Widening::None).map(drop)
        }),
        tried("try_differences", {
            let (a, b) = (type_of(), dtype("{a={b=utf8}, c=i8}"));
            move || dtype_edits::try_differences(&a, &b).map(drop)
        }),
        tried("try_differences_ignoring", {
            let (a, b) = (dtype("{a=i8, b={c=u8}}"), dtype("{b={c=u8?, d=i8}, a=i16}"));
            let ignoring = Ignoring {
                nullability: true,
                order: true,
            };
            move || dtype_edits::try_differences_ignoring(&a, &b, ignoring).map(drop)
        }),
        tried("try_leaf_paths", {
            let all = type_of();
            move || dtype_edits::try_leaf_paths(&all)
        }),
        given("try_push_field", more, |(fields, new)| {
            dtype_edits::try_push_field(&fields, new.0, new.1)
        }),
        given("try_with_field", more, |(fields, new)| {
            dtype_edits::try_with_field(&fields, new.0, new.1)
        }),
        tried("try_with_fields_renamed", {
            let (fields, renames) = (type_of().into_struct_fields(), [("a".into(), "b".into())]);
            move || dtype_edits::try_with_fields_renamed(&fields, &renames)
        }),
        tried("try_with_fields_renamed_allowing_repeats", {
            let (fields, renames) = (type_of().into_struct_fields(), [("a".into(), "b".into())]);
            move || dtype_edits::try_with_fields_renamed_allowing_repeats(&fields, &renames)
        }),
        tried("try_with_type_at", {
            let (all, path, new) = (type_of(), path(), other.clone());
            move || dtype_edits::try_with_type_at(&all, &path, &new)
        }),
        tried("try_without_paths", {
            let (all, paths) = (type_of(), FieldPathSet::from([path()]));
            move || dtype_edits::try_without_paths(&all, &paths)
        }),
        tried("try_project_paths", {
            let (all, paths) = (
                wide(),
                FieldPathSet::from([path().parent().expect("a list")]),
            );
            move || dtype_projection::try_project_paths(&all, &paths)
        }),
    ]
}

fn of_parts() -> Vec<Tried> {
    let names = || FieldNames::from(["a", "b"]);
    let dtypes = || -> fallible::Vec<DType> { vec![wide(), DType::Null].into() };
    let fields = || -> fallible::Vec<FieldDType> { dtypes().into_iter().map(Into::into).collect() };
    let map =
        MapDType::try_new(DType::Utf8(NonNullable), wide(), true).expect("the keys are texts");
    let made = StructFields::from_fields(names(), fields().into());
    let variants = UnionVariants::new(names(), dtypes().into()).expect("two variants");
    vec![
        given(
            "MapDType::try_new",
            || (DType::Utf8(NonNullable), wide()),
            |(key, value)| MapDType::try_new(key, value, true),
        ),
        tried("MapDType::try_entries_dtype", || map.try_entries_dtype()),
        copied("MapDType::try_clone", &map, MapDType::try_clone),
        tried("StructFields::try_empty", StructFields::try_empty),
        given(
            "StructFields::try_new",
            || (names(), dtypes()),
            |(names, dtypes)| StructFields::try_new(names, dtypes),
        ),
        given(
            "StructFields::try_from_fields",
            || (names(), fields()),
            |(names, fields)| StructFields::try_from_fields(names, fields),
        ),
        given(
            "StructFields::try_from_iter",
            || [("a", wide()), ("b", DType::Null)].map(|(name, it)| (name.into(), it.into())),
            StructFields::try_from_iter::<[(FieldName, FieldDType); 2]>,
        ),
        tried("StructFields::try_indented", || made.try_indented()),
        copied("StructFields::try_clone", &made, StructFields::try_clone),
        copied(
            "UnionVariants::try_clone",
            &variants,
            UnionVariants::try_clone,
        ),
        copied(
            "FieldDType::try_clone",
            &FieldDType::from(wide()),
            FieldDType::try_clone,
        ),
    ]
}

fn of_extensions() -> Vec<Tried> {
    let id = || ExtId::from("x.y");
    let parts = || -> (ExtId, fallible::Vec<u8>, DType) { (id(), vec![1].into(), wide()) };
    let made = ExtDTypeRef::from_parts(id(), vec![1], wide());
    let date = || Date::new(TimeUnit::Days, NonNullable);
    let zoned = || TimestampOptions {
        unit: TimeUnit::Seconds,
        tz: Some("UTC".into()),
    };
    let foreign = (
        ForeignExtMetadata(vec![1].into()),
        ForeignExtDType::new(id()),
    );
    vec![
        tried("ExtId::try_new", || ExtId::try_new("x.y")),
        copied("ExtId::try_clone", &id(), ExtId::try_clone),
        given(
            "ExtDTypeRef::try_from_parts",
            parts,
            |(id, metadata, storage)| ExtDTypeRef::try_from_parts(id, metadata, storage),
        ),
        tried("ExtDTypeRef::try_serialize_metadata", || {
            made.try_serialize_metadata()
        }),
        copied("ExtDTypeRef::try_clone", &made, ExtDTypeRef::try_clone),
        tried("ExtDTypeRef::try_with_nullability", || {
            made.try_with_nullability(Nullable)
        }),
        given(
            "ExtDType::try_new",
            || (zoned(), DType::Primitive(PType::I64, NonNullable)),
            |(options, storage)| ExtDType::<Timestamp>::try_new(options, storage),
        ),
        given(
            "ExtDType::try_with_vtable",
            || (zoned(), DType::Primitive(PType::I64, NonNullable)),
            |(options, storage)| ExtDType::try_with_vtable(Timestamp, options, storage),
        ),
        tried("ExtDType::try_with_nullability", {
            let date = date();
            move || date.try_with_nullability(Nullable)
        }),
        given("ExtDType::try_erased", date, ExtDType::try_erased),
        given(
            "ExtDType::try_downcast",
            || date().erased(),
            |erased| ExtDType::try_downcast(erased, Date).map_err(|(_, error)| error),
        ),
        tried("ForeignExtMetadata::try_clone", || foreign.0.try_clone()),
        given(
            "ForeignExtDType::try_from_parts",
            parts,
            |(id, metadata, storage)| ForeignExtDType::try_from_parts(id, metadata, storage),
        ),
        tried("ForeignExtDType::try_clone", || foreign.1.try_clone()),
    ]
}

fn of_sessions() -> Vec<Tried> {
    let (_, registered) = each_refused_on(
        || (DTypeSession::new(), Some(Box::new(PluginOf::new(Date)))),
        |(session, plugin)| {
            let plugin = plugin.take().expect("it is made for each call");
            only_memory(session.try_register(plugin))
        },
        |(session, _)| session.registered().is_empty(),
    );
    let session = DTypeSession::default();
    vec![
        ("DTypeSession::try_register", registered),
        tried("DTypeSession::try_registered", || {
            session.try_registered().map(drop)
        }),
    ]
}

fn of_paths() -> Vec<Tried> {
    let steps = || [Field::from("a"), Field::ElementType, Field::from("b")];
    vec![
        tried("Field::try_from_text", || Field::try_from_text("a b")),
        copied("Field::try_clone", &Field::from("a"), Field::try_clone),
        copied(
            "FieldMask::try_clone",
            &FieldMask::Prefix(path()),
            FieldMask::try_clone,
        ),
        given(
            "FieldPath::try_from_name",
            || "a".into(),
            FieldPath::try_from_name,
        ),
        given(
            "FieldPath::try_from_field",
            || "a".into(),
            FieldPath::try_from_field,
        ),
        tried("FieldPath::try_from_texts", || {
            FieldPath::try_from_texts(&["a", "b"])
        }),
        given("FieldPath::try_from_iter", steps, |steps| {
            FieldPath::try_from_iter::<[Field; 3]>(steps)
        }),
        given(
            "FieldPath::try_push",
            || (path(), Field::from("b")),
            |(path, step)| path.try_push(step),
        ),
        copied("FieldPath::try_clone", &path(), FieldPath::try_clone),
    ]
}

fn of_sets() -> Vec<Tried> {
    let (all, typed) = (set(), wide());
    let other = FieldPathSet::from([FieldPath::from(Field::from("other"))]);
    vec![
        given(
            "FieldPathSet::try_from_iter",
            || [path(), FieldPath::from(Field::from("a"))],
            FieldPathSet::try_from_iter::<[FieldPath; 2]>,
        ),
        tried("FieldPathSet::try_union", || all.try_union(&other)),
        added("FieldPathSet::try_insert", FieldPathSet::try_insert),
        added("FieldPathSet::try_extend", |set, path| {
            set.try_extend([path])
        }),
        tried("FieldPathSet::try_iter", || all.try_iter().map(drop)),
        tried("FieldPathSet::try_unresolved", || {
            all.try_unresolved(&typed).map(drop)
        }),
        given("FieldPathSet::try_into_iter", set, |set| {
            set.try_into_iter().map(drop)
        }),
        given("FieldPathSet::try_into_iter_counted", set, |set| {
            set.try_into_iter_counted().map(drop)
        }),
        tried("FieldPathSet::try_clone", || all.try_clone()),
    ]
}

/// Refuses each allocation of a call that adds a path to sets of 0 to 20 paths, whose names are in a list if there are
/// few of them and in a table if there are more. After an error the set is as it was.
fn added(
    name: &'static str,
    call: impl Fn(&mut FieldPathSet, FieldPath) -> VortexResult<()>,
) -> Tried {
    let count = (0..=20).map(|len: u8| {
        let paths = || (0..len).map(|it| FieldPath::from(Field::from(format!("a{it}"))));
        let set = || paths().collect::<FieldPathSet>();
        let make = || (set(), Some(path()));
        let call = |(set, path): &mut (FieldPathSet, Option<FieldPath>)| {
            only_memory(call(set, path.take().expect("it is made for each call")))
        };
        each_refused_on(make, call, |(it, _)| *it == set()).1
    });
    let count: usize = count.sum();
    assert!(count > 20, "{name} allocates {count} times");
    (name, count)
}

fn of_texts() -> Vec<Tried> {
    let typed = wide();
    let fields = typed.as_struct_fields();
    let part = |name: &str| fields.field(name).expect("there is the field");
    let (map, union, extension) = (part("a b"), part("u"), part("x"));
    let (id, name, steps) = (ExtId::from("x.y"), FieldName::from("a b"), path());
    vec![
        written("try_write_dtype", |out| {
            dtype_text::try_write_dtype(out, &typed)
        }),
        written("try_write_map", |out| {
            dtype_text::try_write_map(out, map.as_map_opt().expect("a map"))
        }),
        written("try_write_fields", |out| {
            dtype_text::try_write_fields(out, fields)
        }),
        written("try_write_union", |out| {
            dtype_text::try_write_union(out, union.as_union_variants_opt().expect("a union"))
        }),
        written("try_write_extension", |out| {
            dtype_text::try_write_extension(out, extension.as_extension())
        }),
        written("try_write_hex", |out| {
            dtype_text::try_write_hex(out, &[0; 32])
        }),
        written("try_write_path", |out| {
            dtype_text::try_write_path(out, &steps)
        }),
        written("try_write_step", |out| {
            dtype_text::try_write_step(out, &Field::ElementType)
        }),
        written("try_write_name", |out| {
            dtype_text::try_write_name(out, &name)
        }),
        written("try_write_id", |out| dtype_text::try_write_id(out, &id)),
    ]
}

fn of_messages() -> Vec<Tried> {
    let message = || -> Option<Box<pb::DType>> { Some(Box::new(wide().to_proto())) };
    let names = || -> fallible::Vec<fallible::String> { vec!["a".into(), "b".into()].into() };
    let dtypes =
        || -> fallible::Vec<pb::DType> { vec![DType::Null.to_proto(), wide().to_proto()].into() };
    let step = || pb::Field {
        field_type: Some(pb::FieldType::Name("a".into())),
    };
    let steps = pb::FieldPath {
        path: vec![step(), step()].into(),
    };
    macro_rules! copies {
        ($($name:ident $fields:tt)*) => {
            vec![$(copied(
                concat!("pb::", stringify!($name), "::try_clone"),
                &pb::$name $fields,
                pb::$name::try_clone,
            )),*]
        };
    }
    let mut tried = copies! {
        Null {}
        Bool { nullable: true }
        Primitive { ptype: 3, nullable: true }
        Decimal { precision: 10, scale: 2, nullable: true }
        Utf8 { nullable: true }
        Binary { nullable: true }
        Variant { nullable: true }
        List { element_type: message(), nullable: true }
        FixedSizeList { element_type: message(), size: 3, nullable: true }
        Map { key_type: message(), value_type: message(), keys_sorted: true, nullable: true }
        Struct { names: names(), dtypes: dtypes(), nullable: true }
        Union { names: names(), dtypes: dtypes(), type_ids: vec![0, 1].into(), nullable: true }
        Extension { id: "x.y".into(), storage_dtype: message(), metadata: Some(vec![1].into()) }
        DType { dtype_type: wide().to_proto().dtype_type }
    };
    let kind = wide().to_proto().dtype_type.expect("a kind");
    tried.extend([
        copied(
            "pb::PType::try_clone",
            &pb::PType::I32,
            pb::PType::try_clone,
        ),
        copied("pb::DtypeType::try_clone", &kind, pb::DtypeType::try_clone),
        copied("pb::Field::try_clone", &step(), pb::Field::try_clone),
        copied(
            "pb::FieldType::try_clone",
            &pb::FieldType::Name("a".into()),
            pb::FieldType::try_clone,
        ),
        copied("pb::FieldPath::try_clone", &steps, pb::FieldPath::try_clone),
    ]);
    tried
}

/// Returns the calls of the erased modules whose name begins with `try_`, each behind its type.
fn all_forms() -> BTreeSet<String> {
    let crates = Path::new(env!("CARGO_MANIFEST_DIR")).join("../../crates");
    let layout = Layout::one_crate(&crates, &LIBRARIES);
    let erased = erase(&layout).expect("the sources are known");
    let inside = ["text_hints", "c_arrow"];
    let files = erased
        .files
        .iter()
        .filter(|file| !inside.iter().any(|it| file.path.starts_with(it)));
    let of_messages = |path: &Path| match path.starts_with("dtype_messages") {
        true => "pb::",
        false => "",
    };
    let forms = files.flat_map(|file| {
        let inner = of_messages(&file.path);
        forms_in(&file.text)
            .into_iter()
            .map(move |form| format!("{inner}{form}"))
    });
    forms.collect()
}

fn forms_in(text: &str) -> Vec<String> {
    let mut own = "";
    let mut forms = Vec::new();
    for line in text.lines() {
        if let Some(head) = line.strip_prefix("impl") {
            let behind = head.strip_prefix('<').and_then(|it| it.split_once("> "));
            let head = behind.map_or(head, |(_, behind)| behind).trim_start();
            own = head.split(['<', ' ']).next().unwrap_or(head);
        }
        let Some(name) = line.trim_start().strip_prefix("pub fn try_") else {
            continue;
        };
        let name = name.split(['(', '<']).next().unwrap_or(name);
        forms.push(match line.starts_with(' ') {
            true => format!("{own}::try_{name}"),
            false => format!("try_{name}"),
        });
    }
    forms
}

#[test]
fn each_form_returns_the_error() {
    let all = [
        of_names(),
        of_types(),
        of_parts(),
        of_extensions(),
        of_sessions(),
        of_paths(),
        of_sets(),
        of_texts(),
        of_messages(),
    ];
    let all = all.concat();
    let names: BTreeSet<String> = all.iter().map(|(name, _)| (*name).to_owned()).collect();
    assert_eq!(names, all_forms());
    let refused: usize = all.iter().map(|(_, count)| count).sum();
    assert!(refused > 300, "{refused} allocations were refused");
}
