// SPDX-License-Identifier: Apache-2.0
// SPDX-FileCopyrightText: Copyright the Vortex contributors

//! Types, paths and sets that are large or deep, and what their iterators have left.

use std::hash::{DefaultHasher, Hash, Hasher};
use vortex_logical_types::{
    DType, DTypeSession, ExtDTypePlugin, ExtId, Field, FieldDType, FieldPath, FieldPathSet,
    Nullability::NonNullable, PType, StructFields, UnionVariants, VortexResult, fallible, pb,
};

fn numbered(count: usize) -> StructFields {
    (0..count).map(|i| (i.to_string(), DType::Null)).collect()
}

#[test]
fn ten_thousand_fields_merge() {
    let other = StructFields::from_iter([("x", DType::Bool(NonNullable))]);
    let merged = numbered(10_000)
        .disjoint_merge(&other)
        .expect("distinct names");
    assert_eq!(merged.nfields(), 10_001);
    assert_eq!(merged.project(merged.names().as_ref()), Ok(merged));
}

fn path(text: &str) -> FieldPath {
    text.split('.').map(Field::from).collect()
}

/// The number of paths in the cover of a set, and of nodes that are visited for it.
fn counted(set: FieldPathSet) -> (usize, u64) {
    let (paths, visits) = set.into_iter_counted();
    (paths.count(), visits)
}

#[test]
fn many_paths() {
    let many: FieldPathSet = (0..100_000).map(|i| path(&i.to_string())).collect();
    assert!(many.contains(&path("99999")) && !many.contains(&path("100000")));
    assert_eq!(counted(many), (100_000, 100_001));
}

/// Asserts that the set and its copy have the first `count` of these names below one node, and no other.
fn has_exactly_the_first(set: &FieldPathSet, names: &[FieldPath], count: usize) {
    let copy = set.clone();
    for (i, name) in names.iter().enumerate() {
        assert_eq!(set.contains(name), i < count, "{name} of {count}");
        assert_eq!(copy.contains(name), i < count, "{name} of {count}");
    }
    assert_eq!(counted(copy), (count, count as u64 + 2));
}

/// Short names, and long ones with a common suffix.
#[test]
fn any_number_of_children() {
    let both = |i| [format!("parent.{i}"), format!("parent.{i}_of_the_columns")];
    let names: Vec<_> = (0..20).flat_map(both).map(|name| path(&name)).collect();
    let mut set = FieldPathSet::new();
    for (at, name) in names.iter().enumerate() {
        set.insert(name.clone());
        has_exactly_the_first(&set, &names, at + 1);
    }
}

/// Enough children that a node has made its table larger three times. Some names have their last seven bytes in common, by
/// which a tree of the table distinguishes children before it compares their names.
#[test]
fn many_children() {
    for ending in ["", "_of_the_columns"] {
        let name = |i| path(&format!("parent.{}{ending}", 10_000_000 + i));
        let names: Vec<_> = (0..2_110).map(name).collect();
        let set: FieldPathSet = names[..2_100].iter().collect();
        has_exactly_the_first(&set, &names, 2_100);
    }
}

/// No call recurses along a path.
#[test]
fn a_long_path() {
    let elements = |count| FieldPath::from(vec![Field::ElementType; count]);
    let steps = 500_000;
    let set = FieldPathSet::from([elements(steps), elements(steps + 2)]);
    let copy = set.clone();
    for (count, is_in) in [(0, true), (1, false), (2, true), (3, false)] {
        assert_eq!(copy.contains(&elements(steps + count)), is_in, "{count}");
    }
    assert!(!copy.contains(&elements(steps - 1)));
    assert_eq!((copy.iter().count(), counted(copy)), (2, (1, 500_001)));
}

/// A plugin that lowers the letters of metadata.
struct Tag;

impl ExtDTypePlugin for Tag {
    fn id(&self) -> &'static str {
        "x.tag"
    }

    fn deserialize(&self, metadata: &[u8], _: &DType) -> VortexResult<fallible::Vec<u8>> {
        Ok(metadata.to_ascii_lowercase().into())
    }
}

#[test]
fn extensions_are_rewritten_200_deep() {
    let deep = |metadata: &[u8]| {
        (0..200).fold(DType::from(PType::U8).to_proto(), |storage, _| {
            let extension = pb::Extension {
                id: "x.tag".into(),
                storage_dtype: Some(Box::new(storage)),
                metadata: Some(metadata.into()),
            };
            pb::DType {
                dtype_type: Some(pb::DtypeType::Extension(Box::new(extension))),
            }
        })
    };
    let mut session = DTypeSession::new();
    session.register(Box::new(Tag) as Box<dyn ExtDTypePlugin>);
    let read = DType::from_proto(&deep(b"AB"), &session).expect("a type");
    assert_eq!(read.to_proto(), deep(b"ab"));
    assert_eq!(DType::from_proto(&deep(b"ab"), &session), Ok(read));
}

fn hash_of(value: &(impl Hash + ?Sized)) -> u64 {
    let mut state = DefaultHasher::new();
    value.hash(&mut state);
    state.finish()
}

#[test]
fn fields_and_ids_hash_as_what_they_hold() {
    let byte = FieldDType::from(PType::U8);
    assert_eq!(byte.value(), &DType::BYTES);
    assert_eq!(hash_of(&byte.clone()), hash_of(&DType::BYTES));
    assert_ne!(hash_of(&byte), hash_of(&DType::Null));
    assert_ne!(byte, FieldDType::from(PType::U16));
    assert_eq!(hash_of(&ExtId::from("x.y")), hash_of("x.y"));
    assert_ne!(hash_of(&ExtId::from("x.y")), hash_of("x.z"));
}

/// Asserts that an iterator has this many items, and one less after each.
fn has_left<I: ExactSizeIterator>(mut items: I, count: usize) {
    for left in (0..count).rev() {
        assert_eq!(
            (items.len(), items.size_hint()),
            (left + 1, (left + 1, Some(left + 1)))
        );
        assert!(items.next().is_some());
    }
    assert_eq!(items.size_hint(), (0, Some(0)));
    assert!(items.next().is_none());
}

#[test]
fn iterators_tell_how_many_items_are_left() {
    let fields = numbered(3);
    has_left(fields.fields(), 3);
    has_left(fields.pairs(), 3);
    has_left(fields.names().iter(), 3);
    has_left(fields.names().clone().into_iter(), 3);
    let union = UnionVariants::new(["x", "y"].into(), vec![DType::Null; 2]).expect("two names");
    has_left(union.variants(), 2);
    has_left(union.triples(), 2);
    let set = FieldPathSet::from([path("a"), path("b.c")]);
    has_left(set.cursor().names(), 2);
}

#[test]
fn sets_and_cursors_have_debug_texts() {
    let set = FieldPathSet::from([path("a"), path("b")]);
    let cursor = set.cursor();
    assert_eq!(format!("{set:?}"), "FieldPathSet { .. }");
    assert_eq!(format!("{cursor:?}"), "FieldPathCursor { .. }");
    assert_eq!(format!("{:?}", cursor.names()), "CursorNames { .. }");
}
