// SPDX-License-Identifier: Apache-2.0
// SPDX-FileCopyrightText: Copyright the Vortex contributors

//! Random messages of all kinds, with faults at random places. What reading one returns, and how the types that are read
//! compare, is what plain walks over the messages say, which don't use the library.

use proptest::collection::vec;
use proptest::prelude::*;
use proptest::sample::select;
use proptest::test_runner::{Config, RngAlgorithm, TestError, TestRng, TestRunner};
use std::cell::RefCell;
use std::collections::{BTreeMap, BTreeSet};
use std::fmt::{Debug, Display, Write};
use std::hash::{DefaultHasher, Hash, Hasher};
use vortex_logical_types::{
    DType, DTypeSession, ExtDTypePlugin, VortexError, VortexResult, fallible, pb,
};

const CASES: u32 = if cfg!(debug_assertions) {
    2_000
} else {
    20_000
};

/// Tries a property on the same cases each time.
fn each<S: Strategy<Value: Debug>>(
    strategy: &S,
    property: impl Fn(S::Value) -> Result<(), TestCaseError>,
) {
    let config = Config {
        cases: CASES,
        failure_persistence: None,
        ..Config::default()
    };
    let rng = TestRng::deterministic_rng(RngAlgorithm::ChaCha);
    match TestRunner::new_with_rng(config, rng).run(strategy, property) {
        Ok(()) => (),
        Err(TestError::Abort(reason)) => panic!("{reason}"),
        Err(TestError::Fail(reason, case)) => panic!("{reason}: {case:?}"),
    }
}

// The messages.

/// One choice in so many is a fault.
const RARITY: u32 = 20;

fn rarely<T: Debug>(
    fault: impl Strategy<Value = T> + 'static,
    usual: impl Strategy<Value = T> + 'static,
) -> BoxedStrategy<T> {
    prop_oneof![1 => fault, RARITY => usual].boxed()
}

fn of(kind: pb::DtypeType) -> pb::DType {
    pb::DType {
        dtype_type: Some(kind),
    }
}

fn text(nullable: bool) -> pb::DType {
    of(pb::DtypeType::Utf8(pb::Utf8 { nullable }))
}

fn leaf() -> BoxedStrategy<pb::DType> {
    let ptype = rarely(select(vec![i32::MIN, -1, 11, 256, i32::MAX]), 0..=10);
    let precision = rarely(
        select(vec![0, 77, 255, 256, u32::MAX]),
        select(vec![5, 38, 76]),
    );
    let scales = vec![i32::MIN, -129, 6, 39, 77, 127, 128, i32::MAX];
    let scale = rarely(select(scales), select(vec![-128, -5, 0, 5]));
    let primitive =
        |(ptype, nullable)| of(pb::DtypeType::Primitive(pb::Primitive { ptype, nullable }));
    let decimal = |(precision, scale, nullable)| {
        of(pb::DtypeType::Decimal(pb::Decimal {
            precision,
            scale,
            nullable,
        }))
    };
    let usual = prop_oneof![
        1 => Just(of(pb::DtypeType::Null(pb::Null {}))),
        1 => any::<bool>().prop_map(|nullable| of(pb::DtypeType::Bool(pb::Bool { nullable }))),
        1 => (ptype, any::<bool>()).prop_map(primitive),
        2 => (precision, scale, any::<bool>()).prop_map(decimal),
        1 => any::<bool>().prop_map(text),
        1 => any::<bool>().prop_map(|nullable| of(pb::DtypeType::Binary(pb::Binary { nullable }))),
        1 => any::<bool>().prop_map(|nullable| of(pb::DtypeType::Variant(pb::Variant { nullable }))),
    ];
    rarely(Just(pb::DType { dtype_type: None }), usual)
}

type Child = Option<Box<pb::DType>>;

fn child(of: BoxedStrategy<pb::DType>) -> BoxedStrategy<Child> {
    rarely(Just(None), of.prop_map(|it| Some(Box::new(it))))
}

/// A length: that of another list, or a fault.
fn beside(length: usize) -> BoxedStrategy<usize> {
    let fault = select(vec![length + 1, length.saturating_sub(1)]);
    rarely(fault, Just(length))
}

/// So many names, which are distinct but for faults.
fn names(count: usize) -> BoxedStrategy<Vec<usize>> {
    let name = |i| rarely(Just(0), Just(i));
    (0..count).map(name).collect::<Vec<_>>().boxed()
}

fn written(names: &[usize]) -> fallible::Vec<fallible::String> {
    names
        .iter()
        .map(|name| name.to_string().as_str().into())
        .collect()
}

fn fields(inner: BoxedStrategy<pb::DType>, most: usize) -> BoxedStrategy<pb::DType> {
    let with_names = |dtypes: Vec<pb::DType>| {
        let names = beside(dtypes.len()).prop_flat_map(names);
        (names, Just(dtypes), any::<bool>())
    };
    let fields = |(names, dtypes, nullable): (Vec<usize>, Vec<pb::DType>, bool)| {
        of(pb::DtypeType::Struct(pb::Struct {
            names: written(&names),
            dtypes: dtypes.into(),
            nullable,
        }))
    };
    vec(inner, 0..=most)
        .prop_flat_map(with_names)
        .prop_map(fields)
        .boxed()
}

/// So many tags.
fn tags(count: usize) -> BoxedStrategy<Vec<i32>> {
    let tag = |i: usize| {
        let faults = vec![i32::MIN, -1, 0, 7, 256, i32::MAX];
        rarely(select(faults), Just([7, 0, 255, 3, 128, 1][i % 6]))
    };
    (0..count).map(tag).collect::<Vec<_>>().boxed()
}

fn variants(inner: BoxedStrategy<pb::DType>) -> BoxedStrategy<pb::DType> {
    let with_names = |dtypes: Vec<pb::DType>| {
        let names = beside(dtypes.len()).prop_flat_map(names);
        (names, Just(dtypes), any::<bool>())
    };
    let with_tags = |(names, dtypes, nullable): (Vec<usize>, Vec<pb::DType>, bool)| {
        let tags = beside(names.len()).prop_flat_map(tags);
        (Just(names), Just(dtypes), tags, Just(nullable))
    };
    let union = |(names, dtypes, tags, nullable): (Vec<usize>, Vec<pb::DType>, Vec<i32>, bool)| {
        of(pb::DtypeType::Union(pb::Union {
            names: written(&names),
            dtypes: dtypes.into(),
            type_ids: tags.into(),
            nullable,
        }))
    };
    rarely(vec(inner.clone(), 0..1), vec(inner, 1..4))
        .prop_flat_map(with_names)
        .prop_flat_map(with_tags)
        .prop_map(union)
        .boxed()
}

fn extensions(inner: BoxedStrategy<pb::DType>) -> BoxedStrategy<pb::DType> {
    let bytes = || select(vec![None, Some(&b""[..]), Some(b"AB"), Some(b"ab")]);
    let metadata = || rarely(Just(Some(&b"a!"[..])), bytes());
    let texts = any::<bool>().prop_map(|nullable| Some(Box::new(text(nullable))));
    let of_parts = |(id, storage_dtype, metadata): (&str, Child, Option<&[u8]>)| {
        of(pb::DtypeType::Extension(Box::new(pb::Extension {
            id: id.into(),
            storage_dtype,
            metadata: metadata.map(Into::into),
        })))
    };
    let unknown = (Just("y"), child(inner.clone()), Just(Some(&b"AB"[..])));
    let of_texts = (
        Just("x.text"),
        rarely(child(inner.clone()), texts),
        rarely(metadata(), Just(None)),
    );
    let known = prop_oneof![
        of_texts.prop_map(of_parts),
        (Just("x.tag"), child(inner), metadata()).prop_map(of_parts),
    ];
    rarely(unknown.prop_map(of_parts), known)
}

fn part() -> impl Strategy<Value = pb::DType> {
    leaf().prop_recursive(4, 24, 4, |inner| {
        let list = |(element_type, nullable)| {
            of(pb::DtypeType::List(Box::new(pb::List {
                element_type,
                nullable,
            })))
        };
        let fixed = |(element_type, size, nullable)| {
            of(pb::DtypeType::FixedSizeList(Box::new(pb::FixedSizeList {
                element_type,
                size,
                nullable,
            })))
        };
        let map = |(key_type, value_type, keys_sorted, nullable)| {
            of(pb::DtypeType::Map(Box::new(pb::Map {
                key_type,
                value_type,
                keys_sorted,
                nullable,
            })))
        };
        let key = prop_oneof![
            1 => Just(None),
            1 => child(inner.clone()),
            RARITY => Just(Some(Box::new(text(false)))),
        ];
        let (flag, size) = (any::<bool>(), select(vec![0, 1, u32::MAX]));
        prop_oneof![
            1 => (child(inner.clone()), flag).prop_map(list),
            1 => (child(inner.clone()), size, flag).prop_map(fixed),
            2 => (key, child(inner.clone()), flag, flag).prop_map(map),
            2 => fields(inner.clone(), 3),
            2 => variants(inner.clone()),
            2 => extensions(inner),
        ]
    })
}

fn message() -> impl Strategy<Value = pb::DType> {
    prop_oneof![1 => part(), 3 => fields(part().boxed(), 6)]
}

// The session: the plugin of `x.tag` lowers letters and doesn't accept `!`, and that of `x.text` accepts texts without
// metadata.

struct Tag;

impl ExtDTypePlugin for Tag {
    fn id(&self) -> &'static str {
        "x.tag"
    }

    fn deserialize(&self, metadata: &[u8], _: &DType) -> VortexResult<fallible::Vec<u8>> {
        if metadata.contains(&b'!') {
            return Err(VortexError::MetadataRefused);
        }
        Ok(metadata.to_ascii_lowercase().into())
    }
}

struct TextAlone;

impl ExtDTypePlugin for TextAlone {
    fn id(&self) -> &'static str {
        "x.text"
    }

    fn deserialize(&self, metadata: &[u8], storage: &DType) -> VortexResult<fallible::Vec<u8>> {
        if metadata.is_empty() && storage.is_utf8() {
            Ok(fallible::Vec::default())
        } else {
            Err(VortexError::MetadataRefused)
        }
    }
}

fn tagging(keeps_unknown: bool) -> DTypeSession {
    let mut session = DTypeSession::new();
    if keeps_unknown {
        session.allow_unknown();
    }
    session.register(Box::new(Tag) as Box<dyn ExtDTypePlugin>);
    session.register(Box::new(TextAlone) as Box<dyn ExtDTypePlugin>);
    session
}

// The faults of a message.

/// The numbers of all faults, in the order in which a reader meets them.
fn faults(proto: &pb::DType, keeps_unknown: bool) -> Vec<u8> {
    let mut found = Vec::new();
    let mut note = |stands: bool, number| found.extend(stands.then_some(number));
    let Some(kind) = &proto.dtype_type else {
        return vec![24];
    };
    let within = |child: &Child, missing| match child {
        Some(child) => faults(child, keeps_unknown),
        None => vec![missing],
    };
    match kind {
        pb::DtypeType::Primitive(p) => note(!(0..=10).contains(&p.ptype), 25),
        pb::DtypeType::Decimal(p) => {
            note(p.precision > 255, 26);
            note(i8::try_from(p.scale).is_err(), 27);
            note(p.precision == 0, 1);
            note(p.precision > 76, 2);
            note(p.scale > 76, 3);
            note(i64::from(p.scale) > i64::from(p.precision), 4);
        }
        pb::DtypeType::List(p) => return within(&p.element_type, 28),
        pb::DtypeType::FixedSizeList(p) => return within(&p.element_type, 29),
        pb::DtypeType::Map(p) => {
            let (key, value) = (within(&p.key_type, 30), within(&p.value_type, 31));
            note(p.key_type.as_ref().is_some_and(|it| is_nullable(it)), 9);
            return [key, value, found].concat();
        }
        pb::DtypeType::Struct(p) => {
            note(p.names.len() != p.dtypes.len(), 32);
            return [within_all(&p.dtypes, keeps_unknown), found].concat();
        }
        pb::DtypeType::Union(p) => {
            note(p.type_ids.iter().any(|tag| u8::try_from(*tag).is_err()), 33);
            note(p.names.len() != p.dtypes.len(), 10);
            note(p.names.len() != p.type_ids.len(), 11);
            note(p.names.is_empty(), 12);
            note(has_repeat(&p.type_ids), 13);
            note(has_repeat(&p.names), 15);
            return [within_all(&p.dtypes, keeps_unknown), found].concat();
        }
        pb::DtypeType::Extension(p) => {
            let bytes = p.metadata.as_ref().map_or(&[][..], |bytes| bytes);
            let storage = p
                .storage_dtype
                .as_ref()
                .and_then(|it| it.dtype_type.as_ref());
            match &*p.id {
                "x.tag" => note(bytes.contains(&b'!'), 22),
                "x.text" => note(
                    !bytes.is_empty() || !matches!(storage, Some(pb::DtypeType::Utf8(_))),
                    22,
                ),
                _ => note(!keeps_unknown, 35),
            }
            return [within(&p.storage_dtype, 34), found].concat();
        }
        _ => (),
    }
    found
}

fn within_all(protos: &[pb::DType], keeps_unknown: bool) -> Vec<u8> {
    let each = |proto| faults(proto, keeps_unknown);
    protos.iter().flat_map(each).collect()
}

fn has_repeat<T: PartialEq>(items: &[T]) -> bool {
    (0..items.len()).any(|i| items[..i].contains(&items[i]))
}

/// Whether the message is of a nullable type, as far as it is of one.
fn is_nullable(proto: &pb::DType) -> bool {
    match &proto.dtype_type {
        None => false,
        Some(pb::DtypeType::Null(_)) => true,
        Some(pb::DtypeType::Bool(p)) => p.nullable,
        Some(pb::DtypeType::Primitive(p)) => p.nullable,
        Some(pb::DtypeType::Decimal(p)) => p.nullable,
        Some(pb::DtypeType::Utf8(p)) => p.nullable,
        Some(pb::DtypeType::Binary(p)) => p.nullable,
        Some(pb::DtypeType::List(p)) => p.nullable,
        Some(pb::DtypeType::FixedSizeList(p)) => p.nullable,
        Some(pb::DtypeType::Map(p)) => p.nullable,
        Some(pb::DtypeType::Struct(p)) => p.nullable,
        Some(pb::DtypeType::Union(p)) => p.nullable,
        Some(pb::DtypeType::Variant(p)) => p.nullable,
        Some(pb::DtypeType::Extension(p)) => {
            p.storage_dtype.as_ref().is_some_and(|it| is_nullable(it))
        }
    }
}

// The type that a message without faults describes.

#[derive(Debug, Default, PartialEq)]
struct Model {
    /// Kinds, names and numbers in the order of the message, and metadata as the session keeps it.
    text: String,
    /// Of each node with a flag, whether it is nullable, in the same order.
    nullable: Vec<bool>,
}

impl Model {
    fn of(proto: &pb::DType) -> Self {
        let mut model = Model::default();
        model.walk(proto);
        model
    }

    fn say(&mut self, word: impl Display) {
        write!(self.text, "{word} ").expect("a text takes all");
    }

    fn kind(&mut self, kind: &str, nullable: bool) {
        self.say(kind);
        self.nullable.push(nullable);
    }

    fn walk(&mut self, proto: &pb::DType) {
        match proto.dtype_type.as_ref().expect("no fault") {
            pb::DtypeType::Null(_) => self.say("null"),
            pb::DtypeType::Bool(p) => self.kind("bool", p.nullable),
            pb::DtypeType::Primitive(p) => {
                self.kind("primitive", p.nullable);
                self.say(p.ptype);
            }
            pb::DtypeType::Decimal(p) => {
                self.kind("decimal", p.nullable);
                self.say(format!("{},{}", p.precision, p.scale));
            }
            pb::DtypeType::Utf8(p) => self.kind("utf8", p.nullable),
            pb::DtypeType::Binary(p) => self.kind("binary", p.nullable),
            pb::DtypeType::List(p) => {
                self.kind("list", p.nullable);
                self.child(&p.element_type);
            }
            pb::DtypeType::FixedSizeList(p) => {
                self.kind("fixed", p.nullable);
                self.say(p.size);
                self.child(&p.element_type);
            }
            pb::DtypeType::Map(p) => {
                self.kind("map", p.nullable);
                self.say(p.keys_sorted);
                self.child(&p.key_type);
                self.child(&p.value_type);
            }
            pb::DtypeType::Struct(p) => {
                self.kind("struct", p.nullable);
                self.say(format!("{:?}", p.names));
                p.dtypes.iter().for_each(|it| self.walk(it));
            }
            pb::DtypeType::Union(p) => {
                self.kind("union", p.nullable);
                self.say(format!("{:?} {:?}", p.names, p.type_ids));
                p.dtypes.iter().for_each(|it| self.walk(it));
            }
            pb::DtypeType::Variant(p) => self.kind("variant", p.nullable),
            pb::DtypeType::Extension(p) => {
                let bytes = p.metadata.as_ref().map_or(&[][..], |bytes| bytes);
                let is_tag = &*p.id == "x.tag";
                let kept = if is_tag {
                    bytes.to_ascii_lowercase()
                } else {
                    bytes.to_vec()
                };
                self.say(format!("extension {} {kept:?}", p.id));
                self.child(&p.storage_dtype);
            }
        }
    }

    fn child(&mut self, child: &Child) {
        self.walk(child.as_ref().expect("no fault"));
    }

    /// Whether the two differ in nothing but nullability.
    fn is_same_erased(&self, other: &Model) -> bool {
        self.text == other.text
    }

    /// Whether they do, and the other is nullable wherever this one is.
    fn is_below(&self, other: &Model) -> bool {
        let mut pairs = self.nullable.iter().zip(&other.nullable);
        self.is_same_erased(other) && pairs.all(|(below, above)| !*below || *above)
    }
}

const KINDS: [&str; 13] = [
    "null",
    "bool",
    "primitive",
    "decimal",
    "utf8",
    "binary",
    "list",
    "fixed",
    "map",
    "struct",
    "union",
    "variant",
    "extension",
];

/// The numbers of all faults that a message can have.
const NUMBERS: [u8; 23] = [
    1, 2, 3, 4, 9, 10, 11, 12, 13, 15, 22, 24, 25, 26, 27, 28, 29, 30, 31, 32, 33, 34, 35,
];

#[test]
fn messages_are_kept_or_refused_by_their_first_fault() {
    let sessions = [tagging(false), tagging(true)];
    let met = RefCell::new(BTreeMap::<Option<u8>, u32>::new());
    let several = RefCell::new(0);
    each(&(message(), any::<bool>()), |(proto, keeps_unknown)| {
        let session = &sessions[usize::from(keeps_unknown)];
        let found = faults(&proto, keeps_unknown);
        let read = DType::from_proto(&proto, session);
        let number = read.as_ref().err().map(VortexError::number);
        prop_assert_eq!(number, found.first().copied(), "of {:?}", found);
        if let Ok(dtype) = read {
            let written = dtype.to_proto();
            prop_assert_eq!(Model::of(&written), Model::of(&proto));
            let again = DType::from_proto(&written, session);
            prop_assert_eq!(again.as_ref(), Ok(&dtype));
            prop_assert_eq!(dtype.to_proto(), written);
        }
        *met.borrow_mut().entry(number).or_default() += 1;
        *several.borrow_mut() += u32::from(found.len() > 1);
        Ok(())
    });
    let met = met.into_inner();
    let numbers: BTreeSet<_> = NUMBERS.into_iter().map(Some).chain([None]).collect();
    assert_eq!(met.keys().copied().collect::<BTreeSet<_>>(), numbers);
    assert!(met[&None] > CASES / 5, "{met:?}");
    let several = several.into_inner();
    assert!(several > CASES / 10, "{several} have several faults");
}

/// Flips the nullability of nodes, and changes how the metadata of `x.tag` is spelled, where the next choice is to do so.
fn changed(proto: &mut pb::DType, choices: &mut impl FnMut() -> bool) {
    let mut flip = |nullable: &mut bool| *nullable ^= choices();
    match proto.dtype_type.as_mut().expect("no fault") {
        pb::DtypeType::Null(_) => (),
        pb::DtypeType::Bool(p) => flip(&mut p.nullable),
        pb::DtypeType::Primitive(p) => flip(&mut p.nullable),
        pb::DtypeType::Decimal(p) => flip(&mut p.nullable),
        pb::DtypeType::Utf8(p) => flip(&mut p.nullable),
        pb::DtypeType::Binary(p) => flip(&mut p.nullable),
        pb::DtypeType::Variant(p) => flip(&mut p.nullable),
        pb::DtypeType::List(p) => {
            flip(&mut p.nullable);
            p.element_type
                .iter_mut()
                .for_each(|it| changed(it, choices));
        }
        pb::DtypeType::FixedSizeList(p) => {
            flip(&mut p.nullable);
            p.element_type
                .iter_mut()
                .for_each(|it| changed(it, choices));
        }
        pb::DtypeType::Map(p) => {
            flip(&mut p.nullable);
            p.value_type.iter_mut().for_each(|it| changed(it, choices));
        }
        pb::DtypeType::Struct(p) => {
            flip(&mut p.nullable);
            p.dtypes.iter_mut().for_each(|it| changed(it, choices));
        }
        pb::DtypeType::Union(p) => {
            flip(&mut p.nullable);
            p.dtypes.iter_mut().for_each(|it| changed(it, choices));
        }
        pb::DtypeType::Extension(p) => {
            if choices() {
                p.metadata = match p.metadata.as_ref().map_or(&[][..], |bytes| bytes) {
                    b"AB" => Some(b"ab"[..].into()),
                    b"" if p.metadata.is_none() => Some(b""[..].into()),
                    b"" => None,
                    _ => Some(b"AB"[..].into()),
                };
            }
            p.storage_dtype
                .iter_mut()
                .for_each(|it| changed(it, choices));
        }
    }
}

/// A message without faults.
fn faultless() -> impl Strategy<Value = pb::DType> {
    message().prop_filter("it has a fault", |it| faults(it, true).is_empty())
}

/// Two messages: the second is the first, or the first with some choices changed, or another.
fn pair() -> impl Strategy<Value = (pb::DType, pb::DType)> {
    let with_changes = |(first, choices): (pb::DType, Vec<bool>)| {
        let (mut second, mut choices) = (first.clone(), choices.into_iter().cycle());
        changed(&mut second, &mut || choices.next().unwrap_or(false));
        (first, second)
    };
    let rare = prop_oneof![1 => Just(true), 6 => Just(false)];
    prop_oneof![
        4 => (faultless(), vec(rare, 1..30)).prop_map(with_changes),
        1 => (faultless(), faultless()),
    ]
}

fn hash_of(write: impl Fn(&mut DefaultHasher)) -> u64 {
    let mut state = DefaultHasher::new();
    write(&mut state);
    state.finish()
}

#[test]
fn types_compare_as_their_messages_do() {
    let session = tagging(true);
    let ways = RefCell::new(BTreeMap::<&str, u32>::new());
    let kinds = RefCell::new(BTreeSet::new());
    each(&pair(), |(first, second)| {
        let read = |proto| DType::from_proto(proto, &session).expect("it has no fault");
        let (one, other) = (read(&first), read(&second));
        let models = (Model::of(&first), Model::of(&second));
        let is_equal = models.0 == models.1;
        let is_erased = models.0.is_same_erased(&models.1);
        let (is_below, is_above) = (models.0.is_below(&models.1), models.1.is_below(&models.0));
        prop_assert_eq!(one == other, is_equal);
        prop_assert_eq!(one.eq_ignore_nullability(&other), is_erased);
        prop_assert_eq!(one.eq_with_nullability_subset(&other), is_below);
        prop_assert_eq!(one.eq_with_nullability_superset(&other), is_above);
        if is_equal {
            let hash = |dtype: &DType| hash_of(|state| dtype.hash(state));
            prop_assert_eq!(hash(&one), hash(&other));
        }
        if is_erased {
            let hash = |dtype: &DType| hash_of(|state| dtype.hash_ignore_nullability(state));
            prop_assert_eq!(hash(&one), hash(&other));
        }
        let way = match (is_equal, is_below || is_above, is_erased) {
            (true, ..) if first == second => "the same message",
            (true, ..) => "equal, of different messages",
            (_, true, _) => "one a subset of the other",
            (_, _, true) => "neither a subset of the other",
            _ => "different",
        };
        *ways.borrow_mut().entry(way).or_default() += 1;
        let words = models.0.text.split(' ');
        kinds.borrow_mut().extend(
            KINDS
                .into_iter()
                .filter(|kind| words.clone().any(|it| it == *kind)),
        );
        Ok(())
    });
    let ways = ways.into_inner();
    assert!(
        ways.len() == 5 && ways.values().all(|count| *count > CASES / 1000),
        "{ways:?}"
    );
    assert_eq!(kinds.into_inner().len(), KINDS.len());
}
