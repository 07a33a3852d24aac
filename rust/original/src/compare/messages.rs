// SPDX-License-Identifier: Apache-2.0
// SPDX-FileCopyrightText: Copyright the Vortex contributors

//! Messages of types and of paths, and the types that sessions read from them.

use original::models;
use original::plugins::{PLUGINS, Session};
use vortex_array::dtype as theirs;
use vortex_array::dtype::proto::dtype as pb;
use vortex_array::dtype::proto::dtype::d_type::DtypeType;
use vortex_array::dtype::proto::dtype::field::FieldType;
use vortex_logical_types::{self as ours, fallible, pb as our_pb};

use crate::generate;
use crate::plugins;
use crate::random::Random;
use crate::round::*;

/// The message of this library with the same fields as one of the original.
pub fn of_theirs(message: &pb::DType) -> our_pb::DType {
    let boxed = |it: &Option<Box<pb::DType>>| it.as_ref().map(|it| Box::new(of_theirs(it)));
    let all = |it: &[pb::DType]| it.iter().map(of_theirs).collect();
    let texts = |it: &[String]| it.iter().map(|it| fallible::String::from(it.as_str())).collect();
    let kind = message.dtype_type.as_ref().map(|kind| match kind {
        DtypeType::Null(_) => our_pb::DtypeType::Null(our_pb::Null {}),
        DtypeType::Bool(it) => our_pb::DtypeType::Bool(our_pb::Bool { nullable: it.nullable }),
        DtypeType::Primitive(it) => {
            our_pb::DtypeType::Primitive(our_pb::Primitive { ptype: it.r#type, nullable: it.nullable })
        }
        DtypeType::Decimal(it) => our_pb::DtypeType::Decimal(our_pb::Decimal {
            precision: it.precision,
            scale: it.scale,
            nullable: it.nullable,
        }),
        DtypeType::Utf8(it) => our_pb::DtypeType::Utf8(our_pb::Utf8 { nullable: it.nullable }),
        DtypeType::Binary(it) => our_pb::DtypeType::Binary(our_pb::Binary { nullable: it.nullable }),
        DtypeType::Variant(it) => our_pb::DtypeType::Variant(our_pb::Variant { nullable: it.nullable }),
        DtypeType::List(it) => our_pb::DtypeType::List(Box::new(our_pb::List {
            element_type: boxed(&it.element_type),
            nullable: it.nullable,
        })),
        DtypeType::FixedSizeList(it) => our_pb::DtypeType::FixedSizeList(Box::new(our_pb::FixedSizeList {
            element_type: boxed(&it.element_type),
            size: it.size,
            nullable: it.nullable,
        })),
        DtypeType::Map(it) => our_pb::DtypeType::Map(Box::new(our_pb::Map {
            key_type: boxed(&it.key_type),
            value_type: boxed(&it.value_type),
            keys_sorted: it.keys_sorted,
            nullable: it.nullable,
        })),
        DtypeType::Struct(it) => our_pb::DtypeType::Struct(our_pb::Struct {
            names: texts(&it.names),
            dtypes: all(&it.dtypes),
            nullable: it.nullable,
        }),
        DtypeType::Union(it) => our_pb::DtypeType::Union(our_pb::Union {
            names: texts(&it.names),
            dtypes: all(&it.dtypes),
            type_ids: it.type_ids.iter().copied().collect(),
            nullable: it.nullable,
        }),
        DtypeType::Extension(it) => our_pb::DtypeType::Extension(Box::new(our_pb::Extension {
            id: it.id.as_str().into(),
            storage_dtype: boxed(&it.storage_dtype),
            metadata: it.metadata.as_deref().map(Into::into),
        })),
    });
    our_pb::DType { dtype_type: kind }
}

/// A random message, which describes a type or has one of the faults that a message can have.
fn random(random: &mut Random, levels: usize) -> pb::DType {
    let nullable = random.bool();
    let kinds = if levels == 0 { 8 } else { 15 };
    let kind = match random.below(kinds) {
        0 => return odd(random),
        1 => DtypeType::Null(pb::Null {}),
        2 => DtypeType::Bool(pb::Bool { nullable }),
        3 => DtypeType::Primitive(pb::Primitive { r#type: random.below(11) as i32, nullable }),
        4 => DtypeType::Decimal(pb::Decimal { precision: 1 + random.below(76) as u32, scale: -2, nullable }),
        5 => DtypeType::Utf8(pb::Utf8 { nullable }),
        6 => DtypeType::Binary(pb::Binary { nullable }),
        7 => DtypeType::Variant(pb::Variant { nullable }),
        8 => DtypeType::List(Box::new(pb::List { element_type: part(random, levels), nullable })),
        9 => {
            let size = random.number() as u32;
            DtypeType::FixedSizeList(Box::new(pb::FixedSizeList { element_type: part(random, levels), size, nullable }))
        }
        10 => {
            let [key_type, value_type] = [(); 2].map(|()| part(random, levels));
            DtypeType::Map(Box::new(pb::Map { key_type, value_type, keys_sorted: random.bool(), nullable }))
        }
        11 => {
            let (names, dtypes, type_ids) = fields(random, levels);
            DtypeType::Union(pb::Union { names, dtypes, type_ids, nullable })
        }
        12 => {
            let id = (*random.pick(&["x.tag", "geo.point", ""])).to_owned();
            let metadata = if random.bool() { None } else { Some(vec![random.number() as u8; random.below(3)]) };
            DtypeType::Extension(Box::new(pb::Extension { id, storage_dtype: part(random, levels), metadata }))
        }
        _ => {
            let (names, dtypes, _) = fields(random, levels);
            DtypeType::Struct(pb::Struct { names, dtypes, nullable })
        }
    };
    pb::DType { dtype_type: Some(kind) }
}

/// A message without a kind, or with a number that may be out of range.
fn odd(random: &mut Random) -> pb::DType {
    let nullable = random.bool();
    let kind = match random.below(5) {
        0 => return pb::DType { dtype_type: None },
        1 => DtypeType::Primitive(pb::Primitive { r#type: random.below(14) as i32 - 2, nullable }),
        _ => {
            let precision = *random.pick(&[0, 1, 38, 76, 77, 255, 256, 300, u32::MAX]);
            let scale = *random.pick(&[i32::MIN, -129, -128, 0, 1, 38, 76, 77, 127, 128, i32::MAX]);
            DtypeType::Decimal(pb::Decimal { precision, scale, nullable })
        }
    };
    pb::DType { dtype_type: Some(kind) }
}

fn part(random: &mut Random, levels: usize) -> Option<Box<pb::DType>> {
    if random.one_in(12) { None } else { Some(Box::new(self::random(random, levels - 1))) }
}

/// Names, types and tags, now and then one more or less of one of them, or a tag that is out of range.
fn fields(random: &mut Random, levels: usize) -> (Vec<String>, Vec<pb::DType>, Vec<i32>) {
    let count = random.below(5);
    let mut names: Vec<String> = (0..count).map(|_| generate::name(random)).collect();
    let mut dtypes: Vec<pb::DType> = (0..count).map(|_| self::random(random, levels - 1)).collect();
    let mut tags: Vec<i32> = (0..count as i32).collect();
    match random.below(24) {
        0 => drop(names.pop()),
        1 => drop(dtypes.pop()),
        2 => drop(tags.pop()),
        3 => tags.push(*random.pick(&[-1, 0, 255, 256])),
        4..=8 => tags.iter_mut().for_each(|it| *it = random.below(260) as i32 - 2),
        _ => {}
    }
    (names, dtypes, tags)
}

/// Random messages on both sides, and one that is often the same.
pub fn of_any(round: &mut Round) {
    let message = random(&mut round.random, 3);
    let other = if round.random.bool() { message.clone() } else { random(&mut round.random, 3) };
    let (here, other_here) = (of_theirs(&message), of_theirs(&other));
    let about = format!("{message:?}");
    let there = if round.is_spoiled { random(&mut round.random, 3) } else { message };
    both! { round, about.clone(), (one, other) = (&here, &other_here), (&there, &other);
        "pb::DType::eq" => one == other;
        "pb::DType::clone" => one.clone();
    }
    let session: Vec<&'static str> = match round.random.below(4) {
        0 => vec!["strict"],
        1 => vec!["unknown"],
        _ => ["unknown"].into_iter().chain(PLUGINS).filter(|_| round.random.bool()).collect(),
    };
    let here_session = plugins::session(&session);
    let there_session = Session::of(session.clone()).made();
    let read_here = ours::DType::from_proto(&here, &here_session);
    let read_there = models::read(&there_session, &there);
    same! { round, format!("{session:?}: {about}");
        "DType::from_proto" => read_here, read_there;
        "DType::to_proto of from_proto" => read_here.map(|it| it.to_proto()),
            read_there.and_then(|it| Ok(pb::DType::try_from(&it)?));
        "allows_unknown" => here_session.allows_unknown(), there_session.allows_unknown() ^ round.is_spoiled;
    }
}

/// The calls on the message of a type.
pub fn of_type(round: &mut Round, it: &Pair) {
    let mut session = ours::DTypeSession::new();
    session.allow_unknown();
    let message = it.ours.to_proto();
    same! { round, it.text();
        "pb::DType::try_from(&DType)" => our_pb::DType::try_from(&it.ours), pb::DType::try_from(&it.theirs);
        "DType::to_proto" => message, pb::DType::try_from(&it.theirs).expect("a message");
        "DType::from_proto of to_proto" => ours::DType::from_proto(&message, &session).ok(), Some(&it.theirs);
    }
}

/// The calls on the message of a path, of which a part may have no kind.
pub fn of_path(round: &mut Round) {
    let count = round.random.below(4);
    let parts: Vec<Option<String>> = (0..count)
        .map(|_| if round.random.one_in(12) { None } else { Some(generate::name(&mut round.random)) })
        .collect();
    let given = round.or_spoiled(&parts[..], &parts[parts.len() / 2..]);
    let there = given.iter().map(|name| pb::Field { field_type: name.clone().map(FieldType::Name) }).collect();
    let here = parts
        .iter()
        .map(|name| our_pb::Field { field_type: name.as_ref().map(|it| our_pb::FieldType::Name(it.as_str().into())) });
    let (here, there) = (our_pb::FieldPath { path: here.collect() }, pb::FieldPath { path: there });
    both! { round, format!("{parts:?}"), message = &here, &there;
        "FieldPath::try_from(&pb::FieldPath)" => dtype::FieldPath::try_from(message);
    }
    same! { round, format!("{parts:?}");
        "FieldPath::from_proto" => ours::FieldPath::from_proto(&here.clone()), theirs::FieldPath::try_from(&there);
    }
}
