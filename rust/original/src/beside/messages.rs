// SPDX-License-Identifier: Apache-2.0
// SPDX-FileCopyrightText: Copyright the Vortex contributors

//! Messages are made of types, and types of messages. (The original can write the bytes of a message, and the crate
//! can't, so bytes aren't measured.)

use std::hint::black_box;

use vortex_array::dtype::DType as Theirs;
use vortex_array::dtype::proto::dtype as pb;
use vortex_logical_types::{DType as Ours, DTypeSession};
use vortex_session::VortexSession;

use crate::fixture::{Types, struct_text};
use crate::looks::used;
use crate::meter::{Meter, each};

const NESTED: &str = "{id=u64, who={name=utf8, city=utf8?}, lines=list({sku=utf8, price=decimal(10,2)?}), tags=list(utf8)?, \
                      by=map(utf8, i32?, keys_sorted=true)}";

pub fn all(meter: &mut Meter, count: usize) {
    of_type(meter, &count.to_string(), &struct_text(count));
}

pub fn nested(meter: &mut Meter) {
    of_type(meter, "nested", NESTED);
}

fn of_type(meter: &mut Meter, of: &str, text: &str) {
    let (it, session, ours_session) = (Types::read(text), VortexSession::empty(), DTypeSession::new());
    let written = |dtype: &Theirs| pb::DType::try_from(dtype).expect("a message");
    let theirs = |i| usize::from(black_box(written(it.theirs(i))).dtype_type.is_some());
    let ours = |i| usize::from(black_box(it.ours(i).to_proto()).dtype_type.is_some());
    meter.case("message write", of, each(theirs), each(ours));
    let (messages, ours_messages) = (it.theirs.each_ref().map(written), it.ours.each_ref().map(Ours::to_proto));
    let theirs = |i: usize| used(Theirs::from_proto(black_box(&messages[i % 2]), &session).expect("a type"));
    let ours = |i: usize| used(Ours::from_proto(black_box(&ours_messages[i % 2]), &ours_session).expect("a type"));
    meter.case("message read", of, each(theirs), each(ours));
}
