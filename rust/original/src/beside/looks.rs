// SPDX-License-Identifier: Apache-2.0
// SPDX-FileCopyrightText: Copyright the Vortex contributors

//! Types that are cloned, looked at, compared, hashed and printed.

use std::collections::HashSet;
use std::hash::{DefaultHasher, Hash, Hasher};
use std::hint::black_box;

use original::by_hand::merged;
use vortex_array::dtype::{self as theirs, DType as Theirs};
use vortex_logical_types::{self as ours, DType as Ours};

use crate::fixture::{self, Types, leaf, lists, struct_of};
use crate::meter::{Meter, alike, each};

/// The types of the cases that look at one type, with what they are called.
fn shapes() -> Vec<(&'static str, String)> {
    vec![
        ("i32", "i32".to_owned()),
        ("utf8?", "utf8?".to_owned()),
        ("decimal", "decimal(10,2)".to_owned()),
        ("list of a struct", "list({a=i32, b=utf8})".to_owned()),
        ("3 lists", lists(3, "i32")),
        ("16 lists", lists(16, "i32")),
        ("64 lists", lists(64, "i32")),
        ("struct of 10", fixture::struct_text(10)),
        ("struct of 1000", fixture::struct_text(1000)),
    ]
}

const NESTED: &str = "{id=u64, who={name=utf8, city=utf8?}, lines=list({sku=utf8, price=decimal(10,2)?}), tags=list(utf8)?, \
                      at=i64, note=utf8?}";

/// Whether it is a struct, plus whether it is nullable. (What is made has to be there for this.)
pub trait Seen {
    fn seen(&self) -> usize;
}

impl Seen for Theirs {
    fn seen(&self) -> usize {
        usize::from(self.is_struct()) + usize::from(self.is_nullable())
    }
}

impl Seen for Ours {
    fn seen(&self) -> usize {
        usize::from(self.is_struct()) + usize::from(self.is_nullable())
    }
}

pub fn used(dtype: impl Seen) -> usize {
    black_box(dtype).seen()
}

/// A type is cloned, and looked at.
pub fn of_one(meter: &mut Meter) {
    for (name, text) in shapes() {
        let it = Types::read(&text);
        alike!(meter, "clone", name, i, it = it.theirs(i), it.ours(i); used(it.clone()));
        alike!(meter, "kind and nullability", name, i, it = it.theirs(i), it.ours(i); it.seen());
        if text.starts_with("list(") {
            alike!(meter, "element, looked at", name, i, it = it.theirs(i), it.ours(i);
                it.as_list_element_opt().map_or(7, |it| it.seen()));
            let theirs = |i| it.theirs(i).as_list_element_opt().cloned().map_or(7, |it| black_box(it).seen());
            let ours = |i| it.ours(i).as_list_element_opt().cloned().map_or(7, used);
            meter.case("element, kept", name, each(theirs), each(ours));
        }
    }
    let it = Types::read(NESTED);
    let (theirs, ours) = (|i| nodes(it.theirs(i)), |i| nodes_of_ours(it.ours(i)));
    meter.case("walk a nested type of 13 nodes", "", each(theirs), each(ours));
    let it = Types::read(&lists(3, "u8"));
    alike!(meter, "innermost element of 3 lists", "", i, it = it.theirs(i), it.ours(i); {
        let mut innermost: &dtype::DType = it;
        while let Some(element) = innermost.as_list_element_opt() {
            innermost = element;
        }
        usize::from(innermost.is_primitive())
    });
    let it = Types::read("decimal(10,2)");
    alike!(meter, "decimal parts", "", i, it = it.theirs(i), it.ours(i);
        it.as_decimal_opt().map_or(0, |it| usize::from(it.precision()) + it.scale() as usize));
    alike!(meter, "display", "decimal", i, it = it.theirs(i), it.ours(i); it.to_string().len());
    let it = Types::read(&struct_of((0..1000).map(|at| (fixture::column(at), "i32".to_owned()))));
    alike!(meter, "element_size", 1000, i, it = it.theirs(i), it.ours(i); it.element_size().unwrap_or(0));
    for (name, text) in shapes() {
        if ["i32", "3 lists", "16 lists", "struct of 10", "struct of 1000"].contains(&name) {
            let (name, text) = if name == "3 lists" { ("list(i32)", "list(i32)") } else { (name, text.as_str()) };
            let it = Types::read(text);
            alike!(meter, "as_nullable", name, i, it = it.theirs(i), it.ours(i); used(it.as_nullable()));
        }
    }
}

/// The number of types in a type.
fn nodes(dtype: &Theirs) -> usize {
    1 + match dtype {
        Theirs::List(element, _) | Theirs::FixedSizeList(element, ..) => nodes(element),
        Theirs::Struct(fields, _) => fields.field_dtypes().map(nodes).sum(),
        _ => 0,
    }
}

fn nodes_of_ours(dtype: &Ours) -> usize {
    1 + match dtype {
        Ours::List(element, _) | Ours::FixedSizeList(element, ..) => nodes_of_ours(element),
        Ours::Struct(fields, _) => fields.field_dtypes().map(nodes_of_ours).sum(),
        _ => 0,
    }
}

/// Uses a hash, which the two sides compute differently.
pub fn hashed(it: &impl Hash) -> usize {
    let mut state = DefaultHasher::new();
    it.hash(&mut state);
    usize::from(black_box(state.finish()) != 1)
}

/// Structs of so many columns are compared, hashed, merged and printed.
pub fn of_two(meter: &mut Meter, count: usize) {
    let it = Types::columns(count);
    let clones = Types { theirs: it.theirs.clone(), ours: it.ours.clone() };
    let with = |name: fn(usize, usize) -> String, dtype: fn(usize, usize) -> &'static str| {
        Types::read(&struct_of((0..count).map(|at| (name(at, count), dtype(at, count).to_owned()))))
    };
    let name: fn(usize, usize) -> String = |at, _| fixture::column(at);
    let type_differs = with(name, |at, count| if at + 1 == count { "u8" } else { leaf(at) });
    let name_differs =
        with(|at, _| if at == 0 { "another_".to_owned() } else { fixture::column(at) }, |at, _| leaf(at));
    let others = with(name, |at, _| ["i32?", "utf8", "bool?", "f64"][at % 4]);
    let equal = |meter: &mut Meter, what, other: &Types, turned| {
        alike!(meter, what, count, i, (one, other) = (it.theirs(i), other.theirs(i + turned)),
            (it.ours(i), other.ours(i + turned)); usize::from(one == other));
    };
    equal(meter, "eq of equal", &it, 1);
    equal(meter, "eq of a clone", &clones, 0);
    equal(meter, "eq, the last type differs", &type_differs, 0);
    equal(meter, "eq, the first name differs", &name_differs, 0);
    alike!(meter, "hash", count, i, it = it.theirs(i), it.ours(i); hashed(it));
    alike!(meter, "eq_ignore_nullability", count, i, (one, other) = (it.theirs(i), others.theirs(i)),
        (it.ours(i), others.ours(i)); usize::from(one.eq_ignore_nullability(other)));
    let theirs = |i| merged(it.theirs(i), others.theirs(i)).map_or(7, used);
    let ours = |i| it.ours(i).merge_nullability(others.ours(i)).map_or(7, used);
    meter.case("merge nullabilities", count, each(theirs), each(ours));
    alike!(meter, "display", count, i, it = it.theirs(i), it.ours(i); it.to_string().len());
}

/// Small types are compared and hashed, and types are looked for in a set of Rust.
#[allow(clippy::mutable_key_type)]
pub fn of_kinds(meter: &mut Meter) {
    let (it, other) = (Types::read("i32"), Types::read("utf8"));
    alike!(meter, "eq, different kinds", "", i, (one, other) = (it.theirs(i), other.theirs(i)),
        (it.ours(i), other.ours(i)); usize::from(one == other));
    alike!(meter, "hash", "i32", i, it = it.theirs(i), it.ours(i); hashed(it));
    let types: Vec<Types> = (0..100).map(|at| Types::read(&format!("{{column_{at}=i32, b=utf8}}"))).collect();
    let theirs: HashSet<theirs::DType> = types.iter().map(|it| it.theirs[0].clone()).collect();
    let ours: HashSet<ours::DType> = types.iter().map(|it| it.ours[0].clone()).collect();
    alike!(meter, "HashSet of 100 types, contains", "", i, (set, it) = (&theirs, types[i % 100].theirs(1)),
        (&ours, types[i % 100].ours(1)); usize::from(set.contains(it)));
}
