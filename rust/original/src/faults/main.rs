// SPDX-License-Identifier: Apache-2.0
// SPDX-FileCopyrightText: Copyright the Vortex contributors

//! Asks the original what README asks this library: three questions that it answers wrongly.

use std::panic::{self, AssertUnwindSafe};

use original::reader::Reader;
use vortex_array::dtype::DType;
use vortex_array::dtype::proto::dtype as pb;
use vortex_array::dtype::proto::dtype::d_type::DtypeType;
use vortex_session::VortexSession;

fn dtype(text: &str) -> DType {
    Reader::new(text).whole().unwrap_or_else(|error| panic!("{text}: {}", error.0))
}

/// What a call of the original returns, which may be an error or a panic.
fn told<T: std::fmt::Debug, E: std::fmt::Display>(call: impl FnOnce() -> Result<T, E>) -> String {
    match panic::catch_unwind(AssertUnwindSafe(call)) {
        Ok(Ok(value)) => format!("{value:?}"),
        Ok(Err(error)) => format!("refused: {error}"),
        Err(_) => "the original panicked".to_owned(),
    }
}

fn main() {
    panic::set_hook(Box::new(|_| {}));
    let (list, other) = (dtype("list(i32?)"), dtype("list(i32)"));
    println!("subset: {}", list.eq_with_nullability_subset(&other));
    let wide = dtype("fixed_size_list(fixed_size_list(u64)[4294967295])[4294967295]");
    println!("element_size: {}", told(|| Ok::<_, String>(wide.element_size())));
    let column = pb::DType { dtype_type: Some(DtypeType::Primitive(pb::Primitive { r#type: 0, nullable: false })) };
    let names = vec!["a".to_owned(), "b".to_owned()];
    let message = pb::Struct { names, dtypes: vec![column], nullable: false };
    let message = pb::DType { dtype_type: Some(DtypeType::Struct(message)) };
    println!("read: {}", told(|| DType::from_proto(&message, &VortexSession::empty())));
}
