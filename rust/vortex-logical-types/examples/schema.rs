// SPDX-License-Identifier: Apache-2.0
// SPDX-FileCopyrightText: Copyright the Vortex contributors

//! Looks up the column that a path leads to, and prints the part of a schema that two paths need.

use vortex_logical_types::{DType, Error, FieldPath, FieldPathSet};

fn main() -> Result<(), Error> {
    let orders: DType =
        "{id=u64, customer={city=utf8?}, lines=list({sku=utf8, price=decimal(10,2)?})}".parse()?;
    let city: FieldPath = "customer.city".parse()?;
    if let Some(found) = city.resolve(&orders) {
        println!("{} = {found}", city.to_source());
    }
    let wanted = FieldPathSet::from([city, "lines.[].sku".parse()?]);
    if let Some(part) = orders.project_paths(&wanted) {
        println!("{part}");
    }
    Ok(())
}
