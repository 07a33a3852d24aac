// SPDX-License-Identifier: Apache-2.0
// SPDX-FileCopyrightText: Copyright the Vortex contributors

//! Makes one table of three files whose columns differ. A column that has another name in one file is renamed, one that
//! has different types is left out, with the reason, and so is one that the readers of the table mustn't see.

use std::error::Error;
use vortex_logical_types::{DType, FieldPathSet, Widening};

const NAMES: [&str; 3] = ["2023.parquet", "2024.parquet", "2025.parquet"];
const TEXTS: [&str; 3] = [
    "{order_id=u64, customer={name=utf8, email=utf8}, total=f64}",
    "{id=u64, customer={name=utf8, email=utf8?, city=utf8}, total=f64, note=null}",
    "{id=u64, customer={name=utf8}, total=decimal(10,2), note=utf8}",
];

fn main() -> Result<(), Box<dyn Error>> {
    let mut files = Vec::new();
    for text in TEXTS {
        files.push(with_usual_names(&text.parse()?)?);
    }
    let table = merged(files)?;
    println!("{}", table.to_source());
    let hidden = FieldPathSet::parse(["customer.email"])?;
    let shown = table.without_paths(&hidden).ok_or("no column is left")?;
    println!("{}", shown.to_source());
    Ok(())
}

/// Returns the type of a file with the names that its columns have in the table.
fn with_usual_names(file: &DType) -> Result<DType, Box<dyn Error>> {
    let DType::Struct(fields, nullability) = file else {
        return Err("a file has columns".into());
    };
    let renamed = fields.with_fields_renamed([("order_id", "id")])?;
    Ok(DType::Struct(renamed, *nullability))
}

/// Returns the type as which all of these can be read, without the columns whose types differ.
fn merged(mut files: Vec<DType>) -> Result<DType, Box<dyn Error>> {
    loop {
        match DType::merge_all(&files, Widening::None) {
            Ok(table) => return table.ok_or_else(|| "there is no file".into()),
            Err(conflict) if conflict.path.is_root() => return Err(conflict.into()),
            Err(conflict) => {
                let (path, file) = (conflict.path.to_source(), NAMES[conflict.index]);
                let (found, before) = (conflict.right.to_source(), conflict.left.to_source());
                println!("left out: {path}, which is {found} in {file} and {before} before");
                let differs = FieldPathSet::from([conflict.path]);
                files = files
                    .iter()
                    .filter_map(|it| it.without_paths(&differs))
                    .collect();
            }
        }
    }
}
