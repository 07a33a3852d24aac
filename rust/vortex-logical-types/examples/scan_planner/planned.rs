// SPDX-License-Identifier: Apache-2.0
// SPDX-FileCopyrightText: Copyright the Vortex contributors

//! The plan of a scan as text.

use crate::scan_planner::errors::{FileConflict, PlanError};
use crate::scan_planner::files::HowToRead;
use crate::scan_planner::plan::{ScanPlan, plan_scan};
use std::error::Error;
use std::fmt::{self, Write as _};
use vortex_logical_types::{DType, FieldPath};

// What a text asks for.
#[derive(Default)]
struct Scan {
    files: Vec<DType>,
    select: Vec<FieldPath>,
    filter: Vec<FieldPath>,
}

/// Returns the plan of the scan for which a text asks. Each line of the text is a type of a file, such as
/// `file {id=u64, name=utf8}`, a selected path, such as `select name`, a path of the filter, such as `filter id`, or a
/// comment, which begins with `#`.
///
/// # Errors
///
/// A line isn't one of these, or memory runs out. If the scan can't be planned, then the returned text says why.
pub fn planned(text: &str) -> Result<String, Box<dyn Error>> {
    let scan = read(text)?;
    match plan_scan(&scan.files, &scan.select, &scan.filter) {
        Ok(plan) => Ok(written(&scan, &plan)?),
        Err(PlanError::NoFiles) => Ok("there is no file\n".to_owned()),
        Err(PlanError::NoCommonType(conflict)) => Ok(told(&conflict)),
        Err(PlanError::Missing(path)) => Ok(format!("no file has {}\n", path.to_source())),
        Err(PlanError::Library(error)) => Err(error.into()),
    }
}

fn read(text: &str) -> Result<Scan, Box<dyn Error>> {
    let mut scan = Scan::default();
    for line in text
        .lines()
        .filter(|line| !line.is_empty() && !line.starts_with('#'))
    {
        match line.split_once(' ') {
            Some(("file", text)) => scan.files.push(text.parse()?),
            Some(("select", text)) => scan.select.push(text.parse()?),
            Some(("filter", text)) => scan.filter.push(text.parse()?),
            _ => return Err(format!("expected file, select or filter, found {line:?}").into()),
        }
    }
    Ok(scan)
}

fn told(conflict: &FileConflict) -> String {
    let place = if conflict.path.is_root() {
        "the whole row".to_owned()
    } else {
        conflict.path.to_source()
    };
    format!(
        "file {} can't be read together with the files before it: {place} is {} in them and {} in it\n",
        conflict.file + 1,
        conflict.table,
        conflict.here
    )
}

fn written(scan: &Scan, plan: &ScanPlan<'_>) -> Result<String, fmt::Error> {
    let mut text = format!("table {}\n", plan.table);
    for (path, dtype) in scan.select.iter().zip(plan.types.iter()) {
        writeln!(text, "select {} = {dtype}", path.to_source())?;
    }
    for (position, file) in plan.files.iter().enumerate() {
        let how = match file.how {
            HowToRead::AsItIs => "as it is",
            HowToRead::Adapted => "adapted",
        };
        writeln!(text, "file {}, {how}: open {}", position + 1, file.columns)?;
        if let Some(read) = &file.read {
            writeln!(text, "    read {read}")?;
        }
        for path in &file.missing {
            writeln!(text, "    missing {}", path.to_source())?;
        }
    }
    Ok(text)
}
