// SPDX-License-Identifier: Apache-2.0
// SPDX-FileCopyrightText: Copyright the Vortex contributors

//! What the example `scan_planner` prints: plans, and why a scan isn't planned.

#[path = "../examples/scan_planner/planned.rs"]
mod planned;

use planned::planned;
use std::error::Error;

include!(concat!(env!("OUT_DIR"), "/planner.rs"));

const STAR: &str = include_str!("../examples/scan_planner/star.txt");
const EVENTS: &str = include_str!("../examples/scan_planner/events.txt");
const README: &str = include_str!("../../../README.md");

#[test]
fn order_lines_are_planned() -> Result<(), Box<dyn Error>> {
    let wanted = "\
table {line=u64, order={id=u64, day=i32, customer={id=u64, city=utf8?}}, product={sku=utf8, price=decimal(10,2)}, quantity=u32, discount=decimal(4,2)?}
select product.sku = utf8
select product.price = decimal(10,2)
select discount = decimal(4,2)?
file 1, as it is: open [\"order\", \"product\", \"discount\"]
    read {order={customer={city=utf8?}}, product={sku=utf8, price=decimal(10,2)}, discount=decimal(4,2)?}
file 2, adapted: open [\"order\", \"product\"]
    read {order={customer={city=utf8}}, product={sku=utf8, price=decimal(10,2)}}
    missing discount
";
    assert_eq!(planned(STAR)?, wanted);
    Ok(())
}

#[test]
fn events_are_planned() -> Result<(), Box<dyn Error>> {
    let wanted = "\
table {at=i64, kind=utf8, payload={user={id=u64, name=utf8?}, tags=list({key=utf8, value=utf8?})?}?, trace=binary?}
select payload.user.name = utf8?
select payload.tags.[].key = utf8
file 1, adapted: open [\"kind\"]
    read {kind=utf8}
    missing payload.user.name
    missing payload.tags.[].key
file 2, adapted: open [\"kind\", \"payload\"]
    read {kind=utf8, payload={user={name=utf8}, tags=list({key=utf8})}}
file 3, adapted: open [\"kind\"]
    read {kind=utf8}
    missing payload.user.name
    missing payload.tags.[].key
";
    assert_eq!(planned(EVENTS)?, wanted);
    // README shows it, four columns further in.
    let shown: String = wanted
        .lines()
        .flat_map(|line| ["    ", line, "\n"])
        .collect();
    assert!(README.contains(&shown));
    Ok(())
}

#[test]
fn refusals_are_told() -> Result<(), Box<dyn Error>> {
    assert_eq!(planned("select a\n")?, "there is no file\n");
    assert_eq!(
        planned("file {a=i32}\nselect a\nfilter b\n")?,
        "no file has b\n"
    );
    assert!(planned("open a\n").is_err());
    Ok(())
}

#[test]
fn the_first_file_that_does_not_fit_is_told() -> Result<(), Box<dyn Error>> {
    // The type in the table is that of all files before it, so the column that one of them lacks is nullable.
    assert_eq!(
        planned(
            "file {id=u64}\nfile {id=u64, note={by=utf8}}\nfile {note={by=binary}}\nfile {id=utf8}\n"
        )?,
        "file 3 can't be read together with the files before it: note.by is utf8 in them and binary in it\n"
    );
    assert_eq!(
        planned("file {a=i32}\nfile {b=list(u8)}\nfile {b=utf8}\n")?,
        "file 3 can't be read together with the files before it: b is list(u8)? in them and utf8 in it\n"
    );
    assert_eq!(
        planned("file {a=i32}\nfile {a=utf8}\n")?,
        "file 2 can't be read together with the files before it: a is i32 in them and utf8 in it\n"
    );
    assert_eq!(
        planned("file {a=i32}\nfile i32\n")?,
        "file 2 can't be read together with the files before it: the whole row is {a=i32} in them and i32 in it\n"
    );
    Ok(())
}
