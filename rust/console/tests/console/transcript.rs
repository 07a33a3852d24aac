// SPDX-License-Identifier: Apache-2.0
// SPDX-FileCopyrightText: Copyright the Vortex contributors

//! The stored transcripts: each line behind `> ` is answered by the line below it.

use crate::rows::{self, LONG, Row, expanded};
use crate::run;
use std::fmt::Write;

/// Answers all rows in one run of the program, and shows those that are answered in another way.
fn check(rows: &[Row]) {
    let asked = rows.iter().fold(String::new(), |asked, row| asked + &row.line + "\n");
    let (status, shown, _) = run(&[], asked.as_bytes());
    assert_eq!(status, 1, "some lines of the transcript can't be read");
    let found: Vec<&str> = shown.lines().collect();
    let mut wrong = String::new();
    for (Row { number, line, answer }, found) in rows.iter().zip(&found).filter(|(row, found)| row.answer != **found) {
        writeln!(wrong, "\nline {number}: {line:.300}\nexpected: {answer:.300}\nfound:    {found:.300}").unwrap();
    }
    assert!(wrong.is_empty(), "{wrong}");
    assert_eq!(found.len(), rows.len());
}

#[test]
fn answers_each_row_of_the_transcript() {
    let rows = rows::short();
    assert!(rows.len() >= 4479, "{} rows", rows.len());
    check(&rows);
}

#[test]
fn answers_the_long_lines() {
    let rows = rows::long();
    assert!(rows.len() >= 248, "{} rows", rows.len());
    check(&rows);
}

#[test]
fn long_lines_stand_apart() {
    for row in rows::short() {
        let longest = row.line.chars().count().max(row.answer.chars().count());
        assert!(longest <= LONG, "line {} is for long_lines.txt: {:.80}", row.number, row.line);
    }
}

#[test]
fn long_lines_are_written_in_full() {
    for (text, full) in [
        ("> nfields {«#=u8|, |0..2»}", "> nfields {0=u8, 1=u8, 2=u8}"),
        ("«list(*2»u8«)*2»", "list(list(u8))"),
        ("«#.x #-1.y| |4..2 by 2» 0", "4.x 3.y 2.x 1.y 0"),
        ("«#@255-#=u8|,|254..255»", "254@1=u8,255@0=u8"),
        ("«a#:03| |9..11»", "a009 a010 a011"),
        ("0x«7*#:02x||35..37»", "0xf5fc03"),
    ] {
        assert_eq!(expanded(text), full);
    }
}
