// SPDX-License-Identifier: Apache-2.0
// SPDX-FileCopyrightText: Copyright the Vortex contributors

//! The stored transcripts, with each allocation of each line refused in turn, alone and with all after it. The answer is then
//! that memory has run out, and the sets and the sessions are as they were: but for `set NAME extend`, after which the first
//! few of its paths may be in the set. With enough memory the same line has its stored answer. At the end nothing is left.

use super::refusing::{in_use, refused, refused_from};
use super::rows::{self, Row};
use crate::argument::Argument;
use crate::console::{Console, Outcome};
use crate::error::Error;
use crate::line::Line;
use vortex_logical_types::{FieldName, FieldPath, FieldPathSet};

const REFUSED: &str = "refused 0: out of memory";

/// The text of what a line comes to.
fn text_of(outcome: Result<Outcome, Error>) -> String {
    match outcome {
        Ok(Outcome::Answer(answer)) => answer.into(),
        Ok(Outcome::Nothing | Outcome::End) => String::new(),
        Err(error) => error.to_string(),
    }
}

/// What stays from line to line: the sets, and of each session the ids of its plugins and whether it keeps unknown ids.
#[derive(Debug, PartialEq)]
struct State {
    sets: Vec<(FieldName, FieldPathSet)>,
    sessions: Vec<(FieldName, String, bool)>,
}

fn state_of(console: &Console) -> State {
    let sets = console.sets.names().map(|name| (name.clone(), console.sets.get(name).unwrap().clone()));
    let sessions = console.sessions.names().map(|name| {
        let session = console.sessions.get(name).unwrap();
        (name.clone(), format!("{:?}", session.registered()), session.allows_unknown())
    });
    State { sets: sets.collect(), sessions: sessions.collect() }
}

/// Returns the states that a line may leave if memory runs out: the one before it and, of an `extend` of a set that is
/// there, those with the first few of its paths.
fn states_after(line: &str, before: &State) -> Vec<State> {
    let copy = || State { sets: before.sets.clone(), sessions: before.sessions.clone() };
    let mut states = vec![copy()];
    let Some((name, paths)) = line.strip_prefix("set ").and_then(|line| line.split_once(" extend ")) else {
        return states;
    };
    let Some(place) = before.sets.iter().position(|(it, _)| it.as_str() == name) else {
        return states;
    };
    let mut after = copy();
    for path in Vec::<FieldPath>::read(&mut Line::new(paths)).unwrap_or_default() {
        after.sets[place].1.insert(path);
        states.push(State { sets: after.sets.clone(), sessions: after.sessions.clone() });
    }
    states
}

/// Answers a line with each of its allocations refused in turn, alone and with all after it, and then with enough memory.
/// Of the allocations above the number `all` a sample is refused. Returns how many were.
fn check(console: &mut Console, row: &Row, all: usize) -> usize {
    let before = state_of(console);
    let allowed = states_after(&row.line, &before);
    let (mut count, mut number) = (0, 0);
    loop {
        for is_onward in [false, true] {
            let answer = || console.answer(row.line.as_bytes());
            let (outcome, is_refused) = if is_onward { refused_from(number, answer) } else { refused(number, answer) };
            if !is_refused {
                assert_eq!(text_of(outcome), row.answer, "line {}: {:.300}", row.number, row.line);
                return count;
            }
            assert_eq!(text_of(outcome), REFUSED, "allocation {number} of {:.300}", row.line);
            let after = state_of(console);
            assert!(allowed.contains(&after), "allocation {number} of {:.300}: {after:?}", row.line);
            console.sets.values = before.sets.clone().into();
            count += 1;
        }
        number += 1 + number / all;
    }
}

fn check_all(rows: &[Row], all: usize) -> usize {
    let before = in_use();
    let mut console = Console::new();
    let count = rows.iter().map(|row| check(&mut console, row, all)).sum();
    drop(console);
    assert_eq!(in_use(), before);
    count
}

#[test]
fn each_row_is_answered_or_memory_has_run_out() {
    let count = check_all(&rows::short(), usize::MAX);
    println!("{count} allocations were refused");
    assert!(count > 50_000, "{count} allocations");
}

#[test]
fn each_long_row_is_answered_or_memory_has_run_out() {
    let count = check_all(&rows::long(), 20);
    println!("{count} allocations were refused");
    assert!(count > 5_000, "{count} allocations");
}
