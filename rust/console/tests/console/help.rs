// SPDX-License-Identifier: Apache-2.0
// SPDX-FileCopyrightText: Copyright the Vortex contributors

//! What `help` tells, of which `docs/CONSOLE.md` has the topics.

use crate::{answer, rows, run, text_of};
use std::collections::{BTreeMap, BTreeSet};

/// Returns the topics that `help` lists.
fn topics() -> Vec<String> {
    answer("help").lines().skip(1).map(|line| line.split(':').next().unwrap().to_owned()).collect()
}

/// Returns the commands that `help` lists by topic: of each its name with its arguments, and what it answers.
pub fn commands() -> BTreeMap<String, String> {
    let forms = ["arguments", "answers", "errors", "comments"];
    let mut commands = BTreeMap::new();
    for topic in topics().into_iter().filter(|topic| !forms.contains(&topic.as_str())) {
        for line in answer(&format!("help {topic}")).lines().filter_map(|line| line.strip_prefix("  ")) {
            let (usage, what) = line.split_once(": ").unwrap();
            let name = usage.split(' ').next().unwrap();
            let told = answer(&format!("help {name}"));
            assert!(!told.starts_with("refused"), "help {name}: {told}");
            // (a form of an argument has no example on a line of its own)
            if topic == "console" || told.contains(&format!("{usage}: {what}\nexample: ")) {
                commands.insert(usage.to_owned(), what.to_owned());
            }
        }
    }
    commands
}

#[test]
fn help_lists_the_topics_and_their_commands() {
    let topics = topics();
    assert_eq!(topics.len(), 20);
    for topic in &topics {
        assert!(answer(&format!("help {topic}")).starts_with(&format!("{topic}: ")), "{topic}");
    }
    // (no row has these three)
    let asked = rows::short().into_iter().filter(|row| !row.answer.starts_with("unreadable")).map(|row| row.line);
    let asked: BTreeSet<String> =
        asked.chain(["exit", "help", "quit"].map(str::to_owned)).map(|line| first_word(&line)).collect();
    let listed: BTreeSet<String> = commands().into_keys().map(|usage| first_word(&usage)).collect();
    assert_eq!(listed, asked);
}

fn first_word(line: &str) -> String {
    line.split_whitespace().next().unwrap_or_default().to_owned()
}

#[test]
fn help_tells_of_what_is_asked() {
    for (asked, told) in [
        ("Structs", "structs: "),
        ("path sets", "sets: "),
        ("UNIONS AND MAPS", "maps: "),
        ("forms", "arguments: "),
        ("T", "fixed_size_list(T)[COUNT]"),
        ("SESSION", "strict, unknown and plugins"),
        ("PATH", "STEP.STEP.."),
        ("16", "16: "),
        ("25", "the answer has the number"),
        ("refused", "refused N: TEXT"),
        ("condition", "condition: TEXT"),
        ("unreadable", "unreadable at N"),
        ("-", "an empty list"),
        ("answers", "end N NAME.."),
        ("comments", "#: begins a comment"),
        ("find", "example: find "),
        ("names", "names S: "),
    ] {
        let (status, shown, _) = run(&["-c", &format!("help {asked}")], b"");
        assert!(status == 0 && shown.contains(told), "help {asked}: {shown}");
    }
}

#[test]
fn help_has_examples_of_errors_sets_and_sessions() {
    let shown = answer("help errors");
    let errors: Vec<_> = shown.lines().filter_map(|line| line.trim_start().split_once(": ")).collect();
    assert_eq!(errors.len(), 38);
    for (number, example) in
        errors.iter().filter_map(|(number, rest)| Some((number, rest.split_once("; for example ")?.1)))
    {
        assert!(answer(example).starts_with(&format!("refused {number}: ")), "{example}");
    }
    for (command, changes) in [("set", 12), ("session", 4)] {
        let shown = answer(&format!("help {command}"));
        let arguments = shown.split(": ").next().unwrap().strip_prefix(&format!("{command} NAME ")).unwrap();
        let words: Vec<_> = arguments.split('|').map(|change| change.split(' ').next().unwrap()).collect();
        assert_eq!(words.len(), changes);
        for word in words {
            assert!(
                shown.contains(&format!("\nexample: {command} s {word}")),
                "help {command} has no example of {word}"
            );
        }
    }
}

#[test]
fn help_changes_no_set_and_no_session() {
    let lines =
        "set s new\nsession s new\nhelp set\nhelp session\nhelp sets\nset s iter\nregistry @s x.tag\nsets\nsessions\n";
    assert!(run(&[], lines.as_bytes()).1.ends_with("\n-\nfalse\ns\ns\n"));
}

#[test]
fn each_heading_of_the_page_is_a_topic() {
    let page = text_of("docs/CONSOLE.md");
    let (_, listed) = page.split_once("\n## Commands\n").unwrap();
    for heading in listed.lines().filter_map(|line| line.strip_prefix("### ")) {
        assert_eq!(run(&["-c", &format!("help {heading}")], b"").0, 0, "{heading}");
    }
}

#[test]
fn each_example_is_a_row_of_the_transcript() {
    let asked: Vec<_> = rows::short().into_iter().map(|row| row.line).collect();
    for usage in commands().keys() {
        let shown = answer(&format!("help {}", usage.split(' ').next().unwrap()));
        for example in shown.lines().filter_map(|line| line.strip_prefix("example: ")) {
            let is_of_state = example.starts_with("set") || example.starts_with("session") || example.contains('@');
            assert!(is_of_state || asked.iter().any(|line| line == example), "{example} is no row");
        }
    }
}
