// SPDX-License-Identifier: Apache-2.0
// SPDX-FileCopyrightText: Copyright the Vortex contributors

//! Where a text can't be read, and what was expected there, by a second form of the grammars of types and paths.
//!
//! A grammar here is a list of rules, and a state is what may still follow. The test goes to every state that is reached
//! without many types inside one another, and puts each token and the end of the text there. If no text of the grammar goes
//! on with the token, then the position of the error has to be where the token begins, and what was expected has to be
//! something with which some text goes on.

use std::collections::{BTreeSet, VecDeque};
use std::str::FromStr;
use vortex_logical_types::{DType, Error, FieldPath};

/// What may come next in a text.
#[derive(Clone, Copy, Debug, PartialEq, Eq, PartialOrd, Ord)]
enum Symbol {
    /// This text.
    Text(&'static str),
    /// A word that no bracket follows.
    Word(&'static str),
    /// A name.
    Name,
    /// The id of an extension.
    Id,
    /// A number from the first one to the second.
    Number(i64, i64),
    /// A blank or a comment.
    Blank,
    /// The end of the text, where a comment may stand.
    End,
    /// A part for which there are rules.
    Rule(Part),
}

/// A part of a text for which there are rules.
#[derive(Clone, Copy, Debug, PartialEq, Eq, PartialOrd, Ord)]
enum Part {
    Gap,
    Mark,
    Type,
    Inner,
    Comma,
    Boolean,
    Bytes,
    Fields,
    MoreFields,
    Variants,
    Variant,
    MoreVariants,
    WholeType,
    Steps,
    Dollar,
    BehindStep,
    WholePath,
}

use Symbol::{Blank, End, Id, Name, Number, Rule, Text, Word};

const GAP: Symbol = Rule(Part::Gap);
const MARK: Symbol = Rule(Part::Mark);
const TYPE: Symbol = Rule(Part::Type);
const INNER: Symbol = Rule(Part::Inner);
const COMMA: Symbol = Rule(Part::Comma);
const SIZE: Symbol = Number(0, 4_294_967_295);
const BYTE: Symbol = Number(0, 255);
const SCALE: Symbol = Number(-128, 127);

/// The ways in which a part of a text may be written. (A union in which only some variants have tags is refused behind its
/// parenthesis, so here each variant may have one.)
#[rustfmt::skip]
fn ways(part: Part) -> &'static [&'static [Symbol]] {
    match part {
        Part::Gap => &[&[], &[Blank, GAP]],
        Part::Mark => &[&[], &[Text("?")]],
        Part::Inner => &[&[Text("("), GAP, TYPE, GAP, Text(")")]],
        Part::Comma => &[&[GAP, Text(","), GAP]],
        Part::Type => &[
            &[Word("null")],
            &[Word("i32"), MARK],
            &[Word("list"), INNER, MARK],
            &[Word("fixed_size_list"), INNER, Text("["), GAP, SIZE, GAP, Text("]"), MARK],
            &[Word("decimal"), Text("("), GAP, BYTE, COMMA, SCALE, GAP, Text(")"), MARK],
            &[Word("map"), Text("("), GAP, TYPE, COMMA, TYPE, COMMA, Text("keys_sorted"), GAP, Text("="), GAP,
                Rule(Part::Boolean), GAP, Text(")"), MARK],
            &[Word("union"), Text("("), GAP, Rule(Part::Variants), Text(")"), MARK],
            &[Text("{"), GAP, Rule(Part::Fields), Text("}"), MARK],
            &[Id, Text("["), GAP, Text("0x"), Rule(Part::Bytes), GAP, Text("]"), INNER],
        ],
        Part::Boolean => &[&[Text("true")], &[Text("false")]],
        Part::Bytes => &[&[], &[Text("0f"), Rule(Part::Bytes)]],
        Part::Fields => &[&[], &[Name, GAP, Text("="), GAP, TYPE, GAP, Rule(Part::MoreFields)]],
        Part::MoreFields => &[&[], &[Text(","), GAP, Name, GAP, Text("="), GAP, TYPE, GAP, Rule(Part::MoreFields)]],
        Part::Variants => &[&[], &[Rule(Part::Variant), GAP, Rule(Part::MoreVariants)]],
        Part::MoreVariants => &[&[], &[Text(","), GAP, Rule(Part::Variant), GAP, Rule(Part::MoreVariants)]],
        Part::Variant => &[&[Name, GAP, Text("="), GAP, TYPE], &[Name, Text("@"), BYTE, GAP, Text("="), GAP, TYPE]],
        Part::WholeType => &[&[GAP, TYPE, GAP, End]],
        Part::Steps => &[&[Rule(Part::Dollar), Name, Rule(Part::BehindStep)], &[Text("[]"), Rule(Part::BehindStep)]],
        Part::Dollar => &[&[], &[Text("$")]],
        Part::BehindStep => &[&[Text("."), Rule(Part::Steps)], &[GAP, End]],
        Part::WholePath => &[&[GAP, Text("."), GAP, End], &[GAP, Rule(Part::Steps)]],
    }
}

/// What may still follow in each of the ways in which a text may be meant, with the next symbol last.
type State = BTreeSet<Vec<Symbol>>;

/// The same with a symbol in front that is no rule.
fn opened(mut left: Vec<Vec<Symbol>>) -> State {
    let mut opened = State::new();
    while let Some(sequence) = left.pop() {
        if let Some((Rule(part), rest)) = sequence.split_last() {
            let ways = ways(*part).iter();
            left.extend(ways.map(|way| rest.iter().chain(way.iter().rev()).copied().collect()));
        } else {
            opened.insert(sequence);
        }
    }
    opened
}

const QUOTED: &str = r#""b \x0f""#;
const COMMENT: &str = "#c\n";
const LAST_COMMENT: &str = "#c";

fn is_word_byte(byte: u8) -> bool {
    byte.is_ascii_alphanumeric() || byte == b'_'
}

/// Returns whether the symbol may be this token, with this token behind it.
fn fits(symbol: Symbol, token: &str, next: &str) -> bool {
    let is_word = !token.is_empty() && token.bytes().all(is_word_byte);
    match symbol {
        Text(text) => token == text,
        Word(text) => token == text && next != "[",
        Name => is_word || token == QUOTED,
        Id => (is_word || token == "a.b") && next == "[" || token == QUOTED,
        Number(least, most) => token.parse().is_ok_and(|it: i64| it >= least && it <= most),
        Blank => token == " " || token == COMMENT,
        End => token.is_empty() || token == LAST_COMMENT,
        Rule(_) => false,
    }
}

/// The state behind a token.
fn after(state: &State, token: &str, next: &str) -> State {
    let split = state.iter().filter_map(|sequence| sequence.split_last());
    let fitting = split.filter(|(symbol, _)| fits(**symbol, token, next));
    opened(fitting.map(|(_, rest)| rest.to_vec()).collect())
}

/// Returns whether some text goes on with what an error says was expected.
fn is_expected(message: &str, state: &State) -> bool {
    let has = |symbol| state.iter().any(|it| it.last() == Some(&symbol));
    let phrase = message.strip_prefix("expected ").unwrap_or_default();
    let phrase = [", found", ", not"]
        .iter()
        .fold(phrase, |it, end| it.split(end).next().unwrap_or(it));
    match phrase {
        "a type" => has(Word("null")) && has(Text("{")) && has(Id),
        "a precision from 0 to 255" | "a tag from 0 to 255" => has(BYTE),
        "a scale from -128 to 127" => has(SCALE),
        "a size from 0 to 4294967295" => has(SIZE),
        "`keys_sorted`" => has(Text("keys_sorted")),
        "`, keys_sorted=true` or `, keys_sorted=false`" => has(Text(",")),
        "true or false" => has(Text("true")) && has(Text("false")),
        "0x and the metadata of an extension" | "0x and two hexadecimal digits for each byte" => {
            has(Text("0x"))
        }
        "two hexadecimal digits" => has(Text("0f")),
        "a name" => has(Name),
        "an id" => has(Id),
        "the end of the name" => has(Text("=")) || has(Text(".")),
        "the end of the text" => has(End),
        "no ? after null, which is nullable already" => !state.is_empty(),
        // `a`, or `a` or `b`
        signs => signs.split(" or ").all(|sign| {
            state
                .iter()
                .any(|it| matches!(it.last(), Some(Text(text)) if format!("`{text}`") == sign))
        }),
    }
}

/// Returns whether two tokens stay two tokens if they are side by side.
fn are_apart(token: &str, next: &str) -> bool {
    let in_word = |byte: u8| is_word_byte(byte) || byte == b'-' || byte == b'.' || byte >= 0x80;
    let ends_in_word = token.bytes().last().is_some_and(in_word) && token != ".";
    let begins_word = next.bytes().next().is_some_and(in_word) && next != ".";
    !(ends_in_word && begins_word) || token == "0x" && ["0f", "0", "x"].contains(&next)
}

/// Looks at the errors of all texts that are the beginning of a text of this part with one more token. No more symbols than
/// these may be left to follow the beginning. Returns the number of errors.
fn errors<T: FromStr<Err = Error>>(part: Part, tokens: &[&'static str], longest: usize) -> usize {
    let first = opened(vec![vec![Rule(part)]]);
    let mut seen = BTreeSet::new();
    let mut left: VecDeque<_> = tokens
        .iter()
        .map(|it| (first.clone(), String::new(), *it))
        .collect();
    let mut errors = 0;
    while let Some((state, text, token)) = left.pop_front() {
        let longer = format!("{text}{token}");
        let is_last = |token: &str| token.is_empty() || token == LAST_COMMENT;
        let may_follow =
            |next: &&str| are_apart(token, next) && (next.is_empty() || !is_last(token));
        // (A name without quotes ends in front of a dot.)
        if token == "a.b" && state.iter().any(|it| it.last() == Some(&Name)) {
            continue;
        }
        for next in tokens.iter().copied().filter(may_follow) {
            let behind = after(&state, token, next);
            if behind.is_empty() {
                errors += error::<T>(&state, &text, &format!("{longer}{next}"));
            } else if is_last(next) {
                if after(&behind, next, "").is_empty() {
                    errors += error::<T>(&behind, &longer, &format!("{longer}{next}"));
                }
            } else if behind.iter().all(|it| it.len() <= longest)
                && seen.insert((behind.clone(), next))
            {
                left.push_back((behind, longer.clone(), next));
            }
        }
    }
    errors
}

/// Looks at the error of a text that begins so and can't be read on from there, and returns 1. If the library refuses a type
/// in front of that place, then it returns 0.
fn error<T: FromStr<Err = Error>>(state: &State, beginning: &str, text: &str) -> usize {
    match text.parse::<T>().err() {
        Some(Error::Unreadable { position, message }) => {
            assert_eq!(position, beginning.len() + 1, "{text:?}: {message}");
            assert!(is_expected(&message, state), "{text:?}: {message}");
            1
        }
        Some(Error::Vortex(_)) => 0,
        other => panic!("{text:?}: {other:?}"),
    }
}

#[test]
fn types_are_unreadable_where_no_text_goes_on() {
    #[rustfmt::skip]
    let tokens = [
        "", " ", COMMENT, LAST_COMMENT, "null", "i32", "list", "fixed_size_list", "decimal", "map", "union", "x", "a.b",
        QUOTED, "keys_sorted", "true", "0", "5", "-5", "300", "5000000000", "0x", "0f", "(", ")", "{", "}", "[", "]", "=",
        ",", "?", "@", "+", ":", "\u{201c}",
    ];
    assert!(errors::<DType>(Part::WholeType, &tokens, 18) > 15_000);
}

#[test]
fn paths_are_unreadable_where_no_text_goes_on() {
    let tokens = [
        "",
        " ",
        COMMENT,
        LAST_COMMENT,
        "a",
        "0",
        QUOTED,
        "[]",
        "[",
        ".",
        "$",
        "-",
        "+",
        "(",
        "\u{201c}",
    ];
    assert!(errors::<FieldPath>(Part::WholePath, &tokens, 18) > 600);
}
