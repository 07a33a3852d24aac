// SPDX-License-Identifier: Apache-2.0
// SPDX-FileCopyrightText: Copyright the Vortex contributors

//! The rows of the stored transcript, `tests/transcript.txt`, and of the one with long lines, `tests/long_lines.txt`: each
//! line behind `> ` has its answer below it. All other lines are comments, headings, or blank.
//!
//! In the second file a text between « and » stands for a longer one:
//!
//! - `«TEXT*N»` is TEXT, N times.
//! - `«TEXT|SEPARATOR|A..B»` is TEXT for each number from A to B, with SEPARATOR between. `A..B by S` goes in steps of S. In
//!   TEXT, `#` is the number, `#+1` one more, `255-#` what is left to 255, and `7*#` seven times the number. `#:05` has five
//!   digits, and `#:02x` two hexadecimal ones, of the number modulo 256.
//! - `«NAME»` is one of the texts of [`shorthand`].
//!
//! For example, `nfields {«#=u8|, |0..2»}` is the line `nfields {0=u8, 1=u8, 2=u8}`.

use std::fs;
use std::path::Path;

/// A line with its number in the file, and the answer that is expected.
pub struct Row {
    pub number: usize,
    pub line: String,
    pub answer: String,
}

/// A line with more characters, or with such an answer, stands in the file of long lines.
#[allow(dead_code)]
pub const LONG: usize = 500;

/// Returns the rows of the transcript.
pub fn short() -> Vec<Row> {
    rows_of(&text_of("transcript.txt"))
}

/// Returns the rows with long lines.
pub fn long() -> Vec<Row> {
    rows_of(&expanded(&text_of("long_lines.txt")))
}

fn text_of(file: &str) -> String {
    let path = Path::new(env!("CARGO_MANIFEST_DIR")).join("tests").join(file);
    fs::read_to_string(path).unwrap_or_else(|error| panic!("{file}: {error}"))
}

fn rows_of(transcript: &str) -> Vec<Row> {
    let mut lines = (1..).zip(transcript.split('\n'));
    let mut rows = Vec::new();
    while let Some((number, line)) = lines.next() {
        if let Some(line) = line.strip_prefix("> ") {
            let answer = lines.next().expect("an answer below the line").1;
            rows.push(Row { number, line: line.to_owned(), answer: answer.to_owned() });
        }
    }
    rows
}

/// Returns a text with the longer ones in place of the texts between « and ».
pub fn expanded(text: &str) -> String {
    let (mut full, mut rest) = (String::new(), text);
    while let Some((before, behind)) = rest.split_once('«') {
        let (piece, behind) = behind.split_once('»').expect("» behind «");
        full += before;
        full += &longer(piece);
        rest = behind;
    }
    full + rest
}

/// Returns what a text between « and » stands for.
fn longer(piece: &str) -> String {
    if let Some(text) = shorthand(piece) {
        return text;
    }
    if let Some((text, count)) = piece.rsplit_once('*') {
        if let Ok(count) = count.parse() {
            return text.repeat(count);
        }
    }
    let mut parts = piece.split('|');
    let [text, separator, numbers] = [(); 3].map(|()| parts.next().unwrap_or_else(|| panic!("«{piece}»")));
    let text = shorthand(text).unwrap_or_else(|| text.to_owned());
    let (range, step) = numbers.split_once(" by ").unwrap_or((numbers, "1"));
    let (first, last) = range.split_once("..").expect("A..B");
    let [first, last, step] = [first, last, step].map(|it| it.parse::<i64>().expect("a number"));
    let count = (last - first).abs() / step + 1;
    let numbers = (0..count).map(|at| first + at * step * (last - first).signum());
    numbers.map(|number| with_number(&text, number)).collect::<Vec<_>>().join(separator)
}

/// Returns a text with this number in place of its marks.
fn with_number(text: &str, number: i64) -> String {
    let (mut full, mut rest) = (String::new(), text);
    while let Some((before, behind)) = rest.split_once('#') {
        let (before, number) = times_or_minus(before, number);
        let (number, behind) = plus_or_minus(number, behind);
        full += before;
        rest = match behind.strip_prefix(':').map(digits) {
            Some((width, behind)) if !width.is_empty() => {
                let width = width.parse().expect("a width");
                let hexadecimal = behind.strip_prefix('x');
                let written = match hexadecimal {
                    Some(_) => format!("{:0width$x}", number.rem_euclid(256)),
                    None => format!("{number:0width$}"),
                };
                full += &written;
                hexadecimal.unwrap_or(behind)
            }
            _ => {
                full += &number.to_string();
                behind
            }
        };
    }
    full + rest
}

/// Takes a `7*` or a `255-` from the end of a text, and returns the rest and what it makes of the number.
fn times_or_minus(text: &str, number: i64) -> (&str, i64) {
    let Some(sign) = text.chars().next_back().filter(|sign| "*-".contains(*sign)) else {
        return (text, number);
    };
    let before = &text[..text.len() - 1];
    let rest = before.trim_end_matches(|it: char| it.is_ascii_digit());
    match before[rest.len()..].parse::<i64>() {
        Ok(first) => (rest, if sign == '*' { first * number } else { first - number }),
        Err(_) => (text, number),
    }
}

/// Takes a `+1` or a `-1` from the beginning of a text, and returns what it makes of the number, and the rest.
fn plus_or_minus(number: i64, text: &str) -> (i64, &str) {
    let (more, rest) = digits(text.get(1..).unwrap_or_default());
    match (text.chars().next(), more.parse::<i64>()) {
        (Some('+'), Ok(more)) => (number + more, rest),
        (Some('-'), Ok(less)) => (number - less, rest),
        _ => (number, text),
    }
}

/// Returns the digits at the beginning of a text, and the rest.
fn digits(text: &str) -> (&str, &str) {
    text.split_at(text.len() - text.trim_start_matches(|it: char| it.is_ascii_digit()).len())
}

/// Names of every sort, as a line has them: that differ in one byte, with characters that need quotes or escapes, beyond
/// ASCII, like a type.
#[rustfmt::skip]
const NAMES: [&str; 47] = [
    r#""""#, "a", "b", "A", "_", "0", "abcdefg", "abcdefgh", "abcdefgi", "bbcdefgh", "abcdefghi", "1_of_the_columns",
    "2_of_the_columns", "the_columns_of_1", "the_columns_of_2", r#""a b""#, r#"" a""#, r#""a.b""#, r#""a,b""#, r#""a=b""#,
    r#""[]""#, r#""$a""#, r#""-""#, r##""#a""##, r#""a\\b""#, r#""\\""#, r#""a\"b""#, r#""\"""#, r#""a\tb""#, r#""a\nb""#,
    r#""a\rb""#, r#""\x01""#, r#""\x1f""#, r#""\x7f""#, r#""a\x00b""#, "é", "naïve", "名前", "日本", "😀", "a\u{301}",
    "\"\u{a0}\"", "\"\u{2028}\"", "null", r#""u8?""#, r#""$__vortex_validity""#, r#""x.tag""#,
];

/// Returns the text of a name, if there is one of this name.
fn shorthand(name: &str) -> Option<String> {
    let names = NAMES;
    let paths = || names.iter().map(|it| format!("{it}.x")).chain(names.iter().step_by(2).map(|it| (*it).to_owned()));
    let covered = || {
        let is_covered =
            |path: &String| path.strip_suffix(".x").is_none_or(|it| !names.iter().step_by(2).any(|name| *name == it));
        paths().filter(is_covered)
    };
    let in_order = |mut paths: Vec<String>| {
        paths.sort_unstable();
        paths.join(" ")
    };
    let texts = || names.iter().map(|it| it.strip_prefix('"').and_then(|it| it.strip_suffix('"')).unwrap_or(it));
    let joined = |fields: &mut dyn Iterator<Item = String>, separator: &str| fields.collect::<Vec<_>>().join(separator);
    Some(match name {
        "names" => names.join(","),
        "fields of all names" => joined(&mut names.iter().map(|it| format!("{it}=u8")), ", "),
        "structs of all names" => joined(&mut names.iter().map(|it| format!("{it}={{{it}=u8, x=bool}}")), ", "),
        "paths of all names" => joined(&mut paths(), " "),
        "paths of all names in order" => in_order(paths().collect()),
        "cover of all names" => in_order(covered().collect()),
        "fields of all names, as texts" => joined(&mut texts().map(|it| format!("{it}=u8")), ", "),
        "fields of all names, a line each" => joined(&mut texts().map(|it| format!("\\n  {it}=u8")), ","),
        "types in turn" => {
            "#=u8, #+1=u16, #+2=u32, #+3=u64, #+4=i8, #+5=i16, #+6=i32, #+7=i64, #+8=f16, #+9=f32, #+10=f64".to_owned()
        }
        _ => return None,
    })
}
