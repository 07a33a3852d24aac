// SPDX-License-Identifier: Apache-2.0
// SPDX-FileCopyrightText: Copyright the Vortex contributors

//! The texts, numbers and truth values of protobuf's text format.

use crate::error::{Error, Result};
use crate::line::{Line, is_bare};
use vortex_logical_types::fallible::{String as Text, Vec as List};
use vortex_logical_types::{FieldName, format_in};

const AN_ESCAPE: &str = r#"an escape: \a, \b, \f, \n, \r, \t, \v, \\, \', \", \?, \ with up to three octal digits, \x with one or two hexadecimal digits, \u with four or \U with eight"#;

/// The marks of escapes that stand for one byte, and these bytes.
#[rustfmt::skip]
const MARKS: [(char, u8); 11] = [
    ('a', 0x07), ('b', 0x08), ('f', 0x0c), ('n', b'\n'), ('r', b'\r'), ('t', b'\t'), ('v', 0x0b), ('\\', b'\\'),
    ('\'', b'\''), ('"', b'"'), ('?', b'?'),
];

/// Reads texts in quotes, one or more with blanks between them, and returns the text of all.
pub fn read_text(line: &mut Line<'_>) -> Result<Text> {
    let position = line.position() + 1;
    Text::from_utf8(read_bytes(line)?).map_err(|_| Error::expected(position, "a text in UTF-8"))
}

/// Reads texts in quotes, one or more with blanks between them, and returns the bytes of all.
pub fn read_bytes(line: &mut Line<'_>) -> Result<List<u8>> {
    let mut bytes = List::new();
    let mut quote = read_quote(line).ok_or_else(|| line.expected_here("a text in quotes"))?;
    loop {
        match line.next() {
            Some('\\') => read_escape(line, &mut bytes)?,
            Some(next) if next == quote => match read_quote(line) {
                Some(next) => quote = next,
                None => return Ok(bytes),
            },
            Some(next) => push(&mut bytes, next)?,
            None => return Err(line.expected("a closing quote")),
        }
    }
}

/// Reads a quote with the blanks before it, if it is next.
fn read_quote(line: &mut Line<'_>) -> Option<char> {
    ['"', '\''].into_iter().find(|quote| line.accepts_after_blanks(quote.encode_utf8(&mut [0; 4])))
}

fn push(bytes: &mut List<u8>, character: char) -> Result<()> {
    Ok(bytes.extend_from_slice(character.encode_utf8(&mut [0; 4]).as_bytes())?)
}

/// Reads an escape behind its backslash, and adds what it stands for.
fn read_escape(line: &mut Line<'_>, bytes: &mut List<u8>) -> Result<()> {
    if line.accepts("u") {
        push(bytes, read_code_point(line, 4, "four hexadecimal digits")?)?;
    } else if line.accepts("U") {
        push(bytes, read_code_point(line, 8, "eight hexadecimal digits")?)?;
    } else if line.accepts("x") {
        bytes.push(read_code(line, 16, 2, "one or two hexadecimal digits")?)?;
    } else if matches!(line.peek(), Some('0'..='7')) {
        bytes.push(read_code(line, 8, 3, r"up to three octal digits, at most \377")?)?;
    } else if let Some((_, byte)) = MARKS.into_iter().find(|(mark, _)| line.peek() == Some(*mark)) {
        line.next();
        bytes.push(byte)?;
    } else {
        return Err(line.expected_here(AN_ESCAPE));
    }
    Ok(())
}

/// Reads up to this many digits of a radix, and returns them.
fn read_digits<'a>(line: &mut Line<'a>, radix: u32, most: usize) -> &'a str {
    let rest = line.rest();
    let count = rest.chars().take(most).take_while(|next| next.is_digit(radix)).count();
    line.accepts(&rest[..count]);
    &rest[..count]
}

fn read_code(line: &mut Line<'_>, radix: u32, most: usize, expected: &'static str) -> Result<u8> {
    let position = line.position();
    let byte = u8::from_str_radix(read_digits(line, radix, most), radix);
    byte.map_err(|_| Error::expected(position, expected))
}

fn read_code_point(line: &mut Line<'_>, count: usize, expected: &'static str) -> Result<char> {
    let position = line.position();
    let digits = read_digits(line, 16, count);
    let code = u32::from_str_radix(digits, 16).ok().filter(|_| digits.len() == count);
    let code = code.ok_or_else(|| Error::expected(position, expected))?;
    let what = "a code point from 0 to d7ff or from e000 to 10ffff";
    char::from_u32(code).ok_or_else(|| Error::expected(position, what))
}

/// Reads a number without a sign.
pub fn read_unsigned(line: &mut Line<'_>) -> Result<u32> {
    const EXPECTED: &str = "a number from 0 to 4294967295";
    let position = line.position();
    let word = line.number_word(EXPECTED)?;
    let number = whole_number(word).and_then(|number| u32::try_from(number).ok());
    number.ok_or_else(|| Error::expected_word(position, EXPECTED, word))
}

/// Reads a number. Blanks may stand between its minus and its digits.
pub fn read_signed(line: &mut Line<'_>, expected: &'static str) -> Result<i32> {
    let position = line.position();
    let (word, sign) = if line.accepts("-") {
        line.skip_blanks();
        let is_word = line.peek().is_some_and(is_bare);
        (if is_word { line.number_word(expected)? } else { "" }, "-")
    } else {
        (line.number_word(expected)?, "")
    };
    let number = whole_number(word).map(|number| if sign.is_empty() { number } else { -number });
    let number = number.and_then(|number| i32::try_from(number).ok());
    let Some(number) = number else {
        return Err(Error::expected_word(position, expected, &format_in!("{sign}{word}")?));
    };
    Ok(number)
}

/// Returns the number that a word without a sign is in decimal, in octal behind `0`, or in hexadecimal behind `0x`.
fn whole_number(word: &str) -> Option<i64> {
    let (digits, radix) = match word.strip_prefix("0x").or_else(|| word.strip_prefix("0X")) {
        Some(digits) => (digits, 16),
        None => (word, if word.len() > 1 && word.starts_with('0') { 8 } else { 10 }),
    };
    let is_signed = digits.starts_with(['-', '+']);
    if is_signed { None } else { i64::from_str_radix(digits, radix).ok() }
}

/// Reads a truth value.
pub fn read_bool(line: &mut Line<'_>) -> Result<bool> {
    const EXPECTED: &str = "true or false";
    let position = line.position();
    let word = line.word(EXPECTED)?;
    match (word, whole_number(word)) {
        ("true" | "True" | "t", _) | (_, Some(1)) => Ok(true),
        ("false" | "False" | "f", _) | (_, Some(0)) => Ok(false),
        _ => Err(Error::expected(position, EXPECTED)),
    }
}

/// Writes a text in quotes, with escapes as the library prints them in names.
pub fn write_quoted(text: &str, out: &mut Text) -> Result<()> {
    Ok(write!(out, "\"{}\"", FieldName::try_new(text)?)?)
}

/// Writes bytes in quotes, with escapes for all but visible characters of ASCII.
pub fn write_quoted_bytes(bytes: &[u8], out: &mut Text) -> Result<()> {
    out.push('"')?;
    for byte in bytes {
        match byte {
            b'\\' | b'"' => write!(out, "\\{}", char::from(*byte))?,
            b' '..=b'~' => out.push(char::from(*byte))?,
            _ => write!(out, "\\x{byte:02x}")?,
        }
    }
    Ok(out.push('"')?)
}
