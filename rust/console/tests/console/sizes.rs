// SPDX-License-Identifier: Apache-2.0
// SPDX-FileCopyrightText: Copyright the Vortex contributors

//! Lines in every size up to 64. A contract lets a call fail with `OutOfMemory` for any input, and it says what is printed
//! only if `fmt` returns `Ok`. So a body that fails for one size is proved. If that is one of the sizes here, the answer
//! shows it.
//!
//! First come lines that print: structs, unions, paths and lists of names of so many parts, names so long, types, maps and
//! extensions nested so deep, every decimal, and every type without parts. Then come lines of every command, with arguments
//! that have so many parts, that are nested so deep, or whose names are so long. No line may be refused for lack of memory,
//! or be unreadable.

use crate::help::commands;
use crate::run;
use std::collections::BTreeMap;

const SIZES: std::ops::Range<usize> = 0..65;
const INTEGERS: [&str; 8] = ["u8", "u16", "u32", "u64", "i8", "i16", "i32", "i64"];
const OTHERS: [&str; 7] = ["bool", "utf8", "binary", "variant", "f16", "f32", "f64"];
/// The native types of decimals with their greatest precision.
const NATIVE: [(&str, i32); 5] = [("i8", 2), ("i16", 4), ("i32", 9), ("i64", 18), ("i128", 38)];
/// Characters of one to four bytes and some that are escaped, as they are written in a line.
const CHARACTERS: [&str; 6] = ["a", "é", "\\\"", "\\n", "\\x00", "𝔘"];
/// Types for the parts of others, in turn.
#[rustfmt::skip]
const PARTS: [&str; 21] = [
    "null", "bool", "utf8", "binary", "variant", "u8", "u16", "u32", "u64", "i8", "i16", "i32", "i64", "f16", "f32", "f64",
    "i32?", "decimal(10,-2)", "list(u8?)", "{a=i32}?", "x.tag[0x6162](utf8?)",
];

/// Returns the sizes of names and metadata: those of all other things, and greater ones around powers of two.
fn lengths() -> impl Iterator<Item = usize> {
    SIZES.chain([128, 256, 300, 512, 1024, 4096].into_iter().flat_map(|it| it - 1..it + 2))
}

/// Returns so many texts, joined.
fn joined(count: usize, separator: &str, text: impl Fn(usize) -> String) -> String {
    (0..count).map(text).collect::<Vec<_>>().join(separator)
}

/// Returns a text, or another one if it is empty.
fn or<'a>(text: &'a str, other: &'a str) -> &'a str {
    if text.is_empty() { other } else { text }
}

/// Adds lines of types, paths and lists of names that have so many parts.
fn add_with_parts(count: usize, lines: &mut Vec<String>) {
    let part = |at: usize| PARTS[at % PARTS.len()];
    let fields = joined(count, ", ", |at| format!("f{at}={}", part(at)));
    lines.extend([
        format!("text {{{fields}}}?"),
        format!("fields_text {{{fields}}}"),
        format!("indented {{{fields}}}"),
    ]);
    if count > 0 {
        let variants = joined(count, ", ", |at| format!("v{at}={}", part(at)));
        let tagged = joined(count, ", ", |at| format!("v{at}@{}={}", 2 * at + 1, part(at)));
        for union in [variants, tagged] {
            lines.extend([format!("text union({union})?"), format!("variants_text union({union})")]);
        }
    }
    let name = |at: usize| format!("n{at}");
    lines.push(format!("names_text {}", or(&joined(count, ",", name), "-")));
    let mixed = |at: usize| if at % 3 == 2 { "[]".to_owned() } else { name(at) };
    for path in [joined(count, ".", mixed), joined(count, ".", name), joined(count, ".", |_| "[]".to_owned())] {
        lines.push(format!("path_text {}", or(&path, ".")));
    }
}

/// Adds lines of types that are nested so deep.
fn add_nested(depth: usize, lines: &mut Vec<String>) {
    for (before, behind) in [
        ("list(", ")"),
        ("list(", ")?"),
        ("fixed_size_list(", ")[N]?"),
        ("map(utf8, ", ", keys_sorted=true)"),
        ("{a=", "}"),
        ("map(", ", i32?, keys_sorted=false)"),
        ("union(a=", ", b=i32)?"),
        ("{a=u8, b=", "}?"),
    ] {
        let behind = joined(depth, "", |at| behind.replace('N', &at.to_string()));
        lines.push(format!("text {}i32{behind}", before.repeat(depth)));
    }
    lines.push(format!("text {}utf8?{}", "x.y[0x00](".repeat(depth), ")".repeat(depth)));
}

/// Adds lines of names, steps, ids and metadata of so many characters or bytes.
fn add_with_length(length: usize, lines: &mut Vec<String>) {
    for character in &CHARACTERS[..if length < 600 { 6 } else { 1 }] {
        let name = format!("\"{}\"", character.repeat(length));
        lines.extend([format!("name_text {name}"), format!("step_text {name}"), format!("path_text {name}.b")]);
        lines.extend([format!("text {{{name}=i32}}"), format!("names_text {name},b")]);
    }
    if length > 0 {
        let name = "a".repeat(length);
        lines.extend([format!("variants_text union({name}=i32)"), format!("extension_text {name}[0x](null)")]);
    }
    let metadata = "07".repeat(length);
    lines.extend([format!("metadata_text x.y[0x{metadata}](null)"), format!("text x.y[0x{metadata}](utf8?)")]);
}

/// Adds lines of what has no size.
fn add_others(lines: &mut Vec<String>) {
    for name in INTEGERS.iter().chain(&OTHERS) {
        lines.extend([format!("text {name}"), format!("text {name}?")]);
        lines.push(format!("map_text map({name}, {name}?, keys_sorted=true)"));
    }
    lines.extend(["text null", "nullability_text Nullable", "nullability_text NonNullable"].map(str::to_owned));
    for precision in 1..=76 {
        lines.extend((-128..=precision).map(|scale| format!("decimal_text decimal({precision},{scale})")));
    }
    for (native, most) in NATIVE {
        for precision in 1..=most {
            lines.extend((-8..=precision).map(|scale| format!("precision_scale {native} {precision} {scale}")));
        }
    }
}

/// How an argument has its size.
#[derive(Clone, Copy, PartialEq)]
enum Shape {
    Wide,
    Deep,
    Long,
}

/// Returns a type of this size: of so many parts, so deep, or with a name that long.
fn dtype(shape: Shape, size: usize) -> String {
    match shape {
        Shape::Wide => format!("{{{}}}", joined(size, ", ", |at| format!("f{at}=i32"))),
        Shape::Deep => format!("{}i32{}", "list(".repeat(size), ")".repeat(size)),
        Shape::Long => format!("{{b{}=i32?}}", "a".repeat(size)),
    }
}

/// Returns the message of that type.
fn message(shape: Shape, size: usize) -> String {
    let part = "primitive { type: I32 }";
    let field = |name: &str| format!("names: \"{name}\" dtypes {{ {part} }}");
    match shape {
        Shape::Wide => format!("struct {{ {} }}", joined(size, " ", |at| field(&format!("f{at}")))),
        Shape::Deep => format!("{}{part}{}", "list { element_type { ".repeat(size), " } }".repeat(size)),
        Shape::Long => format!("struct {{ {} }}", field(&format!("b{}", "a".repeat(size)))),
    }
}

/// Returns an argument of this form, of this shape and size, behind one of another form or of the same.
fn argument(form: &str, before: &str, shape: Shape, size: usize) -> String {
    let name = |at: usize| format!("f{at}");
    let long = format!("b{}", "a".repeat(size));
    let path = match shape {
        Shape::Wide => "f0".to_owned(),
        Shape::Deep => or(&joined(size, ".", |_| "[]".to_owned()), ".").to_owned(),
        Shape::Long => long.clone(),
    };
    let inner = dtype(shape, size);
    let fields = |letter: char| joined(size, ", ", |at| format!("{letter}{at}=i32"));
    match form {
        "S" if before == "P" => "2".to_owned(),
        "S" if shape == Shape::Wide => format!("{{{}}}", fields(if before == "S" { 'g' } else { 'f' })),
        "S" => format!("{{a={inner}, {long}=i32}}"),
        "U" if shape == Shape::Wide && size > 0 => format!("union({})", fields('f')),
        "U" => format!("union(a={inner}, {long}=i32)"),
        "M" => format!("map(utf8, {inner}, keys_sorted=true)"),
        "E" => format!("x.tag[0x{}]({inner})", "61".repeat(size)),
        "T" => inner,
        "T.." => joined(size, " ", |_| "i32".to_owned()),
        "NAME" | "STEP" => long,
        "ID" => format!("x.{long}"),
        "NAMES" => or(&joined(size, ",", name), "-").to_owned(),
        "TAGS" => or(&joined(size, ",", |at| at.to_string()), "-").to_owned(),
        "PATH" => path,
        "PATH.." => or(&joined(size, " ", name), ".").to_owned(),
        "STEP.." => or(&joined(size, " ", name), "a").to_owned(),
        "MASK" => format!("exact {path}"),
        "MSG" => message(shape, size),
        "PART" => format!("path {{ name: \"{path}\" }}"),
        "PART.." => joined(size, " ", |at| format!("path {{ name: \"f{at}\" }}")),
        "HEX" => format!("0x{}", "61".repeat(size)),
        "COUNT" | "TAG" => size.to_string(),
        "N" => "Nullable".to_owned(),
        "W" => "Integers".to_owned(),
        "BOOL" => "true".to_owned(),
        "I" => "0".to_owned(),
        "P" => "10".to_owned(),
        "D" => "decimal(10,2)".to_owned(),
        "PT" | "INT" | "NATIVE" => "u8".to_owned(),
        "DT" | "DI" => "i64".to_owned(),
        "V" => "1".to_owned(),
        "PLUGIN" => "x.tag".to_owned(),
        "SESSION" => "unknown".to_owned(),
        itself => itself.to_owned(),
    }
}

/// Adds lines of every command.
fn add_calls(lines: &mut Vec<String>) {
    for usage in commands().into_keys() {
        let (name, forms) = usage.split_once(' ').unwrap_or((&usage, ""));
        if ["help", "exit", "quit"].contains(&name) {
            continue;
        }
        let living = forms.strip_prefix("NAME ").filter(|_| ["set", "session"].contains(&name));
        let forms: Vec<String> = match living {
            Some(forms) => forms.split('|').map(|form| format!("it {form}")).collect(),
            None => vec![forms.to_owned()],
        };
        for forms in forms {
            let words: Vec<&str> = forms.split_whitespace().collect();
            let shapes = if words.is_empty() { &[Shape::Wide][..] } else { &[Shape::Wide, Shape::Deep, Shape::Long] };
            for shape in shapes {
                for size in if words.is_empty() { 0..1 } else { SIZES } {
                    let before = [""].iter().chain(&words);
                    let arguments = words.iter().zip(before).map(|(form, before)| argument(form, before, *shape, size));
                    lines.push([name.to_owned()].into_iter().chain(arguments).collect::<Vec<_>>().join(" "));
                }
            }
        }
    }
}

#[test]
fn no_size_is_refused() {
    let mut lines = Vec::new();
    add_others(&mut lines);
    for size in SIZES {
        add_with_parts(size, &mut lines);
        add_nested(size, &mut lines);
    }
    lengths().for_each(|length| add_with_length(length, &mut lines));
    add_calls(&mut lines);
    let asked = lines.iter().fold(String::new(), |asked, line| asked + line + "\n");
    let (_, shown, _) = run(&[], asked.as_bytes());
    let answers: Vec<&str> = shown.lines().collect();
    assert_eq!(answers.len(), lines.len());
    let mut wrong = BTreeMap::new();
    for (line, answer) in lines.iter().zip(answers) {
        if answer.starts_with("refused 0") || answer.starts_with("unreadable") {
            wrong.entry(line.split(' ').next()).or_insert(format!("{line:.200}: {answer:.200}"));
        }
    }
    assert!(wrong.is_empty(), "{wrong:#?}");
    println!("{} lines", lines.len());
    assert!(lines.len() > 60_000, "{} lines", lines.len());
}
