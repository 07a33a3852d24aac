// SPDX-License-Identifier: Apache-2.0
// SPDX-FileCopyrightText: Copyright the Vortex contributors

//! The library's numbers and texts for the original's errors. The values in a text are those that the original named.

use vortex_error::VortexError;

use crate::types::Stop;

/// The library's texts, by number, and the original's behind ` = ` where they differ; in braces what it carries.
const TEXTS: &str = "\
out of memory
decimal precision must be between 1 and {max} (inclusive) = precision cannot be 0, has to be between [1, {max}]
decimal precision {precision} exceeds MAX_PRECISION {max} = Precision {precision} is greater than max {max}
decimal scale {scale} exceeds MAX_SCALE {max} = Scale {scale} is greater than max {max}
decimal scale {scale} is greater than precision {precision} = Scale {scale} is greater than precision {precision}
Cannot convert DType into DecimalType = Cannot convert DType {_} into DecimalType
Cannot convert DType into PType = Cannot convert DType {_} into PType
cannot convert ptype {ptype} to DecimalType
bytes have another length = Failed to convert bytes into {_}
map key dtype must be non-nullable
union names and dtypes length mismatch
union names and type_ids length mismatch
union must have at least one variant = union must have at least one variant (for now)
type_ids must be distinct = type_ids must be distinct, got {_}
union supports at most 256 consecutive variants = union supports at most 256 consecutive variants, got {_}
union variant names must be distinct = union variant names must be distinct, got {_}
field {position} of the projection not found
index {index} out of bounds for struct with {fields} fields
Can't merge struct fields with duplicate names
element size is bigger than usize
Cannot step into exact root field path
Cannot get starting field from All mask
extension metadata or storage refused = plugin: {_}
extension id differs
Unrecognized DType
unknown primitive number
precision does not fit in u8 = proto precision could not be downcast to u8
scale does not fit in i8 = proto scale could not be downcast to i8
Invalid list element type
Invalid fixed-size list element type
Invalid map key type
Invalid map value type
struct names and dtypes length mismatch
type_id does not fit in u8 = Union type_id {_} somehow does not fit in u8
Extension DType missing storage proto
Unregistered extension type ID = Unregistered extension type ID: {_}
FieldPath part missing type";

/// The texts of each error, ours and theirs.
fn texts() -> impl Iterator<Item = (&'static str, &'static str)> {
    TEXTS.lines().map(|line| line.split_once(" = ").unwrap_or((line, line)))
}

/// The answer to an error of this number, with the values of its text.
pub fn refused(number: usize, values: &[(&str, &str)]) -> Stop {
    let fill = |text: String, (name, value): &(&str, &str)| text.replace(&format!("{{{name}}}"), value);
    let (ours, _) = texts().nth(number).expect("each error has a text");
    Stop(format!("refused {number}: {}", values.iter().fold(ours.to_owned(), fill)))
}

impl From<VortexError> for Stop {
    fn from(error: VortexError) -> Self {
        Self::from(&error)
    }
}

impl From<&VortexError> for Stop {
    fn from(error: &VortexError) -> Self {
        let error = error.to_string();
        let text = message_of(&error);
        let found = texts().enumerate().find_map(|(number, (ours, theirs))| {
            let values = values_of(theirs, text).or_else(|| values_of(ours, text))?;
            Some(refused(number, &values))
        });
        found.unwrap_or_else(|| Stop(format!("an error that isn't known: {text}")))
    }
}

/// An error's message alone, where its text also has its kind before it and a backtrace behind it.
fn message_of(text: &str) -> &str {
    let text = text.split_once("\nBacktrace:").map_or(text, |(text, _)| text);
    let is_kind =
        |kind: &str| kind.starts_with(char::is_uppercase) && kind.chars().all(|c| c.is_alphabetic() || c == ' ');
    match text.split_once(" error: ") {
        Some((kind, message)) if is_kind(kind) => message,
        _ => text,
    }
}

/// What stands in a text of this form for each name in braces.
fn values_of<'a>(form: &'a str, text: &'a str) -> Option<Vec<(&'a str, &'a str)>> {
    let mut pieces = form.split(['{', '}']);
    let mut rest = text.strip_prefix(pieces.next()?)?;
    let mut found = Vec::new();
    while let (Some(name), Some(behind)) = (pieces.next(), pieces.next()) {
        let end = if behind.is_empty() { rest.len() } else { rest.find(behind)? };
        found.push((name, &rest[..end]));
        rest = &rest[end + behind.len()..];
    }
    rest.is_empty().then_some(found)
}
