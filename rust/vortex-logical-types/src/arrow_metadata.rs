// SPDX-License-Identifier: Apache-2.0
// SPDX-FileCopyrightText: Copyright the Vortex contributors

//! Metadata of Arrow's fields, other than that of extension types. It is read from the flat form of a schema, and added to it: the
//! nodes of `c_arrow`, whose texts are one behind another.

use crate::c_arrow::{ArrowNode, Column};
use crate::fallible;
use crate::rattle_std::alloc::AllocError;
use crate::{Error, VortexError};
use std::collections::{HashMap, HashSet};
use std::slice;

// The keys that make an extension type of a field. They belong to the type.
const EXTENSION_KEYS: [&[u8]; 2] = [b"ARROW:extension:name", b"ARROW:extension:metadata"];

// How much memory a list may take that is read. (Each key has the whole path of its field, so the list may be much larger than
// the schema.)
const MOST_BYTES: usize = 1 << 31;

/// A key of an Arrow field's metadata, with its value. A list of these is what [`DType::from_arrow_with_metadata`] returns
/// beside a type, and what [`DType::to_arrow_with_metadata`] writes.
///
/// [`DType::from_arrow_with_metadata`]: crate::DType::from_arrow_with_metadata
/// [`DType::to_arrow_with_metadata`]: crate::DType::to_arrow_with_metadata
#[derive(Debug, Clone, PartialEq, Eq, PartialOrd, Ord, Hash)]
pub struct FieldMetadata {
    /// The names of the fields that lead to the field. The outermost field, which is the schema of a table, has the empty path.
    /// The names are those with which a type is written: in a list the element is `item`, and in a map the key is `key` in
    /// `entries`, and the value `value`. For example, the path of a map's value is `["m", "entries", "value"]`. If several
    /// fields of a struct have the same name, the path leads to the first.
    pub path: Vec<String>,
    /// The key. It isn't one of the two keys of extension types.
    pub key: Vec<u8>,
    /// The value.
    pub value: Vec<u8>,
}

/// The texts of a field.
pub struct Texts<'a> {
    pub format: &'a [u8],
    pub name: &'a [u8],
    pub metadata: &'a [u8],
}

/// Takes the texts of a node from the front of those that are left. (There are as many as the nodes say.)
pub fn texts_of<'a>(node: &ArrowNode, left: &mut &'a [u8]) -> Texts<'a> {
    let mut next = |length| {
        let (text, behind) = left.split_at(length);
        *left = behind;
        text
    };
    Texts {
        format: next(node.format_length),
        name: next(node.name_length),
        metadata: next(node.metadata_length),
    }
}

// Takes a count or a length. (None is negative, because the walk through the structs measured the metadata.)
fn number(left: &mut &[u8]) -> usize {
    let Some((number, behind)) = left.split_first_chunk() else {
        unreachable!("metadata is as long as its numbers say");
    };
    *left = behind;
    usize::try_from(i32::from_ne_bytes(*number)).unwrap_or_default()
}

// Takes a text with its length before it.
fn text<'a>(left: &mut &'a [u8]) -> &'a [u8] {
    let length = number(left);
    let (text, behind) = left.split_at(length);
    *left = behind;
    text
}

// What a field is of the field that it is in.
#[derive(Clone, Copy)]
enum Part {
    // The outermost field, which isn't in another.
    Root,
    // A field of a struct or a variant of a union, which has its own name.
    Named,
    // A field that the written schema calls so.
    Called(&'static str),
    // The values of a dictionary or of a run-end encoded type, whose type is that of the field around them.
    Values,
    // The run ends, which aren't in the type.
    Ends,
}

// Reads the metadata of a flat schema that has a type.
struct Reader<'a> {
    nodes: slice::Iter<'a, ArrowNode>,
    texts: &'a [u8],
    path: fallible::Vec<&'a str>,
    // How many fields around this one have no path of their own, so that nothing in them is read.
    hidden: usize,
    // How much memory the list takes, and the list, or nothing as long as only that is counted.
    bytes: usize,
    found: Option<fallible::Vec<FieldMetadata>>,
}

// Returns the metadata of a flat schema that has a type, in the order of the fields.
pub fn metadata_of(nodes: &[ArrowNode], texts: &[u8]) -> Result<Vec<FieldMetadata>, Error> {
    let reading = |found| {
        let mut reader = Reader {
            nodes: nodes.iter(),
            texts,
            path: fallible::Vec::new(),
            hidden: 0,
            bytes: 0,
            found,
        };
        reader.field(Part::Root, false).map_err(out_of_memory)?;
        Ok::<_, Error>((reader.bytes, reader.found))
    };
    let (bytes, _) = reading(None)?;
    if bytes > MOST_BYTES {
        return Err(refused(
            &ROOT,
            "the list of its metadata has more than 2147483648 bytes",
        ));
    }
    let (_, found) = reading(Some(fallible::Vec::new()))?;
    Ok(found.map_or_else(Vec::new, Into::into))
}

fn out_of_memory(_: AllocError) -> Error {
    VortexError::OutOfMemory.into()
}

impl<'a> Reader<'a> {
    // Reads a field and all that is in it. The entries of a map have a key and a value.
    fn field(&mut self, part: Part, is_entries: bool) -> Result<&'a [u8], AllocError> {
        let Some(node) = self.nodes.next() else {
            unreachable!("each node that is counted follows");
        };
        let texts = texts_of(node, &mut self.texts);
        let step = match part {
            Part::Named => Some(std::str::from_utf8(texts.name).unwrap_or_default()),
            Part::Called(name) => Some(name),
            Part::Root | Part::Values | Part::Ends => None,
        };
        if let Some(step) = step {
            self.path.push(step)?;
        }
        self.hidden += usize::from(matches!(part, Part::Ends));
        if !matches!(part, Part::Values) {
            self.pairs(texts.metadata)?;
        }
        self.inside(node, texts.format, is_entries)?;
        self.hidden -= usize::from(matches!(part, Part::Ends));
        if step.is_some() {
            self.path.pop();
        }
        Ok(texts.name)
    }

    // Reads what is in a field.
    fn inside(
        &mut self,
        node: &ArrowNode,
        format: &[u8],
        is_entries: bool,
    ) -> Result<(), AllocError> {
        match format {
            _ if node.has_dictionary == 1 => {
                self.field(Part::Values, false)?;
            }
            _ if is_entries => {
                self.field(Part::Called("key"), false)?;
                self.field(Part::Called("value"), false)?;
            }
            b"+m" => {
                self.field(Part::Called("entries"), true)?;
            }
            b"+r" => {
                self.field(Part::Ends, false)?;
                self.field(Part::Values, false)?;
            }
            [b'+', b's' | b'u', ..] => self.named_fields(node.child_count)?,
            // (A list. Other formats have no children.)
            _ if node.child_count == 1 => {
                self.field(Part::Called("item"), false)?;
            }
            _ => {}
        }
        Ok(())
    }

    // Reads the fields of a struct or the variants of a union. To the second of two with one name no path leads.
    fn named_fields(&mut self, count: usize) -> Result<(), AllocError> {
        let mut names = HashSet::new();
        names.try_reserve(count).map_err(|_| AllocError)?;
        for _ in 0..count {
            let mut ahead = self.texts;
            let again = self
                .nodes
                .as_slice()
                .first()
                .is_some_and(|node| !names.insert(texts_of(node, &mut ahead).name));
            self.hidden += usize::from(again);
            self.field(Part::Named, false)?;
            self.hidden -= usize::from(again);
        }
        Ok(())
    }

    // Reads the metadata of the field to which the path leads.
    fn pairs(&mut self, mut metadata: &[u8]) -> Result<(), AllocError> {
        if metadata.is_empty() || self.hidden > 0 {
            return Ok(());
        }
        let steps = self
            .path
            .iter()
            .map(|step| size_of::<String>() + step.len());
        let around = size_of::<FieldMetadata>() + steps.sum::<usize>();
        for _ in 0..number(&mut metadata) {
            let (key, value) = (text(&mut metadata), text(&mut metadata));
            if EXTENSION_KEYS.contains(&key) {
                continue;
            }
            self.bytes = self.bytes.saturating_add(around + key.len() + value.len());
            let Some(found) = &mut self.found else {
                continue;
            };
            let mut path = fallible::Vec::with_capacity(self.path.len())?;
            for step in &self.path {
                path.push(fallible::String::from_str(step)?.into())?;
            }
            found.push(FieldMetadata {
                path: path.into(),
                key: fallible::Vec::from_slice(key)?.into(),
                value: fallible::Vec::from_slice(value)?.into(),
            })?;
        }
        Ok(())
    }
}

/// Nodes, and the bytes of their texts.
pub type Flat = (fallible::Vec<ArrowNode>, fallible::Vec<u8>);

// Returns the flat schema of a type with metadata added to its fields.
pub fn with_metadata(flat: &Flat, metadata: &[FieldMetadata]) -> Result<Flat, Error> {
    let places = places_of(flat).map_err(out_of_memory)?;
    let mut added = fallible::Vec::with_capacity(metadata.len()).map_err(out_of_memory)?;
    for (at, one) in metadata.iter().enumerate() {
        let place = one.path.iter().try_fold(0, |parent, step| {
            places.get(&(parent, step.as_bytes())).copied()
        });
        let Some(place) = place else {
            return Err(one.refused("the type has no such field, whose metadata is to be written"));
        };
        one.check()?;
        added.push_reserved((place, at));
    }
    added.sort_unstable();
    let whole = added_to(flat, metadata, &added).map_err(out_of_memory)?;
    whole.ok_or_else(|| refused(&ROOT, "a field in Arrow has at most 2147483647 keys"))
}

impl FieldMetadata {
    // Fails if a key or a value can't be written.
    fn check(&self) -> Result<(), Error> {
        if EXTENSION_KEYS.contains(&&*self.key) {
            return Err(self.refused("the keys ARROW:extension:name and ARROW:extension:metadata are those of an extension type"));
        }
        if i32::try_from(self.key.len().max(self.value.len())).is_err() {
            return Err(self.refused("a key or a value in Arrow has at most 2147483647 bytes"));
        }
        Ok(())
    }

    // Returns the error that says this about the field.
    fn refused(&self, text: &str) -> Error {
        self.column()
            .map_or_else(out_of_memory, |column| refused(&column, text))
    }

    // Returns the field, as errors name it.
    fn column(&self) -> Result<Column, AllocError> {
        let mut names = fallible::Vec::with_capacity(self.path.len())?;
        for name in self.path.iter().rev() {
            names.push(fallible::Vec::from_slice(name.as_bytes())?)?;
        }
        Ok(Column {
            names: (!names.is_empty()).then_some(names),
        })
    }
}

// The outermost field, as errors name it.
const ROOT: Column = Column { names: None };

// Returns the error that says this about a field.
fn refused(column: &Column, text: &str) -> Error {
    column
        .message(text)
        .map_or_else(out_of_memory, |message| Error::Arrow {
            message: message.into(),
        })
}

// Returns the positions of the nodes, each by the position of its parent and its name. Of several children with one name it is
// that of the first.
fn places_of((nodes, texts): &Flat) -> Result<HashMap<(usize, &[u8]), usize>, AllocError> {
    let mut places = HashMap::new();
    places.try_reserve(nodes.len()).map_err(|_| AllocError)?;
    // The nodes whose children follow, and how many are to come.
    let mut open: fallible::Vec<(usize, usize)> = fallible::Vec::new();
    let mut left = &texts[..];
    for (at, node) in nodes.iter().enumerate() {
        let name = texts_of(node, &mut left).name;
        while open.last().is_some_and(|(_, children)| *children == 0) {
            open.pop();
        }
        if let Some((parent, children)) = open.last_mut() {
            *children -= 1;
            places.entry((*parent, name)).or_insert(at);
        }
        open.push((at, node.child_count))?;
    }
    Ok(places)
}

// Returns the flat schema with these keys and values added, each with the position of its node, in the order of the nodes. It
// is `None` if a field would have too many keys.
fn added_to(
    (nodes, texts): &Flat,
    metadata: &[FieldMetadata],
    added: &[(usize, usize)],
) -> Result<Option<Flat>, AllocError> {
    let mut whole = (
        fallible::Vec::with_capacity(nodes.len())?,
        fallible::Vec::new(),
    );
    let (mut left, mut to_come) = (&texts[..], added);
    for (at, node) in nodes.iter().enumerate() {
        let (here, behind) = to_come.split_at(to_come.partition_point(|(place, _)| *place == at));
        to_come = behind;
        let own = texts_of(node, &mut left);
        whole.1.extend_from_slice(own.format)?;
        whole.1.extend_from_slice(own.name)?;
        let before = whole.1.len();
        if here.is_empty() {
            whole.1.extend_from_slice(own.metadata)?;
        } else {
            let mut pairs = own.metadata;
            let count = if pairs.is_empty() {
                0
            } else {
                number(&mut pairs)
            };
            let Some(count) = length_of(count + here.len()) else {
                return Ok(None);
            };
            whole.1.extend_from_slice(&count)?;
            whole.1.extend_from_slice(pairs)?;
            for (_, one) in here {
                for text in [&metadata[*one].key, &metadata[*one].value] {
                    whole
                        .1
                        .extend_from_slice(&length_of(text.len()).unwrap_or_default())?;
                    whole.1.extend_from_slice(text)?;
                }
            }
        }
        let metadata_length = whole.1.len() - before;
        whole.0.push_reserved(ArrowNode {
            metadata_length,
            ..*node
        });
    }
    Ok(Some(whole))
}

// Returns a count or a length as Arrow writes it, or `None` if it is above 2^31 - 1.
fn length_of(number: usize) -> Option<[u8; 4]> {
    i32::try_from(number).ok().map(i32::to_ne_bytes)
}
