// SPDX-License-Identifier: Apache-2.0
// SPDX-FileCopyrightText: Copyright the Vortex contributors

//! The forms in which a type is written to Arrow: those that another schema has, where it has the same type at the same path. A
//! form is what is lost when a type is read, for example that a text is a large one, or a dictionary. It is chosen here, and
//! `c_arrow` is asked whether the result is read as the type.

use crate::arrow_metadata::{Flat, Texts, texts_of};
use crate::c_arrow::ArrowNode;
use crate::fallible;
use crate::rattle_std::alloc::AllocError;
use crate::rattle_std::boxed;
use std::collections::HashMap;
use std::slice;

// The flags of a field: the dictionary is ordered, and the field is nullable.
const ORDERED: u64 = 1;
const NULLABLE: u64 = 2;

// A field of a flat schema with all that is in it.
struct Part<'a> {
    flags: u64,
    texts: Texts<'a>,
    children: fallible::Vec<Part<'a>>,
    values: Option<Box<Part<'a>>>,
}

// Takes a field from the front of the nodes and texts that are left. (The nodes count what follows.)
fn part_of<'a>(
    nodes: &mut slice::Iter<'_, ArrowNode>,
    left: &mut &'a [u8],
) -> Result<Part<'a>, AllocError> {
    let Some(node) = nodes.next() else {
        unreachable!("each node that is counted follows");
    };
    let texts = texts_of(node, left);
    let mut children = fallible::Vec::with_capacity(node.child_count)?;
    for _ in 0..node.child_count {
        children.push_reserved(part_of(nodes, left)?);
    }
    let values = match node.has_dictionary {
        0 => None,
        _ => Some(boxed::new(part_of(nodes, left)?)?),
    };
    Ok(Part {
        flags: node.flags,
        texts,
        children,
        values,
    })
}

// Returns the flat schema of a type in the forms of another flat schema that has a type. The first is as it is written by
// default.
pub fn formed(plain: &Flat, original: &Flat) -> Result<Flat, AllocError> {
    let whole = part_of(&mut plain.0.iter(), &mut &plain.1[..])?;
    let forms = part_of(&mut original.0.iter(), &mut &original.1[..])?;
    let mut out = Out::default();
    out.part(&Field::of(&whole), &forms)?;
    Ok((out.nodes, out.texts))
}

// Returns whether these are the flags of a nullable field.
fn is_nullable(flags: u64) -> bool {
    flags & NULLABLE != 0
}

impl Part<'_> {
    // Returns whether the type of the field is nullable, if it is so by the fields around it or by its own. The own flags of a
    // dictionary's values have no meaning.
    fn is_nullable(&self, around: bool, are_values: bool) -> bool {
        let here = around || (!are_values && is_nullable(self.flags));
        match (&self.values, &self.children[..]) {
            (Some(values), _) => values.is_nullable(here, true),
            (None, [_, values]) if self.texts.format == b"+r" => values.is_nullable(here, false),
            _ => here,
        }
    }
}

// What is written of a field beside its form: its type, its name and its metadata, and its flags.
#[derive(Clone, Copy)]
struct Field<'a> {
    plain: &'a Part<'a>,
    name: &'a [u8],
    metadata: &'a [u8],
    flags: u64,
    // Whether a dictionary or a run-end encoded type around it has the flags of the original, if there is one around it.
    keeps: Option<bool>,
}

impl<'a> Field<'a> {
    // The field as it is written by default.
    fn of(plain: &'a Part<'a>) -> Self {
        Field {
            plain,
            name: plain.texts.name,
            metadata: plain.texts.metadata,
            flags: plain.flags,
            keeps: None,
        }
    }

    // A child of a list or a map, with the name that it has in the original.
    fn called(plain: &'a Part<'a>, name: &'a [u8]) -> Self {
        Field {
            name,
            ..Field::of(plain)
        }
    }

    // A dictionary or a run-end encoded type. The type is nullable if one of several fields is, so all of them have the flags that
    // they have in the original if that gives the type, and otherwise all have the flag of the type.
    fn around(self, original: &Part<'_>) -> Self {
        let keeps = || original.is_nullable(false, false) == is_nullable(self.plain.flags);
        let keeps = self.keeps.unwrap_or_else(keeps);
        let flags = if keeps {
            original.flags
        } else {
            self.plain.flags
        };
        let flags = (flags & NULLABLE) | (original.flags & ORDERED);
        Field {
            flags,
            keeps: Some(keeps),
            ..self
        }
    }

    // The values in it. It has the metadata. A map keeps the flag for sorted keys.
    fn values(self, original: &'a Part<'a>) -> Self {
        let kept = self.keeps == Some(true);
        let flags = if kept {
            original.flags
        } else {
            self.plain.flags
        };
        let flags = (flags & NULLABLE) | (self.plain.flags & !NULLABLE);
        Field {
            name: original.texts.name,
            metadata: &[],
            flags,
            ..self
        }
    }
}

// What is written.
#[derive(Default)]
struct Out {
    nodes: fallible::Vec<ArrowNode>,
    texts: fallible::Vec<u8>,
}

impl Out {
    // Writes the node of a field with its texts.
    fn node(
        &mut self,
        field: &Field<'_>,
        format: &[u8],
        child_count: usize,
        has_dictionary: u32,
    ) -> Result<(), AllocError> {
        self.nodes.push(ArrowNode {
            flags: field.flags,
            format_length: format.len(),
            name_length: field.name.len(),
            metadata_length: field.metadata.len(),
            child_count,
            has_dictionary,
            fault: 0,
        })?;
        for text in [format, field.name, field.metadata] {
            self.texts.extend_from_slice(text)?;
        }
        Ok(())
    }

    // Writes a field by default, with all that is in it.
    fn plain(&mut self, field: &Field<'_>) -> Result<(), AllocError> {
        let Part {
            texts, children, ..
        } = field.plain;
        self.node(field, texts.format, children.len(), 0)?;
        for child in children {
            self.plain(&Field::of(child))?;
        }
        Ok(())
    }

    // Writes a field in the form of one of the original, if that has the same type without regard of what is in it.
    fn part(&mut self, field: &Field<'_>, original: &Part<'_>) -> Result<(), AllocError> {
        let format = original.texts.format;
        if let Some(values) = &original.values {
            let dictionary = field.around(original);
            self.node(&dictionary, format, 0, 1)?;
            return self.part(&dictionary.values(values), values);
        }
        if format == b"+r" {
            return self.run_ends(field, original);
        }
        let plain = field.plain;
        match Form::of(plain.texts.format, format) {
            Form::Other => self.plain(field),
            Form::Leaf => self.node(field, format, 0, 0),
            Form::List => {
                self.node(field, format, 1, 0)?;
                for (child, its) in plain.children.iter().zip(&original.children) {
                    self.part(&Field::called(child, its.texts.name), its)?;
                }
                Ok(())
            }
            Form::Bytes => self.bytes(field, original),
            Form::Map => {
                self.node(field, format, 1, 0)?;
                for (entries, its) in plain.children.iter().zip(&original.children) {
                    let entries = Field::called(entries, its.texts.name);
                    self.node(&entries, its.texts.format, 2, 0)?;
                    for (child, its) in entries.plain.children.iter().zip(&its.children) {
                        self.part(&Field::called(child, its.texts.name), its)?;
                    }
                }
                Ok(())
            }
            Form::Named => self.named(field, original),
        }
    }

    // Writes byte strings of one length as a list of bytes that can't be null.
    fn bytes(&mut self, field: &Field<'_>, original: &Part<'_>) -> Result<(), AllocError> {
        let texts = Texts {
            format: b"C",
            name: b"item",
            metadata: &[],
        };
        let byte = Part {
            flags: 0,
            texts,
            children: fallible::Vec::new(),
            values: None,
        };
        self.node(field, original.texts.format, 1, 0)?;
        for its in &original.children {
            self.part(&Field::called(&byte, its.texts.name), its)?;
        }
        Ok(())
    }

    // Writes a run-end encoded type, whose first child has the ends and whose second child has the values.
    fn run_ends(&mut self, field: &Field<'_>, original: &Part<'_>) -> Result<(), AllocError> {
        let [ends, values] = &original.children[..] else {
            return self.plain(field);
        };
        let whole = field.around(original);
        self.node(&whole, original.texts.format, 2, 0)?;
        let of_ends = Field {
            name: ends.texts.name,
            metadata: &[],
            flags: ends.flags,
            ..whole
        };
        self.node(&of_ends, ends.texts.format, 0, 0)?;
        self.part(&whole.values(values), values)
    }

    // Writes a struct or a union. A child takes the form of the child of the original at the same position if that has its name,
    // and otherwise that of the first child with its name.
    fn named(&mut self, field: &Field<'_>, original: &Part<'_>) -> Result<(), AllocError> {
        let children = &field.plain.children;
        self.node(field, original.texts.format, children.len(), 0)?;
        let mut firsts = HashMap::new();
        firsts
            .try_reserve(original.children.len())
            .map_err(|_| AllocError)?;
        for (at, child) in original.children.iter().enumerate() {
            firsts.entry(child.texts.name).or_insert(at);
        }
        for (at, child) in children.iter().enumerate() {
            let beside = original
                .children
                .get(at)
                .filter(|it| it.texts.name == child.texts.name);
            let first = || {
                firsts
                    .get(child.texts.name)
                    .map(|at| &original.children[*at])
            };
            match beside.or_else(first) {
                Some(its) => self.part(&Field::of(child), its)?,
                None => self.plain(&Field::of(child))?,
            }
        }
        Ok(())
    }
}

// What two formats have in common: that of the default, and that of the original.
enum Form {
    // Nothing: the field is written by default.
    Other,
    // They are formats of one type without children.
    Leaf,
    // They are lists, or fixed-size lists of one size.
    List,
    // The default are byte strings of one length, and the original is a fixed-size list of as many elements.
    Bytes,
    Map,
    // They are structs, or unions with the same tags.
    Named,
}

impl Form {
    fn of(plain: &[u8], original: &[u8]) -> Form {
        match (plain, original) {
            (b"+s", b"+s") => Form::Named,
            (b"+m", b"+m") => Form::Map,
            (b"u", b"u" | b"U" | b"vu") | (b"z", b"z" | b"Z" | b"vz") => Form::Leaf,
            (b"+l", b"+l" | b"+L" | b"+vl" | b"+vL") => Form::List,
            ([b'+', b'u', b's', tags @ ..], [b'+', b'u', b's' | b'd', others @ ..])
                if tags == others =>
            {
                Form::Named
            }
            ([b'+', b'w', ..], _) if plain == original => Form::List,
            ([b'w', ..], [b'+', list @ ..]) if plain == list => Form::Bytes,
            ([b'd', b':', plain @ ..], [b'd', b':', original @ ..])
                if digits(plain).eq(digits(original)) =>
            {
                Form::Leaf
            }
            ([b'+', ..], _) => Form::Other,
            _ if plain == original => Form::Leaf,
            _ => Form::Other,
        }
    }
}

// The precision and the scale in the format of a decimal, without the width.
fn digits(format: &[u8]) -> impl Iterator<Item = &[u8]> {
    format.split(|byte| *byte == b',').take(2)
}
