// SPDX-License-Identifier: Apache-2.0
// SPDX-FileCopyrightText: Copyright the Vortex contributors

//! Types, names and paths as they are read from their texts, which the original makes or refuses, and the texts of these.

use std::cmp::Ordering;
use std::sync::Arc;

use vortex_array::dtype::extension::{ExtDTypeRef, ExtId, ForeignExtDType};
use vortex_array::dtype::*;

use crate::reader::{Readable, Reader, is_bare, is_special};

pub const PTYPES: [PType; 11] = {
    use PType::*;
    [U8, U16, U32, U64, I8, I16, I32, I64, F16, F32, F64]
};

/// Bytes, which are written in hexadecimal behind `0x`.
#[derive(Clone, Debug, PartialEq, Eq, Hash)]
pub struct Bytes(pub Vec<u8>);

/// Says how values of these types are read.
macro_rules! readable {
    ($($kind:ty: $read:expr;)*) => {
        $(impl Readable for $kind {
            fn read(text: &mut Reader) -> Answer<Self> {
                let read: fn(&mut Reader) -> Answer<Self> = $read;
                read(text)
            }
        })*
    };
}

readable! {
    Bytes: |text| text.expect("0x").map(|()| Bytes(std::iter::from_fn(|| text.byte()).collect()));
    FieldName: |text| text.name(false).map(FieldName::from);
    Field: |text| {
        if text.eat("[]") {
            return Ok(Field::ElementType);
        }
        text.eat("$");
        text.name(true).map(|name| Field::Name(FieldName::from(name)))
    };
    FieldPath: |text| {
        if text.eat(".") {
            return Ok(FieldPath::root());
        }
        let mut steps = vec![Field::read(text)?];
        while text.eat(".") {
            steps.push(Field::read(text)?);
        }
        Ok(steps.into())
    };
}

impl Readable for DType {
    fn read(line: &mut Reader) -> Answer<Self> {
        let at = line.at;
        if line.eat("{") {
            line.blanks();
            let fields = line.items("}", field)?;
            return Ok(DType::Struct(StructFields::from_iter(fields), mark(line)));
        }
        if line.rest().starts_with('"') {
            let id = line.text()?;
            return extension(line, &id);
        }
        let word = line.take(|sign| is_bare(sign) || sign == '.').to_owned();
        if line.rest().starts_with('[') && !word.is_empty() {
            line.plain(at, &word)?;
            return extension(line, &word);
        }
        Ok(match word.as_str() {
            "null" if line.rest().starts_with('?') => return line.fail(line.at),
            "null" => DType::Null,
            "bool" => DType::Bool(mark(line)),
            "utf8" => DType::Utf8(mark(line)),
            "binary" => DType::Binary(mark(line)),
            "variant" => DType::Variant(mark(line)),
            "decimal" => DType::Decimal(decimal(line)?, mark(line)),
            "list" => DType::List(wrapped(line)?, mark(line)),
            "fixed_size_list" => {
                let element = wrapped(line)?;
                line.open("[")?;
                let size = line.number()?;
                line.close("]")?;
                DType::FixedSizeList(element, size, mark(line))
            }
            "map" => map(line)?,
            "union" => union(line)?,
            _ => DType::Primitive(line.found(at, PTYPES.into_iter().find(|it| it.to_string() == word))?, mark(line)),
        })
    }
}

/// The precision and the scale behind `decimal`.
fn decimal(line: &mut Reader) -> Answer<DecimalDType> {
    line.open("(")?;
    let precision = line.number()?;
    line.between(",")?;
    let scale = line.number()?;
    line.close(")")?;
    Ok(DecimalDType::try_new(precision, scale)?)
}

/// A type in round brackets.
fn wrapped(line: &mut Reader) -> Answer<Arc<DType>> {
    line.open("(")?;
    let inner = line.inside(DType::read)?;
    line.close(")").map(|()| Arc::new(inner))
}

/// The metadata and the storage behind an id.
fn extension(line: &mut Reader, id: &str) -> Answer<DType> {
    line.open("[")?;
    let Bytes(metadata) = Bytes::read(line)?;
    line.close("]")?;
    let storage = Arc::unwrap_or_clone(wrapped(line)?);
    Ok(DType::Extension(ForeignExtDType::from_parts(ExtId::new(id), metadata, storage)?))
}

fn map(line: &mut Reader) -> Answer<DType> {
    line.open("(")?;
    let key = line.inside(DType::read)?;
    line.between(",")?;
    let value = line.inside(DType::read)?;
    line.between(",")?;
    line.word_of_type(|word| (word == "keys_sorted").then_some(()))?;
    line.between("=")?;
    let sorted = line.word_of_type(|word| word.parse().ok())?;
    line.close(")")?;
    Ok(DType::Map(MapDType::try_new(key, value, sorted)?, mark(line)))
}

/// Variants, with a tag at each or at none.
fn union(line: &mut Reader) -> Answer<DType> {
    line.open("(")?;
    let variants = line.items(")", variant)?;
    let (names, (types, tags)): (Vec<_>, (Vec<_>, Vec<Option<u8>>)) = variants.into_iter().unzip();
    let names = FieldNames::from(names);
    let tags: Vec<u8> = tags.into_iter().flatten().collect();
    let union = match tags.len() {
        0 => UnionVariants::new(names, types)?,
        count if count == types.len() => UnionVariants::try_new(names, types, tags)?,
        _ => return line.fail(line.at),
    };
    Ok(DType::Union(union, mark(line)))
}

/// The nullability that stands behind a type.
fn mark(line: &mut Reader) -> Nullability {
    line.eat("?").into()
}

fn field(line: &mut Reader) -> Answer<(FieldName, DType)> {
    let name = FieldName::read(line)?;
    line.between("=")?;
    Ok((name, line.inside(DType::read)?))
}

/// The name of a variant, its type, and its tag if there is one.
fn variant(line: &mut Reader) -> Answer<(FieldName, (DType, Option<u8>))> {
    let name = FieldName::read(line)?;
    let tag = if line.eat("@") { Some(line.number()?) } else { None };
    line.between("=")?;
    Ok((name, (line.inside(DType::read)?, tag)))
}

/// The answer to a line that has none by a call, as one that can't be read or an error.
pub struct Stop(pub String);

pub type Answer<T = String> = Result<T, Stop>;

pub fn stop<T>(answer: impl Into<String>) -> Answer<T> {
    Err(Stop(answer.into()))
}

/// What a call gives.
pub trait Told {
    fn told(self) -> Answer;
}

impl<T: Told, E: Into<Stop>> Told for Result<T, E> {
    fn told(self) -> Answer {
        self.map_err(Into::into)?.told()
    }
}

impl<T: Told> Told for Option<T> {
    fn told(self) -> Answer {
        self.map_or(Ok("none".to_owned()), Told::told)
    }
}

/// Says how values of these types are told.
macro_rules! told {
    ($($($kind:ty),+: $tell:expr;)*) => {
        $($(impl Told for $kind {
            fn told(self) -> Answer {
                let tell: fn(Self) -> Answer = $tell;
                tell(self)
            }
        })+)*
    };
}

told! {
    bool, u8, i8, i32, u64, usize, &str, String, PType, DecimalType, &DecimalDType: |it| Ok(it.to_string());
    Ordering: |it| Ok(format!("{it:?}"));
    Nullability: |it| Ok(if it.is_nullable() { "Nullable" } else { "NonNullable" }.to_owned());
    Bytes: |it| Ok(format!("0x{}", it.0.iter().map(|byte| format!("{byte:02x}")).collect::<String>()));
    &FieldName: |it| Ok(name(it.as_ref()));
    &FieldNames: |it| joined(it.iter(), ",");
    &Field: |it| Ok(it.as_name().map_or("[]".to_owned(), name));
    &FieldPath: |it| if it.is_root() { Ok(".".to_owned()) } else { joined(it.parts(), ".") };
    &FieldMask: |it| Ok(match it {
        FieldMask::All => "all".to_owned(),
        FieldMask::Prefix(of) => format!("prefix {}", of.told()?),
        FieldMask::Exact(of) => format!("exact {}", of.told()?),
    });
    &Arc<DType>: |it| it.as_ref().told();
    // What a type of one kind holds is told as that type.
    &StructFields: |it| DType::Struct(it.clone(), Nullability::NonNullable).told();
    &UnionVariants: |it| DType::Union(it.clone(), Nullability::NonNullable).told();
    &MapDType: |it| DType::Map(it.clone(), Nullability::NonNullable).told();
    &ExtDTypeRef: |it| DType::Extension(it.clone()).told();
    DType, Arc<DType>, DecimalDType, Field, FieldMask, FieldName, FieldNames, FieldPath: |it| (&it).told();
    StructFields, UnionVariants, MapDType, ExtDTypeRef: |it| (&it).told();
}

/// Items with a text between them.
pub fn joined(items: impl IntoIterator<Item = impl Told>, between: &str) -> Answer {
    let items = items.into_iter().map(Told::told).collect::<Answer<Vec<String>>>()?;
    Ok(if items.is_empty() { "-".to_owned() } else { items.join(between) })
}

/// A text in quotes.
fn quoted(text: &str) -> String {
    let one = |sign: char| match sign {
        '\\' | '"' => format!("\\{sign}"),
        '\t' => "\\t".to_owned(),
        '\n' => "\\n".to_owned(),
        '\r' => "\\r".to_owned(),
        '\0'..' ' | '\x7f' => format!("\\x{:02x}", sign as u32),
        _ => sign.to_string(),
    };
    format!("\"{}\"", text.chars().map(one).collect::<String>())
}

/// A name, or where dots may stand in it an id: bare where it can be.
fn bare_or_quoted(text: &str, dots: bool) -> String {
    let is_bare = |sign: char| is_bare(sign) && !is_special(sign) || dots && sign == '.';
    let is_plain = !text.is_empty() && text.chars().all(is_bare);
    if is_plain { text.to_owned() } else { quoted(text) }
}

pub fn name(text: &str) -> String {
    bare_or_quoted(text, false)
}

fn id(extension: &ExtDTypeRef) -> String {
    bare_or_quoted(extension.id().as_ref(), true)
}

impl Told for &DType {
    fn told(self) -> Answer {
        let text = match self {
            DType::List(element, _) => format!("list({})", element.told()?),
            DType::FixedSizeList(element, size, _) => format!("fixed_size_list({})[{size}]", element.told()?),
            DType::Map(map, _) => {
                let (key, value) = (map.key_dtype().told()?, map.value_dtype().told()?);
                format!("map({key}, {value}, keys_sorted={})", map.keys_sorted())
            }
            DType::Struct(fields, _) => format!("{{{}}}", parts(fields.names(), fields.fields(), |_| String::new())?),
            DType::Union(it, _) => {
                let tag =
                    |at: usize| if it.is_consecutive() { String::new() } else { format!("@{}", it.type_ids()[at]) };
                format!("union({})", parts(it.names(), it.variants(), tag)?)
            }
            DType::Extension(it) => {
                let metadata = Bytes(it.serialize_metadata()?).told()?;
                return Ok(format!("{}[{metadata}]({})", id(it), it.storage_dtype().told()?));
            }
            _ => return Ok(self.to_string()),
        };
        Ok(text + if self.is_nullable() { "?" } else { "" })
    }
}

/// Named types with commas between them, and what stands behind the name at each place.
fn parts(names: &FieldNames, types: impl Iterator<Item = DType>, behind: impl Fn(usize) -> String) -> Answer {
    let part =
        |(at, (of, dtype)): (usize, (&FieldName, DType))| Ok(format!("{}{}={}", of.told()?, behind(at), dtype.told()?));
    Ok(names.iter().zip(types).enumerate().map(part).collect::<Answer<Vec<_>>>()?.join(", "))
}
