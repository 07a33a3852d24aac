// SPDX-License-Identifier: Apache-2.0
// SPDX-FileCopyrightText: Copyright the Vortex contributors

//! Types from and to Arrow, by Arrow's C data interface. This module needs the feature `arrow`.
//!
//! [`DType::from_arrow`] returns the type of an Arrow field, and [`DType::to_arrow`] an Arrow field for a type. A table's
//! schema is a field whose type is a struct of the columns. The struct that passes a field, [`ArrowSchema`], is laid out as
//! in C, so each library that has the same struct under another name can exchange it with this one by a cast of the
//! pointer. For example, `arrow-rs` calls it `arrow::ffi::FFI_ArrowSchema`:
//!
//! ```ignore
//! use arrow::datatypes::Schema;
//! use arrow::ffi::FFI_ArrowSchema;
//! use vortex_logical_types::{DType, arrow::ArrowSchema};
//!
//! fn from_arrow_rs(schema: &Schema) -> Result<DType, Box<dyn std::error::Error>> {
//!     let mut exported = FFI_ArrowSchema::try_from(schema)?;
//!     // SAFETY: `exported` is a struct of the C data interface, which is moved out and isn't used again.
//!     let moved = unsafe { ArrowSchema::from_raw((&raw mut exported).cast()) };
//!     Ok(DType::from_arrow(&moved)?)
//! }
//! ```
//!
//! # Which type is which
//!
//! A type is nullable if its field is. Arrow marks most fields as nullable, so the type of a column of integers is usually
//! `i32?`.
//!
//! | Arrow | Type | Written as |
//! |---|---|---|
//! | null | `null` | the same |
//! | bool, integers, floating-point numbers | `bool`, `u8` to `u64`, `i8` to `i64`, `f16` to `f64` | the same |
//! | utf8, large utf8, utf8 view | `utf8` | utf8 |
//! | binary, large binary, binary view | `binary` | binary |
//! | fixed-size binary | `fixed_size_list(u8)[N]` | the same |
//! | decimals of 32, 64, 128 and 256 bits | `decimal(P,S)` | 128 bits up to 38 digits, and 256 bits otherwise |
//! | list, large list, list view, large list view | `list` | list |
//! | fixed-size list | `fixed_size_list` | the same, or fixed-size binary if the elements are bytes that can't be null |
//! | struct, map | `struct`, `map` | the same |
//! | dense and sparse union | `union`, with the type ids as tags | sparse union |
//! | dictionary | the type of the values, which is nullable if the field is | that type |
//! | run-end encoded | the type of the values, which is nullable if it or the field is | that type |
//! | date, time, timestamp | those of the module [`time`](crate::time) | the same |
//! | duration | the extension `arrow.duration` over `i64`, with Arrow's format as its metadata | the same |
//! | interval | the extension `arrow.interval` over `i32`, or over as many bytes as a value has, with Arrow's format as its metadata | the same |
//! | a field with an extension name | an extension over the type of the field | the same |
//!
//! So a type that is read from a view, a large type, a dictionary or a run-end encoded type is written as a plain one, and
//! a dense union as a sparse one. The names of the fields inside lists and maps are lost. What is written is read back as
//! the same type.
//!
//! What is lost can be taken from another schema: [`DType::to_arrow_like`] writes a type in the forms of that schema.
//!
//! A type has no metadata. [`DType::from_arrow_with_metadata`] returns the metadata of the fields beside the type, and
//! [`DType::to_arrow_with_metadata`] writes a type with metadata.
//!
//! Other formats can't be read, and neither can decimals whose scale is above their precision. These types can't be
//! written: `variant`, an extension over an extension (unless the inner one is a date, a time, a timestamp, a duration or an
//! interval), a union with a tag above 127, a fixed-size list longer than 2^31 - 1, and a name, an id or a time zone with a
//! zero byte.
//!
//! What a format means is proved. The walk through the structs of C, which is in this file, is tested.

pub use crate::arrow_metadata::FieldMetadata;

use crate::arrow_forms::formed;
use crate::arrow_metadata::{Flat, metadata_of, with_metadata};
use crate::c_arrow::{ArrowFault, ArrowNode, Column, are_read_as, dtype_of, nodes_of};
use crate::dtype_types::DType;
use crate::rattle_std::alloc::AllocError;
use crate::rattle_std::{boxed, string};
use crate::{Error, VortexError, fallible};
use std::ffi::{CStr, c_char, c_void};
use std::{fmt, ptr, slice};

// How many fields may be inside one another, how many there may be in all, and how many bytes their texts may have. A field
// that has two parents counts twice, and so do its texts, so the numbers also bound the time that a walk takes.
const MOST_NESTED: usize = 300;
const MOST_FIELDS: usize = 1 << 24;
const MOST_BYTES: usize = 1 << 31;

// What can be wrong with a struct, so that nothing more of it is read: the numbers of `ArrowNode::fault`.
const NO_FAULT: u32 = 0;
const RELEASED: u32 = 1;
const NO_FORMAT: u32 = 2;
const NO_CHILD: u32 = 3;
const WRONG_COUNT: u32 = 4;
const TOO_NESTED: u32 = 5;
const TOO_MANY: u32 = 6;

const NO_NODE: ArrowNode = ArrowNode {
    flags: 0,
    format_length: 0,
    name_length: 0,
    metadata_length: 0,
    child_count: 0,
    has_dictionary: 0,
    fault: NO_FAULT,
};

/// A field of Arrow, as the C data interface passes it: the type of a table or of a column. It is laid out as
/// `struct ArrowSchema` in C. Dropping it calls its `release`, unless it was released or moved out before.
///
/// ```
/// use vortex_logical_types::{DType, arrow::ArrowSchema};
///
/// let orders: DType = "{id=u64, city=utf8?, paid=vortex.date[0x04](i32)}".parse()?;
/// let schema: ArrowSchema = orders.to_arrow()?;
/// assert_eq!(DType::from_arrow(&schema)?, orders);
/// # Ok::<(), vortex_logical_types::Error>(())
/// ```
// (A value that wasn't released was filled by a producer, as the caller of `from_raw` or who passes `&raw mut` to C promises,
// or by `made`. So its pointers are those that the C data interface describes.)
#[repr(C)]
pub struct ArrowSchema {
    format: *const c_char,
    name: *const c_char,
    metadata: *const c_char,
    flags: i64,
    n_children: i64,
    children: *mut *mut ArrowSchema,
    dictionary: *mut ArrowSchema,
    release: Option<unsafe extern "C" fn(*mut ArrowSchema)>,
    private_data: *mut c_void,
}

// SAFETY: the C data interface lets a consumer move a struct to another thread and release it there. (It doesn't let two
// threads read one at the same time, so the type isn't `Sync`.)
unsafe impl Send for ArrowSchema {}

impl ArrowSchema {
    /// Returns a struct that has been released. C code may fill it by the pointer `&raw mut schema`.
    #[must_use]
    pub const fn empty() -> Self {
        Self {
            format: ptr::null(),
            name: ptr::null(),
            metadata: ptr::null(),
            flags: 0,
            n_children: 0,
            children: ptr::null_mut(),
            dictionary: ptr::null_mut(),
            release: None,
            private_data: ptr::null_mut(),
        }
    }

    /// Returns the struct, moved out of the place that `schema` points to. The struct there has been released afterwards, so
    /// its owner must not use it again, but has to free its memory if it was allocated.
    ///
    /// # Safety
    ///
    /// `schema` is valid for reads and writes, it is aligned, and it points to a struct of the C data interface: one that was
    /// released, or one that a producer filled and of which no copy is used.
    #[must_use]
    pub unsafe fn from_raw(schema: *mut Self) -> Self {
        // SAFETY: the caller says so.
        unsafe { ptr::replace(schema, Self::empty()) }
    }

    /// Returns a pointer to the struct, which isn't dropped any more. The caller must release the struct and free its memory,
    /// which is that of a [`Box`].
    ///
    /// A consumer moves the struct out and marks it as released where it was. Then only the memory is left, which
    /// [`Box::from_raw`] frees. A program that has the struct in a variable can pass `&raw mut schema` instead, which
    /// allocates nothing.
    ///
    /// ```
    /// use vortex_logical_types::{DType, arrow::ArrowSchema};
    ///
    /// let raw: *mut ArrowSchema = "i32?".parse::<DType>()?.to_arrow()?.into_raw();
    /// // A consumer in C, or `arrow::ffi::FFI_ArrowSchema::from_raw(raw.cast())`, would do this:
    /// let moved = unsafe { ArrowSchema::from_raw(raw) };
    /// // The memory is left.
    /// drop(unsafe { Box::from_raw(raw) });
    /// assert_eq!(DType::from_arrow(&moved)?.to_source(), "i32?");
    /// # Ok::<(), vortex_logical_types::Error>(())
    /// ```
    #[must_use]
    pub fn into_raw(self) -> *mut Self {
        Box::into_raw(Box::new(self))
    }

    /// Returns whether the struct has been released, or moved out. Then it has no type.
    #[must_use]
    pub fn is_released(&self) -> bool {
        self.release.is_none()
    }

    /// Returns a copy of the struct with all that is in it, which owns what it points to.
    ///
    /// # Errors
    ///
    /// Those of [`DType::from_arrow`]: only a struct with a type is copied.
    pub fn try_clone(&self) -> Result<Self, Error> {
        let flat = flat_of(self)?;
        dtype_of(&flat.0, &flat.1).map_err(error_of)?;
        schema_of(&flat)
    }

    // Returns the bytes of the format and of the name, and nothing for a pointer that is null. The struct wasn't released.
    fn texts(&self) -> [&[u8]; 2] {
        [self.format, self.name].map(|text| match text.is_null() {
            true => &[][..],
            // SAFETY: the struct wasn't released, so its texts are ended by a zero byte, and live as long as it does.
            false => unsafe { CStr::from_ptr(text) }.to_bytes(),
        })
    }

    // Returns the bytes of the metadata, or `None` if a number in them is negative. Metadata is a number of pairs, and then for
    // each pair a number and so many bytes of its key, and the same of its value. The struct wasn't released.
    fn metadata(&self) -> Option<&[u8]> {
        if self.metadata.is_null() {
            return Some(&[]);
        }
        let number = |at: usize| {
            // SAFETY: the struct wasn't released, so there are as many bytes as the numbers before this one say.
            let number = unsafe { self.metadata.add(at).cast::<i32>().read_unaligned() };
            usize::try_from(number).ok()
        };
        let mut length = 4;
        for _ in 0..2 * number(0)? {
            length += 4 + number(length)?;
        }
        // SAFETY: as above, and the bytes live as long as the struct does.
        Some(unsafe { slice::from_raw_parts(self.metadata.cast(), length) })
    }

    // Returns the pointers to the children. `fault_of` found that they can be read.
    fn children(&self) -> &[*mut ArrowSchema] {
        match usize::try_from(self.n_children) {
            // SAFETY: the struct wasn't released, the array isn't null, and it has so many pointers, which live as long.
            Ok(count) if count > 0 => unsafe { slice::from_raw_parts(self.children, count) },
            _ => &[],
        }
    }
}

impl Drop for ArrowSchema {
    fn drop(&mut self) {
        if let Some(release) = self.release {
            // SAFETY: the struct hasn't been released, and nothing uses it any more.
            unsafe { release(self) }
        }
    }
}

/// Writes whether the struct was released.
impl fmt::Debug for ArrowSchema {
    fn fmt(&self, f: &mut fmt::Formatter<'_>) -> fmt::Result {
        let mut shown = f.debug_struct("ArrowSchema");
        shown
            .field("is_released", &self.is_released())
            .finish_non_exhaustive()
    }
}

impl Default for ArrowSchema {
    fn default() -> Self {
        Self::empty()
    }
}

// The nodes and the texts of the fields that were walked.
#[derive(Default)]
struct Walk {
    nodes: fallible::Vec<ArrowNode>,
    texts: fallible::Vec<u8>,
}

impl Walk {
    // Walks through a field and all that is in it, in pre-order: the field, its children, its dictionary. It is inside of
    // `around` others. Returns the first fault, whose node is the last one.
    fn through(&mut self, field: &ArrowSchema, around: usize) -> Result<u32, AllocError> {
        let node = self.field(field, around)?;
        if node.fault != NO_FAULT {
            return Ok(node.fault);
        }
        let dictionary = [field.dictionary];
        let parts = field
            .children()
            .iter()
            .chain(dictionary.iter().filter(|it| !it.is_null()));
        for part in parts {
            // SAFETY: the field wasn't released, and the pointer isn't null. A part lives as long as its parent.
            let fault = self.through(unsafe { &**part }, around + 1)?;
            if fault != NO_FAULT {
                return Ok(fault);
            }
        }
        Ok(NO_FAULT)
    }

    // Appends the node of a field, and its texts. Of a field that was released nothing else is read.
    fn field(&mut self, field: &ArrowSchema, around: usize) -> Result<ArrowNode, AllocError> {
        let mut node = NO_NODE;
        node.fault = fault_of(field, around, self.nodes.len());
        let mut texts = [&[][..]; 3];
        if node.fault != RELEASED {
            [texts[0], texts[1]] = field.texts();
            node.flags = u64::from_ne_bytes(field.flags.to_ne_bytes());
        }
        if node.fault == NO_FAULT {
            match field.metadata() {
                Some(metadata) => texts[2] = metadata,
                None => node.fault = WRONG_COUNT,
            }
        }
        let room = MOST_BYTES - self.texts.len();
        if texts.iter().map(|text| text.len()).sum::<usize>() > room {
            node.fault = WRONG_COUNT;
            texts = [&[]; 3];
        }
        [node.format_length, node.name_length, node.metadata_length] = texts.map(<[u8]>::len);
        if node.fault == NO_FAULT {
            node.child_count = field.children().len();
            node.has_dictionary = u32::from(!field.dictionary.is_null());
        }
        self.nodes.push(node)?;
        for text in texts {
            self.texts.extend_from_slice(text)?;
        }
        Ok(node)
    }
}

// Returns what is wrong with a field. It is inside of `around` others, and `before` fields were counted before it. The
// children are bounded before a pointer to one of them is read.
fn fault_of(field: &ArrowSchema, around: usize, before: usize) -> u32 {
    if field.release.is_none() {
        return RELEASED;
    }
    if field.format.is_null() {
        return NO_FORMAT;
    }
    if around >= MOST_NESTED {
        return TOO_NESTED;
    }
    let most = isize::MAX.unsigned_abs() / size_of::<*mut ArrowSchema>();
    let Some(count) = usize::try_from(field.n_children)
        .ok()
        .filter(|count| *count <= most)
    else {
        return WRONG_COUNT;
    };
    if before >= MOST_FIELDS || count > MOST_FIELDS - 1 - before {
        return TOO_MANY;
    }
    let is_missing =
        count > 0 && (field.children.is_null() || field.children().iter().any(|it| it.is_null()));
    if is_missing { NO_CHILD } else { NO_FAULT }
}

// What a struct that is made here owns. Its pointers point into this, so nothing here moves until it is released. Its
// parts, which are its children and then the values of its dictionary, and their own blocks are released by their `Drop`, unless
// they were moved out.
struct Owned {
    format: fallible::Vec<u8>,
    name: fallible::Vec<u8>,
    metadata: fallible::Vec<u8>,
    parts: fallible::Vec<ArrowSchema>,
    pointers: fallible::Vec<*mut ArrowSchema>,
}

// The `release` of a struct that is made here.
unsafe extern "C" fn release(schema: *mut ArrowSchema) {
    // SAFETY: who releases a struct passes a pointer to it, and does so once. `made` made its block.
    let owned = unsafe {
        (*schema).release = None;
        Box::from_raw((*schema).private_data.cast::<Owned>())
    };
    drop(owned);
}

// Makes the struct of the node that is next, with all that is in it, and moves both behind it. (Each node counts what
// follows.)
fn made(
    nodes: &mut slice::Iter<'_, ArrowNode>,
    texts: &mut &[u8],
) -> Result<ArrowSchema, AllocError> {
    let Some(node) = nodes.next() else {
        unreachable!("each node that is counted follows");
    };
    let mut next = |length: usize, ends_with_zero: bool| {
        let (text, behind) = texts.split_at(length);
        *texts = behind;
        let mut copy = fallible::Vec::with_capacity(length + 1)?;
        copy.extend_from_slice(text)?;
        if ends_with_zero {
            copy.push(0)?;
        }
        Ok::<_, AllocError>(copy)
    };
    let format = next(node.format_length, true)?;
    let name = next(node.name_length, true)?;
    let metadata = next(node.metadata_length, false)?;
    let count = node.child_count + usize::from(node.has_dictionary != 0);
    let mut parts = fallible::Vec::with_capacity(count)?;
    for _ in 0..count {
        parts.push(made(nodes, texts)?)?;
    }
    let pointers = fallible::Vec::with_capacity(node.child_count)?;
    let mut owned = boxed::new(Owned {
        format,
        name,
        metadata,
        parts,
        pointers,
    })?;
    for child in 0..node.child_count {
        let child = &raw mut owned.parts[child];
        owned.pointers.push(child)?;
    }
    Ok(filled(node, owned))
}

// Fills the struct of a node with what it owns.
fn filled(node: &ArrowNode, mut owned: Box<Owned>) -> ArrowSchema {
    let metadata = if owned.metadata.is_empty() {
        ptr::null()
    } else {
        owned.metadata.as_ptr().cast()
    };
    let children = if owned.pointers.is_empty() {
        ptr::null_mut()
    } else {
        owned.pointers.as_mut_ptr()
    };
    let dictionary = match owned.parts.get_mut(node.child_count) {
        Some(values) => ptr::from_mut(values),
        None => ptr::null_mut(),
    };
    ArrowSchema {
        format: owned.format.as_ptr().cast(),
        name: owned.name.as_ptr().cast(),
        metadata,
        flags: i64::from_ne_bytes(node.flags.to_ne_bytes()),
        n_children: i64::try_from(node.child_count).unwrap_or(i64::MAX),
        children,
        dictionary,
        release: Some(release),
        private_data: Box::into_raw(owned).cast(),
    }
}

// Returns the error of a fault.
fn error_of(fault: ArrowFault) -> Error {
    told(fault).unwrap_or_else(|AllocError| VortexError::OutOfMemory.into())
}

// Returns the same, or fails if there is no memory for it.
fn told(fault: ArrowFault) -> Result<Error, AllocError> {
    match fault {
        ArrowFault::OutOfMemory => Err(AllocError),
        ArrowFault::OutOfRange => {
            unreachable!("a walk stores each field that is counted, and nothing else")
        }
        ArrowFault::TooDeep(column) => {
            let text = "nested more than 128 levels deep";
            told_of(&column, text, Error::TooDeep { position: None })
        }
        ArrowFault::Library(column, error) => {
            let text = string::format(format_args!("{error}"))?;
            told_of(&column, &text, error.into())
        }
        ArrowFault::Refused(refusal) => Ok(Error::Arrow {
            message: refusal.message()?.into(),
        }),
    }
}

// Returns the error about the type of a field, which has this text.
fn told_of(column: &Column, text: &str, error: Error) -> Result<Error, AllocError> {
    Ok(Error::ArrowField {
        message: column.message(text)?.into(),
        error: boxed::new(error)?,
    })
}

impl DType {
    /// Returns the type of an Arrow field, whose name is ignored. The type of a table is the one of its schema, which is a
    /// struct of the columns. A type is nullable if its field has the flag for that. The module [`arrow`](crate::arrow) lists
    /// which Arrow type is which.
    ///
    /// # Errors
    ///
    /// - `Arrow`: the struct was released, or isn't a field, or a field in it has no type here. The text of the error begins
    ///   with the path of the field and has its format, for example
    ///   `column "a.item": the Arrow format "tdX" has no type here`.
    /// - `ArrowField`: the type of a field has more than 128 levels, so the kind of the error is `TooDeep`, or the library
    ///   refuses it. Then the kind is one of those with the numbers 1 to 4 (`DecimalDType::try_new`), `MapKeyNullable` (9),
    ///   or one of those with the numbers 11, 12, 13 and 15 (`UnionVariants::try_new`). The text of the error begins with
    ///   the path of the field, for example `column "m": map key dtype must be non-nullable`.
    /// - `OutOfMemory` (0): an allocation fails.
    pub fn from_arrow(schema: &ArrowSchema) -> Result<Self, Error> {
        let (nodes, texts) = flat_of(schema)?;
        dtype_of(&nodes, &texts).map_err(error_of)
    }

    /// Returns the type of an Arrow field, as [`DType::from_arrow`] does, and the metadata of the field and of all fields in it,
    /// in the order of the fields. A type itself has no metadata.
    ///
    /// The two keys that make an extension type of a field (`ARROW:extension:name` and `ARROW:extension:metadata`) aren't in
    /// the list, because they are in the type. Metadata of what is no field of the type isn't read: that of the values of a
    /// dictionary or of a run-end encoded type, that of run ends, and that of a field of a struct in which an earlier field has
    /// the same name.
    ///
    /// ```
    /// use vortex_logical_types::{DType, arrow::FieldMetadata};
    ///
    /// let orders: DType = "{id=u64, city=utf8?}".parse()?;
    /// let about_city = FieldMetadata {
    ///     path: vec!["city".to_owned()],
    ///     key: b"PARQUET:field_id".to_vec(),
    ///     value: b"2".to_vec(),
    /// };
    /// let schema = orders.to_arrow_with_metadata(&[about_city.clone()])?;
    /// assert_eq!(DType::from_arrow_with_metadata(&schema)?, (orders, vec![about_city]));
    /// # Ok::<(), vortex_logical_types::Error>(())
    /// ```
    ///
    /// # Errors
    ///
    /// Those of [`DType::from_arrow`], and `Arrow` if the list would take more than 2^31 bytes of memory. (Each key has the whole path of its
    /// field, so the list may be much larger than the schema.)
    pub fn from_arrow_with_metadata(
        schema: &ArrowSchema,
    ) -> Result<(Self, Vec<FieldMetadata>), Error> {
        let (nodes, texts) = flat_of(schema)?;
        let dtype = dtype_of(&nodes, &texts).map_err(error_of)?;
        Ok((dtype, metadata_of(&nodes, &texts)?))
    }

    /// Returns the type as an Arrow field with an empty name. [`DType::from_arrow`] returns the same type for it.
    ///
    /// # Errors
    ///
    /// - `Arrow`: a part of the type can't be written. The text of the error begins with the path of the part. The module
    ///   [`arrow`](crate::arrow) lists which types can't be written.
    /// - `ArrowField`, whose kind is `TooDeep`: the type has more than 128 levels.
    /// - `OutOfMemory` (0): an allocation fails.
    pub fn to_arrow(&self) -> Result<ArrowSchema, Error> {
        schema_of(&nodes_of(self).map_err(error_of)?)
    }

    /// Returns the type as an Arrow field, as [`DType::to_arrow`] does, with metadata. The keys of a field stand in the order of
    /// the list, behind those of an extension type. [`DType::from_arrow_with_metadata`] returns the same type and the same list,
    /// if the list has the order of the fields.
    ///
    /// # Errors
    ///
    /// - Those of [`DType::to_arrow`].
    /// - `Arrow`: a path leads to no field, a key is one of the two keys of extension types, or a key or a value has more than
    ///   2^31 - 1 bytes. The text of the error begins with the path.
    pub fn to_arrow_with_metadata(&self, metadata: &[FieldMetadata]) -> Result<ArrowSchema, Error> {
        let flat = nodes_of(self).map_err(error_of)?;
        schema_of(&with_metadata(&flat, metadata)?)
    }

    /// Returns the type as an Arrow field with metadata, as [`DType::to_arrow_with_metadata`] does, and in the forms of another
    /// field. A form is what is lost when a type is read: large and view types, list views, the width of a decimal, whether a
    /// union is dense, dictionaries, run ends, whether bytes of one length are a list, and the names of the fields inside lists
    /// and maps.
    ///
    /// A part of the type has the form that the original has at the same path, if it has the same type there, without regard of
    /// nullabilities and of what is in it. Fields of structs and variants of unions are found by their names. All other parts
    /// have the form in which [`DType::to_arrow`] writes them.
    ///
    /// [`DType::from_arrow`] returns the same type for the field, and so it does if the original has another type.
    ///
    /// ```
    /// use vortex_logical_types::{DType, FieldPath, FieldPathSet, arrow::ArrowSchema};
    ///
    /// // A program that reads some columns of a table writes their schema in the forms of the table.
    /// fn projected(table: &ArrowSchema, columns: &[&str]) -> Result<ArrowSchema, Box<dyn std::error::Error>> {
    ///     let (schema, metadata) = DType::from_arrow_with_metadata(table)?;
    ///     let wanted: FieldPathSet = columns.iter().map(|it| it.parse::<FieldPath>()).collect::<Result<_, _>>()?;
    ///     let projected = schema.project_paths(&wanted).ok_or("no such column")?;
    ///     let kept: Vec<_> = metadata
    ///         .into_iter()
    ///         .filter(|it| it.path.first().is_none_or(|name| columns.contains(&name.as_str())))
    ///         .collect();
    ///     Ok(projected.to_arrow_like(table, &kept)?)
    /// }
    /// # let table = "{id=u64, city=utf8?}".parse::<DType>()?.to_arrow()?;
    /// # assert_eq!(DType::from_arrow(&projected(&table, &["city"])?)?, "{city=utf8?}".parse()?);
    /// # Ok::<(), Box<dyn std::error::Error>>(())
    /// ```
    ///
    /// # Errors
    ///
    /// Those of [`DType::to_arrow_with_metadata`], and those of [`DType::from_arrow`] for the original.
    pub fn to_arrow_like(
        &self,
        original: &ArrowSchema,
        metadata: &[FieldMetadata],
    ) -> Result<ArrowSchema, Error> {
        let out_of_memory = |_| Error::from(VortexError::OutOfMemory);
        let plain = with_metadata(&nodes_of(self).map_err(error_of)?, metadata)?;
        let forms = flat_of(original)?;
        dtype_of(&forms.0, &forms.1).map_err(error_of)?;
        let formed = formed(&plain, &forms).map_err(out_of_memory)?;
        // (It is read as the type unless more than 300 fields would be inside one another.)
        let is_read = are_read_as(self, &formed.0, &formed.1).map_err(out_of_memory)?;
        schema_of(if is_read { &formed } else { &plain })
    }
}

// Returns the nodes and the texts of a field and of all that is in it.
fn flat_of(schema: &ArrowSchema) -> Result<Flat, Error> {
    let mut walk = Walk::default();
    let fault = walk.through(schema, 0);
    if fault.map_err(|_| VortexError::OutOfMemory)? == TOO_MANY {
        let node = ArrowNode {
            fault: TOO_MANY,
            ..NO_NODE
        };
        return Ok(([node].into(), fallible::Vec::new()));
    }
    Ok((walk.nodes, walk.texts))
}

// Returns the struct of nodes and texts.
fn schema_of((nodes, texts): &Flat) -> Result<ArrowSchema, Error> {
    made(&mut nodes.iter(), &mut &**texts).map_err(|_| VortexError::OutOfMemory.into())
}

/// Returns the type of the field, as `DType::from_arrow` does.
impl TryFrom<&ArrowSchema> for DType {
    type Error = Error;

    fn try_from(schema: &ArrowSchema) -> Result<Self, Error> {
        Self::from_arrow(schema)
    }
}

/// Returns the field of the type, as `DType::to_arrow` does.
impl TryFrom<&DType> for ArrowSchema {
    type Error = Error;

    fn try_from(dtype: &DType) -> Result<Self, Error> {
        dtype.to_arrow()
    }
}
