// SPDX-License-Identifier: Apache-2.0
// SPDX-FileCopyrightText: Copyright the Vortex contributors

//! Fields of another library, as the structs of Arrow's C data interface. What they point to is never freed.

use std::ffi::{CStr, CString, c_char, c_void};
use std::ptr;
use vortex_logical_types::arrow::ArrowSchema;

/// A field: its format, its name, its flags, its metadata, its children and the values of its dictionary.
#[derive(Default)]
pub struct Field {
    pub format: String,
    pub name: String,
    pub flags: i64,
    pub pairs: Vec<(&'static str, &'static str)>,
    pub children: Vec<Field>,
    pub values: Option<Box<Field>>,
}

#[repr(C)]
struct Foreign {
    format: *const c_char,
    name: *const c_char,
    metadata: *const u8,
    flags: i64,
    n_children: i64,
    children: *mut *mut Foreign,
    dictionary: *mut Foreign,
    release: Option<unsafe extern "C" fn(*mut Foreign)>,
    private_data: *mut c_void,
}

unsafe extern "C" fn release_nothing(it: *mut Foreign) {
    unsafe { (*it).release = None };
}

impl Field {
    fn exported(self) -> *mut Foreign {
        let text = |text: String| CString::new(text).expect("no zero byte").into_raw();
        let mut metadata = Vec::new();
        let mut number = |number: usize, text: &str| {
            let number = i32::try_from(number).expect("a small number");
            metadata.extend_from_slice(&number.to_ne_bytes());
            metadata.extend_from_slice(text.as_bytes());
        };
        number(self.pairs.len(), "");
        for (key, value) in &self.pairs {
            number(key.len(), key);
            number(value.len(), value);
        }
        let children: Vec<_> = self.children.into_iter().map(Field::exported).collect();
        Box::into_raw(Box::new(Foreign {
            format: text(self.format),
            name: text(self.name),
            metadata: if self.pairs.is_empty() {
                ptr::null()
            } else {
                metadata.leak().as_ptr()
            },
            flags: self.flags,
            n_children: i64::try_from(children.len()).expect("few children"),
            children: children.leak().as_mut_ptr(),
            dictionary: self.values.map_or(ptr::null_mut(), |it| it.exported()),
            release: Some(release_nothing),
            private_data: ptr::null_mut(),
        }))
    }

    /// The struct of the field.
    pub fn schema(self) -> &'static ArrowSchema {
        unsafe { &*self.exported().cast() }
    }
}

/// A field that can't be null, with these children.
pub fn field(format: &str, name: &str, children: Vec<Field>) -> Field {
    Field {
        format: format.to_owned(),
        name: name.to_owned(),
        children,
        ..Field::default()
    }
}

/// A schema as a text: the format, the name and the flags, then the children in brackets, and the values of a dictionary
/// behind an arrow.
#[allow(dead_code, reason = "one of the tests uses it")]
pub fn shown(schema: &ArrowSchema) -> String {
    unsafe { text_of((&raw const *schema).cast()) }
}

unsafe fn text_of(it: *const Foreign) -> String {
    let it = unsafe { &*it };
    let text = |text| unsafe { CStr::from_ptr(text) }.to_string_lossy();
    let mut shown = format!("{} {} {}", text(it.format), text(it.name), it.flags);
    let count = usize::try_from(it.n_children).expect("a count");
    let children = (0..count).map(|at| unsafe { text_of(*it.children.add(at)) });
    let children = children.collect::<Vec<_>>().join("; ");
    if count > 0 {
        shown = format!("{shown} [{children}]");
    }
    if !it.dictionary.is_null() {
        let values = unsafe { text_of(it.dictionary) };
        shown = format!("{shown} -> {values}");
    }
    shown
}
