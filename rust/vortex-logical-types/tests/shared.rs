// SPDX-License-Identifier: Apache-2.0
// SPDX-FileCopyrightText: Copyright the Vortex contributors

//! Copies of types share what they contain.

use vortex_logical_types::dtype_text::read_dtype;
use vortex_logical_types::{Arc, DType, Nullability};

fn texts() -> DType {
    DType::List(
        Arc::new(DType::Utf8(Nullability::NonNullable)),
        Nullability::Nullable,
    )
}

// The pointer to the element of a list.
fn element(list: &DType) -> Option<*const DType> {
    list.as_list_element_opt().map(std::ptr::from_ref)
}

#[test]
fn a_copy_of_a_list_shares_the_element() {
    let list = texts();
    assert_eq!(element(&list.clone()), element(&list));
    assert_eq!(
        element(&list.with_nullability(Nullability::NonNullable)),
        element(&list)
    );
    assert_ne!(element(&texts()), element(&list));
}

#[test]
fn an_element_is_taken_out_of_a_copy() {
    let list = texts();
    let element = list
        .clone()
        .into_list_element_opt()
        .map(Arc::unwrap_or_clone);
    assert_eq!(element, Some(DType::Utf8(Nullability::NonNullable)));
    assert_eq!(list, texts());
}

#[test]
fn a_copy_of_an_extension_shares_its_parts() {
    let read = read_dtype("x.tag[0x6162](list(utf8))");
    let Ok(DType::Extension(extension)) = read else {
        panic!("expected an extension, found {read:?}");
    };
    let copy = extension.clone();
    assert_eq!(
        copy.metadata_bytes().as_ptr(),
        extension.metadata_bytes().as_ptr()
    );

    // Parts that are shared are copied when they are taken out.
    let (id, metadata, storage) = copy.into_parts();
    assert_eq!((id.as_str(), &metadata[..]), ("x.tag", b"ab".as_slice()));
    assert_eq!(element(&storage), element(extension.storage_dtype()));
    assert_ne!(metadata.as_ptr(), extension.metadata_bytes().as_ptr());
    assert_eq!(extension.metadata_bytes(), b"ab");

    // Parts that nobody else has are moved.
    let at = extension.metadata_bytes().as_ptr();
    let (_, metadata, _) = extension.into_parts();
    assert_eq!(metadata.as_ptr(), at);
}
