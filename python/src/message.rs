// SPDX-License-Identifier: Apache-2.0
// SPDX-FileCopyrightText: Copyright the Vortex contributors

use crate::arguments::{bytes, flag, items, wrong, Optional, LEFT_OUT};
use crate::c_nodes::{self, Node};
use crate::errors::{Failure, Made};
use crate::imported::{FLAT_MESSAGE, NODE, NODES_OF};
use pyo3::basic::CompareOp;
use pyo3::prelude::*;
use pyo3::types::{PyBytes, PyType};
use pyo3::PyTypeInfo;
use vortex_logical_types::{pb, DType, DTypeSession};

/// The number of bytes of a node, of which `Node` describes the layout.
const NODE_SIZE: usize = 28;

/// The message of a type. `to_proto` of a type returns one, and `Message(nodes, texts)` makes one of its nodes and of
/// the bytes of their texts. Use it in a program that has decoded the bytes of a message by itself. For example, this
/// is the message of a struct with one name, a text of two bytes, and one type, the primitive type 3:
///
/// >>> nodes = [Node(kind=10, names=1, types=1), Node(kind=14, number=2), Node(kind=3, value=3)]
/// >>> message = Message(nodes, b"id")
/// >>> DType.from_proto(message), message == DType("{id=u64}").to_proto()
/// (DType('{id=u64}'), True)
///
/// Raises `LibraryError`: `NOT_UTF8` if a name or an id isn't UTF-8, `TOO_DEEP` if a message is nested in more than 128
/// others, and `OUT_OF_RANGE` if a node isn't one that a message has at its place, if nodes or bytes end too early, or
/// if some are left. The first fault that is met in the order of the nodes is raised.
#[pyclass(frozen, subclass, weakref, module = "vortex_logical_types")]
#[pyo3(text_signature = "(nodes, texts)")]
pub struct Message {
    pub message: pb::DType,
}

impl From<pb::DType> for Message {
    fn from(message: pb::DType) -> Self {
        Message { message }
    }
}

/// Returns a session without plugins.
pub fn session(allow_unknown: Optional<'_>) -> PyResult<DTypeSession> {
    let mut session = DTypeSession::new();
    if flag(allow_unknown, "allow_unknown")? {
        session.allow_unknown();
    }
    Ok(session)
}

/// Returns the node with these bytes.
fn node_of(bytes: &[u8]) -> Node {
    let four = |at: usize| u32::from_le_bytes([bytes[at], bytes[at + 1], bytes[at + 2], bytes[at + 3]]);
    Node {
        kind: four(0),
        nullable: bytes[4],
        keys_sorted: bytes[5],
        has_first: bytes[6],
        has_second: bytes[7],
        names: four(8),
        tags: four(12),
        types: four(16),
        number: four(20),
        value: four(24) as i32,
    }
}

/// Returns the bytes of a node.
fn bytes_of(node: &Node) -> [u8; NODE_SIZE] {
    let mut bytes = [0; NODE_SIZE];
    bytes[..4].copy_from_slice(&node.kind.to_le_bytes());
    bytes[4..8].copy_from_slice(&[node.nullable, node.keys_sorted, node.has_first, node.has_second]);
    let rest = [node.names, node.tags, node.types, node.number, node.value as u32];
    for (part, number) in bytes[8..].chunks_exact_mut(4).zip(rest) {
        part.copy_from_slice(&number.to_le_bytes());
    }
    bytes
}

/// Returns the message of nodes and texts.
fn message_of(nodes: &[u8], texts: &[u8]) -> Made<Message> {
    if nodes.len() % NODE_SIZE != 0 {
        return Err(Failure::out_of_range(format!(
            "expected nodes of {NODE_SIZE} bytes each, found {} bytes",
            nodes.len()
        )));
    }
    let nodes: Vec<Node> = nodes.chunks_exact(NODE_SIZE).map(node_of).collect();
    Ok(c_nodes::message_of(&nodes, texts)?.into())
}

impl Message {
    /// Returns the nodes as a list.
    fn nodes<'p>(&self, py: Python<'p>) -> Made<&'p PyAny> {
        Ok(NODES_OF.get(py)?.call1((self.to_flat(py)?.getattr("nodes")?,))?)
    }
}

#[pymethods]
impl Message {
    #[new]
    fn new(nodes: &PyAny, texts: &PyAny) -> Made<Self> {
        let mut given = Vec::new();
        for (at, node) in items(nodes, "nodes", "Node")?.enumerate() {
            let node = node?;
            if !NODE.is_class_of(node)? {
                return Err(wrong(format_args!("nodes[{at}]"), "a Node", node).into());
            }
            given.extend_from_slice(node.call_method0("__bytes__")?.extract()?);
        }
        message_of(&given, bytes(texts, "texts")?)
    }

    /// Returns the message that the nodes and the bytes of the texts describe, as `Message(nodes, texts)` does, with
    /// the same errors.
    #[classmethod]
    #[pyo3(text_signature = "(nodes, texts)")]
    fn from_nodes<'p>(cls: &'p PyType, nodes: &PyAny, texts: &PyAny) -> PyResult<&'p PyAny> {
        cls.call1((nodes, texts))
    }

    /// Returns the message that this flat form describes. Raises the same errors as `from_nodes`, and `LibraryError`
    /// (`OUT_OF_RANGE`) if `flat.nodes` isn't a whole number of nodes, each of which has 28 bytes.
    #[classmethod]
    #[pyo3(text_signature = "(flat)")]
    fn from_flat(cls: &PyType, flat: &PyAny) -> Made<PyObject> {
        if !FLAT_MESSAGE.is_class_of(flat)? {
            return Err(wrong("flat", "a FlatMessage", flat).into());
        }
        let (nodes, texts) = (bytes(flat.getattr("nodes")?, "flat.nodes")?, flat.getattr("texts")?);
        let message = message_of(nodes, bytes(texts, "flat.texts")?)?;
        match cls.is(Message::type_object(flat.py())) {
            true => Ok(message.into_py(flat.py())),
            false => Ok(cls.call1((message.nodes(flat.py())?, texts))?.into()),
        }
    }

    /// Returns the flat form of the message. `Message.from_flat` makes the same message of it. Raises `LibraryError`:
    /// `TOO_DEEP` if a message is nested in more than 128 others, and otherwise `OUT_OF_RANGE` if a number of names,
    /// tags, types or bytes of a text is above 2**32 - 1.
    #[pyo3(text_signature = "($self)")]
    fn to_flat<'p>(&self, py: Python<'p>) -> Made<&'p PyAny> {
        let (nodes, texts) = c_nodes::nodes_of(&self.message)?;
        let nodes: Vec<u8> = nodes.iter().flat_map(bytes_of).collect();
        Ok(FLAT_MESSAGE.get(py)?.call1((PyBytes::new(py, &nodes), PyBytes::new(py, &texts)))?)
    }

    /// Returns the normal form of the message. If a message describes a type, its normal form is the message that
    /// `to_proto` returns for this type. It has every child, flag and number, and the metadata of each extension, even
    /// if the metadata is empty. `allow_unknown` and the errors are those of `DType.from_proto`.
    ///
    /// For example, this extension has no metadata, and its normal form has metadata of no bytes:
    ///
    /// >>> message = Message([Node(kind=13, has_first=1), Node(kind=14, number=5), Node(kind=5)], b"x.tag")
    /// >>> message.normal(allow_unknown=True)
    /// Message([Node(kind=13, has_first=1, has_second=1), Node(kind=14, number=5), Node(kind=14), Node(kind=5)], b'x.tag')
    #[args(allow_unknown = "LEFT_OUT")]
    #[pyo3(text_signature = "($self, allow_unknown=False)")]
    fn normal(&self, allow_unknown: Optional<'_>) -> Made<Self> {
        Ok(DType::from_proto(&self.message, &session(allow_unknown)?)?.try_to_proto()?.into())
    }

    fn __richcmp__(&self, py: Python<'_>, other: PyRef<'_, Self>, op: CompareOp) -> PyObject {
        match op {
            CompareOp::Eq => (self.message == other.message).into_py(py),
            CompareOp::Ne => (self.message != other.message).into_py(py),
            _ => py.NotImplemented(),
        }
    }

    fn __hash__(&self, py: Python<'_>) -> Made<isize> {
        Ok(self.to_flat(py)?.hash()?)
    }

    fn __repr__(&self, py: Python<'_>) -> Made<String> {
        let (_, texts) = c_nodes::nodes_of(&self.message)?;
        Ok(format!("Message({}, {})", self.nodes(py)?.repr()?, PyBytes::new(py, &texts).repr()?))
    }
}
