# SPDX-License-Identifier: Apache-2.0
# SPDX-FileCopyrightText: Copyright the Vortex contributors

"""What calls return and take that is plain data: views of types for `match`, flat messages with their nodes, how the
paths of a set continue, and the parts in which two types differ."""

from __future__ import annotations

import dataclasses
import operator
import struct
from dataclasses import dataclass
from typing import NamedTuple, Optional, Union

from ._enums import PType
from ._native import DType, FieldPath


class View:
    """The classes of the objects that `DType.view` returns, one for each kind of type. Two of them are equal if their
    classes and their parts are. `nullable` is whether the type is nullable.

    >>> DType("{a=i8}?").view()
    View.Struct(fields=(('a', DType('i8')),), nullable=True)
    """

    @dataclass(frozen=True)
    class Null:
        """The view of `null`."""

    @dataclass(frozen=True)
    class Bool:
        """The view of a type of truth values."""

        nullable: bool

    @dataclass(frozen=True)
    class Primitive:
        """The view of a primitive type."""

        ptype: PType
        nullable: bool

    @dataclass(frozen=True)
    class Decimal:
        """The view of a decimal type."""

        precision: int
        scale: int
        nullable: bool

    @dataclass(frozen=True)
    class Utf8:
        """The view of a type of texts."""

        nullable: bool

    @dataclass(frozen=True)
    class Binary:
        """The view of a type of byte strings."""

        nullable: bool

    @dataclass(frozen=True)
    class List:
        """The view of a list type."""

        element: DType
        nullable: bool

    @dataclass(frozen=True)
    class FixedSizeList:
        """The view of a fixed-size list type."""

        element: DType
        size: int
        nullable: bool

    @dataclass(frozen=True)
    class Map:
        """The view of a map type."""

        key: DType
        value: DType
        keys_sorted: bool
        nullable: bool

    @dataclass(frozen=True)
    class Struct:
        """The view of a struct type, with its fields, each a pair of a name and a type."""

        fields: tuple[tuple[str, DType], ...]
        nullable: bool

    @dataclass(frozen=True)
    class Union:
        """The view of a union type, with its variants, each a pair of a name and a type, and the tag of each."""

        variants: tuple[tuple[str, DType], ...]
        tags: bytes
        nullable: bool

    @dataclass(frozen=True)
    class Variant:
        """The view of a type `variant`."""

        nullable: bool

    @dataclass(frozen=True)
    class Extension:
        """The view of an extension type. It is nullable if the storage type is."""

        id: str
        metadata: bytes
        storage: DType


AnyView = Union[View.Null, View.Bool, View.Primitive, View.Decimal, View.Utf8, View.Binary, View.List, View.FixedSizeList,
                View.Map, View.Struct, View.Union, View.Variant, View.Extension]


class Below(NamedTuple):
    """How the paths of a set continue after a path. `FieldPathSet.below` returns it.

    >>> FieldPathSet(["a", "a.b", "a.c.d"]).below("a")
    Below(is_end=True, has_element=False, name_count=2)
    """

    is_end: bool
    """Whether the path itself is in the set."""
    has_element: bool
    """Whether a path of the set continues with the step into an element."""
    name_count: int
    """The number of names with which paths of the set continue."""


class Difference(NamedTuple):
    """A part in which two types differ. `DType.differences` returns a list of them. `str` tells the difference in words.

    >>> found = DType("{a=i32}").differences("{a=i32, b=utf8}")
    >>> found
    [Difference(path=FieldPath('b'), before=None, after=DType('utf8'))]
    >>> print(found[0])
    b is added as utf8
    """

    path: FieldPath
    """The path to the part."""
    before: Optional[DType]
    """The type at the path before, or None if the part is added."""
    after: Optional[DType]
    """The type at the path after, or None if the part is removed."""

    def __str__(self) -> str:
        path = self.path.to_source()
        before, after = (None if it is None else it.to_source() for it in (self.before, self.after))
        if before is None:
            return f"{path} is added as {after}"
        return f"{path} was {before} and is {after or 'removed'}"


class FlatMessage(NamedTuple):
    """A message in the flat form, as bytes that another process or a program in another language can read.

    >>> flat = DType("{id=u64}").to_proto().to_flat()
    >>> len(flat.nodes), flat.texts
    (84, b'id')
    """

    nodes: bytes
    """The nodes one after another, each message before its parts, as `bytes(node)` returns them."""
    texts: bytes
    """The bytes of the texts, in the order of their nodes."""


# How the fields of a node lie in its bytes.
LAYOUT = struct.Struct("<I4B4Ii")


@dataclass(repr=False)
class Node:
    """One item of the flat form of a message: a message, a text or a tag. The node of a message is followed by the nodes
    of its texts, then by the nodes of its tags, and then by its parts, each of which is a message with the nodes that
    follow it. A field that the kind of a node doesn't use is 0.

    `kind`:
        What the node is: 0 for a message without a kind; 1 null, 2 bool, 3 primitive, 4 decimal, 5 utf8, 6 binary, 7
        list, 8 fixed-size list, 9 map, 10 struct, 11 union, 12 variant and 13 extension for a message of this kind; 14
        for a text; 15 for a tag.

    `nullable`:
        1 if the message has the flag `nullable` and the flag is set, and otherwise 0. The messages of null and of an
        extension don't have this flag.

    `keys_sorted`:
        1 if the keys of a map are declared to be sorted, and otherwise 0.

    `has_first`:
        1 if the element type of a list or of a fixed-size list, the key type of a map or the storage type of an extension
        follows, and otherwise 0.

    `has_second`:
        1 if the value type of a map or the text of the metadata of an extension follows, and otherwise 0.

    `names`, `tags`, `types`:
        The number of names and of types that follow a struct or a union, and of tags that follow a union.

    `number`:
        The precision of a decimal, the size of a fixed-size list, or the number of bytes of a text.

    `value`:
        The number of a primitive type, the scale of a decimal, or a tag.

    `bytes(node)` has these fields in order, each with its least byte first. `nullable`, `keys_sorted`, `has_first` and
    `has_second` have one byte, and the others four. Only `value` may be negative. Raises `ValueError` if a number
    doesn't fit its field.
    """

    kind: int = 0
    nullable: int = 0
    keys_sorted: int = 0
    has_first: int = 0
    has_second: int = 0
    names: int = 0
    tags: int = 0
    types: int = 0
    number: int = 0
    value: int = 0

    def __post_init__(self) -> None:
        zeros = dict.fromkeys(vars(self), 0)
        for name, it in vars(self).items():
            try:
                setattr(self, name, operator.index(it))
                LAYOUT.pack(*{**zeros, name: it}.values())
            except TypeError:
                raise TypeError(f"{name} must be an int, not {type(it).__name__}") from None
            except struct.error:
                raise ValueError(f"{name} is out of range: {it}") from None

    def __bytes__(self) -> bytes:
        return LAYOUT.pack(*dataclasses.astuple(self))

    def __repr__(self) -> str:
        return f"Node({', '.join(f'{name}={it}' for name, it in vars(self).items() if it)})"


def nodes_of(flat: bytes) -> list[Node]:
    """Returns the nodes of a message in the flat form."""
    return [Node(*fields) for fields in LAYOUT.iter_unpack(flat)]
