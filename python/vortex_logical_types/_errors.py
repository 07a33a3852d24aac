# SPDX-License-Identifier: Apache-2.0
# SPDX-FileCopyrightText: Copyright the Vortex contributors

"""The exceptions of the package."""

from __future__ import annotations

from typing import Optional

from ._enums import ErrorKind
from ._native import DType, FieldPath


def checked(name: str, it: object, cls: type) -> None:
    """Raises `TypeError` if an argument isn't of the class."""
    if not isinstance(it, cls):
        raise TypeError(f"{name} must be a {cls.__name__}, not {type(it).__name__}")


class VortexError(Exception):
    """A call failed. `kind` is the kind of the error, and `number` is the library's number of it, from 0 to 36, or None
    for an error of the interface. The text of the exception is the library's own text, with its data:

    >>> try:
    ...     DType("{id=u64, note=utf8?}").project(["id", "x"])
    ... except VortexError as error:
    ...     print(f"{type(error).__name__}, {error.number}, {error.kind}: {error}")
    FieldNotFound, 16, field_not_found: field 1 of the projection not found: x

    An error is of one of these classes, each of which is also one of Python's own:

        class             is also a                number  when
        OutOfMemory       MemoryError              0       an allocation failed
        Unreadable        ValueError               None    a text can't be read: UNREADABLE, or TOO_DEEP, with `position`
        FieldNotFound     LibraryError, KeyError   16      `project` is passed a name that no field has
        IndexOutOfBounds  LibraryError, IndexError 17      `without_field` or `with_field_at` is passed an index that's too large
        LibraryError      ValueError               others  the library, or the interface to it, refuses the arguments

    An argument of the wrong type raises a `TypeError`. The docstring of `ErrorKind` lists the kinds.
    """

    kind: ErrorKind
    number: Optional[int]

    def __init__(self, kind: ErrorKind, text: str) -> None:
        checked("kind", kind, ErrorKind)
        checked("text", text, str)
        # (An exception is copied and unpickled by calling its class with `args`, so these are the parameters.)
        super().__init__(kind, text)
        self.kind, self.number = kind, kind.number

    def __str__(self) -> str:
        return str(self.args[1])


class OutOfMemory(VortexError, MemoryError):
    """An allocation failed."""


class Unreadable(VortexError, ValueError):
    """A text can't be read. Its text says what was expected, and `position` is the byte from which the text can't be
    read on. The bytes of the text in UTF-8 are counted from 1, and the position is one more than their number if the
    text ends too early.

    >>> try:
    ...     FieldPath("a..b")
    ... except Unreadable as error:
    ...     print(error.position, error.kind)
    3 unreadable
    """

    position: int

    def __init__(self, kind: ErrorKind, text: str, position: int) -> None:
        checked("position", position, int)
        super().__init__(kind, text)
        self.args = (kind, text, position)
        self.position = position


class LibraryError(VortexError, ValueError):
    """The library, or the interface to it, refuses the arguments."""


class FieldNotFound(LibraryError, KeyError):
    """A struct has no field of this name."""


class IndexOutOfBounds(LibraryError, IndexError):
    """A struct has no field with this index."""


class MergeConflict(ValueError):
    """Why types can't be read as one type: a place, and the two types there. `DType.merge_conflict` returns it, and
    `DType.merge_all` raises it.

    `path` is the path to the place, `left` is the type there in the first type, or in the types that were merged
    before, and `right` is the type there in the one that doesn't fit. `index` is the index of that type among all of
    the types, counted from 0. Of two types it is 1.

    >>> try:
    ...     DType.merge_all(["{customer={id=u64}}", "{at=i64}", "{customer={id=utf8}}"])
    ... except MergeConflict as error:
    ...     print(f"{error} ({error.index})")
    customer.id is u64 in one type and utf8 in another (2)
    """

    path: FieldPath
    left: DType
    right: DType
    index: int

    def __init__(self, path: FieldPath, left: DType, right: DType, index: int) -> None:
        checked("path", path, FieldPath)
        checked("left", left, DType)
        checked("right", right, DType)
        checked("index", index, int)
        super().__init__(path, left, right, index)
        self.path, self.left, self.right, self.index = path, left, right, index

    def __str__(self) -> str:
        left, right = self.left.to_source(), self.right.to_source()
        return f"{self.path.to_source()} is {left} in one type and {right} in another"
