# SPDX-License-Identifier: Apache-2.0
# SPDX-FileCopyrightText: Copyright the Vortex contributors

"""What the classes that are written in Rust have of Python's protocols: copies and pickles, of objects of subclasses too,
formats with a width, and abstract classes."""

from __future__ import annotations

import copy as copies
from collections.abc import MutableSet, Sequence
from typing import Any, Callable

from ._native import DType, FieldMask, FieldPath, FieldPathSet, Message


def add_protocols(cls: Any, made_by: Callable[[Any], tuple[Any, tuple[Any, ...]]], is_copied_by_its_class: bool) -> None:
    """Adds methods to a class. `made_by` returns a call and its arguments, which are texts or bytes. The call makes an
    object that is equal."""

    def copy(self: Any) -> Any:
        """Returns an equal object, which is another one."""
        make, given = (type(self), (self,)) if is_copied_by_its_class else made_by(self)
        it = make(*given)
        if hasattr(self, "__dict__"):  # (that of a subclass)
            it.__dict__.update(self.__dict__)
        return it

    def __copy__(self: Any) -> Any:
        return copy(self) if cls is FieldPathSet or hasattr(self, "__dict__") else self

    def __deepcopy__(self: Any, memo: dict[int, Any]) -> Any:
        it = memo[id(self)] = __copy__(self)
        if hasattr(self, "__dict__"):
            it.__dict__.update(copies.deepcopy(self.__dict__, memo))
        return it

    def __reduce__(self: Any) -> tuple[Any, ...]:
        return (*made_by(self), getattr(self, "__dict__", None) or None)

    def __format__(self: object, form: str) -> str:
        return format(str(self), form)

    for it in (copy, __copy__, __deepcopy__, __reduce__, __format__):
        setattr(cls, it.__name__, it)


def of_text(it: Any) -> tuple[Any, tuple[str]]:
    return type(it), (it.to_source(),)


def of_texts(it: FieldPathSet) -> tuple[Any, tuple[list[str]]]:
    return type(it), (sorted(path.to_source() for path in it),)


def of_kind(it: FieldMask) -> tuple[Any, tuple[str, ...]]:
    return type(it), (it.kind,) if it.path is None else (it.kind, it.path.to_source())


def of_flat(it: Message) -> tuple[Any, tuple[tuple[bytes, bytes]]]:
    return type(it).from_flat, (it.to_flat(),)


add_protocols(DType, of_text, True)
add_protocols(FieldPath, of_text, True)
add_protocols(FieldPathSet, of_texts, True)
add_protocols(FieldMask, of_kind, False)
add_protocols(Message, of_flat, False)

Sequence.register(FieldPath)
setattr(FieldPath, "index", Sequence.index)
setattr(FieldPath, "count", Sequence.count)
setattr(FieldPath, "__reversed__", Sequence.__reversed__)
MutableSet.register(FieldPathSet)
# (PyO3 adds `__init__` as a method. A class calls it if it is assigned.)
setattr(FieldPathSet, "__init__", FieldPathSet.__init__)
