# SPDX-License-Identifier: Apache-2.0
# SPDX-FileCopyrightText: Copyright the Vortex contributors

"""A user's calls, for `mypy --strict`: the type of each result is written out, and at a wrong call mypy has to report the
error that is ignored there. tools/bindings/bindings_runs checks this file, and nothing runs it."""
from __future__ import annotations

import copy
import pickle
from typing import MutableSet, Optional, Sequence, Union

from vortex_logical_types import (ELEMENT, Below, Difference, DType, Element, ErrorKind, FieldMask, FieldNotFound, FieldPath, FieldPathSet,
                                  FlatMessage, Kind, MergeConflict, Message, Node, PType, TimeUnit, Unreadable, View, VortexError)

Step = Union[str, Element]


def of_types() -> None:
    """Makes types and looks at their parts."""
    orders: DType = DType.struct({"id": DType.primitive(PType.U64), "city": DType.utf8(nullable=True)})
    kind: Kind = orders.kind
    names: Optional[list[str]] = orders.names
    fields: Optional[list[tuple[str, DType]]] = orders.fields
    ptype: Optional[PType] = orders["id"].ptype
    sizes: tuple[Optional[int], Optional[int]] = (orders.element_size(), orders.nfields)
    found: tuple[Optional[int], Optional[DType]] = (orders.find("id"), orders.field("id"))
    parts: tuple[Optional[tuple[int, int]], Optional[bool]] = (orders.decimal_parts, orders.keys_sorted)
    merged: Optional[DType] = orders.merge_nullability(DType(orders))
    columns: tuple[Optional[DType], Optional[DType]] = (orders.merge_columns(orders), DType.merge_all([orders], widening="integers"))
    readable: bool = orders.reads_as(orders, widening="none")
    conflict: Optional[MergeConflict] = orders.merge_conflict(orders)
    differences: list[Difference] = orders.differences("i8", ignore_nullability=True, ignore_order=False)
    removed: list[FieldPath] = [it.path for it in differences if it.after is None]
    of_bytes: tuple[Optional[bytes], Optional[bytes]] = (orders.metadata, orders.tags)
    for name, dtype in orders:
        length: int = len(name) + dtype.hash_ignore_nullability()
        assert length > 0 and name in orders
    copied: DType = copy.copy(orders)
    sent: bytes = pickle.dumps(copied)
    view = orders.view()
    if isinstance(view, View.Struct):
        first: tuple[str, DType] = view.fields[0]
        assert first[0] == "id"
    DType.list_(5)  # type: ignore[arg-type]
    DType.struct({"a": 8})  # type: ignore[arg-type]
    DType.primitive(3)  # type: ignore[arg-type]
    orders.project(5)  # type: ignore[arg-type]
    orders["id"] + 1  # type: ignore[operator]
    orders.no_such_method()  # type: ignore[attr-defined]
    print(kind, names, fields, ptype, sizes, found, parts, merged, columns, readable, conflict, removed, of_bytes, sent)


def of_arrow() -> None:
    """Reads types from Arrow and writes them, and makes dates and timestamps."""
    capsule: object = DType("i8").__arrow_c_schema__()
    dtype: DType = DType.from_arrow(capsule)
    other: DType = DType.from_arrow_address(8)
    paid: DType = DType.timestamp(TimeUnit.SECONDS, "UTC", nullable=True)
    times: tuple[DType, DType] = (DType.date(TimeUnit.DAYS), DType.time(TimeUnit.SECONDS, nullable=True))
    parts: tuple[Optional[TimeUnit], Optional[str]] = (paid.time_unit, paid.time_zone)
    with_metadata: tuple[DType, list[tuple[tuple[str, ...], bytes, bytes]]] = DType.from_arrow_with_metadata(dtype)
    written: tuple[object, object] = (dtype.to_arrow(with_metadata[1]), dtype.to_arrow(like=capsule))
    dtype.to_arrow([("a", "k", b"v")])  # type: ignore[list-item]
    DType.from_arrow_address("8")  # type: ignore[arg-type]
    DType.timestamp("s")  # type: ignore[arg-type]
    print(dtype, other, times, parts, written)


def of_paths() -> None:
    """Makes paths and sets of paths."""
    path: FieldPath = FieldPath("a") / ELEMENT / "b"
    steps: Sequence[Step] = path
    step: Step = path[0]
    rest: FieldPath = path[1:]
    above: Optional[FieldPath] = path.parent()
    dtype: tuple[Optional[DType], Optional[DType]] = (path.resolve(DType("i8")), path.resolve("i8"))
    part: Optional[DType] = DType.struct({"a": "i8"}).project_paths(["a", path])
    left: Optional[DType] = DType.struct({"a": "i8"}).without_paths(["a", path])
    replaced: Optional[DType] = DType.struct({"a": "i8"}).with_type_at(path, "u8")
    leaves: FieldPathSet = DType.struct({"a": "i8"}).leaf_paths()
    wider: DType = DType.struct({"a": "i8"}).push_field("b", "i16").with_field("a", DType("i32")).with_field_at(0, "c", "u8")
    renamed: DType = wider.with_fields_renamed({"a": "b"}, allow_repeats=True).with_fields_renamed([("c", "d")])
    parts: list[tuple[FieldPath, DType]] = DType.struct({"a": "i8"}).parts()
    paths: FieldPathSet = FieldPathSet(["a.b", path])
    members: MutableSet[FieldPath] = paths
    ordered: list[FieldPath] = sorted(paths)
    both: FieldPathSet = paths | FieldPathSet(["c"])
    below: Optional[Below] = paths.below("a")
    names: Optional[list[str]] = paths.names_below("a")
    mask: FieldMask = FieldMask.prefix(path)
    started: Optional[Step] = mask.starting_field()
    paths.insert(5)  # type: ignore[arg-type]
    paths.extend([5])  # type: ignore[list-item]
    path.push(5)  # type: ignore[arg-type]
    path["a"]  # type: ignore[call-overload]
    FieldMask.prefix(None)  # type: ignore[arg-type]
    FieldMask.exact(path.step_into())  # type: ignore[arg-type]
    print(steps, step, rest, above, dtype, part, replaced, members, ordered, both, below, names, started)


def of_messages() -> None:
    """Makes messages, and catches errors."""
    message: Message = DType("i8").to_proto()
    flat: FlatMessage = message.to_flat()
    again: Message = Message.from_flat(flat)
    nodes: Message = Message.from_nodes([Node(kind=1)], b"")
    dtype: DType = DType.from_proto(again, allow_unknown=True)
    made: Message = Message([Node(kind=1)], b"")
    try:
        DType("{a=")
    except Unreadable as error:
        position: int = error.position
        print(position)
    except VortexError as error:
        number: Optional[int] = error.number
        kind: ErrorKind = error.kind
        print(number, kind)
    try:
        DType("{a=i8}").project(["b"])
    except KeyError as error:
        print(isinstance(error, FieldNotFound))
    Message.from_nodes([1], b"")  # type: ignore[list-item]
    DType.from_proto(message, "yes")  # type: ignore[arg-type]
    print(nodes, dtype, made)
