# SPDX-License-Identifier: Apache-2.0
# SPDX-FileCopyrightText: Copyright the Vortex contributors

"""Prints a table of how long calls of the package take, with all that a caller pays for a call: the processor time of the
least of nine runs."""
from __future__ import annotations

import copy
import pickle
import time
import timeit
from typing import Callable

from vortex_logical_types import ELEMENT, DType, FieldPath, FieldPathSet, Message

COLUMNS, MEMBERS, RUNS, TIME = 1000, 100, 9, 0.02
TEXT = "{id=u64, customer={city=utf8?}, lines=list({sku=utf8, price=decimal(10,2)?})}"


def shown(seconds: float) -> str:
    """Returns a time with its unit."""
    for unit, scale in (("ns", 1e9), ("µs", 1e6)):
        if seconds * scale < 1000:
            return f"{seconds * scale:.0f} {unit}" if seconds * scale >= 10 else f"{seconds * scale:.1f} {unit}"
    return f"{seconds * 1e3:.1f} ms"


def row(what: str, call: Callable[[], object]) -> None:
    """Prints what a call takes."""
    timer = timeit.Timer(call, timer=time.thread_time)
    count = max(1, int(TIME / max(timer.timeit(3) / 3, 1e-8)))
    print(f"| {what} | {shown(min(timer.repeat(RUNS, count)) / count)} |", flush=True)


def row_first(what: str, make: Callable[[], DType], call: Callable[[DType], object]) -> None:
    """Prints what a call takes on a type that wasn't asked for anything before."""
    times = []
    for _ in range(RUNS):
        it = make()
        times.append(timeit.timeit(lambda: call(it), number=1, timer=time.thread_time))
    print(f"| {what} | {shown(min(times))} |", flush=True)


def of_types() -> None:
    """Types of a few columns."""
    orders, same = DType(TEXT), DType(TEXT)
    element = DType("list(i32)")
    row(f"`DType(text)` of {len(TEXT)} bytes", lambda: DType(TEXT))
    row("`to_source` of this type", orders.to_source)
    row("`DType.utf8()`", DType.utf8)
    row("`kind`, asked again", lambda: orders.kind)
    row("`is_nullable`", lambda: orders.is_nullable)
    row("`element`, asked again", lambda: element.element)
    row("`==` of two equal types", lambda: orders == same)
    row("`hash`", lambda: hash(orders))
    row("`copy.copy`", lambda: copy.copy(orders))
    row("`pickle.dumps` and `loads`", lambda: pickle.loads(pickle.dumps(orders)))


def of_columns() -> None:
    """A struct of many columns."""
    fields = [(f"column_{it}", DType("utf8")) for it in range(COLUMNS)]
    wide = DType.struct(fields)
    source = wide.to_source()
    row_first(f"`names` of {COLUMNS:,} columns, the first time", lambda: DType(source), lambda it: it.names)
    row_first(f"`fields` of {COLUMNS:,} columns, the first time", lambda: DType(source), lambda it: it.fields)
    row(f"`names` of {COLUMNS:,} columns, asked again", lambda: wide.names)
    row(f"`fields` of {COLUMNS:,} columns, asked again", lambda: wide.fields)
    row(f"`find` among {COLUMNS:,} columns", lambda: wide.find("column_700"))
    row(f"`dtype[name]` among {COLUMNS:,} columns", lambda: wide["column_700"])
    row(f"`DType.struct` of {COLUMNS:,} columns", lambda: DType.struct(fields))
    row(f"`DType(text)` of {COLUMNS:,} columns", lambda: DType(source))
    row(f"`to_source` of {COLUMNS:,} columns", wide.to_source)
    row(f"`project` to 10 of {COLUMNS:,} columns", lambda: wide.project([f"column_{it}" for it in range(10)]))
    message = wide.to_proto()
    row(f"`to_proto` of {COLUMNS:,} columns", wide.to_proto)
    row(f"`DType.from_proto` of {COLUMNS:,} columns", lambda: DType.from_proto(message))
    flat = message.to_flat()
    row(f"`Message.from_flat` of {COLUMNS:,} columns", lambda: Message.from_flat(flat))


def of_paths() -> None:
    """Paths and sets of paths."""
    orders, city = DType(TEXT), FieldPath("customer.city")
    row("`FieldPath(text)` of two steps", lambda: FieldPath("customer.city"))
    row("`path / step`", lambda: city / ELEMENT)
    row("`path.parts`, asked again", lambda: city.parts)
    row("`resolve` with two steps", lambda: city.resolve(orders))
    row("`exists_in` with two steps", lambda: city.exists_in(orders))
    paths = [FieldPath.from_name(f"n{it}") for it in range(MEMBERS)]
    members, same = FieldPathSet(paths), FieldPathSet(paths)
    row(f"`FieldPathSet` of {MEMBERS} paths", lambda: FieldPathSet(paths))
    row(f"`in` a set of {MEMBERS} paths", lambda: paths[7] in members)
    row(f"`list` of a set of {MEMBERS} paths", lambda: list(members))
    row(f"`cover` of a set of {MEMBERS} paths", members.cover)
    row(f"`==` of two sets of {MEMBERS} paths", lambda: members == same)
    wanted = FieldPathSet(["customer.city", "lines.[].sku"])
    row("`project_paths` to two paths", lambda: orders.project_paths(wanted))


if __name__ == "__main__":
    print("| Call | Time |\n|---|---|")
    of_types()
    of_columns()
    of_paths()
