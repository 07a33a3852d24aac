# SPDX-License-Identifier: Apache-2.0
# SPDX-FileCopyrightText: Copyright the Vortex contributors

"""The logical types of columnar data, and paths into them, over a library that is proved.

>>> orders = DType("{id=u64, customer={city=utf8?}, lines=list({sku=utf8})}")
>>> FieldPath("customer.city").resolve(orders)
DType('utf8?')
>>> wanted = FieldPathSet(["lines.[].sku", "lines.[]", "id"])
>>> orders.project_paths(wanted)
DType('{id=u64, lines=list({sku=utf8})}')
>>> orders.project_paths(["customer.city"])
DType('{customer={city=utf8?}}')
>>> sorted(path.to_source() for path in wanted.cover())
['id', 'lines.[]']

A type or a path is made from its text in the *form of the console*, a program of this library. `to_source` returns the
text in this form, and `repr` shows it in quotes, so `DType(dtype.to_source()) == dtype`. Where a docstring speaks of
the text of a type or path, it means this one. `str` returns the text that the proved library prints, which may not be
read back. For example, `str` shows a name that contains a comma without quotes.

In the form of the console, a type is written in one of these ways. A `?` behind a type makes it nullable. `null`, which
is always nullable, and extensions, which have the nullability of their storage type, never have one.

    null, bool, utf8, binary, variant, u8 to u64, i8 to i64, f16, f32, f64
    decimal(10,-2)                      a decimal with its precision and scale
    list(i32?)?                         a list
    fixed_size_list(u8)[20]             a fixed-size list with its size
    map(utf8, i32, keys_sorted=true)    a map with its flag, which is always written
    {a=i32, "b c"=utf8?}                a struct
    union(a=i32, b=utf8)                a union with the tags 0, 1 and so on
    union(a@5=i32, b@9=utf8)            a union with other tags
    x.tag[0x6162](utf8)                 an extension with its id, its metadata and its storage type

Blanks, ends of lines and comments, which go from `#` to the end of the line, may stand between the parts of a type, but
not before a `?`.

A path is steps with a `.` between them, each a name or `[]` for the element of a list, such as `lines.[].sku`. The root
is `.` alone. A `$` before a name has no meaning, because vortex-array displays paths with it. A name that consists of
letters, digits, `_` and characters beyond ASCII is written without quotes, and any other in double quotes. So is a name with a typographic quote, or with one of the characters beyond ASCII that a
list of the library calls special, such as a no-break space. In quotes a backslash begins an escape: one of two quotes,
a tab, a newline, a carriage return or a backslash, as in Python, or `x` with the two hexadecimal digits of a byte.

A call that the library refuses raises a `VortexError`, whose text is the library's own. The docstring of `VortexError`
explains which class of exceptions is raised when, and that of `ErrorKind` lists the kinds with the library's numbers.
If memory runs out, a call that allocates raises `OutOfMemory` (0), which the docstrings of the calls don't repeat.
Types that can't be merged are no error of the library: `DType.merge_all` raises `MergeConflict`, which is a `ValueError`.

>>> orders.project(["id", "note"])
Traceback (most recent call last):
vortex_logical_types.FieldNotFound: field 1 of the projection not found: note

An argument of the wrong type raises a `TypeError` that names the parameter, and a text with a lone surrogate raises a
`UnicodeEncodeError`. The docstrings of the calls don't repeat this either.

Each call that takes a type or a path also takes its text, which is read as by `DType(text)` or `FieldPath(text)`, with
the same errors. What an object is or has, and what is known without computing, is a property, which never fails. What
makes another object, takes arguments or can fail is a method.

Objects may be shared between threads. They can be copied by `copy`, and pickled, for example to send them to another
process:

>>> import pickle
>>> pickle.loads(pickle.dumps(orders)) == orders
True
"""

from __future__ import annotations

from ._enums import ELEMENT, Element, ErrorKind, Kind, PType, TimeUnit
from ._errors import (
    FieldNotFound, IndexOutOfBounds, LibraryError, MergeConflict, OutOfMemory, Unreadable, VortexError,
)
from ._native import DType, FieldMask, FieldPath, FieldPathSet, Message
from ._parts import AnyView, Below, Difference, FlatMessage, Node, View
from . import _objects as _objects

__version__ = "0.3.0"

__all__ = [
    "AnyView",
    "DType",
    "Difference",
    "ELEMENT",
    "Element",
    "ErrorKind",
    "FieldMask",
    "FieldNotFound",
    "FieldPath",
    "FieldPathSet",
    "Below",
    "FlatMessage",
    "IndexOutOfBounds",
    "Kind",
    "LibraryError",
    "MergeConflict",
    "Message",
    "Node",
    "OutOfMemory",
    "PType",
    "TimeUnit",
    "Unreadable",
    "View",
    "VortexError",
]


def _make_public() -> None:
    """Makes each public class tell that it is of this module, from which it is imported. So pickles and tracebacks
    don't name the modules that the package is made of."""
    for it in (globals()[name] for name in __all__):
        for cls in (it, *vars(View).values()) if it is View else (it,):
            if isinstance(cls, type):
                cls.__module__ = __name__


_make_public()
