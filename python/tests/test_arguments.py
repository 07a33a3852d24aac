# SPDX-License-Identifier: Apache-2.0
# SPDX-FileCopyrightText: Copyright the Vortex contributors

"""Wrong arguments. The functions and their parameters are found by introspection, so that a new one can't be left out."""
import collections.abc
import contextlib
import ctypes
import enum
import inspect
import subprocess
import sys
import typing
import unittest

import stub
import vortex_logical_types
from arrow_structs import exported
from vortex_logical_types import (ELEMENT, Below, Difference, DType, Element, ErrorKind, FieldMask, FieldPath, FieldPathSet, FlatMessage,
                                  Message, Node, PType, TimeUnit, VortexError, View)

STRUCT, UNION, MAP = DType("{a=i32, b=utf8?}"), DType("union(a@5=i32, b@9=utf8)"), DType("map(utf8, i32?, keys_sorted=false)")
NODES = [Node(kind=10, names=1, types=1), Node(kind=14, number=2), Node(kind=3, value=3)]
Step = typing.Union[str, Element]
# An argument for each type of a parameter.
SAMPLES = {
    str: "a", bytes: b"a", bool: True, int: 0, object: 5, DType: STRUCT, FieldPath: FieldPath("a"), PType: PType.I32,
    FieldPathSet: FieldPathSet(["a"]), FieldMask: FieldMask.prefix("a"), Message: STRUCT.to_proto(), Element: ELEMENT, Node: NODES[0],
    FlatMessage: STRUCT.to_proto().to_flat(), type(None): None,
    ErrorKind: ErrorKind.FIELD_NOT_FOUND, TimeUnit: TimeUnit.MILLISECONDS,
}
# A schema that is never released.
SCHEMA = exported(STRUCT)
# Arguments that fit together, for functions that refuse most others.
FITTING = {
    "DType": {"source": "i8"}, "DType.decimal": {"precision": 10, "scale": 2}, "Message": {"nodes": NODES, "texts": b"id"},
    "DType.map_": {"key": DType("utf8")}, "DType.union": {"variants": [("a", STRUCT)], "tags": b"\5"},
    "FieldMask": {"kind": "prefix", "path": "a"}, "FieldPath.from_proto": {"parts": ["a"]}, "Message.from_nodes": {"nodes": NODES, "texts": b"id"},
    "DType.disjoint_merge": {"other": DType("{c=i8}")}, "DType.entries": {},
    "DType.from_proto": {"allow_unknown": True}, "DType.from_arrow": {"source": STRUCT},
    "DType.from_arrow_with_metadata": {"source": STRUCT}, "DType.to_arrow": {"like": STRUCT},
    "DType.from_arrow_address": {"address": ctypes.addressof(SCHEMA)},
}
# The object whose methods are called, for each class.
OBJECTS = {DType: STRUCT, FieldPath: FieldPath("a.[].b"), FieldPathSet: FieldPathSet(["a", "b.c"]),
           FieldMask: FieldMask.prefix("a"), Message: STRUCT.to_proto(), Node: NODES[0]}
# The methods that only a union has.
OF_UNIONS = ("variant_name", "variant_by_index", "find_variant", "variant_of", "child_index_to_tag", "tag_to_child_index")
# The methods that `collections.abc.Sequence` has.
OF_SEQUENCES = ("count", "index")
# The functions that refuse some objects of a type that they take, because they ask the object for a method or its text.
TAKES_OBJECTS = ("FieldMask", "DType.from_arrow", "DType.from_arrow_with_metadata", "DType.to_arrow")
# Classes that aren't called here: Python itself makes their members or checks their arguments.
MADE_BY_PYTHON = (enum.Enum, Below, Difference, FlatMessage, View)


class Other:
    """A class that the package doesn't know."""


def accepts(hint, value):
    """Whether a value is of the type that is written at a parameter."""
    origin, parts = typing.get_origin(hint), typing.get_args(hint)
    if origin is typing.Union:
        return any(accepts(it, value) for it in parts)
    if origin is tuple:
        return isinstance(value, tuple) and len(value) == len(parts) and all(map(accepts, parts, value))
    if origin is collections.abc.Mapping:
        return isinstance(value, collections.abc.Mapping)
    if origin is collections.abc.Iterable:
        is_one_thing = isinstance(value, (str, bytes)) or (isinstance(value, FieldPath) and parts != (Step,))
        return (isinstance(value, collections.abc.Iterable) and not is_one_thing
                and all(accepts(parts[0], it) for it in value))
    if origin is typing.Literal:
        # (A word that isn't one of these is a ValueError, which other tests try.)
        return isinstance(value, tuple(map(type, parts)))
    return isinstance(value, hint)


def sample(hint):
    """A value of the type that is written at a parameter."""
    origin, parts = typing.get_origin(hint), typing.get_args(hint)
    if origin is typing.Union:
        return sample(parts[0] if parts[0] is DType else parts[-1])
    if origin is tuple:
        return tuple(map(sample, parts))
    if origin is collections.abc.Iterable:
        return [sample(parts[0])]
    if origin is typing.Literal:
        return parts[0]
    return SAMPLES[hint]


def functions():
    """Every public function: its name, the function itself, and what to call, which is bound to an object or to none."""
    for name in vortex_logical_types.__all__:
        it = getattr(vortex_logical_types, name)
        if not isinstance(it, type):
            if inspect.isfunction(it):
                yield name, it, it, None
            continue
        if issubclass(it, MADE_BY_PYTHON):
            continue
        # (Of a class in Rust the types are those that are written in the stub.)
        typed = stub.CLASSES.get(name, it)
        own = typed.__init__ if "__init__" in vars(typed) or issubclass(it, Exception) else typed.__new__
        yield name, own, it, None
        for member, found in inspect.getmembers(it):
            mine = next((vars(cls)[member] for cls in it.__mro__ if member in vars(cls)), None)
            is_own = any(member in vars(cls) for cls in it.__mro__ if cls.__module__.startswith(vortex_logical_types.__name__))
            if member.startswith("_") or not is_own or not callable(found) or member in OF_SEQUENCES:
                continue
            own = MAP if member == "entries" else UNION if member in OF_UNIONS else OBJECTS.get(it)
            is_bound = inspect.isfunction(mine) or inspect.ismethoddescriptor(mine) and not isinstance(mine, (staticmethod, classmethod))
            bound = getattr(own, member) if is_bound and type(mine).__name__ != "classmethod_descriptor" else found
            found = getattr(typed, member)
            yield f"{name}.{member}", getattr(found, "__func__", found), bound, own


def hints_of(function):
    """The types that are written at a function."""
    return typing.get_type_hints(function, stub.NAMES if function.__module__ == stub.MODULE.__name__ else None)


def parameters(function):
    """The parameters of a function, each with the type that is written at it."""
    hints = hints_of(function)
    for it in list(inspect.signature(function).parameters.values()):
        if it.name not in ("self", "cls") and it.kind not in (it.VAR_POSITIONAL, it.VAR_KEYWORD):
            yield it.name, hints[it.name]


class Arguments(unittest.TestCase):
    def check(self, what, call, given, name, hint, value):
        """A wrong argument raises a TypeError that names the parameter, and a right one raises nothing else than errors
        of the package."""
        with self.subTest(function=what, parameter=name, value=value):
            if accepts(hint, value):
                # (What fits its own parameter may not fit the other arguments, as no path for a mask with a path.)
                expected = (VortexError, ValueError, LookupError, *[TypeError] * (what in TAKES_OBJECTS))
                with contextlib.suppress(*expected):
                    call(**{**given, name: value})
                return
            with self.assertRaises(TypeError) as caught:
                call(**{**given, name: value})
            self.assertRegex(str(caught.exception), rf"^{name}\b")

    def test_wrong_arguments_are_named(self):
        seen = []
        for what, function, call, own in functions():
            asked = [*parameters(function)]
            given = {name: sample(hint) for name, hint in asked} | FITTING.get(what, {})
            with self.subTest(function=what):
                call(**given)
            for name, hint in asked:
                seen.append(f"{what}({name})")
                for value in (None, 5, b"", [], "", "ab", Other(), own, [None], [5], [Other()], [("a", 5)], *OBJECTS.values()):
                    self.check(what, call, given, name, hint, value)
        self.assertGreater(len(seen), 70, seen)

    def test_every_result_has_a_type(self):
        results = {what: function for what, function, _, _ in functions() if what not in vortex_logical_types.__all__}
        for cls in stub.CLASSES.values():
            results |= {f"{cls.__name__}.{name}": it.fget for name, it in vars(cls).items() if isinstance(it, property)}
        self.assertGreater(len(results), 90)
        for what, function in results.items():
            with self.subTest(function=what):
                self.assertNotIn("Any", repr(hints_of(function)["return"]).replace("AnyView", ""))

    def test_the_stub_has_what_the_classes_have(self):
        for name, typed in stub.CLASSES.items():
            cls = getattr(vortex_logical_types, name)
            public = {it for it in vars(cls) if not it.startswith("_")} - {*OF_SEQUENCES}
            self.assertEqual({it for it in vars(typed) if not it.startswith("_")}, public)
            for member in public:
                with self.subTest(function=f"{name}.{member}"):
                    found = getattr(cls, member)
                    is_property = inspect.isgetsetdescriptor(found)
                    self.assertEqual(isinstance(vars(typed)[member], property), is_property)
                    if not is_property and member != "copy":
                        signature = inspect.signature(found)
                        wanted = [(it.name, it.kind, it.default) for it in inspect.signature(getattr(typed, member)).parameters.values()]
                        self.assertEqual([(it.name, it.kind, it.default) for it in signature.parameters.values()],
                                         [it if it[0] != "self" else (*it[:1], inspect.Parameter.POSITIONAL_ONLY, it[2]) for it in wanted])

    def test_objects_name_wrong_operands(self):
        for it in OBJECTS.values():
            for other in (None, 5, b"", [], Other()):
                self.assertIs(it == other, False)
                self.assertIs(it != other, True)
        for wrong in (None, "a", b"", []):
            self.assertRaisesRegex(TypeError, "^index", lambda it=wrong: FieldPath("a")[it])
        for wrong in (None, 5, b"", [], Other()):
            self.assertNotIn(wrong, FieldPathSet(["a"]))

    def test_one_text_is_no_iterable_of_texts(self):
        for call in (FieldPathSet, FieldPathSet().extend, STRUCT.project, FieldPath.from_steps, FieldPath.from_proto):
            for text in ("ab", b"ab", bytearray(b"ab")):
                self.assertRaisesRegex(TypeError, r"^\w+ must be an iterable of .*, not (str|bytes|bytearray)$", call, text)
        self.assertRaisesRegex(TypeError, "^paths must be an iterable", FieldPathSet, FieldPath("a"))
        self.assertRaisesRegex(TypeError, "^names must be an iterable", STRUCT.project, FieldPath("a"))
        self.assertRaisesRegex(TypeError, r"^names\[1\] must be a str, not int$", STRUCT.project, ["a", 5])
        self.assertRaisesRegex(TypeError, r"^fields\[0\] must be a pair", DType.struct, ["ab"])
        self.assertRaisesRegex(TypeError, r"^fields\[0\]\[1\] must be a DType or a str, not int$", DType.struct, [("a", 8)])

    def test_bytes_and_texts_are_taken_as_they_are(self):
        """What a caller's own class says of itself isn't believed, because the library reads as many bytes as it is told."""

        class Text(str):
            def encode(self, *_):
                return b""

            def __len__(self):
                return 1 << 40

        class Bytes(bytes):
            def __len__(self):
                return 1 << 40

            def __bytes__(self):
                return b""

        self.assertEqual(DType(Text("i8")), DType("i8"))
        self.assertEqual(DType.extension(Text("x"), Bytes(b"ab"), DType("i8")).metadata, b"ab")
        self.assertEqual(DType.extension("x", memoryview(b"abcd").cast("I"), DType("i8")).metadata, b"abcd")
        self.assertEqual(Message.from_nodes([Node(kind=1)], Bytes()), DType.null().to_proto())

    def test_numbers_fit_their_fields(self):
        self.assertEqual((Node(kind=3).kind, Node(value=-1).value, repr(Node(kind=3, value=-1))), (3, -1, "Node(kind=3, value=-1)"))
        self.assertTrue(Node(kind=3) == Node(3) and Node(kind=3) != Node(kind=4))
        for wrong in ({"kind": 1 << 32}, {"kind": -1}, {"nullable": 256}, {"value": 1 << 31}):
            self.assertRaisesRegex(ValueError, f"^{[*wrong][0]} is out of range", lambda it=wrong: Node(**it))

    def test_no_argument_ends_the_interpreter(self):
        """The calls that once did, each in an interpreter of its own."""
        for line in ("FieldMask.prefix(None)", "FieldMask.exact(None)", "FieldMask.exact(FieldPath.root().step_into())",
                     "FieldMask.prefix(FieldMask.all().path)", "FieldPathSet(['a']).names_below(None)",
                     "(lambda s: s.names_below(s))(FieldPathSet(['a']))", "DType.__new__(DType)", "FieldMask()"):
            ran = subprocess.run([sys.executable, "-c", f"from vortex_logical_types import *\n{line}"], capture_output=True,
                                 text=True, check=False)
            self.assertEqual(ran.returncode, 1, line)
            self.assertIn("\nTypeError: ", ran.stderr)


if __name__ == "__main__":
    unittest.main()
