# SPDX-License-Identifier: Apache-2.0
# SPDX-FileCopyrightText: Copyright the Vortex contributors

"""Errors: which class comes when, and their kinds, numbers and texts. The texts of the library's errors are those that
vortex-array has."""
import inspect
import os
import re
import unittest

from vortex_logical_types import (DType, ErrorKind, FieldMask, FieldNotFound, FieldPath, IndexOutOfBounds, LibraryError, Message,
                                  Node, OutOfMemory, Unreadable, VortexError)

# Where the errors of the library stand, and each of them there: its number and its name.
SOURCE = os.path.join(os.path.dirname(__file__), "../../crates/dtype_base/src/vortex_error.rt")
ERROR = re.compile(r"/// (\d+): [^\n]*\n(?:\s*/// [^\n]*\n)*\s*#\[error\([^\n]*\n\s*(\w+)")
UTF8, NULL = Node(kind=5), Node(kind=1)


def text(it):
    """The node of a text."""
    return Node(kind=14, number=len(it))


def tag(number):
    """The node of a tag."""
    return Node(kind=15, value=number)


def fields(kind, names, tags, types):
    """The node of a struct or a union."""
    return Node(kind=kind, names=names, tags=tags, types=types)


# Each fault of a message: its nodes and texts, its number, and the text of the error.
FAULTS = (
    ([Node(kind=4, number=77)], b"", 2, "decimal precision 77 exceeds MAX_PRECISION 76"),
    ([Node(kind=9, has_first=1, has_second=1), Node(kind=5, nullable=1), UTF8], b"", 9, "map key dtype must be non-nullable"),
    ([fields(11, 1, 0, 0), text("a")], b"a", 10, "union names and dtypes length mismatch"),
    ([fields(11, 1, 0, 1), text("a"), NULL], b"a", 11, "union names and type_ids length mismatch"),
    ([fields(11, 0, 0, 0)], b"", 12, "union must have at least one variant"),
    ([fields(11, 2, 2, 2), text("a"), text("b"), tag(1), tag(1), NULL, NULL], b"ab", 13, "type_ids must be distinct"),
    ([fields(11, 2, 2, 2), text("a"), text("a"), tag(1), tag(2), NULL, NULL], b"aa", 15, "union variant names must be distinct"),
    ([Node()], b"", 24, "Unrecognized DType"),
    ([Node(kind=3, value=11)], b"", 25, "unknown primitive number"),
    ([Node(kind=4, number=256)], b"", 26, "precision does not fit in u8"),
    ([Node(kind=4, number=10, value=128)], b"", 27, "scale does not fit in i8"),
    ([Node(kind=7)], b"", 28, "Invalid list element type"),
    ([Node(kind=8)], b"", 29, "Invalid fixed-size list element type"),
    ([Node(kind=9)], b"", 30, "Invalid map key type"),
    ([Node(kind=9, has_first=1), UTF8], b"", 31, "Invalid map value type"),
    ([fields(10, 1, 0, 0), text("a")], b"a", 32, "struct names and dtypes length mismatch"),
    ([fields(11, 1, 1, 1), text("a"), tag(256), NULL], b"a", 33, "type_id does not fit in u8"),
    ([Node(kind=13), text("x.y")], b"x.y", 34, "Extension DType missing storage proto"),
)


class Errors(unittest.TestCase):
    def refused(self, call, *arguments):
        with self.assertRaises(VortexError) as caught:
            call(*arguments)
        return caught.exception

    def test_kinds_are_those_of_the_library(self):
        for number, kind in enumerate(ErrorKind):
            self.assertEqual(kind.number, number if number <= 36 else None)
            self.assertRegex(inspect.getdoc(ErrorKind), rf"(?m)^ *{kind.value if number <= 36 else ''} *{kind.name}  \w")
        self.assertEqual(len(ErrorKind), 43)

    def test_kinds_are_named_as_the_errors_of_the_sources(self):
        with open(SOURCE, encoding="utf-8") as it:
            errors = dict(ERROR.findall(it.read()))
        self.assertEqual(len(errors), 37)
        for number, name in errors.items():
            self.assertEqual(ErrorKind(int(number)).name.replace("_", ""), name.upper())

    def test_errors_of_the_library(self):
        whole, utf8 = DType("{a=i32, b=utf8, c=f64}"), DType("utf8")
        wide = DType("fixed_size_list(fixed_size_list(i64)[4294967295])[4294967295]")
        for number, wanted, call, *arguments in (
            (1, "decimal precision must be between 1 and 76 (inclusive)", DType.decimal, 0, 0),
            (2, "decimal precision 77 exceeds MAX_PRECISION 76", DType.decimal, 77, 0),
            (3, "decimal scale 77 exceeds MAX_SCALE 76", DType.decimal, 76, 77),
            (4, "decimal scale 6 is greater than precision 5", DType.decimal, 5, 6),
            (4, "decimal scale 6 is greater than precision 5", DType, "{a=decimal(5,6)}"),
            (9, "map key dtype must be non-nullable", DType.map_, DType("utf8?"), utf8),
            (11, "union names and type_ids length mismatch", DType.union, {"a": utf8}, False, b""),
            (12, "union must have at least one variant", DType.union, {}),
            (13, "type_ids must be distinct", DType.union, {"a": utf8, "b": utf8}, False, b"\1\1"),
            (14, "union supports at most 256 consecutive variants", DType.union, {f"v{it}": utf8 for it in range(257)}),
            (15, "union variant names must be distinct", DType, "union(a=i8, a=i8)"),
            (16, "field 1 of the projection not found: x", whole.project, ["a", "x", "y"]),
            (16, "field 0 of the projection not found: é", whole.project, ["é"]),
            (17, "index 3 out of bounds for struct with 3 fields", whole.without_field, 3),
            (18, "Can't merge struct fields with duplicate names", whole.disjoint_merge, whole),
            (19, "element size is bigger than usize", wide.element_size),
            (20, "Cannot step into exact root field path", FieldMask.exact(".").step_into),
            (21, "Cannot get starting field from All mask", FieldMask.all().starting_field),
            (36, "FieldPath part missing type", FieldPath.from_proto, ["a", None]),
        ):
            with self.subTest(number=number):
                error = self.refused(call, *arguments)
                self.assertEqual((error.number, error.kind, str(error)), (number, ErrorKind(number), wanted))
                self.assertEqual(isinstance(error, KeyError), number == 16)
                self.assertEqual(isinstance(error, IndexError), number == 17)
                self.assertIsInstance(error, (LibraryError, ValueError))

    def test_faults_of_messages(self):
        for nodes, texts, number, wanted in FAULTS:
            message = Message(nodes, texts)
            for call in (lambda it: DType.from_proto(it, allow_unknown=True), lambda it: it.normal(allow_unknown=True)):
                error = self.refused(call, message)
                self.assertEqual((type(error), error.number, str(error)), (LibraryError, number, wanted), message)
        error = self.refused(DType("x.tag[0x](utf8)").to_proto().normal)
        self.assertEqual((error.kind, str(error)), (ErrorKind.EXTENSION_UNREGISTERED, "Unregistered extension type ID"))

    def test_unreadable_texts(self):
        error = self.refused(DType, "{a=i32, b=int32}")
        self.assertEqual((type(error), error.kind, error.number, error.position), (Unreadable, ErrorKind.UNREADABLE, None, 11))
        self.assertEqual(str(error), 'unreadable at byte 11: expected a type, not "int32"; nearest: i32')
        self.assertIsInstance(error, ValueError)
        # (At the end of a text the position is one more than its length.)
        self.assertEqual((self.refused(DType, "{a=i8").position, self.refused(FieldPath, "a..b").position), (6, 3))
        # (A step in brackets is what other languages write.)
        for text, position in (("a[0]", 2), ("a[]", 2), ("lines[].sku", 6), ('"a"[0]', 4), ("a.[0]", 3)):
            error = self.refused(FieldPath, text)
            self.assertEqual(error.position, position)
            self.assertRegex(str(error), r"found `\[`; \[\] is a step of its own, for example in a\.\[\]\.b$")
        error = self.refused(FieldPath, "a/b")
        self.assertRegex(str(error), "found `/`; steps are joined by dots, for example a\\.\\[\\]\\.b$")
        # (The type at byte 646 is inside 129 others.)
        error = self.refused(DType, "list(" * 129 + "i8" + ")" * 129)
        self.assertEqual((type(error), error.kind, error.position), (Unreadable, ErrorKind.TOO_DEEP, 646))
        self.assertEqual(str(error), "unreadable at byte 646: expected at most 128 levels")

    def test_errors_of_the_interface(self):
        deep = DType("list(" * 128 + "i8" + ")" * 128)
        for kind, call, *arguments in (
            (ErrorKind.PRECONDITION, DType("null").as_nonnullable), (ErrorKind.PRECONDITION, DType("i8").find, "a"),
            (ErrorKind.TOO_DEEP, DType.list_, deep), (ErrorKind.OUT_OF_RANGE, DType.decimal, 256, 0),
            (ErrorKind.OUT_OF_RANGE, Message, [], b""), (ErrorKind.NOT_UTF8, Message, [Node(kind=13), text("x")], b"\xff"),
        ):
            error = self.refused(call, *arguments)
            self.assertEqual((type(error), error.kind, error.number), (LibraryError, kind, None))
            self.assertGreater(len(str(error)), 10)

    def test_errors_are_caught_as_those_of_python(self):
        whole = DType("{a=i32}")
        self.assertRaisesRegex(KeyError, "^field 0 of the projection not found: b$", whole.project, ["b"])
        self.assertRaisesRegex(IndexError, "^index 1 out of bounds for struct with 1 fields$", whole.without_field, 1)
        self.assertRaisesRegex(ValueError, "^unreadable at byte 1: expected a type", DType, "i31")

    def test_errors_are_made_of_what_they_show(self):
        error = FieldNotFound(ErrorKind.FIELD_NOT_FOUND, "why")
        self.assertEqual((str(error), error.kind, error.number), ("why", ErrorKind.FIELD_NOT_FOUND, 16))
        self.assertEqual((str(IndexOutOfBounds(ErrorKind.INDEX_OUT_OF_BOUNDS, "why")), repr(error)),
                         ("why", "FieldNotFound(<ErrorKind.FIELD_NOT_FOUND: 16>, 'why')"))
        self.assertEqual((Unreadable(ErrorKind.UNREADABLE, "why", 7).position, LibraryError(ErrorKind.TOO_DEEP, "").number), (7, None))
        self.assertIsInstance(OutOfMemory(ErrorKind.OUT_OF_MEMORY, "out of memory"), MemoryError)
        for cls, base in ((FieldNotFound, LibraryError), (IndexOutOfBounds, LibraryError), (LibraryError, ValueError)):
            self.assertTrue(issubclass(cls, base) and issubclass(cls, VortexError))

    def test_each_table_lists_the_classes(self):
        table = inspect.getdoc(VortexError)
        for cls in (OutOfMemory, Unreadable, FieldNotFound, IndexOutOfBounds, LibraryError):
            bases = ", ".join(it.__name__ for it in cls.__bases__ if it is not VortexError)
            self.assertRegex(table, rf"(?m)^ *{cls.__name__} +{bases} ")


if __name__ == "__main__":
    unittest.main()
