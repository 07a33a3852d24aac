# SPDX-License-Identifier: Apache-2.0
# SPDX-FileCopyrightText: Copyright the Vortex contributors

"""Types from and to Arrow: capsules, streams and addresses. Which Arrow type is which is tested in C."""
import ctypes
import gc
import importlib.util
import subprocess
import sys
import unittest

from arrow_structs import ArrowArrayStream, ArrowSchema, exported, moved_out, pointer_in, release, schema_in
from vortex_logical_types import DType, ErrorKind, LibraryError

ORDERS = DType("{id=u64, customer={city=utf8?}?, lines=list({sku=utf8, price=decimal(10,2)?}), paid=vortex.date[0x04](i32?)}")
# Types of every kind that can be written, and of every form.
TYPES = [DType(it) for it in (
    "null", "bool?", "u8", "i64?", "f16", "utf8", "binary?", "decimal(76,-2)", "list(i8?)?", "fixed_size_list(u8)[16]",
    "map(utf8, {a=i8}, keys_sorted=true)?", "{}", "{a=i8, a=i16, \"b c\"=null}?", "union(a@5=i8, b@127={c=utf8})", "x.tag[0x610062](utf8?)",
    "x.tag[0x](vortex.timestamp[0x020300555443](i64))",
)] + [ORDERS]
_new = ctypes.PYFUNCTYPE(ctypes.py_object, ctypes.c_void_p, ctypes.c_void_p, ctypes.c_void_p)(("PyCapsule_New", ctypes.pythonapi))
NAMES = {it: ctypes.create_string_buffer(it) for it in (b"arrow_schema", b"arrow_array_stream", b"other")}


def capsule_of(struct, name):
    """A capsule over a struct of the test, which the test keeps."""
    return _new(ctypes.addressof(struct), ctypes.addressof(NAMES[name]), None)


class Table:
    """A table of another library: it has the schema of a type, or fails with a code."""

    def __init__(self, dtype, code=0, said=b"no table"):
        kinds = dict(ArrowArrayStream._fields_)
        self.made = []
        self.stream = ArrowArrayStream()

        def get_schema(stream, out):
            if code:
                return code
            ctypes.memmove(out, ctypes.byref(exported(dtype)), ctypes.sizeof(ArrowSchema))
            self.made.append(out.contents.private_data)
            return 0

        self.stream.get_schema = kinds["get_schema"](get_schema)
        # (Nothing calls it, because the capsule has no destructor.)
        self.release = ctypes.CFUNCTYPE(None, ctypes.c_void_p)(lambda stream: None)
        self.stream.release = ctypes.cast(self.release, ctypes.c_void_p)
        if said is not None:
            self.last = ctypes.CFUNCTYPE(ctypes.c_void_p, ctypes.c_void_p)(lambda stream: ctypes.addressof(self.room))
            self.room = ctypes.create_string_buffer(said)
            self.stream.get_last_error = ctypes.cast(self.last, kinds["get_last_error"])

    def __arrow_c_stream__(self, requested_schema=None):
        return capsule_of(self.stream, b"arrow_array_stream")


class Arrow(unittest.TestCase):
    def test_there_and_back(self):
        for dtype in TYPES:
            with self.subTest(dtype=dtype):
                self.assertEqual(DType.from_arrow(dtype), dtype)
                capsule = dtype.__arrow_c_schema__()
                self.assertEqual(type(capsule).__name__, "PyCapsule")
                # (What is read stays as it is, so it can be read again.)
                for _ in range(2):
                    self.assertEqual(DType.from_arrow(capsule), dtype)

    def test_a_table_has_the_type_of_its_schema(self):
        table = Table(ORDERS)
        self.assertEqual(DType.from_arrow(table), ORDERS)
        self.assertEqual(DType.from_arrow(table.__arrow_c_stream__()), ORDERS)
        self.assertEqual(len(table.made), 2)

        class Both(Table):
            def __arrow_c_schema__(self):
                return DType("i8").__arrow_c_schema__()

        both = Both(ORDERS)
        self.assertEqual((DType.from_arrow(both), both.made), (DType("i8"), []))

    def test_a_stream_may_fail(self):
        for said, text in ((b"no table", "the Arrow stream has no schema (error 5): no table"), (None, "the Arrow stream has no schema (error 5)")):
            with self.assertRaises(LibraryError) as caught:
                DType.from_arrow(Table(ORDERS, 5, said))
            self.assertEqual((caught.exception.kind, str(caught.exception)), (ErrorKind.ARROW, text))
        released = Table(ORDERS)
        released.stream.release = None
        with self.assertRaisesRegex(LibraryError, "the Arrow stream was released"):
            DType.from_arrow(released)

        empty = Table(ORDERS)
        empty.stream.get_schema = type(empty.stream.get_schema)()
        with self.assertRaisesRegex(LibraryError, "the Arrow stream has no get_schema"):
            DType.from_arrow(empty)

    def test_an_array_has_the_type_of_its_schema(self):
        class Array:
            def __init__(self, *capsules):
                self.capsules = capsules

            def __arrow_c_array__(self, requested_schema=None):
                return self.capsules

        values = capsule_of(ArrowSchema(), b"other")
        pair = ORDERS.__arrow_c_schema__(), values
        self.assertEqual(DType.from_arrow(Array(*pair)), ORDERS)
        self.assertEqual(DType.from_arrow(pair), ORDERS)
        for wrong in ((), (values, values), (*pair, values)):
            self.assertRaisesRegex(TypeError, r"^source.__arrow_c_array__\(\) must be a capsule named arrow_schema",
                                   DType.from_arrow, Array(*wrong))
            self.assertRaisesRegex(TypeError, "^source must be an object with __arrow_c_schema__", DType.from_arrow, wrong)

    def test_an_address_is_read(self):
        schema = exported(ORDERS)
        self.assertEqual(DType.from_arrow_address(ctypes.addressof(schema)), ORDERS)
        self.assertEqual(DType.from_arrow_address(ctypes.addressof(schema)), ORDERS)
        release(schema)
        self.assertFalse(schema.release)
        with self.assertRaises(LibraryError) as caught:
            DType.from_arrow_address(ctypes.addressof(schema))
        self.assertIs(caught.exception.kind, ErrorKind.ARROW)
        for wrong in (0, -8, 5, 1 << 64):
            with self.assertRaises(LibraryError) as caught:
                DType.from_arrow_address(wrong)
            self.assertIs(caught.exception.kind, ErrorKind.OUT_OF_RANGE)

    def test_other_objects_are_refused(self):
        for wrong in (None, 5, "i8", b"", object(), capsule_of(ArrowSchema(), b"other")):
            self.assertRaisesRegex(TypeError, "^source must be an object with __arrow_c_schema__", DType.from_arrow, wrong)

        class Wrong:
            def __init__(self, it):
                self.it = it

            def __arrow_c_schema__(self):
                return self.it

        for wrong in (None, 5, capsule_of(ArrowSchema(), b"other"), Table(ORDERS).__arrow_c_stream__()):
            self.assertRaisesRegex(TypeError, r"^source.__arrow_c_schema__\(\) must be a capsule named arrow_schema",
                                   DType.from_arrow, Wrong(wrong))

    def test_errors_name_the_field_and_its_format(self):
        wrong = exported(DType("{a=list(i8)}"))
        child = wrong.children[0].contents.children[0].contents
        before = child.format
        text = ctypes.create_string_buffer(b"tdX")
        ctypes.c_void_p.from_buffer(child).value = ctypes.addressof(text)
        with self.assertRaises(LibraryError) as caught:
            DType.from_arrow_address(ctypes.addressof(wrong))
        self.assertIs(caught.exception.kind, ErrorKind.ARROW)
        self.assertIsNone(caught.exception.number)
        self.assertIn('column "a.item"', str(caught.exception))
        self.assertIn('"tdX"', str(caught.exception))
        self.assertEqual(before, b"c")
        release(wrong)
        for text in ("variant", "{a=x.y[0x](x.z[0x](i8))}", "union(a@128=i8)"):
            with self.assertRaises(LibraryError) as caught:
                DType(text).__arrow_c_schema__()
            self.assertIs(caught.exception.kind, ErrorKind.ARROW)

    def test_metadata_is_read_and_written(self):
        metadata = [((), b"pandas", b"{}"), (("customer", "city"), b"k\0", b""), (("lines",), b"k", b"1"),
                    (("lines", "item", "price"), b"k", b"2"), (("lines", "item", "price"), b"k", b"3")]
        field = ORDERS.to_arrow(metadata)
        # (It can be read more than once.)
        for _ in range(2):
            self.assertEqual(DType.from_arrow_with_metadata(field), (ORDERS, metadata))
        self.assertEqual(DType.from_arrow_with_metadata(field.__arrow_c_schema__()), (ORDERS, metadata))
        self.assertEqual(DType.from_arrow(field), ORDERS)
        for dtype in TYPES:
            self.assertEqual(DType.from_arrow_with_metadata(dtype), (dtype, []))
            self.assertEqual(DType.from_arrow_with_metadata(dtype.to_arrow([([], b"k", bytearray(b"v"))])), (dtype, [((), b"k", b"v")]))
        for wrong, text in (
            ((("none",), b"k", b""), 'column "none": the type has no such field, whose metadata is to be written'),
            (((), b"ARROW:extension:name", b"x"),
             "the keys ARROW:extension:name and ARROW:extension:metadata are those of an extension type"),
        ):
            with self.assertRaises(LibraryError) as caught:
                ORDERS.to_arrow([wrong])
            self.assertEqual((caught.exception.kind, str(caught.exception)), (ErrorKind.ARROW, text))
        self.assertRaisesRegex(TypeError, r"^metadata\[0\]\[1\] must be bytes", ORDERS.to_arrow, [((), "k", b"")])
        self.assertRaisesRegex(LibraryError, 'column "item": a variant', DType("list(variant)").to_arrow, [])

    def test_forms_of_another_schema_are_written(self):
        formats = {b"u": b"U", b"z": b"vz", b"+l": b"+L"}

        def change(schema):
            # (The texts are never freed.)
            if schema.format in formats:
                text = ctypes.create_string_buffer(formats[schema.format])
                self.kept.append(text)
                ctypes.c_void_p.from_buffer(schema).value = ctypes.addressof(text)
            for at in range(schema.n_children):
                change(schema.children[at].contents)

        def formats_of(schema):
            return [schema.format, *(formats_of(schema.children[at].contents) for at in range(schema.n_children))]

        self.kept = []
        original = exported(DType("{city=utf8, notes=list(binary?), id=u64}"))
        change(original)
        like = capsule_of(original, b"arrow_schema")
        for text, forms in (("{id=u64, city=utf8?}", [b"+s", [b"L"], [b"U"]]),
                            ("{notes=list(utf8), other=utf8}", [b"+s", [b"+L", [b"u"]], [b"u"]]),
                            ("{notes=list(binary), city=i8}", [b"+s", [b"+L", [b"vz"]], [b"c"]])):
            field = DType(text).to_arrow([((), b"k", b"v")], like=like)
            made = moved_out(field.__arrow_c_schema__())
            self.assertEqual(formats_of(made), forms)
            release(made)
            self.assertEqual(DType.from_arrow_with_metadata(field), (DType(text), [((), b"k", b"v")]))
        self.assertEqual(DType.from_arrow(ORDERS.to_arrow(like=None)), ORDERS)
        self.assertEqual(DType.from_arrow(ORDERS.to_arrow((), DType("{a=i8}"))), ORDERS)
        self.assertRaisesRegex(TypeError, "^like must be an object with __arrow_c_schema__", ORDERS.to_arrow, (), 5)
        release(original)
        self.assertRaisesRegex(LibraryError, "^the schema was released$", ORDERS.to_arrow, like=like)

    def test_errors_of_the_library_name_the_column(self):
        wrong = exported(DType("{a=list({b=decimal(2,1)})}"))
        child = wrong.children[0].contents.children[0].contents.children[0].contents
        text = ctypes.create_string_buffer(b"d:2,4")
        ctypes.c_void_p.from_buffer(child).value = ctypes.addressof(text)
        with self.assertRaises(LibraryError) as caught:
            DType.from_arrow_address(ctypes.addressof(wrong))
        self.assertIs(caught.exception.kind, ErrorKind.SCALE_ABOVE_PRECISION)
        self.assertEqual(caught.exception.number, 4)
        self.assertEqual(str(caught.exception), 'column "a.item.b": decimal scale 4 is greater than precision 2')
        release(wrong)

    def test_capsules(self):
        """Capsules that nobody reads, one that is moved out, and one over a part that was moved out."""
        for _ in range(100):
            ORDERS.__arrow_c_schema__()
        gc.collect()
        capsule = ORDERS.__arrow_c_schema__()
        moved = ArrowSchema()
        ctypes.memmove(ctypes.byref(moved), pointer_in(capsule, b"arrow_schema"), ctypes.sizeof(moved))
        schema_in(capsule).release = type(moved.release)()
        self.assertRaises(LibraryError, DType.from_arrow, capsule)
        del capsule
        gc.collect()
        self.assertEqual(DType.from_arrow_address(ctypes.addressof(moved)), ORDERS)
        child = ArrowSchema()
        ctypes.memmove(ctypes.byref(child), moved.children[2], ctypes.sizeof(child))
        moved.children[2].contents.release = type(moved.release)()
        release(moved)
        self.assertEqual(DType.from_arrow_address(ctypes.addressof(child)), ORDERS["lines"])
        release(child)

    def test_a_capsule_may_be_alive_at_the_end(self):
        """Also one that is dropped when the modules are gone, and one in a cycle."""
        for line in ("keep = capsule", "import sys; sys.keep = capsule", "import builtins; builtins.keep = [capsule]; keep.append(keep)",
                     "import atexit; atexit.register(lambda: capsule)", "import ctypes; ctypes.pythonapi.Py_IncRef(ctypes.py_object(capsule))",
                     "import threading; threading.Timer(0.1, lambda: capsule).start()"):
            program = f"from vortex_logical_types import DType\ncapsule = DType('{{a=list(i8)}}').__arrow_c_schema__()\n{line}\n"
            ran = subprocess.run([sys.executable, "-c", program], capture_output=True, text=True, check=False)
            self.assertEqual((ran.returncode, ran.stderr), (0, ""), line)

    @unittest.skipUnless(importlib.util.find_spec("pyarrow"), "pyarrow can't be imported")
    def test_pyarrow(self):
        import pyarrow

        self.assertEqual(DType.from_arrow(pyarrow.int32()), DType("i32?"))
        schema = pyarrow.schema([pyarrow.field("id", pyarrow.uint64(), nullable=False), ("at", pyarrow.timestamp("us", "UTC"))])
        dtype = DType("{id=u64, at=vortex.timestamp[0x010300555443](i64?)}")
        self.assertEqual(DType.from_arrow(schema), dtype)
        self.assertEqual(DType.from_arrow(schema.empty_table()), dtype)
        self.assertEqual(pyarrow.schema(dtype), schema)
        for it in (pyarrow.duration("s"), pyarrow.month_day_nano_interval()):
            schema = pyarrow.schema([("it", it)])
            self.assertEqual(pyarrow.schema(DType.from_arrow(schema)), schema)

    @unittest.skipUnless(importlib.util.find_spec("polars"), "polars can't be imported")
    def test_polars(self):
        import polars

        frame = polars.DataFrame({"id": [1], "name": ["x"], "tags": [["a"]]})
        self.assertEqual(DType.from_arrow(frame), DType("{id=i64?, name=utf8?, tags=list(utf8?)?}"))

    @unittest.skipUnless(importlib.util.find_spec("nanoarrow"), "nanoarrow can't be imported")
    def test_nanoarrow(self):
        import nanoarrow

        self.assertEqual(DType.from_arrow(nanoarrow.int32()), DType("i32?"))
        self.assertEqual(DType.from_arrow(nanoarrow.c_schema(ORDERS)), ORDERS)


if __name__ == "__main__":
    unittest.main()
