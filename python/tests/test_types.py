# SPDX-License-Identifier: Apache-2.0
# SPDX-FileCopyrightText: Copyright the Vortex contributors

"""Types as collections of their fields, their views, and what is asked of a type of another kind."""
import copy
import inspect
import pickle
import sys
import typing
import unittest

import vortex_logical_types
from vortex_logical_types import DType, ErrorKind, Kind, LibraryError, PType, View

# A type of each kind.
TYPES = {
    Kind.NULL: DType("null"), Kind.BOOL: DType("bool?"), Kind.PRIMITIVE: DType("u8"), Kind.DECIMAL: DType("decimal(10,-2)?"),
    Kind.UTF8: DType("utf8"), Kind.BINARY: DType("binary"), Kind.LIST: DType("list(i8)?"),
    Kind.FIXED_SIZE_LIST: DType("fixed_size_list(i8?)[3]"), Kind.MAP: DType("map(utf8, i8, keys_sorted=true)"),
    Kind.STRUCT: DType("{a=i8, b=utf8, a=i16}?"), Kind.UNION: DType("union(a@5=i8, b@9=utf8)"), Kind.VARIANT: DType("variant?"),
    Kind.EXTENSION: DType("x.tag[0x610062](utf8?)"),
}
VIEWS = {
    Kind.NULL: View.Null(), Kind.BOOL: View.Bool(True), Kind.PRIMITIVE: View.Primitive(PType.U8, False),
    Kind.DECIMAL: View.Decimal(10, -2, True), Kind.UTF8: View.Utf8(False), Kind.BINARY: View.Binary(False),
    Kind.LIST: View.List(DType("i8"), True), Kind.FIXED_SIZE_LIST: View.FixedSizeList(DType("i8?"), 3, False),
    Kind.MAP: View.Map(DType("utf8"), DType("i8"), True, False),
    Kind.STRUCT: View.Struct((("a", DType("i8")), ("b", DType("utf8")), ("a", DType("i16"))), True),
    Kind.UNION: View.Union((("a", DType("i8")), ("b", DType("utf8"))), b"\5\x09", False), Kind.VARIANT: View.Variant(True),
    Kind.EXTENSION: View.Extension("x.tag", b"a\0b", DType("utf8?")),
}
# The properties and the methods that only types of some kinds have.
OF = {
    "ptype": Kind.PRIMITIVE, "decimal_parts": Kind.DECIMAL, "element": (Kind.LIST, Kind.FIXED_SIZE_LIST),
    "fixed_size": Kind.FIXED_SIZE_LIST, "key": Kind.MAP, "value": Kind.MAP, "keys_sorted": Kind.MAP,
    "storage": Kind.EXTENSION, "id": Kind.EXTENSION, "metadata": Kind.EXTENSION, "nfields": Kind.STRUCT, "names": Kind.STRUCT,
    "fields": Kind.STRUCT, "nvariants": Kind.UNION, "variants": Kind.UNION, "tags": Kind.UNION, "is_consecutive": Kind.UNION,
}
OF_ALL = {"kind", "is_nullable", "can_be_nonnullable"}
# The properties that only some extension types have.
OF_TIMES = {"time_unit", "time_zone"}
METHODS = {
    Kind.MAP: (("entries",),),
    Kind.STRUCT: (("field_name", 0), ("field_by_index", 0), ("find", "a"), ("field", "a"), ("project", ["a"]),
                  ("without_field", 0), ("push_field", "c", "i8"), ("with_field_at", 0, "c", "i8"), ("with_field", "a", "i8"),
                  ("with_fields_renamed", {}), ("disjoint_merge", DType("{}")), ("indented",)),
    Kind.UNION: (("variant_name", 0), ("variant_by_index", 0), ("find_variant", "a"), ("variant_of", "a"),
                 ("child_index_to_tag", 0), ("tag_to_child_index", 5), ("tag_to_child_index", 256)),
}


class Types(unittest.TestCase):
    def test_a_struct_is_a_collection_of_its_fields(self):
        whole = TYPES[Kind.STRUCT]
        self.assertEqual([*whole], [("a", DType("i8")), ("b", DType("utf8")), ("a", DType("i16"))])
        self.assertEqual((len(whole), whole["a"], whole["b"]), (3, DType("i8"), DType("utf8")))
        self.assertTrue("a" in whole and "c" not in whole and 5 not in whole and None not in whole)
        self.assertRaisesRegex(KeyError, "^'c'$", lambda: whole["c"])
        self.assertRaisesRegex(TypeError, "^name must be a str, not int$", lambda: whole[0])
        self.assertEqual((len(DType("{}")), [*DType("{}")], bool(DType("{}"))), (0, [], True))
        nested = DType("{a={b=list({c=u8})}}")
        self.assertEqual(nested["a"]["b"].element["c"], DType("u8"))

    def test_no_type_and_no_enum_is_false(self):
        for it in (*TYPES.values(), *Kind, *PType):
            self.assertIs(bool(it), True)
        self.assertNotEqual(Kind.NULL, PType.U8)
        self.assertNotEqual(PType.U8, 0)

    def test_another_kind_has_one_rule(self):
        properties = {name for name, it in vars(DType).items() if inspect.isgetsetdescriptor(it) and not name.startswith("_")}
        self.assertEqual(properties, OF.keys() | OF_ALL | OF_TIMES)
        for kind, dtype in TYPES.items():
            for name, of in OF.items():
                with self.subTest(kind=kind, property=name):
                    self.assertIs(getattr(dtype, name) is None, kind not in (of if isinstance(of, tuple) else (of,)))
            self.assertEqual([getattr(dtype, it) for it in OF_TIMES], [None, None])
            for of, methods in METHODS.items():
                for name, *given in methods if kind is not of else ():
                    with self.subTest(kind=kind, method=name), self.assertRaises(LibraryError) as caught:
                        getattr(dtype, name)(*given)
                    self.assertIs(caught.exception.kind, ErrorKind.PRECONDITION)
            if kind is not Kind.STRUCT:
                for ask in (len, iter, list, lambda it: "a" in it, lambda it: it["a"]):
                    self.assertRaisesRegex(TypeError, f"^a type of the kind {kind.name.lower()} has no fields$", ask, dtype)

    def test_structs_and_unions_are_made_from_mappings(self):
        i8, utf8 = DType("i8"), DType("utf8")
        self.assertEqual(DType.struct({"a": i8, "b": utf8}, True), DType("{a=i8, b=utf8}?"))
        self.assertEqual(DType.union({"a": i8, "b": utf8}, tags=b"\5\x09"), DType("union(a@5=i8, b@9=utf8)"))
        self.assertEqual(DType.struct({}), DType("{}"))
        self.assertEqual(DType.struct(DType("{a=i8}?")), DType("{a=i8}"))
        self.assertEqual(DType.struct(iter([["a", i8]])), DType("{a=i8}"))
        self.assertEqual(DType.struct({"a": "i8", "b": utf8}), DType("{a=i8, b=utf8}"))
        self.assertRaisesRegex(TypeError, r"^fields\[1\]\[1\] must be a DType or a str, not int$", DType.struct, {"a": i8, "b": 8})
        self.assertRaisesRegex(TypeError, r"^fields must be an iterable", DType.struct, DType("i8"))

    def test_a_type_is_copied_by_its_class(self):
        for it in TYPES.values():
            self.assertEqual((DType(it), DType(it) is it), (it, False))

    def test_makes_nullable(self):
        self.assertEqual((DType("i8").as_nullable(), DType("i8?").as_nonnullable()), (DType("i8?"), DType("i8")))
        self.assertRaises(LibraryError, DType("null").as_nonnullable)

    def test_each_kind_has_a_view(self):
        self.assertEqual(set(TYPES), set(Kind))
        for kind, dtype in TYPES.items():
            view = dtype.view()
            self.assertEqual((dtype.kind, type(view), view), (kind, type(VIEWS[kind]), VIEWS[kind]))
            for other, its_view in VIEWS.items():
                self.assertEqual(view == its_view, kind is other)
            self.assertEqual((copy.copy(view), copy.deepcopy(view), pickle.loads(pickle.dumps(view))), (view,) * 3)
            self.assertEqual(hash(view), hash(VIEWS[kind]))
        self.assertEqual({type(it) for it in VIEWS.values()}, {*typing.get_args(vortex_logical_types.AnyView)})
        self.assertEqual(repr(VIEWS[Kind.LIST]), "View.List(element=DType('i8'), nullable=True)")

    @unittest.skipIf(sys.version_info < (3, 10), "match came with Python 3.10")
    def test_views_are_matched(self):
        program = """
def leaves(dtype):
    match dtype.view():
        case View.List(element) | View.FixedSizeList(element):
            return leaves(element)
        case View.Struct(fields=fields) | View.Union(variants=fields):
            return [leaf for _, part in fields for leaf in leaves(part)]
        case View.Primitive(PType.U8, nullable):
            return ["u8" + "?" * nullable]
        case View.Extension(id, metadata, storage):
            return [id, metadata, *leaves(storage)]
        case other:
            return [str(dtype)]
"""
        names = {"View": View, "PType": PType}
        exec(program, names)  # (Python 3.9 can't read it)
        whole = DType("{a=list({b=fixed_size_list(u8?)[2], c=i8}), d=union(x=x.tag[0x61](utf8))}")
        self.assertEqual(names["leaves"](whole), ["u8?", "i8", "x.tag", b"a", "utf8"])

    def test_wide_types_have_all_names_and_types(self):
        names = [f"column {it} \u00e9" if it % 9 else "n" * it for it in range(1000)]
        types = [DType.decimal(1 + it % 76, 0) for it in range(1000)]
        struct = DType.struct(zip(names, types))
        self.assertEqual((len(struct), struct.names, [*struct]), (1000, names, struct.fields))
        self.assertEqual(struct.fields, [*zip(names, types)])
        union = DType.union(zip(names[1:4], types))
        self.assertIs(union.variants[2][1], union.variants[2][1])
        self.assertEqual(union.variants, [*zip(names[1:4], types)])
        self.assertEqual((DType("{}").fields, DType("{}").names), ([], []))

    def test_a_type_outlives_the_struct_and_the_other_types(self):
        kept = DType("{a=i8, b={c=utf8?}, d=i16}").fields[1][1]
        self.assertEqual((kept, kept.fields), (DType("{c=utf8?}"), [("c", DType("utf8?"))]))

    def test_a_part_stays_the_same_object(self):
        whole = DType("{a=list(i8), b=utf8}")
        self.assertIs(whole.fields[0][1], whole.fields[0][1])
        self.assertIs(whole.fields[0][1].element, whole.fields[0][1].element)
        names = whole.names
        names.append("c")
        self.assertEqual((whole.names, len(whole)), (["a", "b"], 2))

    def test_long_texts(self):
        for length in (3000, 2**21):
            self.assertEqual(DType.struct({"n" * length: "i8"}).to_source(), f"{{{'n' * length}=i8}}")


if __name__ == "__main__":
    unittest.main()
