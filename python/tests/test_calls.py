# SPDX-License-Identifier: Apache-2.0
# SPDX-FileCopyrightText: Copyright the Vortex contributors

"""The calls of the package, each on a value or two."""
import copy
import doctest
import inspect
import pickle
import unittest

import vortex_logical_types
from vortex_logical_types import (ELEMENT, Below, DType, ErrorKind, FieldMask, FieldPath, FieldPathSet, FlatMessage, Kind,
                                  LibraryError, Message, Node, PType, TimeUnit, Unreadable, VortexError)


class Calls(unittest.TestCase):
    def refused(self, kind, call, *arguments):
        with self.assertRaises(VortexError) as caught:
            call(*arguments)
        self.assertEqual((caught.exception.kind, caught.exception.number), (kind, kind.number))
        return caught.exception

    def test_makes_each_kind(self):
        i8, utf8 = DType("i8"), DType("utf8")
        for made, text in (
            (DType.null(), "null"), (DType.bool_(True), "bool?"), (DType.primitive(PType.F16), "f16"),
            (DType.decimal(10, -2, True), "decimal(10,-2)?"), (DType.utf8(), "utf8"), (DType.binary(True), "binary?"),
            (DType.variant(), "variant"), (DType.list_(i8, True), "list(i8)?"),
            (DType.fixed_size_list(i8, 3), "fixed_size_list(i8)[3]"),
            (DType.map_(utf8, utf8, keys_sorted=True), "map(utf8, utf8, keys_sorted=true)"),
            (DType.struct([("a", i8), ("b c", i8)], True), '{a=i8, "b c"=i8}?'), (DType.struct([]), "{}"),
            (DType.union([("a", i8), ("b", i8)]), "union(a=i8, b=i8)"),
            (DType.union([("a", i8)], tags=b"\x07"), "union(a@7=i8)"),
            (DType.extension("x.tag", b"a\0b", utf8), "x.tag[0x610062](utf8)"),
        ):
            self.assertEqual((made.to_source(), repr(made), made), (text, f"DType({text!r})", DType(text)))
        self.refused(ErrorKind.PRECISION_ZERO, DType.decimal, 0, 0)
        self.refused(ErrorKind.OUT_OF_RANGE, DType.decimal, 256, 0)
        self.refused(ErrorKind.OUT_OF_RANGE, DType.fixed_size_list, i8, 1 << 32)
        self.refused(ErrorKind.MAP_KEY_NULLABLE, DType.map_, DType("utf8?"), i8)
        self.refused(ErrorKind.UNION_NAMES_REPEAT, DType.union, [("a", i8), ("a", i8)])
        self.assertEqual((i8, utf8), (DType("i8"), DType("utf8")))

    def test_reads_and_writes_texts(self):
        self.assertEqual(self.refused(ErrorKind.UNREADABLE, DType, "{a=i33}").position, 4)
        self.refused(ErrorKind.PRECISION_ZERO, DType, "decimal(0,0)")
        for text in ("\ud800", "{\"\udfff\"=i8}"):
            self.assertRaises(UnicodeEncodeError, DType, text)
        self.assertRaises(UnicodeEncodeError, DType("{a=i8}").find, "\ud800")
        name = 'x\0"\n' + "é" * 1000
        named = DType.struct([(name, DType.null())])
        self.assertEqual((named.names, DType(named.to_source()), named.find(name)), ([name], named, 0))
        self.assertEqual(str(DType('{"a, b"=i8}')), "{a, b=i8}")

    def test_tells_parts(self):
        list_ = DType("fixed_size_list(i32?)[3]?")
        self.assertEqual((list_.kind, list_.fixed_size, list_.element, list_.is_nullable),
                         (Kind.FIXED_SIZE_LIST, 3, DType("i32?"), True))
        self.assertEqual((DType("i32").ptype, list_.ptype, DType("i32").element_size()), (PType.I32, None, 4))
        self.assertEqual(DType("decimal(10,-2)").decimal_parts, (10, -2))
        map_ = DType("map(utf8, i32?, keys_sorted=true)")
        self.assertEqual((map_.key, map_.value, map_.keys_sorted, map_.entries()),
                         (DType("utf8"), DType("i32?"), True, DType("{key=utf8, value=i32?}")))
        extension = DType("x.tag[0x610062](utf8)")
        self.assertEqual((extension.id, extension.metadata, extension.storage), ("x.tag", b"a\0b", DType("utf8")))
        self.assertEqual((list_.id, list_.metadata, list_.storage, list_.key), (None, None, None, None))
        self.refused(ErrorKind.PRECONDITION, DType("null").with_nullability, False)
        self.assertEqual(DType("i8").union_nullability(True), DType("i8?"))
        union = DType("union(a@5=i32, b@9=utf8)")
        self.assertEqual((union.nvariants, union.variant_name(1), union.variant_of("a"), union.find_variant("c")),
                         (2, "b", DType("i32"), None))
        self.assertEqual((union.child_index_to_tag(1), union.tag_to_child_index(5), union.is_consecutive), (9, 0, False))
        self.assertIsNone(union.tag_to_child_index(256))

    def test_looks_up_fields(self):
        whole = DType("{a=i32, b=utf8?, a=f64}")
        self.assertEqual((whole.nfields, whole.names, whole.find("a"), whole.find("c")), (3, ["a", "b", "a"], 0, None))
        self.assertEqual(whole.fields, [("a", DType("i32")), ("b", DType("utf8?")), ("a", DType("f64"))])
        self.assertEqual((whole.field("b"), whole.field_by_index(3), whole.field_name(1 << 70)), (DType("utf8?"), None, None))
        self.assertEqual(whole.project(["b", "a"]), DType("{b=utf8?, a=i32}"))
        self.assertEqual(whole.without_field(0), DType("{b=utf8?, a=f64}"))
        self.refused(ErrorKind.FIELD_NOT_FOUND, whole.project, ["c"])
        self.refused(ErrorKind.INDEX_OUT_OF_BOUNDS, whole.without_field, 3)
        self.refused(ErrorKind.DUPLICATE_NAMES, whole.disjoint_merge, whole)
        self.refused(ErrorKind.PRECONDITION, DType("i8").field, "a")
        self.assertRaises(IndexError, whole.field_name, -1)

    def test_changes_fields(self):
        whole = DType("{a=i32, b=utf8?, a=f64}?")
        self.assertEqual(whole.push_field("a", "i8"), DType("{a=i32, b=utf8?, a=f64, a=i8}?"))
        self.assertEqual(whole.with_field("a", DType("i8")), DType("{a=i8, b=utf8?, a=f64}?"))
        self.assertEqual(whole.with_field("c", "i8"), whole.push_field("c", "i8"))
        self.assertEqual(whole.with_field_at(1, "c", "i8"), DType("{a=i32, c=i8, b=utf8?, a=f64}?"))
        self.assertEqual(whole.with_field_at(3, "c", "i8"), whole.push_field("c", "i8"))
        self.refused(ErrorKind.INDEX_OUT_OF_BOUNDS, whole.with_field_at, 4, "c", "i8")
        self.refused(ErrorKind.PRECONDITION, DType("i8").push_field, "a", "i8")
        self.assertRaises(IndexError, whole.with_field_at, -1, "c", "i8")
        self.assertRaises(Unreadable, whole.push_field, "c", "i9")

    def test_renames_fields(self):
        whole = DType("{a=i32, b={a=utf8}}?")
        self.assertEqual(whole.with_fields_renamed({"a": "b", "b": "a"}), DType("{b=i32, a={a=utf8}}?"))
        self.assertEqual(whole.with_fields_renamed([("a", "x"), ("a", "y"), ("z", "b")]), DType("{x=i32, b={a=utf8}}?"))
        self.assertEqual(whole.with_fields_renamed({}), whole)
        self.refused(ErrorKind.DUPLICATE_NAMES, whole.with_fields_renamed, {"a": "b"})
        with self.assertRaisesRegex(LibraryError, '^the name "b" would occur twice$'):
            whole.with_fields_renamed({"a": "b"})
        repeated = whole.with_fields_renamed({"a": "b"}, allow_repeats=True)
        self.assertEqual(repeated, DType("{b=i32, b={a=utf8}}?"))
        self.refused(ErrorKind.DUPLICATE_NAMES, repeated.with_fields_renamed, {"c": "d"})
        for names in ({"a": 5}, [("a",)], "ab", 5):
            self.assertRaisesRegex(TypeError, "^names", whole.with_fields_renamed, names)

    def test_compares(self):
        one, other = DType("{a=i32, b=utf8?}"), DType("{a=i32?, b=utf8}")
        self.assertEqual((one.merge_nullability(other), one.merge_nullability(one)), (DType("{a=i32?, b=utf8?}"), one))
        self.assertEqual((one.intersect_nullability(other), one.intersect_nullability(DType("i8"))),
                         (DType("{a=i32, b=utf8}"), None))
        self.assertEqual(len({one, DType("{a=i32, b=utf8?}"), other}), 2)
        self.assertTrue(one.eq_ignore_nullability(other) and one != other and one != "i8")
        self.assertEqual(one.hash_ignore_nullability(), other.hash_ignore_nullability())
        self.assertTrue(one.eq_with_nullability_subset(DType("{a=i32?, b=utf8?}")))
        self.assertEqual((pickle.loads(pickle.dumps(one)), copy.copy(one), copy.deepcopy(one)), (one, one, one))

    def test_walks_paths(self):
        path = FieldPath.from_steps(["a", ELEMENT, "b c"])
        self.assertEqual((repr(path), str(path), [*path]), ("FieldPath('a.[].\"b c\"')", "$a.[].$b c", ["a", ELEMENT, "b c"]))
        self.assertEqual((path[-1], path.step_into(), path.push(ELEMENT).parts[-1]), ("b c", FieldPath('[]."b c"'), ELEMENT))
        self.assertRaises(IndexError, lambda: path[3])
        self.assertRaises(IndexError, lambda: path[-4])
        whole = DType('{a=list({"b c"=u32})?}')
        self.assertEqual((path.resolve(whole), FieldPath("x").resolve(whole)), (DType("u32"), None))
        self.assertTrue(path.exists_in(whole) and path.overlap(FieldPath("a")) and FieldPath().is_root)
        self.assertEqual(FieldPath.root(), FieldPath("."))
        self.refused(ErrorKind.PRECONDITION, FieldPath("[]").starts_with_name, "a")

    def test_texts_stand_for_types_and_paths(self):
        """Each call that takes a type or a path takes its text, which is read as by the class, with the same errors."""
        whole, i8, path = DType("{a={b=i8}, c=utf8?}"), DType("i8"), FieldPath("a.b")
        for given, text in (
            (DType.list_(i8), DType.list_("i8")), (DType.fixed_size_list(i8, 2), DType.fixed_size_list("i8", 2)),
            (DType.map_(i8, i8), DType.map_("i8", "i8")), (DType.extension("x.y", b"", i8), DType.extension("x.y", b"", "i8")),
            (DType.struct({"a": i8}), DType.struct([("a", "i8")])), (DType.union({"a": i8}), DType.union({"a": "i8"})),
            (whole.merge_columns(DType("{d=i8}")), whole.merge_columns("{d=i8}")),
            (whole.disjoint_merge(DType("{d=i8}")), whole.disjoint_merge("{d=i8}")),
            (path.resolve(whole), path.resolve("{a={b=i8}, c=utf8?}")), (path.exists_in(i8), path.exists_in("i8")),
            (path.overlap(FieldPath("a")), path.overlap("a")), (path.join(path), path.join("a.b")),
            (whole.project_paths(FieldPathSet(["a.b"])), whole.project_paths(["a.b", path])),
            (whole.project_paths(FieldPathSet()), whole.project_paths(iter([]))),
            (whole.without_paths(FieldPathSet(["a.b"])), whole.without_paths(["x", path])),
            (whole.without_paths(FieldPathSet()), whole.without_paths(iter([]))),
            (whole.with_type_at(path, DType("utf8")), whole.with_type_at("a.b", "utf8")),
            (FieldPathSet(["a.b", "d"]).unresolved(whole), FieldPathSet(["a.b", "d"]).unresolved(whole.to_source())),
        ):
            self.assertEqual(given, text)
        for call in (DType.list_, path.resolve, whole.merge_columns, lambda it: DType.struct({"a": it})):
            self.assertEqual(self.refused(ErrorKind.UNREADABLE, call, "i33").position, 1)
        for call in (whole.project_paths, whole.without_paths):
            self.refused(ErrorKind.UNREADABLE, call, ["a", "a..b"])

    def test_parts(self):
        whole = DType("{a={b=u8, c=list({d=i8}?)}, a=i32, e={}, f=map(utf8, i8, keys_sorted=false)?}")
        parts = whole.parts()
        self.assertEqual([path.to_source() for path, _ in parts], [".", "a", "a.b", "a.c", "a.c.[]", "a.c.[].d", "e", "f"])
        for path, part in parts:
            self.assertEqual(path.resolve(whole), part)
        self.assertEqual(DType("null").parts(), [(FieldPath.root(), DType("null"))])

    def test_leaves(self):
        whole = DType("{a={b=u8, c=list({d=i8}?)}, a=i32, e={}, f=map(utf8, i8, keys_sorted=false)?}")
        self.assertEqual(whole.leaf_paths(), FieldPathSet(["a.b", "a.c.[].d", "e", "f"]))
        self.assertEqual(DType("i8").leaf_paths(), FieldPathSet(["."]))

    def test_formats_have_a_width(self):
        self.assertEqual((f"{DType('i8'):>4}", f"{FieldPath('a'):4}|", f"{FieldMask.all():^17}"), ("  i8", "$a  |", " FieldMask.all() "))
        self.assertEqual((f"{DType('i8')}", format(FieldPathSet(["a"]), "20")), ("i8", "FieldPathSet(['a']) "))

    def test_members_of_enumerations_have_one_form(self):
        for cls in (Kind, PType, TimeUnit, ErrorKind):
            for it in cls:
                self.assertEqual((str(it), f"{it}", f"{it:>20}", cls(str(it)), cls(it.value)),
                                 (it.name.lower(), it.name.lower(), it.name.lower().rjust(20), it, it))
            self.assertRaises(ValueError, cls, "no such name")
        self.assertEqual((str(ELEMENT), repr(ELEMENT)), ("[]", "ELEMENT"))

    def test_has_sets(self):
        paths = FieldPathSet(["a.b", "x", "a", "a.[].c", "a"])
        self.assertEqual(sorted(it.to_source() for it in paths), ["a", "a.[].c", "a.b", "x"])
        self.assertEqual(sorted(it.to_source() for it in paths.cover()), ["a", "x"])
        self.assertEqual((len(paths), "a" in paths, FieldPath("b") in paths), (4, True, False))
        self.assertEqual((paths.below("a"), paths.below("b")), (Below(True, True, 1), None))
        self.assertEqual((paths.names_below("a"), paths.names_below("b")), (["b"], None))
        self.assertEqual(sorted(map(FieldPath.to_source, paths.unresolved(DType("{a=i8}")))), ["a.[].c", "a.b", "x"])
        other = paths.copy()
        other.insert("y")
        self.assertEqual((len(other), len(paths)), (5, 4))
        self.assertEqual(DType("{a=i8, b=i8}").project_paths(FieldPathSet(["b"])), DType("{b=i8}"))
        self.assertIsNone(DType("{a=i8}").project_paths(FieldPathSet()))
        self.assertEqual(DType("{a=i8, b=list(i8)}?").without_paths(["b.[]"]), DType("{a=i8}?"))
        self.assertIsNone(DType("list(i8)").without_paths(FieldPathSet(["[]"])))

        def failing():
            yield "p"
            raise KeyError

        self.assertRaises(KeyError, paths.extend, failing())
        self.assertEqual(len(paths), 4)

    def test_has_masks(self):
        mask = FieldMask.prefix("a.[]")
        self.assertEqual((mask.kind, mask.path, mask.starting_field()), ("prefix", FieldPath("a.[]"), "a"))
        self.assertEqual((mask.step_into().starting_field(), repr(mask)), (ELEMENT, "FieldMask.prefix('a.[]')"))
        self.assertTrue(mask == mask.copy() and mask != FieldMask.all() and FieldMask.all().matches_all)
        self.refused(ErrorKind.EXACT_ROOT, FieldMask.exact(".").step_into)
        self.refused(ErrorKind.ALL_MASK, FieldMask.all().starting_field)

    def test_has_messages(self):
        nodes = [Node(kind=10, names=1, types=1), Node(kind=14, number=1), Node(kind=7, nullable=1, has_first=1),
                 Node(kind=3, value=6)]
        message, whole = Message(nodes, b"a"), DType("{a=list(i32)?}")
        self.assertEqual((DType.from_proto(message), whole.to_proto()), (whole, message))
        self.assertEqual((message.copy(), pickle.loads(pickle.dumps(message)), Message.from_nodes(iter(nodes), b"a")),
                         (message,) * 3)
        self.assertEqual(eval(repr(message)), message)
        nothing = Message([Node()], b"")
        self.assertEqual(repr(nothing), "Message([Node()], b'')")
        self.assertNotEqual(message, nothing)
        self.refused(ErrorKind.TYPE_MISSING, DType.from_proto, nothing)
        self.refused(ErrorKind.LIST_ELEMENT_MISSING, DType.from_proto, Message([Node(kind=7)], b""))
        unknown = Message([Node(kind=13, has_first=1), Node(kind=14, number=5), Node(kind=5)], b"x.tag")
        self.refused(ErrorKind.EXTENSION_UNREGISTERED, DType.from_proto, unknown)
        self.refused(ErrorKind.EXTENSION_UNREGISTERED, unknown.normal)
        self.assertEqual(DType.from_proto(unknown, allow_unknown=True), DType("x.tag[0x](utf8)"))
        self.assertEqual(unknown.normal(allow_unknown=True), DType("x.tag[0x](utf8)").to_proto())
        self.assertNotEqual(unknown.normal(allow_unknown=True), unknown)

    def test_has_flat_messages(self):
        whole = DType("{a=list(i32)?, b=union(x@3=utf8, y@1=decimal(10,-2)), c=x.tag[0x00ff](map(u8, bool?, keys_sorted=true))}")
        flat = whole.to_proto().to_flat()
        self.assertEqual(Message.from_flat(flat), whole.to_proto())
        self.assertEqual(DType.from_proto(Message.from_flat(flat), allow_unknown=True).names, ["a", "b", "c"])
        self.assertEqual(pickle.loads(pickle.dumps(flat)), flat)
        nodes = [Node(kind=10, names=1, types=1, nullable=1), Node(kind=14, number=2), Node(kind=3, value=3)]
        self.assertEqual(DType.from_proto(Message.from_nodes(nodes, b"id")), DType("{id=u64}?"))
        self.assertEqual(DType("{id=u64}?").to_proto().to_flat(), FlatMessage(b"".join(map(bytes, nodes)), b"id"))
        self.assertEqual(Message([Node()], b"").to_flat(), FlatMessage(bytes(Node()), b""))
        for wrong in (nodes[:-1], nodes + nodes[-1:], [], [Node(kind=14)], [Node(kind=16)], [Node(kind=1, nullable=1)]):
            self.refused(ErrorKind.OUT_OF_RANGE, Message.from_nodes, wrong, b"id")
        self.refused(ErrorKind.OUT_OF_RANGE, Message.from_nodes, nodes, b"ids")
        self.refused(ErrorKind.NOT_UTF8, Message.from_nodes, nodes, b"\xff\xff")
        self.refused(ErrorKind.OUT_OF_RANGE, Message.from_flat, FlatMessage(b"\0", b""))
        self.refused(ErrorKind.TOO_DEEP, Message.from_nodes, [Node(kind=7, has_first=1)] * 129 + [Node(kind=2)], b"")

    def test_has_messages_of_paths(self):
        self.assertEqual(FieldPath.from_proto(["a", "b c"]), FieldPath('a."b c"'))
        self.assertEqual(FieldPath.from_proto([]), FieldPath.root())
        self.refused(ErrorKind.PATH_PART_MISSING, FieldPath.from_proto, ["a", None])

    def test_equal_objects_have_equal_hashes(self):
        self.assertEqual(len({FieldMask.all(), FieldMask.prefix("a"), FieldMask.exact("a"), FieldMask.prefix(FieldPath("a"))}), 3)
        self.assertEqual(len({Message([Node(kind=1)], b""), DType.null().to_proto(), Message([Node()], b"")}), 2)

    def test_has_examples(self):
        runner = doctest.DocTestRunner()
        for it in (vortex_logical_types, *map(vars(vortex_logical_types).get, vortex_logical_types.__all__)):
            finder = doctest.DocTestFinder(recurse=isinstance(it, type))
            for example in finder.find(it, "an example", module=False, globs={**vars(vortex_logical_types)}):
                runner.run(example)
        self.assertEqual(runner.failures, 0)
        self.assertGreater(runner.tries, 45)

    def test_public_classes_are_of_the_package(self):
        for name in vortex_logical_types.__all__:
            it = getattr(vortex_logical_types, name)
            if isinstance(it, type):
                self.assertEqual((it.__module__, it.__qualname__), ("vortex_logical_types", name))

    def test_every_class_has_an_example(self):
        for name in vortex_logical_types.__all__:
            it = getattr(vortex_logical_types, name)
            if isinstance(it, type) and not issubclass(it, (Exception, Node)):  # (Message.from_nodes has one of nodes)
                members = [getattr(found, "fget", found) for found in vars(it).values()]
                members = [getattr(found, "__func__", found) for found in members]
                with self.subTest(name=name):
                    self.assertIn(">>> ", "".join(found.__doc__ or "" for found in (it, *members)))

    def test_every_function_is_described(self):
        for name in vortex_logical_types.__all__:
            it = getattr(vortex_logical_types, name)
            self.assertTrue(it.__doc__ or name == "AnyView", name)
            for member, found in vars(it).items() if isinstance(it, type) else ():
                if not member.startswith("_") and (callable(found) or isinstance(found, (property, staticmethod, classmethod))):
                    with self.subTest(function=f"{name}.{member}"):
                        self.assertTrue(inspect.getdoc(getattr(it, member)))


if __name__ == "__main__":
    unittest.main()
