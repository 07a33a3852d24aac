# SPDX-License-Identifier: Apache-2.0
# SPDX-FileCopyrightText: Copyright the Vortex contributors

"""Copies and pickles of objects and of exceptions."""
import concurrent.futures
import copy
import gc
import multiprocessing
import pickle
import pickletools
import unittest

import vortex_logical_types
from vortex_logical_types import (ELEMENT, Below, Difference, DType, ErrorKind, FieldMask, FieldNotFound, FieldPath, FieldPathSet,
                                  FlatMessage, IndexOutOfBounds, Kind, LibraryError, Message, Node, OutOfMemory, PType,
                                  Unreadable, VortexError, View)

# Makes an object of each class, each time anew.
MAKERS = {
    DType: lambda: DType('{a=list(i32?)?, "b c"=x.tag[0x00ff](union(x@3=utf8, y@1=decimal(10,-2)))}'),
    FieldPath: lambda: FieldPath('a.[]."b c"'),
    FieldPathSet: lambda: FieldPathSet(["a.b", "a", 'x.[]."b c"', "."]),
    FieldMask: lambda: FieldMask.prefix("a.[]"),
    Message: lambda: DType("{a=list(i32?)?}?").to_proto(),
    Node: lambda: Node(kind=3, value=-1),
    FlatMessage: lambda: FlatMessage(b"\0" * 4, b"id"),
    Below: lambda: Below(True, False, 2),
    Difference: lambda: Difference(FieldPath("a.[]"), DType("i8"), None),
    Kind: lambda: Kind.LIST,
    PType: lambda: PType.U8,
    ErrorKind: lambda: ErrorKind.TOO_DEEP,
    vortex_logical_types.TimeUnit: lambda: vortex_logical_types.TimeUnit.DAYS,
    vortex_logical_types.Element: lambda: ELEMENT,
}
ERRORS = (VortexError(ErrorKind.OUT_OF_RANGE, "why"), OutOfMemory(ErrorKind.OUT_OF_MEMORY, "out of memory"),
          Unreadable(ErrorKind.TOO_DEEP, "unreadable at byte 4: why", 4), LibraryError(ErrorKind.DUPLICATE_NAMES, "two names"),
          FieldNotFound(ErrorKind.FIELD_NOT_FOUND, "no such field"), IndexOutOfBounds(ErrorKind.INDEX_OUT_OF_BOUNDS, "no index"))


def shown(it):
    """What an object shows of its value. A set has no order."""
    return sorted(path.to_source() for path in it) if isinstance(it, FieldPathSet) else repr(it)


def copies_of(it):
    """Copies of an object, made in each way, with the way."""
    yield "copy", copy.copy(it)
    yield "deepcopy", copy.deepcopy(it)
    for protocol in range(pickle.HIGHEST_PROTOCOL + 1):
        yield f"pickle {protocol}", pickle.loads(pickle.dumps(it, protocol))
    if hasattr(it, "copy"):
        yield "copy()", it.copy()


def raises(error):
    """Raises the error. (A process of a pool calls it.)"""
    raise error


def misread(source):
    """Reads a type. (A process of a pool calls it.)"""
    return DType(source).to_source()


class Tagged(DType):
    """A class of a caller, whose objects have attributes of their own."""


class Chosen(FieldPathSet):
    """A class of a caller."""


class Copies(unittest.TestCase):
    def test_every_public_class_is_copied(self):
        classes = {it for it in (getattr(vortex_logical_types, name) for name in vortex_logical_types.__all__)
                   if isinstance(it, type) and not issubclass(it, Exception)}
        self.assertEqual(classes, {*MAKERS, View})  # (View has no objects of its own)
        for make in MAKERS.values():
            it = make()
            for way, made in copies_of(it):
                with self.subTest(cls=type(it), way=way):
                    self.assertEqual((type(made), shown(made)), (type(it), shown(it)))
            self.assertEqual(shown(copy.deepcopy([it, it])[1]), shown(it))

    def test_the_end_of_a_copy_leaves_the_original(self):
        for make in MAKERS.values():
            it = make()
            for way, made in copies_of(it):
                with self.subTest(cls=type(it), way=way):
                    del made
                    gc.collect()
                    self.assertEqual(shown(it), shown(make()))
            for way, made in copies_of(make()):
                with self.subTest(cls=type(it), way=way, gone="the original"):
                    gc.collect()
                    self.assertEqual(shown(made), shown(it))

    def test_a_change_of_a_copy_leaves_the_original(self):
        it = FieldPathSet(["a"])
        copies = [*copies_of(it)]
        for way, made in copies:
            with self.subTest(way=way):
                made.insert("b")
                self.assertEqual((len(it), len(made)), (1, 2))
        it.extend(["c", "d"])
        self.assertEqual({len(made) for _, made in copies}, {2})

    def test_a_copy_is_equal(self):
        mask = MAKERS[FieldMask]()
        for way, made in copies_of(mask):
            with self.subTest(way=way):
                self.assertTrue(mask == made and mask != FieldMask.all())

    def test_equal_objects_have_equal_pickles(self):
        for cls, make in MAKERS.items():
            with self.subTest(cls=cls):
                self.assertEqual(pickle.dumps(make()), pickle.dumps(make()))
        one, other = FieldPathSet(["a", "b", "c"]), FieldPathSet(["c", "a"])
        other.insert("b")
        self.assertEqual(pickle.dumps(one), pickle.dumps(other))

    def test_pickles_contain_texts(self):
        """Each argument in a pickle, but for the names of modules, classes and functions."""
        names = {"vortex_logical_types", "builtins", "__builtin__", "getattr", "from_flat", *vortex_logical_types.__all__}
        for cls, wanted in (
            (DType, [MAKERS[DType]().to_source()]), (FieldPath, ['a.[]."b c"']),
            (FieldPathSet, [".", "a", "a.b", 'x.[]."b c"']), (FieldMask, ["prefix", "a.[]"]),
            (Message, [*MAKERS[Message]().to_flat()]),
        ):
            with self.subTest(cls=cls):
                found = [it for _, it, _ in pickletools.genops(pickle.dumps(MAKERS[cls]()))
                         if isinstance(it, (str, bytes)) and it not in names]
                self.assertEqual(found, wanted)

    def test_wrong_pickles_raise_as_the_constructor_does(self):
        for it, right, wrong, error in (
            (DType("utf8"), b"utf8", b"utf9", Unreadable), (FieldPath("a.b"), b"a.b", b"a..", Unreadable),
            (FieldPathSet(["a.b"]), b"a.b", b"a..", Unreadable), (FieldMask.exact("a.b"), b"exact", b"every", ValueError),
            (FieldMask.exact("a.b"), b"a.b", b"a..", Unreadable), (Message.from_nodes([Node(kind=1)], b""), b"\1\0\0\0", b"\x77\0\0\0", LibraryError),
        ):
            with self.subTest(wrong=wrong):
                made = pickle.dumps(it)
                self.assertEqual(made.count(right), 1)
                self.assertRaises(error, pickle.loads, made.replace(right, wrong))

    def test_objects_of_a_subclass_keep_their_class(self):
        for it in (Tagged("{a=i8}"), Chosen(["a", "b"])):
            it.labels = ["x"]
            for way, made in copies_of(it):
                with self.subTest(cls=type(it), way=way):
                    self.assertEqual((type(made), shown(made), made.labels), (type(it), shown(it), ["x"]))
                    self.assertIsNot(made, it)
                    self.assertEqual(made.labels is it.labels, way in ("copy", "copy()"))

    def test_exceptions_are_copied(self):
        for error in ERRORS:
            error.note = "more"
            for way, made in copies_of(error):
                with self.subTest(error=error, way=way):
                    self.assertEqual((type(made), str(made), vars(made), made.args),
                                     (type(error), str(error), vars(error), error.args))
        try:
            DType("{a=i33}")
        except Unreadable as error:
            made = pickle.loads(pickle.dumps(error))
            self.assertEqual((str(made), made.kind, made.position), (str(error), ErrorKind.UNREADABLE, 4))

    def test_exceptions_come_out_of_a_pool_of_processes(self):
        context = multiprocessing.get_context("fork")
        with concurrent.futures.ProcessPoolExecutor(1, mp_context=context) as pool:
            for error in ERRORS:
                with self.assertRaises(type(error)) as caught:
                    pool.submit(raises, error).result(60)
                self.assertEqual((str(caught.exception), caught.exception.number), (str(error), error.number))
            self.assertRaises(Unreadable, pool.submit(misread, "{a=i33}").result, 60)
            self.assertEqual(pool.submit(DType.to_source, DType("{a=i8}")).result(60), "{a=i8}")
        with context.Pool(1) as pool:
            self.assertRaises(Unreadable, pool.apply_async(misread, ("{a=i33}",)).get, 60)
            self.assertEqual(pool.apply_async(misread, ("i8",)).get(60), "i8")


if __name__ == "__main__":
    unittest.main()
