# SPDX-License-Identifier: Apache-2.0
# SPDX-FileCopyrightText: Copyright the Vortex contributors

"""Paths as sequences of steps, and sets of paths beside Python's own sets."""
import collections.abc
import copy
import itertools
import pickle
import random
import unittest

from vortex_logical_types import ELEMENT, DType, FieldPath, FieldPathSet, Unreadable

SOURCES = (".", "a", "a.b", "a.[]", "a.[].b", "b", "[]", "[].[]", '"a.b"')
PATHS = [FieldPath(it) for it in SOURCES]


def steps_of(paths):
    """The paths as tuples of their steps, in one of Python's own sets."""
    return {(*it,) for it in paths}


class Paths(unittest.TestCase):
    def test_a_path_is_a_sequence(self):
        path = FieldPath('a.[]."b c"')
        self.assertIsInstance(path, collections.abc.Sequence)
        self.assertEqual(([*path], path.parts, [*reversed(path)]), (["a", ELEMENT, "b c"],) * 2 + (["b c", ELEMENT, "a"],))
        self.assertEqual((path.index(ELEMENT), path.count("a"), "a" in path, "b" in path), (1, 1, True, False))
        for fresh in (True, False):  # (a step is found before and after all steps are known)
            for at in range(-3, 3):
                it = FieldPath('a.[]."b c"') if fresh else path
                self.assertEqual(it[at], ["a", ELEMENT, "b c"][at])
        for at in (3, -4, 1 << 70):
            self.assertRaisesRegex(IndexError, f"^index must be from -3 to 2, not {at}$", lambda it=at: path[it])
        self.assertRaisesRegex(IndexError, "^the root has no steps$", lambda: FieldPath.root()[0])

    def test_slices_are_paths(self):
        path = FieldPath("a.b.[].c")
        for begin, end, by in itertools.product((None, *range(-5, 6)), (None, *range(-5, 6)), (None, 1, 2, -1)):
            found = path[begin:end:by]
            self.assertEqual((type(found), [*found]), (FieldPath, [*path][begin:end:by]))

    def test_steps_are_appended(self):
        path = FieldPath("a")
        self.assertEqual((path / "b", path / ELEMENT / "b.c"), (FieldPath("a.b"), FieldPath('a.[]."b.c"')))
        self.assertEqual(path.join("b.c"), FieldPath("a.b.c"))
        self.assertEqual(path.join(FieldPath("[]")), FieldPath("a.[]"))
        self.assertEqual(FieldPath.from_name("a.b"), FieldPath('"a.b"'))
        self.assertEqual((path.parent(), FieldPath("a.b.[]").parent(), FieldPath.root().parent()),
                         (FieldPath.root(), FieldPath("a.b"), None))
        for wrong in (5, None, b"b", path, ["b"]):
            self.assertRaises(TypeError, lambda it=wrong: path / it)
            self.assertRaises(TypeError, lambda it=wrong: it / path)
        self.assertEqual((FieldPath(path), FieldPath(path) is path), (path, False))

    def test_prefixes(self):
        for one, other in itertools.product(PATHS, PATHS):
            is_prefix = [*one][: len(other)] == [*other]
            self.assertEqual((one.starts_with(other), one.starts_with(other.to_source())), (is_prefix, is_prefix))
            self.assertEqual(one.overlap(other), is_prefix or other.starts_with(one))

    def test_paths_are_ordered(self):
        """The element is before each name, names have the order of their bytes in UTF-8, and a prefix is before the rest."""
        wanted = [FieldPath.from_steps(it) for it in (
            [], [ELEMENT], [ELEMENT, ELEMENT], [ELEMENT, "a"], [""], ["A"], ["a"], ["a", ELEMENT], ["a", ""], ["a", "b"], ["a.b"],
            ["ab"], ["b"], ["z"], ["é"], ["\uffff"], ["\U0001f600"])]
        mixed = [*wanted]
        random.Random(1).shuffle(mixed)
        self.assertEqual(sorted(mixed), wanted)
        for (at, one), (other_at, other) in itertools.product(enumerate(wanted), enumerate(wanted)):
            self.assertEqual((one < other, one <= other, one > other, one >= other),
                             (at < other_at, at <= other_at, at > other_at, at >= other_at))
        for wrong in (5, "a", None, ["a"]):
            self.assertRaises(TypeError, lambda it=wrong: FieldPath("a") < it)


class Sets(unittest.TestCase):
    def test_a_set_is_a_set(self):
        paths = FieldPathSet(["a", "b.c", "a"])
        self.assertIsInstance(paths, collections.abc.Set)
        self.assertRaises(TypeError, hash, paths)
        self.assertTrue("a" in paths and FieldPath("b.c") in paths and "b" not in paths)
        for wrong in (5, None, b"a", [], ELEMENT, DType("i8")):
            self.assertNotIn(wrong, paths)
        self.assertRaises(Unreadable, lambda: "a..b" in paths)
        paths.add("d")
        paths.update(["e"], [FieldPath("f"), "a"], FieldPathSet(["g"]))
        self.assertEqual(steps_of(paths), {("a",), ("b", "c"), ("d",), ("e",), ("f",), ("g",)})
        paths.update()
        paths.update(paths)
        self.assertEqual((len(paths), bool(FieldPathSet()), bool(paths)), (6, False, True))
        self.assertEqual(repr(FieldPathSet(["b", "a.[]", "a"])), "FieldPathSet(['a', 'a.[]', 'b'])")

    def test_a_failed_update_changes_nothing(self):
        paths = FieldPathSet(["a"])
        self.assertRaises(Unreadable, paths.update, ["b"], ["c..d"])
        self.assertRaises(TypeError, paths.update, ["b"], "c")
        self.assertEqual(paths, FieldPathSet(["a"]))

    def test_sets_beside_those_of_python(self):
        """Each operation on random sets has the members that it has in Python, on tuples of steps."""
        chance = random.Random(2)
        for _ in range(300):
            one, other = ([it for it in PATHS if chance.random() < share] for share in (chance.random(), chance.random()))
            mine, yours, s, t = FieldPathSet(one), FieldPathSet(other), steps_of(one), steps_of(other)
            for operation in ("__or__", "__and__", "__sub__", "__xor__", "union", "intersection", "difference",
                              "symmetric_difference"):
                found = getattr(mine, operation)(yours)
                self.assertEqual((type(found), steps_of(found)), (FieldPathSet, getattr(s, operation)(t)), operation)
                self.assertEqual((steps_of(mine), steps_of(yours)), (s, t), operation)
            for asked in ("__le__", "__lt__", "__ge__", "__gt__", "__eq__", "__ne__", "issubset", "issuperset", "isdisjoint"):
                self.assertIs(getattr(mine, asked)(yours), getattr(s, asked)(t), asked)
            for asked in ("union", "intersection", "difference", "symmetric_difference"):
                self.assertEqual(steps_of(getattr(mine, asked)(it.to_source() for it in other)), getattr(s, asked)(t), asked)
            for asked in ("issubset", "issuperset", "isdisjoint"):
                self.assertIs(getattr(mine, asked)([it.to_source() for it in other]), getattr(s, asked)(t), asked)
            self.assertEqual(mine == yours, pickle.dumps(mine) == pickle.dumps(yours))
            self.assertEqual((steps_of(mine.union(yours, [FieldPath("z")], mine)), len(mine)), (s | t | {("z",)}, len(s)))

    def test_a_set_and_itself(self):
        """A call that takes two sets may be given one set twice, which the library takes to be two."""
        for sources in ([], ["a", "a.b"]):
            paths = FieldPathSet(sources)
            self.assertTrue(paths == paths and paths <= paths and paths >= paths and not paths < paths and not paths > paths)
            self.assertTrue(paths.issubset(paths) and paths.issuperset(paths))
            self.assertIs(paths.isdisjoint(paths), not sources)
            for both in (paths | paths, paths.union(paths), paths.union(), paths.union(paths, paths)):
                self.assertEqual(both, FieldPathSet(sources))
                both.add("c")
                self.assertEqual(len(paths), len(sources))

    def test_operators_take_sets_of_paths_alone(self):
        a, b = FieldPath("a"), FieldPath("b")
        paths = FieldPathSet(["a"])
        self.assertTrue(paths == {a} and {a} == paths and paths <= {a, b} and paths < {a, b} and {a, b} > paths)
        self.assertEqual((paths | {b}, {b} | paths, frozenset([a, b]) - paths, {a: 1}.keys() & paths, {a, b} ^ paths),
                         (FieldPathSet(["a", "b"]), FieldPathSet(["a", "b"]), FieldPathSet(["b"]), paths, FieldPathSet(["b"])))
        self.assertTrue(paths != {"a"} and paths != {a, 5} and paths != ["a"] and paths != 5)
        for wrong in ({"a"}, {a, 5}, [a], ["a"], "a", None, 5, a):
            for operate in ("__or__", "__and__", "__sub__", "__xor__", "__le__", "__ior__", "__rsub__"):
                self.assertIs(getattr(paths, operate)(wrong), NotImplemented)
            self.assertRaises(TypeError, lambda it=wrong: paths | it)
            self.assertRaises(TypeError, lambda it=wrong: paths <= it)
        for wrong in (5, None, "ab", b"", [5], a):
            for name in ("union", "intersection", "difference"):
                self.assertRaisesRegex(TypeError, "^others", getattr(paths, name), wrong)
            for name in ("issubset", "issuperset", "isdisjoint", "symmetric_difference"):
                self.assertRaisesRegex(TypeError, "^other", getattr(paths, name), wrong)
            self.assertRaisesRegex(TypeError, "^paths", paths.update, wrong)

    def test_an_argument_may_change_the_set(self):
        """While an iterable is read, Python runs, which may change the set."""
        paths = FieldPathSet(["a"])

        class Changing(collections.abc.Set):
            def __iter__(self):
                paths.insert(f"n{len(paths)}")
                return iter([FieldPath("b")])

            def __len__(self):
                return 1

            def __contains__(self, path):
                return path == FieldPath("b")

        calls = ("extend", "update", "union", "intersection", "difference", "symmetric_difference", "issubset", "issuperset",
                 "isdisjoint", "__init__", "__or__", "__ror__", "__and__", "__sub__", "__xor__", "__ior__", "__isub__", "__le__", "__eq__")
        for name in calls:
            with self.subTest(call=name):
                paths.clear()
                getattr(paths, name)(Changing())
                self.assertEqual(name != "__init__", "n0" in paths)
        for name in ("union", "intersection", "difference", "update"):
            getattr(paths, name)(paths, Changing(), paths)

    def test_operators_in_place(self):
        paths = same = FieldPathSet(["a", "b"])
        paths |= FieldPathSet(["c"])
        self.assertTrue(paths is same and paths == FieldPathSet(["a", "b", "c"]))
        paths &= FieldPathSet(["a", "c"])
        paths -= {FieldPath("c")}
        self.assertTrue(paths is same and paths == FieldPathSet(["a"]))
        paths ^= FieldPathSet(["a", "d"])
        paths |= paths
        self.assertTrue(paths is same and paths == FieldPathSet(["d"]))
        for operator in ("__ior__", "__iand__", "__isub__", "__ixor__"):
            self.assertIs(getattr(paths, operator)(["a"]), NotImplemented)
        paths -= paths
        self.assertEqual(len(same), 0)

    def test_paths_are_removed(self):
        """Each call of `collections.abc.MutableSet` does what it does to one of Python's own sets."""
        paths = FieldPathSet(["a", "a.b", "c"])
        self.assertIsInstance(paths, collections.abc.MutableSet)
        paths.discard("a")
        paths.discard(FieldPath("x"))
        self.assertEqual(steps_of(paths), {("a", "b"), ("c",)})
        paths.remove("c")
        self.assertRaisesRegex(KeyError, "^'c'$", paths.remove, "c")
        self.assertRaises(KeyError, paths.remove, FieldPath("a"))
        self.assertRaises(Unreadable, paths.discard, "a..b")
        self.assertEqual((paths.pop(), len(paths)), (FieldPath("a.b"), 0))
        self.assertRaises(KeyError, paths.pop)
        paths.update(["a", "b"])
        paths.clear()
        self.assertEqual((len(paths), paths.below(".")), (0, None))

    def test_a_set_is_made_again(self):
        paths = FieldPathSet(["a"])
        paths.__init__(["b"])
        self.assertEqual(paths, FieldPathSet(["b"]))
        paths.__init__(paths)
        self.assertEqual(paths, FieldPathSet(["b"]))
        self.assertEqual(copy.copy(paths), paths)


if __name__ == "__main__":
    unittest.main()
