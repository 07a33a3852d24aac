# SPDX-License-Identifier: Apache-2.0
# SPDX-FileCopyrightText: Copyright the Vortex contributors

"""What differs between two types. What is expected follows from the docstring of `differences`."""
import unittest

from vortex_logical_types import Difference, DType, FieldPath

# Two types, and their differences: a path, and the types before and after.
DIFFERENCES = (
    ("i32", "i32", ()), ("i32", "i32?", ((".", "i32", "i32?"),)), ("i32", "list(i32)", ((".", "i32", "list(i32)"),)),
    ("list(i32)", "list(u8)", (("[]", "i32", "u8"),)), ("list(i32)", "list(u8)?", ((".", "list(i32)", "list(u8)?"),)),
    ("fixed_size_list(i8)[2]", "fixed_size_list(u8)[2]", (("[]", "i8", "u8"),)),
    ("fixed_size_list(i8)[2]", "fixed_size_list(i8)[3]", ((".", "fixed_size_list(i8)[2]", "fixed_size_list(i8)[3]"),)),
    ("{a=i32, b={x=u8}}", "{b={x=i8, y=u8}}", (("a", "i32", None), ("b.x", "u8", "i8"), ("b.y", None, "u8"))),
    ("{a=i8, b=u8}", "{b=u8, a=i8}", ((".", "{a=i8, b=u8}", "{b=u8, a=i8}"),)),
    ("{s={a=i8, a=u8}}", "{s={a=i8}}", (("s", "{a=i8, a=u8}", "{a=i8}"),)),
    ("{u=union(a=i8)}", "{u=union(a=u8)}", (("u", "union(a=i8)", "union(a=u8)"),)),
    ("map(i8, {a=i8}, keys_sorted=false)", "map(i8, {a=u8}, keys_sorted=false)", ((".", "map(i8, {a=i8}, keys_sorted=false)", "map(i8, {a=u8}, keys_sorted=false)"),)),
)
# Two types, the paths of their differences if nullabilities are ignored, if the order is, and if both are.
IGNORING = (
    ("{a=i8, b=u8}", "{b=i8?, a=i8?}", ["."], ["a", "b"], ["b"]), ("{a=i8, b=u8}", "{a=i8?, b=u8}", [], ["a"], []),
    ("{a=i8, a=u8}", "{a=u8, a=i8}", ["."], ["."], ["."]), ("list(i8?)", "list(i8)?", [], ["."], []),
)


def typed(text):
    return None if text is None else DType(text)


class Differences(unittest.TestCase):
    def test_differences_of_each_kind(self):
        for before, after, expected in DIFFERENCES:
            found = DType(before).differences(DType(after))
            self.assertEqual(found, [Difference(FieldPath(path), typed(one), typed(other)) for path, one, other in expected])
            self.assertEqual(found == [], DType(before) == DType(after))
            self.assertEqual(DType(after).differences(after), [])
            for it in found:
                self.assertEqual((it.path.resolve(before), it.path.resolve(after)), (it.before, it.after))

    def test_differences_in_words(self):
        found = DType("{a=i32, b={x=u8}}").differences("{b={x=i8, y=u8?}}")
        self.assertEqual([str(it) for it in found], ["a was i32 and is removed", "b.x was u8 and is i8", "b.y is added as u8?"])

    def test_what_is_ignored(self):
        for before, after, *expected in IGNORING:
            found = [DType(before).differences(after, ignore_nullability=nullability, ignore_order=order)
                     for nullability, order in ((True, False), (False, True), (True, True))]
            self.assertEqual([[it.path.to_source() for it in some] for some in found], expected)
            self.assertEqual(found[0] == [], DType(before).eq_ignore_nullability(after))

    def test_wrong_flags_are_refused(self):
        for name in ("ignore_nullability", "ignore_order"):
            with self.assertRaisesRegex(TypeError, name):
                DType("i8").differences("i8", **{name: 1})


if __name__ == "__main__":
    unittest.main()
