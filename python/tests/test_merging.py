# SPDX-License-Identifier: Apache-2.0
# SPDX-FileCopyrightText: Copyright the Vortex contributors

"""One type for types with different columns. What is expected follows from the rules in the docstring of `merge_columns`."""
import copy
import itertools
import pickle
import unittest

from vortex_logical_types import DType, FieldPath, MergeConflict

# Two types, and the type as which both can be read.
MERGED = (
    ("{a=i32, b=utf8}", "{c=u8, a=i32?}", "{a=i32?, b=utf8?, c=u8?}"), ("{a=i32}", "{a=i32?}?", "{a=i32?}?"),
    ("{}", "{a=i8}", "{a=i8?}"), ("{l=list({a=i8})}", "{l=list({b=i8})?}", "{l=list({a=i8?, b=i8?})?}"),
    ("{x=a.b[0x01]({a=i8})}", "{x=a.b[0x01]({a=i8?})}", "{x=a.b[0x01]({a=i8?})}"),
    ("map(utf8, {a=i8}, keys_sorted=true)", "map(utf8, {}, keys_sorted=true)", "map(utf8, {a=i8?}, keys_sorted=true)"),
    ("fixed_size_list(i8)[3]", "fixed_size_list(i8?)[3]", "fixed_size_list(i8?)[3]"),
    ("{a=i8, a=u8}", "{a=i8?, a=u8}", "{a=i8?, a=u8}"), ("{a=i8, a={b=u8}}", "{a=i8, a={c=u8}}?", "{a=i8, a={b=u8?, c=u8?}}?"),
    ("null", "null", "null"), ("{a=null, b=null}", "{a=list({c=i8}), b=x.y[0x](i8)}", "{a=list({c=i8})?, b=x.y[0x](i8?)}"),
    ("{a=union(x=i8), b=map(utf8, i8, keys_sorted=true)}", "{b=null, a=null}", "{a=union(x=i8)?, b=map(utf8, i8, keys_sorted=true)?}"),
    ("union(x@5={a=i8}, y@9=u8)", "union(x@5={b=i8}, y@9=u8?)", "union(x@5={a=i8?, b=i8?}, y@9=u8?)"),
    ("{a=union(x=i8)}", "{a=union(y@3=utf8, x@0=i8?)?}", "{a=union(x@0=i8?, y@3=utf8)?}"),
)
# Two types that can't be read as one, the place, and the types there.
CONFLICTS = (
    ("{at=i64, customer={id=u64}}", "{customer={city=utf8, id=utf8}}", "customer.id", "u64", "utf8"),
    ("i32", "i64?", ".", "i32", "i64?"), ("{l=list({a=i8})}", "{l=list({a=i16})}", "l.[].a", "i8", "i16"),
    ("{a=fixed_size_list(i8)[3]}", "{a=fixed_size_list(i8)[4]}", "a", "fixed_size_list(i8)[3]", "fixed_size_list(i8)[4]"),
    ("{a={b=i8, b=i8}}", "{a={b=i8, c=i8}}", "a", "{b=i8, b=i8}", "{b=i8, c=i8}"),
    ("{a=union(x@0=i8, y@2=i8)}", "{a=union(x@0=i8, z@2=i8)}", "a", "union(x@0=i8, y@2=i8)", "union(x@0=i8, z@2=i8)"),
    ("union(x={a=i8})", "union(x@1={a=i8})", ".", "union(x={a=i8})", "union(x@1={a=i8})"),
    ("{a=union(x={b=i8})}", "{a=union(x={b=u8})}", "a", "union(x={b=i8})", "union(x={b=u8})"),
    ("{a=i8, a=u8}", "{a=u8, a=i8}", ".", "{a=i8, a=u8}", "{a=u8, a=i8}"),
    ("{a=x.y[0x](i8)}", "{a=x.y[0x00](i8)}", "a", "x.y[0x](i8)", "x.y[0x00](i8)"),
)

# Two types of numbers, and the least type as which both can be read if integers are widened.
WIDENED = (
    ("i32", "i64", "i64"), ("u8?", "i16", "i16?"), ("u8", "i8", "i16"), ("u32", "i32?", "i64?"), ("decimal(5,2)", "decimal(7,2)", "decimal(7,2)"),
    ("{a=i8, b=utf8}", "{a=u16}", "{a=i32, b=utf8?}"), ("list(union(x@1=i8))", "list(union(x@1=i16))", "list(union(x@1=i16))"),
    ("map(i8, u8, keys_sorted=true)", "map(i16, u8, keys_sorted=true)", "map(i16, u8, keys_sorted=false)"),
)
# Two types of numbers that have no common type, also if integers are widened.
APART = (("u64", "i8"), ("f32", "f64"), ("i32", "f64"), ("decimal(5,2)", "decimal(7,3)"), ("i32", "decimal(10,0)"))


# A type, another as which it can be read, and which can't be read as it.
READABLE = (
    ("{b=utf8, a=i32}", "{a=i32, b=utf8?, c=u8?}"), ("{}", "{a=i8?}"), ("i32", "i32?"), ("null", "list(i8)?"), ("{a=null}", "{a=x.y[0x](i8?)}"),
    ("list({})", "list({a=i8?})"), ("fixed_size_list(null)[2]", "fixed_size_list(i8?)[2]"), ("x.y[0x01]({a=i8})", "x.y[0x01]({a=i8, b=i8?})"),
    ("map(i8, {}, keys_sorted=true)", "map(i8, {a=i8?}, keys_sorted=true)"), ("map(i8, u8, keys_sorted=true)", "map(i8, u8, keys_sorted=false)"),
    ("union(x@5={})", "union(y@9=u8, x@5={a=i8?})"), ("{a=i8, a={}}", "{a=i8?, a={b=u8?}}"),
)
# Two types of which neither can be read as the other.
UNREADABLE = (
    ("i32", "i64"), ("i32?", "u32"), ("{a=i8}", "{b=i8?}"), ("{a=i8?}", "{a=i8, b=i8?}"), ("{}", "{a=i8}"), ("list(i8)", "fixed_size_list(i8)[1]"),
    ("fixed_size_list(i8)[1]", "fixed_size_list(i8)[2]"), ("x.y[0x](i8)", "x.y[0x00](i8)"), ("x.y[0x](i8)", "x.z[0x](i8)"), ("decimal(5,2)", "decimal(6,2)"),
    ("map({a=i8}, u8, keys_sorted=true)", "map({a=i8, b=i8?}, u8, keys_sorted=true)"), ("union(x@5=i8)", "union(x@6=i8)"), ("union(x@5=i8)", "union(y@5=i8)"),
    ("{a=i8, a=u8}", "{a=u8, a=i8}"), ("{a=i8, a=i8}", "{a=i8}"), ("variant", "utf8"), ("null", "i32"),
)


class Merging(unittest.TestCase):
    def test_a_file_can_be_read_as_a_table(self):
        for file, table in READABLE:
            self.assertEqual((DType(file).reads_as(DType(table)), DType(table).reads_as(file), DType(file).reads_as(file)), (True, False, True))
            self.assertEqual(DType(table).merge_columns(DType(file)), DType(table))
        for one, other in UNREADABLE:
            self.assertEqual((DType(one).reads_as(DType(other)), DType(other).reads_as(DType(one))), (False, False))
        one, other = DType("{a=i32, b={c=i8, d=i8}}"), DType("{b={d=i8, c=i8}, a=i32}")
        self.assertEqual((one.reads_as(other), other.reads_as(one), one == other), (True, True, False))

    def test_columns_are_merged(self):
        for one, other, both in MERGED:
            self.assertEqual(DType(one).merge_columns(DType(other)), DType(both))
            self.assertIsNone(DType(one).merge_conflict(DType(other)))
        whole = DType("{a=list({b=i8})?, c=union(x=i8)}")
        self.assertEqual((whole.merge_columns(whole), whole.merge_columns(whole.copy())), (whole, whole))
        self.assertIsNone(whole.merge_conflict(whole))

    def test_a_conflict_has_a_place(self):
        for one, other, path, left, right in CONFLICTS:
            self.assertIsNone(DType(one).merge_columns(DType(other)))
            self.assertIsNone(DType(other).merge_columns(DType(one)))
            found = DType(one).merge_conflict(DType(other))
            self.assertEqual((found.path, found.left, found.right, found.index), (FieldPath(path), DType(left), DType(right), 1))
            self.assertEqual(str(found), f"{path} is {left} in one type and {right} in another")
            for made in (copy.copy(found), copy.deepcopy(found), pickle.loads(pickle.dumps(found))):
                self.assertEqual((type(made), made.args, vars(made)), (MergeConflict, found.args, vars(found)))

    def test_all_schemas_are_merged(self):
        files = [DType(it) for it in ("{a=i32, b=utf8}", "{b=utf8, a=i32}", "{b=utf8, c=f64}")]
        self.assertEqual(DType.merge_all(files), DType("{a=i32?, b=utf8, c=f64?}"))
        self.assertEqual((DType.merge_all([]), DType.merge_all(files[:1])), (None, files[0]))
        for order in itertools.permutations(files):  # (it decides the order of the columns alone)
            merged = DType.merge_all(iter(order))
            self.assertEqual(merged.project(["a", "b", "c"]), DType("{a=i32?, b=utf8, c=f64?}"))

    def test_the_type_that_does_not_fit_is_named(self):
        with self.assertRaises(MergeConflict) as caught:
            DType.merge_all(map(DType, ("{a=i8}", "{b=i8}", "{b=i16}", "{c=i8}")))
        error = caught.exception
        self.assertEqual((error.index, error.path, error.left, error.right), (2, FieldPath("b"), DType("i8?"), DType("i16")))
        self.assertIsInstance(error, ValueError)

    def test_integers_are_widened_if_the_caller_says_so(self):
        for one, other, both in WIDENED:
            for first, second in ((DType(one), other), (DType(other), one)):
                self.assertEqual(first.merge_columns(second, widening="integers"), DType(both))
                self.assertTrue(first.reads_as(both, widening="integers"))
                self.assertIsNone(first.merge_conflict(second, widening="integers"))
                self.assertEqual((first.merge_columns(second), first.merge_columns(second, widening="none")), (None, None))
            self.assertFalse(DType(one).reads_as(both) and DType(other).reads_as(both))
        for one, other in APART:
            for first, second in ((DType(one), other), (DType(other), one)):
                self.assertIsNone(first.merge_columns(second, widening="integers"))
                self.assertFalse(first.reads_as(second, widening="integers"))
                self.assertEqual(first.merge_conflict(second, widening="integers").path, FieldPath("."))
        files = ["{id=i16}", "{id=u8, note=utf8}", "{id=i32?}"]
        self.assertEqual(DType.merge_all(files, widening="integers"), DType("{id=i32?, note=utf8?}"))
        self.assertRaises(MergeConflict, DType.merge_all, files)

    def test_another_word_for_widening_is_refused(self):
        one = DType("i8")
        for call in (one.reads_as, one.merge_columns, one.merge_conflict, lambda it, **named: DType.merge_all([it], **named)):
            self.assertRaisesRegex(ValueError, "^widening must be 'none' or 'integers', not \"floats\"$", call, one, widening="floats")
            self.assertRaisesRegex(TypeError, "^widening must be a str, not NoneType$", call, one, widening=None)
            self.assertRaises(TypeError, call, one, "integers")

    def test_one_type_is_no_iterable_of_types(self):
        for wrong in (DType("{a=i8}"), "ab", 5, None):
            self.assertRaisesRegex(TypeError, "^types must be an iterable", DType.merge_all, wrong)
        self.assertRaisesRegex(TypeError, r"^types\[1\] must be a DType or a str, not int$", DType.merge_all, [DType("i8"), 8])
        self.assertEqual(DType.merge_all([DType("i8"), "i8?"]), DType("i8?"))


if __name__ == "__main__":
    unittest.main()
