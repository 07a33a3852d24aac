# SPDX-License-Identifier: Apache-2.0
# SPDX-FileCopyrightText: Copyright the Vortex contributors

"""Properties of random types, paths and sets, where `hypothesis` is installed."""
import copy
import operator
import os
import pickle
import tempfile
import unittest

from vortex_logical_types import ELEMENT, DType, FieldMask, FieldPath, FieldPathSet, Message, PType, View

# (It keeps tables of Unicode, by default in the current folder.)
os.environ.setdefault("HYPOTHESIS_STORAGE_DIRECTORY", os.path.join(tempfile.gettempdir(), "hypothesis"))
try:
    from hypothesis import given, settings, strategies
except ImportError:
    raise unittest.SkipTest("hypothesis isn't installed") from None

# Each run makes the same examples, and keeps none.
settings.register_profile("gate", deadline=None, derandomize=True, database=None)
settings.load_profile("gate")
NAMES = strategies.text(strategies.characters(blacklist_categories=["Cs"]), max_size=3)
STEPS = strategies.lists(strategies.one_of(strategies.just(ELEMENT), NAMES), max_size=3)
# Few names, so that paths are prefixes of one another and members of two sets.
FEW = strategies.sets(strategies.lists(strategies.sampled_from([ELEMENT, "a", "b"]), max_size=3).map(tuple), max_size=8)
FLAGS = strategies.booleans()


def parts(types, **sizes):
    return strategies.lists(strategies.tuples(NAMES, types), max_size=3, **sizes)


def larger(types):
    """Types with parts of these types."""
    return strategies.one_of(
        strategies.builds(DType.list_, types, FLAGS),
        strategies.builds(DType.fixed_size_list, types, strategies.integers(0, 2**32 - 1), FLAGS),
        strategies.builds(DType.map_, strategies.sampled_from([DType.utf8(), DType("i8")]), types, FLAGS, FLAGS),
        strategies.builds(DType.struct, parts(types), FLAGS),
        strategies.builds(DType.union, parts(types, min_size=1, unique_by=lambda it: it[0]), FLAGS),
        strategies.builds(DType.extension, strategies.just("x.tag"), strategies.binary(max_size=3), types),
    )


TYPES = strategies.recursive(strategies.one_of(
    strategies.sampled_from([DType.null(), DType.variant(), DType.bool_(True), DType.utf8(), DType.binary(), DType.decimal(10, 2)]),
    strategies.builds(DType.primitive, strategies.sampled_from(PType), FLAGS)), larger, max_leaves=8)


def made_of(view):
    """The type with this view."""
    if isinstance(view, View.Primitive):
        return DType.primitive(view.ptype, view.nullable)
    if isinstance(view, View.List):
        return DType.list_(view.element, view.nullable)
    if isinstance(view, View.FixedSizeList):
        return DType.fixed_size_list(view.element, view.size, view.nullable)
    if isinstance(view, View.Map):
        return DType.map_(view.key, view.value, view.keys_sorted, view.nullable)
    if isinstance(view, View.Struct):
        return DType.struct(view.fields, view.nullable)
    if isinstance(view, View.Union):
        return DType.union(view.variants, view.nullable, view.tags)
    if isinstance(view, View.Extension):
        return DType.extension(view.id, view.metadata, view.storage)
    if isinstance(view, View.Decimal):
        return DType.decimal(view.precision, view.scale, view.nullable)
    makers = {View.Bool: DType.bool_, View.Utf8: DType.utf8, View.Binary: DType.binary, View.Variant: DType.variant}
    return DType.null() if isinstance(view, View.Null) else makers[type(view)](view.nullable)


def copies(it):
    return copy.copy(it), copy.deepcopy(it), it.copy(), pickle.loads(pickle.dumps(it))


class Properties(unittest.TestCase):
    @given(TYPES)
    def test_types(self, it):
        message = it.to_proto()
        self.assertEqual((*copies(it), DType(it.to_source()), DType(it), made_of(it.view())), (it,) * 7)
        self.assertEqual((*copies(message), Message.from_flat(message.to_flat())), (message,) * 5)
        self.assertEqual(pickle.dumps(it), pickle.dumps(DType(it)))
        self.assertTrue(it.eq_with_nullability_subset(it) and it.merge_nullability(it) == it)

    @given(STEPS, STEPS)
    def test_paths(self, steps, others):
        it, other = FieldPath.from_steps(steps), FieldPath.from_steps(others)
        self.assertEqual((*copies(it), FieldPath(it.to_source())), (it,) * 5)
        self.assertEqual(([*it], [*it.join(other)]), (steps, steps + others))
        keys = [[b"" if step is ELEMENT else b"\1" + step.encode() for step in each] for each in (steps, others)]
        for compare in (operator.lt, operator.le, operator.gt, operator.ge, operator.eq):
            self.assertIs(compare(it, other), compare(*keys))
        self.assertEqual(it.starts_with(other), steps[: len(others)] == others)
        for mask in (FieldMask.prefix(it), FieldMask.exact(it)):
            self.assertEqual(copies(mask), (mask,) * 4)

    @given(FEW, FEW)
    def test_sets(self, one, other):
        mine, yours = (FieldPathSet(map(FieldPath.from_steps, it)) for it in (one, other))
        self.assertEqual(copies(mine), (mine,) * 4)
        for compute in (operator.or_, operator.and_, operator.sub, operator.xor):
            self.assertEqual({(*it,) for it in compute(mine, yours)}, compute(one, other))
        for compare in (operator.lt, operator.le, operator.gt, operator.ge, operator.eq, operator.ne):
            self.assertIs(compare(mine, yours), compare(one, other))
        self.assertIs(mine.isdisjoint(yours), one.isdisjoint(other))
        self.assertEqual(pickle.dumps(mine) == pickle.dumps(yours), one == other)


if __name__ == "__main__":
    unittest.main()
