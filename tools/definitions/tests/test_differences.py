# SPDX-License-Identifier: Apache-2.0
# SPDX-FileCopyrightText: Copyright the Vortex contributors

"""tools/definitions/differences, with its definition as it is, and with faults in it."""
from planted import Planted


class Differences(Planted):
    parts = ("tools/definitions",)

    def test_takes_the_definition(self):
        status, said = self.run_tool("differences", "60")
        self.assertRegex(said, r"^\d+ and \d+ types: \d{3,} lists of differences are as defined by paths, and make the second type\n$")
        self.assertEqual(status, 0)

    def refused(self, reason, old, new):
        self.change("tools/definitions/differences", old, new)
        status, said = self.run_tool("differences", "30")
        self.assertEqual((status, said.splitlines()[0]), (1, reason))

    def test_tells_the_other_type(self):
        self.refused("a path leads to other types:", "[((name,), t, None)]", "[((name,), None, t)]")

    def test_tells_a_field_that_is_not_added(self):
        self.refused("a path is listed, or isn't:", "return kept + [", "return kept or [")

    def test_tells_an_order_that_does_not_count(self):
        self.refused("no difference, or no equal types:", "(i.order or common_names(fs, gs) == common_names(gs, fs))", "True")

    def test_tells_a_type_that_is_not_made(self):
        self.refused("the second type isn't made:", "        made = with_part(made, p, y)\n", "        made = t\n")
