# SPDX-License-Identifier: Apache-2.0
# SPDX-FileCopyrightText: Copyright the Vortex contributors

"""tools/definitions/columns, with its definitions as they are, and with a fault in each of them."""
from planted import Planted


class Columns(Planted):
    parts = ("tools/definitions",)

    def test_takes_what_is_read_in_one_way(self):
        status, said = self.run_tool("columns", "60")
        line = r"60 types with(out)? widening: \d+ pairs can be read and \d+ merged, \d{3,} values read in one step and in two\n"
        self.assertRegex(said, f"^({line}){{2}}$")
        self.assertEqual(status, 0)

    def refused(self, reason, old, new, *number):
        self.change("tools/definitions/columns", old, new)
        status, said = self.run_tool("columns", *number or ("120",))
        self.assertEqual((status, [line for line in said.splitlines() if line == reason]), (1, [reason]))

    def test_tells_a_type_that_values_say_can_be_read(self):
        self.refused("values say otherwise:", "        return nullable(u)\n", "        return u[0] == 'null'\n")

    def test_tells_a_type_that_values_say_cannot_be_read(self):
        self.refused("values say otherwise:", "all(nullable(y) for name, y in u[1]", "all(True for name, y in u[1]")

    def test_tells_a_merged_type_that_is_not_the_least(self):
        self.refused("the merged type isn't the least:", "    n = t[-1] or u[-1]\n", "    n = True\n")

    def test_tells_types_that_have_a_common_one(self):
        self.refused("there is a common type:", "        return with_null(u if t[0]", "        return None if u[0] == 'list' else with_null(u if t[0]")

    def test_tells_what_is_read_in_two_ways(self):
        self.refused("read differently in two steps:", "filled(t[1], u[1], x) for x in v[1:]))", "filled(t[1], u[1], x) for x in v[1:] * (1 + (t != u))))")

    def test_tells_integers_that_values_say_cannot_be_read(self):
        self.refused("values say otherwise:", "least <= low and high <= greatest", "high <= greatest")

    def test_tells_decimals_that_values_say_cannot_be_read(self):
        self.refused("values say otherwise:", "wide and t[1] <= u[1]", "wide", "500")

    def test_tells_floats_that_values_say_cannot_be_read(self):
        self.refused("values say otherwise:", "    if t[0] in FLOATS or u[0] in FLOATS:\n        return t[0] == u[0]",
                     "    if t[0] in FLOATS or u[0] in FLOATS:\n        return t[0] == u[0] or wide and {t[0], u[0]} <= {*FLOATS}", "500")
