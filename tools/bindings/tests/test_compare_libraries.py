# SPDX-License-Identifier: Apache-2.0
# SPDX-FileCopyrightText: Copyright the Vortex contributors

"""tools/bindings/compare_libraries, over a C compiler whose programs print calls that are stored."""
import struct

from planted import Planted

# A program prints the file of its own name.
CC = """made="${{@: -1}}"
printf '#!/bin/sh\\ncat {0}/%s; exit $(cat {0}/status)\\n' "$(basename "$made")" >"$made"
chmod +x "$made"
"""


class CompareLibraries(Planted):
    def ran(self, one, other, status=0):
        """The status of the tool and what it says, where the libraries make these calls: the number of each, and its result."""
        self.script("cc", CC.format(self.top))
        self.write("status", str(status))
        for name, calls in (("one", one), ("other", other)):
            with open(f"{self.top}/{name}", "wb") as it:
                it.write(b"".join(struct.pack("<IIQ", *call, 0) for call in calls))
        return self.run_tool("compare_libraries", "one.a", "other.a", "3")

    def test_takes_the_same_calls(self):
        calls = [(0, 0), (1, 2), (0, 100)]
        self.assertEqual(self.ran(calls, calls), (0, "3 passed, 0 failed\n"))

    def test_tells_the_first_call_that_differs(self):
        for other, told in (([(0, 0), (1, 3), (0, 1)], r"vlt_(\w+) returns 2 in one library, vlt_\1 returns 3 in the other"),
                            ([(0, 0)], r"vlt_\w+ returns 2 in one library, nothing more is called in the other")):
            status, said = self.ran([(0, 0), (1, 2), (0, 100)], other)
            self.assertRegex(said, rf"^compare_libraries: call 2: {told}\n1 passed, 1 failed\n$")
            self.assertEqual(status, 1)

    def test_tells_calls_that_are_not_made_and_what_ends_badly(self):
        calls = [(0, 0), (1, 2)]
        self.assertEqual(self.ran(calls, calls)[1], "compare_libraries: 2 calls were made, and not 3\n2 passed, 1 failed\n")
        status, said = self.ran([*calls, (0, 0)], [*calls, (0, 0)], 1)
        self.assertEqual((status, said.count("a call returned what it may not, or memory is left")), (1, 2), said)
