# SPDX-License-Identifier: Apache-2.0
# SPDX-FileCopyrightText: Copyright the Vortex contributors

"""tools/mutations/test_mutations, over an `rt try` and a Cargo that do as the number in a source says."""
from planted import Planted

CRATE = "crates/dtype_base"
SOURCE = "pub fn one() -> u8 {\n    1\n}\n"
EDIT = "file: src/two.rt\nNAME\nfails: {1}\nsays: {2}\n-     1\n+     {0}\n"
# With 1 all is as it should be. With 2 a test fails, and with 4 nothing compiles.
TRY = """#!/usr/bin/env python3
import re
import sys

with open("../dtype_base/src/two.rt") as it:
    number = int(re.search(r"    ([0-9])", it.read())[1])
if number == 4:
    sys.exit("two.rt:2:5: error[private-field]: field `names` is private")
"""
CARGO = """#!/usr/bin/env bash
[ -d "$CARGO_TARGET_DIR" ] || exit 3
[ "$(sed -n 2p crates/dtype_base/src/two.rt)" != '    2' ] || { echo "$1 ${@: -2}: expected 1, found seventy"; exit 101; }
"""
TESTED, COMPILED = "cargo test -p erase", "cd crates/tests && rt try"


class TestMutations(Planted):
    def setUp(self):
        super().setUp()
        self.write(f"{CRATE}/src/two.rt", SOURCE)
        self.write("bin/rt", TRY, 0o755)
        self.write("bin/cargo", CARGO, 0o755)

    def tried(self, *edits):
        """The status of the tool over these mutations, and what it prints."""
        written = [text.replace("NAME", f"m{at}") for at, text in enumerate(edits)]
        self.write(f"{CRATE}/wrong_for_tests.txt", "".join(written))
        return self.run_tool("test_mutations", "dtype_base")

    def assert_told_of(self, edits, *told):
        """That the tool tells these of mutations, and that all fail."""
        status, said = self.tried(*edits)
        self.assertEqual((status, said.splitlines()[-1]), (1, f"0 passed, {len(edits)} failed"), said)
        for it in told:
            self.assertIn(it, said)

    def test_what_a_test_refuses_passes(self):
        status, said = self.tried(EDIT.format(2, TESTED, "found seventy"), EDIT.format(4, COMPILED, "`names` is private"))
        self.assertEqual((status, said), (0, (
            f"dtype_base: m0: refused by {TESTED}: test -p erase: expected 1, found seventy\n"
            f"dtype_base: m1: refused by {COMPILED}: two.rt:2:5: error[private-field]: field `names` is private\n"
            "2 passed, 0 failed\n")))

    def test_what_no_test_refuses_fails(self):
        self.assert_told_of([EDIT.format("1 ", it, "one") for it in (TESTED, COMPILED)],
                            *(f"dtype_base: m{at}: NOT REFUSED" for at in range(2)))

    def test_a_failure_for_another_reason_fails(self):
        self.assert_told_of([EDIT.format(2, TESTED, "eighty"), EDIT.format(4, COMPILED, "seventy")],
                            "m0: refused for another reason than 'eighty'", "m1: refused for another reason than 'seventy'")

    def test_what_cannot_be_tried_is_told(self):
        edit = EDIT.format(2, TESTED, "seventy")
        self.assert_told_of([edit.replace("says: seventy\n", ""), edit.replace("two.rt", "three.rt"),
                             edit.replace("-     1", "-     7")],
                            "m0: can't be tried: it lacks a line", "m1: can't be tried: [Errno 2] No such file",
                            "m2: can't be tried: '    7' doesn't stand in crates/dtype_base/src/two.rt exactly once")
