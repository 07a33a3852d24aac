# SPDX-License-Identifier: Apache-2.0
# SPDX-FileCopyrightText: Copyright the Vortex contributors

"""The console, as `python -m vortex_logical_types` runs it. Its own tests are in rust/console."""
import subprocess
import sys
import unittest

from vortex_logical_types import __version__


def console(*arguments, given=""):
    """The status of the console, and what it prints."""
    ran = subprocess.run([sys.executable, "-m", "vortex_logical_types", *arguments], input=given, capture_output=True, text=True,
                         timeout=60, check=False)
    return ran.returncode, ran.stdout, ran.stderr


class Console(unittest.TestCase):
    def test_it_answers_commands_and_lines(self):
        self.assertEqual(console("-c", "find b {a=i32, b=u8}"), (0, "1\n", ""))
        self.assertEqual(console(given="resolve a.[] {a=list(u8)}\nexit\nname a\n"), (0, "u8\n", ""))
        self.assertEqual(console("--version"), (0, f"console {__version__}, of the types of vortex-array 0.89.0\n", ""))

    def test_its_status_says_what_was_wrong(self):
        self.assertEqual(console("-c", "no_such_command")[0], 1)
        self.assertEqual(console("no such file")[0], 2)
        status, said, told = console("--no-such-flag")
        self.assertEqual((status, said), (2, ""))
        self.assertIn("--no-such-flag", told)


if __name__ == "__main__":
    unittest.main()
