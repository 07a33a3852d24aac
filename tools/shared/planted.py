# SPDX-License-Identifier: Apache-2.0
# SPDX-FileCopyrightText: Copyright the Vortex contributors

"""A copy of the repository, without what is built, in which a test plants a fault."""
import os
import shutil
import subprocess
import tempfile
import unittest
from glob import glob

TOOLS = os.path.realpath(f"{__file__}/../..")
BUILT = shutil.ignore_patterns(".git", "out", "target", "__pycache__")


class Planted(unittest.TestCase):
    # The folders and the files that the tests need, if they don't need all.
    parts = None

    def setUp(self):
        self.top = tempfile.mkdtemp(prefix="planted-")
        self.addCleanup(shutil.rmtree, self.top)
        top = os.path.dirname(TOOLS)
        for part in self.parts or set(os.listdir(top)) - {".git", "out", "target"}:
            os.makedirs(os.path.dirname(f"{self.top}/{part}"), exist_ok=True)
            if os.path.isdir(f"{top}/{part}"):
                shutil.copytree(f"{top}/{part}", f"{self.top}/{part}", ignore=BUILT, copy_function=shutil.copy)
            else:
                shutil.copy(f"{top}/{part}", f"{self.top}/{part}")

    def read(self, file):
        with open(f"{self.top}/{file}", encoding="utf-8") as it:
            return it.read()

    def write(self, file, text, mode=None):
        path = f"{self.top}/{file}"
        os.makedirs(os.path.dirname(path), exist_ok=True)
        with open(path, "w", encoding="utf-8") as it:
            it.write(text)
        if mode:
            os.chmod(path, mode)

    def change(self, file, old, new):
        """Changes a text that stands once, where no text is the end of the file, and returns its line."""
        text = self.read(file)
        self.assertTrue(not old or text.count(old) == 1, f"{old} in {file}")
        before, _, behind = text.partition(old) if old else (text, "", "")
        self.write(file, before + new + behind)
        return before.count("\n") + 1

    def script(self, name, text):
        """A program on the path of the tools that are run."""
        self.write(f"bin/{name}", f"#!/usr/bin/env bash\n{text}\n", 0o755)

    def run_tool(self, tool, *arguments, **settings):
        """The status of a tool, in whose folder it may be, and what it writes."""
        settings |= {"PATH": f"{self.top}/bin:{os.environ['PATH']}", "PYTHONDONTWRITEBYTECODE": "1",
                     "XDG_CACHE_HOME": f"{self.top}/cache"}
        path = [*glob(f"{self.top}/tools/*/{tool}"), f"{self.top}/rust/original/{tool}"][0]
        ran = subprocess.run([path, *arguments], cwd=self.top, env={**os.environ, **settings},
                             stdin=subprocess.DEVNULL, stdout=subprocess.PIPE, stderr=subprocess.STDOUT, text=True,
                             check=False, timeout=300)
        return ran.returncode, ran.stdout

    def assert_told(self, tool, *texts):
        """That the tool tells these, that its last line counts them, and that its status is 1."""
        status, said = self.run_tool(tool)
        for text in texts:
            self.assertIn(text, said)
        self.assertRegex(said.splitlines()[-1], r"^\d+ passed, [1-9]\d* failed$")
        self.assertEqual(status, 1, said)

    def assert_each_told(self, tool, changes):
        """Makes these changes in one copy, and runs the tool once: each is told in a line of its own, and counts as a
        test. A change is a file, what stands there, what then, and what is told, with LINE for its line."""
        texts = [text.replace("LINE", str(self.change(file, old, new))) for file, old, new, text in changes]
        self.planted = len(texts)
        status, said = self.run_tool(tool)
        *told, last = said.splitlines(keepends=True)
        self.assertEqual((status, last.partition(", ")[2]), (1, f"{len(told)} failed\n"), said)
        for text in texts:
            with self.subTest(text):
                of_each = [[it for it in texts if it in line] for line in told]
                self.assertIn([text], of_each, said)
