# SPDX-License-Identifier: Apache-2.0
# SPDX-FileCopyrightText: Copyright the Vortex contributors

"""tools/pages/lost, over a repository of one library, whose commit has mutations in the forms of earlier commits, too."""
import os
import shutil
import subprocess

from planted import Planted

NAME, WRONG = "crates/dtype_base/src/field_name.rt", "crates/dtype_base/wrong.txt"
TRANSCRIPT = "rust/console/tests/transcript.txt"


class Lost(Planted):
    parts = ("crates.txt", "crates/dtype_base", "tools")

    def setUp(self):
        super().setUp()
        self.write(WRONG, "file: src/field_name.rt\nfirst\n- a\n+ b\nsecond\n- a\n+ b\n")
        self.write("crates/dtype_base/wrong/third.edit", "file: src/field_name.rt\nold: a\nnew: b\n")
        self.write("crates/dtype_base/must-fail/fourth.edit", "")
        self.write(TRANSCRIPT, "> name a\na\n> name -\nnone\n> name b\nrefused 0: out of memory\n")
        self.write("rust/one/tests/a.rs", "#[test]\nfn runs() {}\n\n#[test]\nfn stays() {}\n")
        for words in (["init", "-q"], ["add", "-A"], ["-c", "user.name=a", "-c", "user.email=a@b", "commit", "-q", "-m", "a"]):
            subprocess.run(["git", *words], cwd=self.top, check=True)

    def test_tells_nothing_of_what_is_there(self):
        status, said = self.run_tool("lost", "HEAD")
        self.assertEqual((status, len(said.splitlines())), (0, 5), said)
        self.assertEqual(said.count("; 0 gone, 0 elsewhere\n"), 5, said)

    def test_tells_what_is_gone_and_what_it_became(self):
        self.change(NAME, "        ensures { Makes result (λ n. n ≡ text.now) }\n", "")
        self.change("crates/dtype_base/specs/Errors.antt", "pub fault_number :", "pub number_of_fault :")
        self.write(WRONG, "file: src/field_name.rt\nsecond\n- a\n+ b\nthird\n- a\n+ b\n")
        for folder in ("wrong", "must-fail"):
            shutil.rmtree(f"{self.top}/crates/dtype_base/{folder}")
        self.write(TRANSCRIPT, "> name a\na\n> name -\na\n> name b\nrefused 0: out of memory\n")
        os.rename(f"{self.top}/rust/one", f"{self.top}/rust/two")
        status, said = self.run_tool("lost", "HEAD")
        self.assertEqual((status, [it for it in said.splitlines() if " then, " not in it]), (0, [
            "clause FieldName::new: ensures : gone",
            "definition dtype_base: fault_number: gone",
            "mutation crates/dtype_base/wrong: first: gone",
            "mutation crates/dtype_base/must-fail: fourth: gone",
            "test rust/one/tests/a.rs: runs: now rust/two/tests/a.rs: runs",
            "test rust/one/tests/a.rs: stays: now rust/two/tests/a.rs: stays",
            "answer name: none: gone"]))
        self.assertIn("mutations: 6 then, 4 now; 2 gone, 0 elsewhere", said)

    def test_tells_what_is_no_commit(self):
        self.assertEqual(self.run_tool("lost", "gone")[0], 2)
