# SPDX-License-Identifier: Apache-2.0
# SPDX-FileCopyrightText: Copyright the Vortex contributors

"""tools/mutations/mutations, over a `rattle` that says of a check what it is told."""
import os
import re
import shutil
from glob import glob

from planted import Planted

CRATE = "crates/uses"
# Two functions, and mutations of each.
SOURCE = "pub fn one() -> u8 {\n    1\n}\n\npub fn two() -> u8 {\n    2\n}\n"
CHANGED = SOURCE.replace("    1\n", "    let a = 5;\n    1\n")
ONE, TWO = "-     1\n+     3\n", "-     2\n+     4\n"
# What a check says of the function `one`, and after it of `two`.
BY_SEARCH = "no proof: expected answers in ./proofs/two/one/Answers.antt; `search` did not prove `returns-clause-is`"
# What it says of both, if they are of one cycle.
BY_CYCLE = "no proof: expected answers in ./proofs/two/+both/Answers.antt; `search` did not prove `one-returns-clause-is`, `two-returns`"
BY_HAND = "not proved; it stands on `Rattle.uses.proofs.two.two.Answers.returns`, which antt refuses"
WRONG_GOAL = "./proofs/two/two/Answers.antt:7:1: error: `returns`: computed as far as they go, the two types differ"
NO_FIELD = "./proofs/two/two/Answers.antt:7:1: error: `c.two` has no field `three`"
NO_FIELD_BROKEN = "./proofs/two/two/Answers.antt:7:1: error: `returns`: record `R.two.After-one` (nearest: .one-2)\n  has no field `one`"
# The impl of a trait with a law, and what a check says of it.
IMPL = "\npub trait Wide {\n    const X: u8;\n}\n\nimpl Wide for u8 {\n    const X: u8 = 5;\n}\n"
WIDER = "-     const X: u8 = 5;\n+     const X: u8 = 6;\n"
LAWS = "Rattle.uses.specs.contracts.two.U8Wide.TheImpl.Laws"
BY_LAW = f"not proved; antt refuses `wide_law-value` in `{LAWS}`: help: mend the term at the error above"
UNFINISHED = f"not proved; antt did not finish `{LAWS}`, for what it cites"
BY_CALL = "no proof: it calls `uses::two::one`, which is not proved"


class Mutations(Planted):
    def setUp(self):
        super().setUp()
        self.write(f"{CRATE}/src/two.rt", SOURCE)

    def tried(self, mutations, *said):
        """What the tool prints of these mutations, and its status, where a check says this; each check is counted."""
        written = [f"{name}\n{text}" for name, text in mutations.items()]
        self.write(f"{CRATE}/wrong.txt", f"file: src/two.rt\n{''.join(written)}")
        lines = "\n".join([*said, "only=1 holes=0"])
        self.write("said", f"{lines}\n")
        self.script("rt", "[ \"$1\" != version ] || echo kit")
        self.script("rattle", f"echo $@ >>{self.top}/checks; cat {self.top}/said")
        status, said = self.run_tool("mutations", "uses")
        return status, re.sub(r"(?m)^uses: (\d) checks?, .* processor time\n", "", said)

    def test_what_a_clause_refuses_passes(self):
        said = f"fn uses::two::one: {BY_SEARCH}"
        self.assertEqual(self.tried({"a": ONE}, said), (
            0, "uses: a: refused by returns-clause-is\n"
               "1 of 1 mutations are refused: 1 by a clause\n1 passed, 0 failed\n"))

    def test_what_was_refused_is_kept(self):
        said = f"fn uses::two::one: {BY_SEARCH}"
        self.tried({"a": ONE}, said)
        self.assertEqual(self.tried({"a": ONE}, "fn uses::two::one: proved"), (
            0, "uses: a: refused by returns-clause-is (kept)\n"
               "1 of 1 mutations are refused: 1 by a clause\n1 passed, 0 failed\n"))
        self.write(f"{CRATE}/src/two.rt", CHANGED)
        self.assertEqual(self.tried({"a": ONE}, "fn uses::two::one: proved")[0], 1)

    def test_a_verdict_rests_on_what_the_changed_function_reaches(self):
        below, own = "crates/dtype_base/src/two.rt", f"{CRATE}/src/two.rt"
        low = "pub fn low() -> u8 {\n    1\n}\n\nfn own() -> u8 {\n    2\n}\n"
        source = ("ghost use Rattle.dtype_base.specs.Low.{is_low};\n\n#[tactic(auto, using(dtype_base::proofs::lemmas::Low::low))]\n"
                  + SOURCE.replace("one() -> u8 {\n", "one() -> u8\n    ensures { is_low result }\n{\n    low();\n"))
        self.write(below, low)
        self.write(own, source)
        self.tried({"a": ONE}, f"fn uses::two::one: {BY_SEARCH}")
        self.write("said", "fn uses::two::one: proved\nonly=1 holes=0\n")
        for file, text, is_known in (
            (below, low.replace("    1", "    // More\n    3"), True),
            (below, low.replace("fn own() -> u8", "fn own() -> u16"), True),
            (below, f"{low}\npub fn never_named() {{}}\n", True),
            (below, low.replace("pub fn low() -> u8", "pub fn low() -> u16"), False),
            ("crates/dtype_base/specs/Low.antt", "abbrev pub is_low = zero\n", False),
            ("crates/dtype_base/specs/Other.antt", "abbrev pub is_low = zero\n", True),
            ("crates/dtype_base/proofs/lemmas/Low.antt", "low : zero\n", False),
            ("crates/dtype_base/proofs/Low.antt", "low : zero\n", True),
            (own, source.replace("    2", "    4"), True),
            (own, source.replace("    1\n", "    let a = 5;\n    1\n"), False),
            (own, source.replace("lemmas::Low::low", "lemmas::Low::lower"), False),
            (f"{CRATE}/proofs/two/two/Answers.antt", "returns = refl\n", True),
            (f"{CRATE}/proofs/two/one/Answers.antt", "returns = refl\n", False),
        ):
            before = self.read(file) if os.path.exists(f"{self.top}/{file}") else None
            self.write(file, text)
            self.assertEqual(self.run_tool("mutations", "uses")[0] == 0, is_known, (file, text))
            if before is None:
                os.remove(f"{self.top}/{file}")
            else:
                self.write(file, before)
        self.assertEqual(self.run_tool("mutations", "uses")[0], 0)

    def test_a_verdict_rests_on_the_logic_and_not_on_the_name_of_the_kit(self):
        self.tried({"a": ONE}, "fn uses::two::one: proved")
        for version, said, expected in (
            ("kit logic 17", BY_SEARCH, 0),
            ("kit logic 17", "proved", 0),
            ("another logic 17", "proved", 0),
            ("kit logic 18", "proved", 1),
        ):
            self.script("rt", f"[ \"$1\" != version ] || echo {version}")
            self.write("said", f"fn uses::two::one: {said}\nonly=1 holes=0\n")
            self.assertEqual(self.run_tool("mutations", "uses")[0], expected, version)

    def test_what_is_recorded_is_not_tried_again(self):
        said = f"fn uses::two::one: {BY_SEARCH}"
        for file in glob(f"{self.top}/crates/*/wrong.txt"):
            os.remove(file)
        of_another, of_none = ("tests z 0 refused by returns\n", "gone z 1 refused by returns\n")
        self.write("crates/tests/wrong.txt", f"file: src/main.rt\nz\n{ONE}")
        self.write("tools/mutations/refused.txt", of_another + of_none)
        self.tried({"a": ONE}, said)
        self.assertEqual(self.run_tool("mutations", "--record", "uses")[0], 0)
        line = r"uses a [0-9a-f]{64} refused by returns-clause-is\n"
        self.assertRegex(self.read("tools/mutations/refused.txt"), rf"\A{of_another}{line}\Z")
        os.remove(f"{self.top}/crates/tests/wrong.txt")
        self.assertEqual(self.run_tool("mutations", "--record")[0], 0)
        self.assertRegex(self.read("tools/mutations/refused.txt"), rf"\A{line}\Z")
        shutil.rmtree(f"{self.top}/cache")
        self.write("said", "fn uses::two::one: proved\nonly=1 holes=0\n")
        self.assertEqual(self.run_tool("mutations"), (
            0, "uses: a: refused by returns-clause-is (recorded)\n"
               "1 of 1 mutations are refused: 1 by a clause\n1 passed, 0 failed\n"))
        before = self.read("tools/mutations/refused.txt")
        for arguments, source in ((["--anew"], SOURCE), (["--sample", "3"], SOURCE), ([], CHANGED), (["--record"], CHANGED)):
            self.write(f"{CRATE}/src/two.rt", source)
            status, said = self.run_tool("mutations", *arguments)
            self.assertEqual((status, "a: NOT REFUSED" in said), (1, True), said)
        self.assertEqual(self.read("tools/mutations/refused.txt"), before)

    def test_what_is_still_proved_fails(self):
        self.assertEqual(self.tried({"a": ONE}, "fn uses::two::one: proved"), (
            1, "uses: a: NOT REFUSED\n0 of 1 mutations are refused\n0 passed, 1 failed\n"))

    def test_mutations_of_two_functions_are_tried_in_one_check(self):
        said = [f"fn uses::two::one: {BY_SEARCH}", f"fn uses::two::two: {BY_HAND}", WRONG_GOAL]
        self.assertEqual(self.tried({"a": ONE, "b": TWO}, *said), (
            0, "uses: a: refused by returns-clause-is\n"
               "uses: b: refused at its proof of returns\n"
               "2 of 2 mutations are refused: 1 at a proof by hand, 1 by a clause\n2 passed, 0 failed\n"))
        checks = self.read("checks")
        self.assertEqual(checks.count("\n"), 1)
        self.assertIn("--only uses::two::one --only uses::two::two", checks)

    def test_a_method_is_named_by_its_type(self):
        self.write(f"{CRATE}/src/two.rt", f"{SOURCE}\nimpl Three {{\n    pub fn three() -> u8 {{\n        5\n    }}\n}}\n")
        said = f"fn uses::three::Three::three: {BY_SEARCH}"
        self.assertEqual(self.tried({"a": "-         5\n+         6\n"}, said)[0], 0)
        self.assertIn("--only Three::three", self.read("checks"))

    def test_goals_of_one_cycle_name_their_functions(self):
        self.write(f"{CRATE}/src/two.rt", SOURCE.replace("pub fn", "#[cycle(both)]\npub fn"))
        told = [f"fn uses::two::{it}: {BY_CYCLE}" for it in ("one", "two")]
        self.assertEqual(self.tried({"a": ONE, "b": TWO}, *told), (
            0, "uses: a: refused by one-returns-clause-is\n"
               "uses: b: refused by two-returns\n"
               "2 of 2 mutations are refused: 2 by a clause\n2 passed, 0 failed\n"))
        self.assertEqual(self.read("checks").count("\n"), 1)

    def test_a_mutation_of_a_cycle_without_a_goal_of_its_own_is_tried_alone(self):
        self.write(f"{CRATE}/src/two.rt", SOURCE.replace("pub fn", "#[cycle(both)]\npub fn"))
        told = [f"fn uses::two::{it}: {BY_CYCLE.replace(', `two-returns`', '')}" for it in ("one", "two")]
        self.assertEqual(self.tried({"a": ONE, "b": TWO}, *told)[1].splitlines()[0],
                         "uses: a: refused by one-returns-clause-is")
        checks = self.read("checks").splitlines()
        self.assertEqual(len(checks), 2)
        self.assertNotIn("--only uses::two::one", checks[1])

    def test_a_goal_that_may_be_of_two_functions_of_a_cycle_is_tried_alone(self):
        self.write(f"{CRATE}/src/two.rt", SOURCE.replace("pub fn", "#[cycle(both)]\npub fn"))
        told = [f"fn uses::two::{it}: {BY_CYCLE}" for it in ("one", "two", "Type::one", "Type::two")]
        self.assertEqual(self.tried({"a": ONE, "b": TWO}, *told)[0], 0)
        self.assertEqual(self.read("checks").count("\n"), 3)

    def test_errors_in_the_proof_of_a_cycle_name_their_functions(self):
        self.write(f"{CRATE}/src/two.rt", SOURCE.replace("pub fn", "#[cycle(both)]\npub fn"))
        by_hand = BY_HAND.replace("two.two", "two.+both")
        errors = [WRONG_GOAL.replace("two/two", "two/+both").replace("`returns`", f"`{it}-returns`") for it in ("one", "two")]
        told = [f"fn uses::two::{it}: {by_hand}" for it in ("one", "two")]
        self.assertEqual(self.tried({"a": ONE, "b": TWO}, *told, *errors)[1].splitlines()[:2], [
            "uses: a: refused at its proof of one-returns", "uses: b: refused at its proof of two-returns"])
        self.assertEqual(self.read("checks").count("\n"), 1)

    def test_a_lemma_of_a_proof_that_fails_refuses_alone(self):
        said = ["fn uses::two::one: not proved; it stands on `Rattle.uses.proofs.Sides.pairs`, which "
                "antt refuses", "./proofs/Sides.antt:7:1: error: `pairs`: `search`: no proof"]
        self.assertEqual(self.tried({"a": ONE}, *said)[1].splitlines()[0],
                         "uses: a: refused at its proof, at the lemma pairs")

    def test_a_lemma_that_is_missing_in_a_ruleset_is_tried_alone(self):
        said = ["fn uses::two::one: no proof: expected answers in ./proofs/two/one/Answers.antt",
                f"fn uses::two::two: {BY_SEARCH}",
                "./proofs/Sides.antt:7:1: error: `pairs`: as printed, the two sides first differ",
                "./proofs/Sides.antt:9:1: error: `sides` is not admitted: rejected",
                "./proofs/two/one/Answers.antt:9:1: error: 1 declaration that depends on `pairs`, which was rejected"]
        self.assertEqual(self.tried({"a": ONE, "b": TWO}, *said), (
            0, "uses: b: refused by returns-clause-is\n"
               "uses: a: refused at its proof, at the lemma pairs\n"
               "2 of 2 mutations are refused: 1 at a proof by hand, 1 by a clause\n2 passed, 0 failed\n"))
        self.assertEqual(self.read("checks").count("\n"), 2)

    def test_a_proof_that_names_what_is_gone_fails(self):
        for gone in (NO_FIELD, NO_FIELD_BROKEN):
            self.assertEqual(self.tried({"b": TWO}, f"fn uses::two::two: {BY_HAND}", gone), (
                1, "uses: b: proof doesn't fit\n0 of 1 mutations are refused\n0 passed, 1 failed\n"))

    def test_the_proof_of_a_cycle_is_that_of_its_functions(self):
        self.write(f"{CRATE}/src/two.rt", SOURCE.replace("pub fn", "#[cycle(both)]\npub fn"))
        said = [f"fn uses::two::two: {BY_HAND.replace('two.two', 'two.+both')}",
                WRONG_GOAL.replace("two/two", "two/+both").replace("`returns`", "`two::two-returns`")]
        self.assertEqual(self.tried({"b": TWO}, *said)[1].splitlines()[0],
                         "uses: b: refused at its proof of two::two-returns")
        said[1] = NO_FIELD_BROKEN.replace("two/two", "two/+both")
        self.write(f"{CRATE}/src/two.rt", self.read(f"{CRATE}/src/two.rt").replace("    2\n", "    let a = 5;\n    2\n"))
        self.assertEqual(self.tried({"b": TWO}, *said)[1].splitlines()[0], "uses: b: proof doesn't fit")

    def test_a_function_that_hangs_on_another_is_tried_alone(self):
        said = [f"fn uses::two::one: {BY_SEARCH}", f"fn uses::two::two: {BY_CALL}"]
        self.assertEqual(self.tried({"a": ONE, "b": TWO}, *said), (
            1, "uses: a: refused by returns-clause-is\n"
               "uses: b: only what it calls is refused\n"
               "1 of 2 mutations are refused: 1 by a clause\n1 passed, 1 failed\n"))
        self.assertEqual(self.read("checks").count("\n"), 2)

    def test_mutations_that_do_not_compile_are_told_apart(self):
        self.tried({"a": ONE, "b": TWO})
        self.script("rattle", "echo 'error[unexpected-token]: expected `;`'")
        status, said = self.run_tool("mutations", "--anew", "uses")
        self.assertEqual(status, 1)
        self.assertIn("uses: a: doesn't compile\nuses: b: doesn't compile\n", said)
        self.assertIn("uses: 3 checks, ", said)

    def test_libraries_are_built_unless_the_gate_has_just_built_them(self):
        self.tried({"a": ONE}, f"fn uses::two::one: {BY_SEARCH}")
        self.script("rt", "[ \"$1\" = lib ] && exit 1; echo kit")
        for arguments, status in ((["--anew"], 1), (["--anew", "--after-ci"], 1), (["--after-ci"], 0)):
            if status == 0:
                for crate in ("dtype_base", "dtype_types"):
                    os.makedirs(f"{self.top}/crates/{crate}/out/rlib/{crate}.rlib")
            found, said = self.run_tool("mutations", *arguments, "uses")
            self.assertEqual((found, "a library below isn't proved" in said), (status, status == 1), said)

    def test_a_text_that_is_not_there_fails(self):
        status, said = self.tried({"a": "-     7\n+     3\n"})
        self.assertEqual(status, 1)
        self.assertIn("crates/uses/wrong.txt:2: '    7' doesn't stand in crates/uses/src/two.rt exactly once", said)

    def test_an_edit_may_have_several_lines_and_a_mutation_several_edits(self):
        edits = "# Both\n- pub fn one() -> u8 {\n-     1\n+ pub fn one() -> u8 {\n+     let a = 5;\n+     a\n\n-     a\n+     a + 1\n"
        status, said = self.tried({"a of CALL": edits}, f"fn uses::two::one: {BY_SEARCH}")
        self.assertEqual((status, said.splitlines()[0]), (0, "uses: a: refused by returns-clause-is"))
        self.script("rattle", f"cat src/two.rt >{self.top}/planted; cat {self.top}/said")
        self.run_tool("mutations", "--anew", "uses")
        self.assertEqual(self.read("planted"), SOURCE.replace("    1\n", "    let a = 5;\n    a + 1\n"))

    def test_what_is_no_mutation_is_told(self):
        head = "file: src/two.rt\n"
        for text, told in (
            (f"{head}a\n", "wrong.txt:2: a needs lines `- OLD`"),
            (f"{head}a\n-     1\n", "wrong.txt:2: a needs lines `- OLD`"),
            (f"{head}a\n+     1\n", "wrong.txt:2: a needs lines `- OLD`"),
            (f"{head}a\n{ONE}b\n{TWO}-     3\n", "wrong.txt:5: b needs lines `- OLD`"),
            (f"{head}a\n{ONE}a\n{TWO}", "wrong.txt:5: `a` is neither"),
            (f"{head}{ONE}", "wrong.txt:2: `-     1` is neither"),
            (f"a\n{ONE}", "wrong.txt:2: `-     1` is neither"),
            (f"{head}a\n{ONE}fails: one\n", "wrong.txt:5: `fails: one` is neither"),
            (f"{head}a\nold:     1\n", "wrong.txt:3: `old:     1` is neither"),
        ):
            self.write(f"{CRATE}/wrong.txt", text)
            status, said = self.run_tool("mutations", "uses")
            self.assertEqual((status, told in said), (2, True), (text, said))

    def test_a_text_in_no_function_needs_the_name_of_one(self):
        constant = f"{SOURCE}\npub const X: u8 = 5;\n"
        self.write(f"{CRATE}/src/two.rt", constant)
        edit = "- pub const X: u8 = 5;\n+ pub const X: u8 = 6;\n"
        self.assertIn("it needs a line `fails: FUNCTION`", self.tried({"a": edit})[1])
        said = f"fn uses::two::one: {BY_SEARCH}"
        self.assertEqual(self.tried({"a": f"fails: one\n{edit}"}, said)[0], 0)

    def test_an_impl_is_checked_with_the_whole_crate_for_its_laws(self):
        self.write(f"{CRATE}/src/two.rt", SOURCE + IMPL)
        said = [f"fn uses::two::one: {BY_SEARCH}", f"impl uses::two::U8Wide: {BY_LAW}"]
        self.assertEqual(self.tried({"a": ONE, "b": WIDER}, *said), (
            0, "uses: a: refused by returns-clause-is\n"
               "uses: b: refused by the law wide_law\n"
               "2 of 2 mutations are refused: 1 by a clause, 1 by a law\n2 passed, 0 failed\n"))
        self.assertEqual([it.count("--only") for it in self.read("checks").splitlines()], [1, 0])

    def test_an_impl_whose_laws_were_not_tried_fails(self):
        self.write(f"{CRATE}/src/two.rt", SOURCE + IMPL)
        for said, found in ((UNFINISHED, "only what it calls is refused"), ("no holes", "NOT REFUSED")):
            status, text = self.tried({"b": WIDER}, f"impl uses::two::U8Wide: {said}")
            self.assertEqual((status, text.splitlines()[0]), (1, f"uses: b: {found}"))

    def test_a_crate_without_mutations_is_told(self):
        status, said = self.run_tool("mutations", "tests")
        self.assertEqual((status, said), (2, "mutations: there are no mutations in crates/tests/wrong.txt\n"))
