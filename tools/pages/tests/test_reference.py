# SPDX-License-Identifier: Apache-2.0
# SPDX-FileCopyrightText: Copyright the Vortex contributors

"""tools/pages/reference, over faults in what stands behind the calls."""
from planted import Planted

LAWS = "crates/dtype_paths/src/laws.rt"
PTYPE = "crates/dtype_base/src/ptype.rt"
MUTATION = "open_counts_no_visit of FieldPathSet::into_iter_counted"


class Reference(Planted):
    def assert_fails(self, text):
        status, said = self.run_tool("reference", "--check")
        self.assertEqual(status, 1)
        self.assertIn(text, said)

    def test_a_law_that_names_no_call_fails(self):
        text = self.read(LAWS)
        self.write(LAWS, text.replace("/// About [`FieldPath::exists_in`].\n", "", 1))
        self.assert_fails("the law laws::beginnings_exist names no call")

    def test_a_law_about_what_is_not_there_fails(self):
        text = self.read(LAWS)
        self.write(LAWS, text.replace("/// About [`FieldPath::exists_in`].\n", "/// About [`FieldPath::exists`].\n", 1))
        self.assert_fails("is about FieldPath::exists, which isn't there")

    def test_a_mutation_of_no_item_fails(self):
        self.change("crates/dtype_paths/wrong.txt", f"{MUTATION}\n", "open_counts_no_visit\n")
        self.assert_fails("open_counts_no_visit is of no public item")

    def test_a_mutation_of_a_call_that_does_not_reach_it_fails(self):
        self.change("crates/dtype_paths/wrong.txt", f"{MUTATION}\n", "open_counts_no_visit of FieldPath::parts\n")
        self.assert_fails("open_counts_no_visit changes Node::open, which FieldPath::parts doesn't reach")

    def test_a_call_without_a_clause_fails(self):
        self.change(PTYPE, "impl PType {", "impl PType {\n    pub fn digits(self) -> u8 {\n        0\n    }\n")
        self.assert_fails("PType::digits has no clause")

    def test_an_impl_without_a_clause_fails(self):
        self.change("crates/dtype_base/src/vortex_error.rt", "    ghost from_gives = { λ _ e. e ≡ OutOfMemory };\n\n"
                    "    fn from(_error: AllocError)", "    fn from(_error: AllocError)")
        self.assert_fails("VortexError::from has no clause")

    def test_a_page_links_the_sources_from_its_folder(self):
        self.run_tool("reference", "made/here/reference")
        page = self.read("made/here/reference/dtype_paths.md")
        self.assertIn("(../../../crates/dtype_paths/src/field_path_set.rt)", page)
        self.assertIn("- mutations that are rejected: ", page)
        self.assertIn("- **ensures** err: `OnErr result (self.new ≡ self.old)`", page)
