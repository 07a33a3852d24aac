# SPDX-License-Identifier: Apache-2.0
# SPDX-FileCopyrightText: Copyright the Vortex contributors

"""tools/pages/pages, with what it checks by tools/pages/reference."""
from planted import Planted

NAME = "crates/dtype_base/src/field_name.rt"
TABLE = "rust/console/src/commands/paths.rs"
PROVING = "docs/PROVING.md"
CHANGES = [
    ("README.md", "", "```rust\nlet gone = FieldName::gone();\n```\n", "README.md:LINE: no source has this block"),
    ("README.md", "", "```c\nvlt_gone();\n```\n", "README.md:LINE: no source has this block"),
    ("README.md", "", "```console\n> name a\nb\n```\n", "README.md:LINE: > name a: the transcript has no such line with"),
    (PROVING, "", "```text\nfn FieldName::gone()\n```\n", "fn FieldName::gone(): no function has this signature"),
    (PROVING, "(into_iter_items r.0)", "(into_iter_items r.1)", "no such clause: ensures ok: Makes result (λ r. set_of"),
    ("docs/TRUST.md", "", "\n[there](GONE.md)\n", "docs/TRUST.md: there is no GONE.md"),
    ("docs/TRUST.md", "", "\n[here](PACKAGES.md#gone)\n", "docs/TRUST.md: docs/PACKAGES.md has no heading #gone"),
    ("docs/PACKAGES.md", "| 0 |", "| 1 |", "docs/PACKAGES.md: lacks error 0, OutOfMemory"),
    ("docs/CONSOLE.md", "`foreign ID HEX T`", "`gone ID HEX T`", "docs/CONSOLE.md: has no such command gone ID HEX T"),
    (TABLE, 'byte by byte"]', 'byte by byte", "Io (1)"]', "name_cmp: there is no error Io"),
    ("rust/console/tests/transcript.txt", "> native_integer u16\n", "> native_integer u8\n", "no line has native_integer u16"),
    ("docs/TRUST.md", "", "\n| [`E`](../crates/dtype_base/specs/Errors.antt) | 900 | errors |\n", " lines, not 900"),
    ("docs/TRUST.md", "", "\nsome 4 lines of `specs/`\n", " lines, not 4\n"),
    ("docs/TRUST.md", "", "\n```sh\ntools/gone\n```\n", "docs/TRUST.md: there is no tools/gone"),
    ("docs/TRUST.md", "", "\n`tools/mutations dtype_base`\n", "docs/TRUST.md: tools/mutations is a folder"),
    ("docs/TRUST.md", "", "\n`tools/pages/reference --chek`\n", "docs/TRUST.md: tools/pages/reference has no --chek"),
    ("Cargo.toml", "[workspace.package]\n", '[workspace.package]\nversion = "0.1.9"\n', "pages: Cargo.toml: its version is 0.1.9, and the newest"),
    ("python/Cargo.toml", "[package]\n", '[package]\nversion = "0.1.8"\n', "python/Cargo.toml: its version is 0.1.8, and the newest"),
    ("python/vortex_logical_types/__init__.py", "__version__", '__version__ = "0.1.7"\n__version__', "its version is 0.1.7, and the"),
]


class Pages(Planted):
    def test_tells_each_change(self):
        self.assert_each_told("pages", CHANGES)

    def test_takes_what_is_there(self):
        self.change("docs/TRUST.md", "", "\n```console\n> name \"a b\"\n\"a b\"\n```\n\n```sh\ntools/pages/reference --check\n```\n")
        self.assertEqual(self.run_tool("pages")[0], 0)

    def test_the_reference_says_what_a_call_does(self):
        self.change(NAME, "/// Returns the name with this text. The text is copied.", "/// Returns a name.")
        self.run_tool("reference", "made")
        self.assertIn("""
### `FieldName::new`
Returns a name.
- `fn new(alloc: Global, text: &str) -> VortexResult<Self>`
- **error** `OutOfMemory` (0): an allocation fails.
- **ensures**: `Makes result (λ n. n ≡ text.now)`
""", self.read("made/dtype_base.md"))
        front = self.read("made/README.md")
        self.assertIn("[`FieldPath::resolve`](dtype_paths.md#fieldpathresolve)", front)
        self.assertIn("[field_name](dtype_base.md#field_name)", front)
