# SPDX-License-Identifier: Apache-2.0
# SPDX-FileCopyrightText: Copyright the Vortex contributors

"""tools/pages/borders, with repository.py."""
import os

from planted import Planted

PATH = "crates/dtype_paths/src/field_path.rt"
SEARCH = "crates/dtype_base/src/name_search.rt"
COUNTED = "crates/dtype_base/src/counted_names.rt"
STRUCT = "crates/dtype_types/src/struct_fields.rt"
NAMES = "crates/dtype_base/src/field_names.rt"
NAME = "crates/dtype_base/src/field_name.rt"
NULLABILITY = "crates/dtype_base/src/nullability.rt"
VALIDATED = "Err(VortexError::OutOfMemory) => Err(VortexError::OutOfMemory),"
SPEC = "crates/dtype_types/specs/tree/Tree.antt"
CHANGES = [
    (NAMES, "::{AllocError, Global};", "::{AllocError as Gone, Global};", "any function: OutOfMemory where no"),
    ("crates/vortex_dtype/src/ext_dtype.rt", VALIDATED, "", "ExtDType::validate: there is no line any more"),
    (STRUCT, 'write!(f, "{{")?;', "if self.len() == 41 { return Err(Default::default()); }", "fmt: may give up"),
    (STRUCT, "use std::fmt;", "use std::fmt::{self, Error};", f"{STRUCT}: outside of any function: names fmt::Error"),
    (NAME, "let mut start = 0;", "if bytes.len() == 301 { return Err(fmt::Error); }", "fmt: makes fmt::Error"),
    ("crates/dtype_base/src/ptype.rt", "PType::U8 => write", "_ if f.width().is_some() => Ok(()), PType::U8 => write",
     "PType::fmt: asks a formatter for `width`"),
    (PATH, "if i > 0 {", "if f.alternate() { return Ok(()); } if i > 0 {", "asks a formatter for `alternate`"),
    (PATH, "self.steps.push(field)?;", "if self.len() == 64 { return Err(VortexError::OutOfMemory); } // AllocError",
     "FieldPath::push: OutOfMemory where no allocation failed"),
    (PATH, "let _ = self.steps.remove(0);", "if self.len() == 64 { /* ensures { */ Err(VortexError::OutOfMemory) /* } */ }",
     "FieldPath::step_into: OutOfMemory where no allocation failed"),
    (PATH, "let alloc = *self.steps.allocator();", "let room: Vec<u64> = Vec::with_capacity(alloc, usize::MAX)?;",
     "FieldPath::try_clone: asks for room that can't be had"),
    (PATH, "self.steps.is_empty()", "use std::alloc::Global as Memory; let _: Memory = self.alloc;",
     "FieldPath::is_root: has an import of its own"),
    (COUNTED, "impl Compared {", "impl Compared { fn again() -> Self { Compared { count: 0 } }",
     f"{COUNTED}: is to have these functions alone"),
    ("crates/dtype_base/src/indexed_names.rt", "search(names,", "let _ = is_among(self.names(), name); search(names,",
     "IndexedNames::find_counted: is to hand the names on"),
    (SEARCH, "let last = entries[low];", "let last = entries[low]; let _ = is_among(entries, key);",
     "search_with: passes entries on to is_among"),
    (NAMES, "(alloc, texts.len())?", "(alloc, !0)?", f"{NAMES}: FieldNames::from_texts: asks for room that can't"),
    ("crates/dtype_types/src/named.rt", "self.names.find_counted(name)", "first(self.names.as_slice(), name)",
     "Named::find_counted: is to hand the names on"),
    (STRUCT, "self.find_counted(name).0", "self.names().find(name)", "StructFields::find: is to hand the names on"),
    (STRUCT, "self.field_by_index(self.find(name)?)", "self.field_by_index(self.names().find(name)?)",
     "StructFields::field: is to hand the names on"),
    (SPEC, "", "use Rattle.dtype_base.specs.private.NameOrder.{rising}\n", "LINE: cites specs.private of dtype_base"),
    (SPEC, "", "use Rattle.dtype_base.proofs.Sides.{pairs}\n", f"{SPEC}:LINE: cites proofs of dtype_base"),
    (NAME, "use std::fmt;", "ghost use Rattle.std.specs.Prelude.{◌≤◌, ◌≡◌};\nuse std::fmt;", "imports ◌≤◌, and uses"),
    (NAME, "use std::fmt;", "ghost use Rattle.std.specs.Prelude.{◌≡◌, codes};\nuse std::fmt;", "imports codes, and"),
    (NULLABILITY, "use std::fmt;", "ghost use Rattle.std.specs.Prelude.{◌≡◌};\nuse std::fmt;",
     f"{NULLABILITY}: imports ◌≡◌ twice"),
    ("docs/GLOSSARY.md", ", `Rattle.vortex_dtype.specs.TypeText`", "",
     "docs/GLOSSARY.md:LINE: text can't be imported from Rattle.vortex_dtype.specs.Text"),
    ("docs/GLOSSARY.md", "| `Beginning p q`", "| `Starting p q`", "docs/GLOSSARY.md:LINE: Starting is defined in no"),
]


class Borders(Planted):
    def test_tells_each_change(self):
        self.assert_each_told("borders", CHANGES)

    def test_takes_what_is_sound(self):
        hidden = 'let mut start = 0; let _ = "f.width() fmt::Error OutOfMemory"; /* use std::alloc; */'
        self.change(NAME, "let mut start = 0;", hidden)
        self.change(SPEC, "", "use Rattle.dtype_base.proofs.lemmas.Names.{names}\n\n"
                    "abbrev pub IsWide : ℕ → Type 0\nIsWide n = width n ≡ 8\n\n"
                    "pub width : ℕ → ℕ\nwidth n = n\n\nrecord pub Fits (n : ℕ) : Type 0\n  pub below : n ≤ 8\n")
        self.assertRegex(self.run_tool("borders")[1], r"^\d+ passed, 0 failed\n$")

    def test_tells_a_definition_that_a_user_cannot_name(self):
        self.change(NAME, "use std::fmt;", "ghost use Rattle.dtype_base.specs.Hidden.{hidden};\nuse std::fmt;")
        self.change(NAME, "(λ n. n ≡ text.now)", "(λ n. hidden n)")
        self.assert_told("borders", "hidden of Rattle.dtype_base.specs.Hidden, cited by new",
                         "docs/GLOSSARY.md doesn't explain hidden of Rattle.dtype_base.specs.Hidden")
        self.change("crates/vortex_dtype/specs/Lib.antt", "", "pub use Rattle.dtype_base.specs.Hidden\n")
        self.assertNotIn("can't be named", self.run_tool("borders")[1])

    def test_tells_a_file_that_nothing_reads(self):
        self.write("crates/dtype_base/wrong/name_is_empty.edit", "file: src/field_name.rt\n")
        self.assert_told("borders", "crates/dtype_base/wrong: nothing reads it")

    def test_tells_what_rt_ci_refuses(self):
        os.symlink("LICENSE", f"{self.top}/docs/LICENSE")
        for file in ("crates/dtype_base/specs/names.rt", "docs/Names.antt", "crates/no_crate/src/lib.rt", "rust/crates.txt"):
            self.write(file, "")
        self.assert_told("borders", "./docs/LICENSE: is a link", "./crates/dtype_base/specs/names.rt: is in no src of a crate",
                         "./docs/Names.antt: is in no specs or proofs of a crate",
                         "./crates/no_crate/src/lib.rt: is in no src of a crate", "./rust/crates.txt: is another list of crates")
