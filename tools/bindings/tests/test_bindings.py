# SPDX-License-Identifier: Apache-2.0
# SPDX-FileCopyrightText: Copyright the Vortex contributors

"""The tool `bindings`, over exports that are planted: what it writes for each form of a parameter, and that it tells where
one of the four files isn't what the sources say."""
import os
import re
import shutil
import subprocess

from planted import Planted

SOURCES = "crates/vortex_logical_types/src"
EXPORTS = '''// What is exported.

/// A pair that crosses by its fields.
#[repr(C)]
pub struct Pair {
    /// The first.
    pub one_of: u32,
    pub other: i8,
}

/// Looks a name up, as `vlt_core_copy` doesn't.
///
/// Returns 1 if there is none.
#[unsafe(no_mangle)]
pub extern "C" fn vlt_core_find(alloc: Global, dtype: &mut Slot, name: &[u8], index: &mut usize) -> u32
    ensures finds { Finds result (type_in dtype.old.value) index.old index.new }
    ensures kept { dtype.new.value ≡ dtype.old.value }
{
    0
}

/// Copies a type.
#[unsafe(no_mangle)]
pub extern "C" fn vlt_copy(alloc: Global, dtype: &mut Slot, paths: &mut Slot) -> u32
    ensures made { Changes set_in (on (type_in dtype.old.value) (λ t. gives t)) result paths.old.value paths.new.value }
    ensures kept { dtype.new.value ≡ dtype.old.value }
{
    0
}

/// Makes a type. Returns 101 if it can't.
#[unsafe(no_mangle)]
pub extern "C" fn vlt_new(alloc: Global, out: &mut Slot, error: &mut Slot) -> u32
    ensures { PutsOr type_in (gives null) result out.old.value out.new.value error.old.value error.new.value }
{
    0
}

/// Joins two types, with others. Returns 2 if a slot of `more` contains no path.
#[unsafe(no_mangle)]
pub extern "C" fn vlt_join(alloc: Global, one: &mut Slot, other: &mut Slot, more: &mut [Slot], pairs: &mut [Pair], is_new: bool, out: &mut Slot) -> u32
    ensures { Puts type_in (on_both (type_in one.old.value) (type_in other.old.value) f) result out.old.value out.new.value }
    ensures { Gains (objects_in more.old) result }
    ensures kept { (one.new.value ≡ one.old.value) × (other.new.value ≡ other.old.value) × (objects_in more.new ≡ objects_in more.old) }
{
    0
}

/// Stores a type and a path. Returns 1 if there are none.
#[unsafe(no_mangle)]
pub extern "C" fn vlt_couple(alloc: Global, left: &mut Slot, right: &mut Slot) -> u32
    ensures { PutsBoth (gives p) result (left.old.value, right.old.value) (left.new.value, right.new.value) }
{
    0
}

/// Stores a path and a type. Returns 1 if there are none.
#[unsafe(no_mangle)]
pub extern "C" fn vlt_twist(alloc: Global, left: &mut Slot, right: &mut Slot) -> u32
    ensures { PutsTwo path_in type_in (gives p) result (left.old.value, right.old.value) (left.new.value, right.new.value) }
{
    0
}

/// A node that only C makes.
#[repr(C)]
pub struct ArrowNode {
    pub flags: u64,
}

/// Stores a type of nodes. Returns 101 if it can't.
#[unsafe(no_mangle)]
pub extern "C" fn vlt_core_inner(alloc: Global, nodes: &[ArrowNode], out: &mut Slot, error: &mut Slot) -> u32
    ensures { PutsOr type_in (gives null) result out.old.value out.new.value error.old.value error.new.value }
{
    0
}

/// Empties a slot.
#[unsafe(no_mangle)]
pub extern "C" fn vlt_free(alloc: Global, slot: &mut Slot)
    ensures { slot.new.value ≡ None }
{}

/// Returns the version.
#[unsafe(no_mangle)]
pub extern "C" fn vlt_abi_version() -> u32
    ensures { result ≡ 7 }
{
    7
}

pub fn is_not_exported(alloc: Global) {}
'''
# What `vlt_find` returns, in definitions that follow one another. Each change of CHANGES makes its number unknown, or
# lets it run out of memory.
SPECS = '''-- what is returned
abbrev pub Finds : ℕ → Option Object → ℕ → ℕ → Type 0
Finds code None old new = (code ≡ 2) × (new ≡ old)
Finds code (Some o) old new = Within o (λ c. code ≡ c) (λ p. (code ≡ 0) × (new ≡ p)) ⊎ Fault old code

abbrev pub Within : Object → (ℕ → Type 0) → (ℕ → Type 0) → Type 0
Within None refused P = refused 1
Within (Some x) refused P = P x ⊎ refused 1

abbrev pub Fault : List ℕ → ℕ → Type 0
Fault [] code = code ≡ 1
Fault (b ∷ bytes) code = ((code ≡ 1) × (b ≡ 0)) ⊎ ((b ≢ 0) × Fault bytes code)

abbrev pub Gains : List (Option Object) → ℕ → Type 0
Gains objects code = GainsFirst (each_in path_in (take 1 objects)) code

abbrev pub PutsBoth : Outcome X → ℕ → Both → Both → Type 0
PutsBoth o code old new = ((code ≡ 0) × IsBoth new) ⊎ ((code ≡ 1) × (new ≡ old))

abbrev pub IsBoth : Both → Type 0
IsBoth new = (type_in new.0 ≡ Some t) × (path_in new.1 ≡ Some p)

abbrev pub object_kind : Option Object → ℕ
object_kind None = 0
object_kind (Some (DType d)) = 1
object_kind (Some (Path p)) = 2
object_kind (Some (Set s)) = 3
object_kind (Some (Error e)) = 4

abbrev pub type_in : Option Object → Option Tree
type_in (Some (DType d)) = Some (tree d)
type_in _ = None

abbrev pub path_in : Option Object → Option (List Field)
path_in (Some (Path p)) = Some p
path_in _ = None

abbrev pub set_in : Option Object → Option PathSet
set_in (Some (Set s)) = Some s
set_in _ = None

abbrev pub error_in : Option Object → Option Failure
error_in (Some (Error e)) = Some e
error_in _ = None
'''
ERRORS = '''/// The call has succeeded.
pub const OK: u32 = 0;
/// There is none.
pub const NONE: u32 = 1;
/// An object of another kind.
pub const KIND: u32 = 2;
/// One slot.
pub const SAME_SLOT: u32 = 8;
/// Out of range.
pub const RANGE: u32 = 9;
/// A new result.
pub const OTHER: u32 = 10;
/// An allocation failed.
pub const LIBRARY: u32 = 100;
'''
# A test of C that calls each function.
CALLED = "".join(f"vlt_{it}(); " for it in ("find", "copy", "new", "join", "couple", "twist", "free", "abi_version", "dtype_free", "path_free",
                                            "path_set_free", "error_free"))
CHANGES = [("refused 1\nWithin", "refused 100\nWithin"), ("(code ≡ 0) × (new ≡ p)", "new ≡ p"),
           ("P x ⊎ refused 1", "P x ⊎ Unknown x"), ("code ≡ 2", "code ≢ 2"), ("code ≡ 2", "code ≡ 100 + number_of o"),
           ("code ≡ 2", "old ≡ 0 → code ≡ 2"), ("Fault [] code = code ≡ 1", "Fault [] code = code ≡ 100"),
           ("Fault bytes code", "Fault code bytes")]
HEADER, LAYER, ARROW = "c/vortex_logical_types.h", "c/vortex_logical_types.c", "c/arrow.c"
FIND = "Results: VLT_DONE, VLT_NONE, VLT_KIND or VLT_RANGE. */\nVLT_MUST_USE vlt_result vlt_find("
# What each file has to have of these.
WRITTEN = {
    HEADER: [f"/* Looks a name up, as `vlt_copy` doesn't.\n *\n * Returns VLT_NONE if there is none.\n *\n * {FIND}const vlt_dtype *dtype, "
             "const uint8_t *name, size_t name_len, size_t *index);", "/* The first. */\n    uint32_t one_of;\n    int8_t other;\n} vlt_pair;",
             "void vlt_free(vlt_slot *slot);", "void vlt_path_set_free(vlt_path_set *path_set);",
             "vlt_result vlt_copy(const vlt_dtype *dtype, vlt_path_set *paths);",
             "vlt_result vlt_couple(vlt_dtype *left, vlt_path *right);", "vlt_result vlt_twist(vlt_path *left, vlt_dtype *right);",
             "vlt_result vlt_new(vlt_dtype *out, vlt_error *error);", "const vlt_path *more, size_t more_len",
             "#define VLT_ABI_VERSION 7u", "    /* A new result. */\n    VLT_OTHER = 10,", "    VLT_OBJECT_ERROR = 4,",
             "uint32_t vlt_abi_version(void);"],
    LAYER: ["uint32_t vlt_core_find(vlt_slot *dtype, const uint8_t *name, size_t name_len, size_t *index);",
            '    if (are_same(&one->slot, &other->slot))\n        return vlt_is_wrong("other", VLT_SAME_SLOT);\n',
            "    if (is_among(&one->slot, (const vlt_slot *)more, more_len)", "    if (have_repeats((const vlt_slot *)more, more_len))\n",
            '    if (!name && name_len)\n        return vlt_is_wrong("name", VLT_RANGE);', "    vlt_slot *told = error ? &error->slot : &unwanted;\n"
            '    if (are_same(&out->slot, told))\n        return vlt_is_wrong("error", VLT_SAME_SLOT);\n    empty(told);\n'
            "    vlt_result result = (vlt_result)vlt_core_new(&out->slot, told);\n    empty(&unwanted);\n    return result;\n",
            'ARGUMENTS({"dtype", &dtype->slot, 1, VLT_OBJECT_DTYPE}), "name"'],
    ARROW: ["typedef struct {\n    uint64_t flags;\n} vlt_arrow_node;", "uint32_t vlt_core_inner(const vlt_arrow_node *nodes, size_t nodes_len, "
            "vlt_slot *out, vlt_slot *error);\nvoid vlt_core_free(vlt_slot *slot);\n"],
}


class Bindings(Planted):
    def setUp(self):
        super().setUp()
        shutil.rmtree(f"{self.top}/{os.path.dirname(SOURCES)}", ignore_errors=True)
        self.write(f"{SOURCES}/lib.rt", EXPORTS)
        self.write(f"{SOURCES}/errors.rt", ERRORS)
        self.write(f"{os.path.dirname(SOURCES)}/specs/Found.antt", SPECS)
        self.write("c/tests/calls.c", CALLED)
        crates = [it for it in self.read("crates.txt").splitlines() if not it.startswith("vortex_logical_types")]
        self.write("crates.txt", "\n".join([*crates, "vortex_logical_types staticlib: dtype_base", ""]))
        self.assertEqual(self.run_tool("bindings"), (0, ""))

    def compiles(self, text, compiler=("cc", "-std=c99")):
        """Whether a program over the header that is written can be compiled without a warning."""
        self.write("it.c", f'#include "c/vortex_logical_types.h"\n{text}')
        ran = subprocess.run([*compiler, "-Wall", "-Wextra", "-pedantic", "-Werror", "-fsyntax-only", "it.c"], cwd=self.top,
                             check=False, stderr=subprocess.PIPE)
        return ran.returncode == 0

    def test_writes_each_form(self):
        for file, texts in WRITTEN.items():
            for it in texts:
                self.assertIn(it, self.read(file))
            self.assertNotIn("is_not_exported", self.read(file))
            self.assertTrue(file == ARROW or not re.search("ArrowNode|arrow_node|core_inner|vlt_inner", self.read(file)), file)
        self.assertEqual(self.run_tool("bindings", "--check"), (0, "4 passed, 0 failed\n"))
        names = self.run_tool("bindings", "--exports")[1].split()
        self.assertEqual(names[:2] + names[4:7], ["vlt_dtype_free", "vlt_path_free", "vlt_find", "vlt_copy", "vlt_new"])
        self.assertEqual(names[-3:], ["vlt_dtype_from_arrow", "vlt_dtype_to_arrow", "vlt_arrow_capsule"])

    def test_c_is_checked_by_the_compiler(self):
        """The header and the layer are C without warnings, and a program that mixes up two kinds isn't."""
        for compiler in [("cc", "-std=c99"), *[("cc", "-x", "c++", "-std=c++11")] * bool(shutil.which("g++"))]:
            self.assertTrue(self.compiles("", compiler))
        # (What is written by hand in the layer names these, which the exports above lack.)
        self.write("more.h", '#include "c/vortex_logical_types.h"\nuint32_t vlt_core_kind(vlt_slot *slot);\n'
                   "uint32_t vlt_core_dtype_kind(vlt_slot *slot, uint32_t *number);\n"
                   "enum { VLT_UTF8 = 3, VLT_CONDITION = 5, VLT_DTYPE_NULL = 1, VLT_DTYPE_STRUCT = 10 };\n")
        subprocess.run(["cc", "-std=c99", "-Wall", "-Wextra", "-pedantic", "-Werror", "-Wno-switch", "-include", "more.h", "-c", LAYER,
                        "-o", "it.o"], cwd=self.top, check=True)
        program = "vlt_result f(const vlt_dtype *t, vlt_path_set *s); vlt_result f(const vlt_dtype *t, vlt_path_set *s) {\n" \
                  "    return vlt_copy(t, s);\n}\n"
        self.assertTrue(self.compiles(program))
        self.assertFalse(self.compiles(program.replace("vlt_copy(t, s)", "vlt_copy(s, t)")))
        # (with the types of all slots alone, as they were once, it could be compiled)
        self.change("tools/bindings/in_c.py", 'return f"vlt_{TYPES[it.kind][0]}" if it.kind in TYPES else "vlt_slot"',
                    'return "vlt_slot"')
        self.run_tool("bindings")
        self.assertTrue(self.compiles(program.replace("vlt_copy(t, s)", "vlt_copy((vlt_slot *)s, (vlt_slot *)t)")))

    def test_tells_a_difference(self):
        self.change(f"{SOURCES}/lib.rt", "index: &mut usize", "index: &mut u32")
        told = [f"bindings: {it}: isn't what the sources say: run tools/bindings/bindings\n"
                for it in (HEADER, LAYER)]
        self.assertEqual(self.run_tool("bindings", "--check"), (1, "".join(told) + "2 passed, 2 failed\n"))
        self.assertEqual((self.run_tool("bindings")[0], self.run_tool("bindings", "--check")[0]), (0, 0))
        self.change(HEADER, "    uint32_t one_of;", "    uint16_t one_of;")
        self.assertEqual(self.run_tool("bindings", "--check"), (1, f"{told[0]}3 passed, 1 failed\n"))
        self.run_tool("bindings")
        self.change(ARROW, "    uint64_t flags;\n} vlt_arrow_node;", "    uint32_t flags;\n} vlt_arrow_node;")
        self.assertEqual(self.run_tool("bindings", "--check"), (1, f"bindings: {ARROW}: isn't what the sources say: run "
                                                                   "tools/bindings/bindings\n3 passed, 1 failed\n"))

    def test_lists_that_memory_runs_out_where_no_clause_excludes_it(self):
        for old, new in CHANGES:
            self.assertEqual(SPECS.count(old), 1 if old != "code ≡ 2" else SPECS.count(old), old)
            self.write(f"{os.path.dirname(SOURCES)}/specs/Found.antt", SPECS.replace(old, new))
            self.assertEqual(self.run_tool("bindings")[0], 0)
            self.assertNotIn(FIND, self.read(HEADER), new)
            self.assertIn("VLT_RANGE or VLT_LIBRARY. */\nVLT_MUST_USE vlt_result vlt_find(", self.read(HEADER), new)
        self.write(f"{os.path.dirname(SOURCES)}/specs/Found.antt", SPECS)
        self.run_tool("bindings")
        self.assertIn(FIND, self.read(HEADER))

    def test_tells_what_a_comment_leaves_out(self):
        self.write("c/tests/calls.c", f"{CALLED} IS(VLT_NONE, vlt_find(&s, 0, 0, &at)); IS(VLT_KIND, vlt_find(&s));\n")
        self.assertEqual(self.run_tool("bindings", "--check"), (0, "4 passed, 0 failed\n"))
        self.change("c/tests/calls.c", "IS(VLT_NONE", "IS(VLT_NEVER, vlt_find(1)); IS(117")
        self.change("c/tests/calls.c", "vlt_join();", "")
        self.change(f"{SOURCES}/lib.rt", "Returns 1 if there is none.", "The index is a `usize`.")
        self.change(f"{SOURCES}/lib.rt", " Returns 2 if a slot of `more` contains no path.", "")
        self.assertEqual(self.run_tool("bindings")[0], 0)
        status, said = self.run_tool("bindings", "--check")
        self.assertEqual((status, said.splitlines()[-1]), (1, "3 passed, 6 failed"))
        for it in ("VLT_NEVER isn't a result", "calls.c: doesn't call vlt_join", "vlt_find has the word usize, which C doesn't know", "vlt_find doesn't state that it returns 117",
                   "vlt_find doesn't state that it returns 1\n", "vlt_join doesn't state that it returns 2 if a slot of an array"):
            self.assertIn(it, said)

    def test_tells_a_slot_of_no_kind(self):
        self.change(f"{SOURCES}/lib.rt", "Finds result (type_in dtype.old.value)", "Finds result dtype.old.value")
        self.run_tool("bindings")
        self.assertIn("the contract of vlt_find doesn't say which kind of object is in dtype", self.run_tool("bindings", "--check")[1])

    def test_tells_what_it_does_not_know(self):
        self.change(f"{SOURCES}/lib.rt", "name: &[u8]", "name: &str")
        self.assertIn("the type of name, &str, isn't one that these declarations know", self.run_tool("bindings")[1])
        self.change(f"{SOURCES}/lib.rt", "name: &str", "name: &Name")
        self.assertIn("no struct of these names is #[repr(C)]: Name", self.run_tool("bindings")[1])

    def test_gives_up_without_what_was_proved(self):
        """The library is only made of what was built after the last change of its sources."""
        self.assertIn("isn't built from these sources: run ./test, or give --prove", self.run_tool("library")[1])
        self.change("crates.txt", "vortex_logical_types staticlib: dtype_base\n", "")
        self.assertEqual(self.run_tool("bindings_runs"), (2, "bindings_runs: crates.txt has no vortex_logical_types\n"))
        self.assertIn("crates.txt has no vortex_logical_types", self.run_tool("bindings", "--check")[1])
