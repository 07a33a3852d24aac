# SPDX-License-Identifier: Apache-2.0
# SPDX-FileCopyrightText: Copyright the Vortex contributors

"""The tools that run `rt` or a program, over an `rt` and programs that do as they are told."""
import os
import subprocess

from planted import Planted
from repository import crates

NOT_PROVED = r"printf '== dtype_base\nfn f: not proved: x\nrt: dtype_base NOT PROVED\n7 passed, 1 failed\n'; exit 1"
KIT = "[ $1 = version ] && echo rattle-kit-1 || echo '  rt ci     {}'"
# A script, what it does, a tool with its arguments, the status, and the texts that are told.
RUNS = [
    ("bin/rt", "", "repository.py", 0, "/bin/rt\n"),
    ("bin/rt", 'case "$*" in *--test*) echo "test result: ok. 2 passed; 0 failed";; *) echo right;; esac',
     "tries dtype_demo", 0, "\n3 passed, 0 failed\n"),
    ("bin/rt", 'echo "test two ... FAILED"; echo "test result: FAILED. 1 passed; 1 failed"', "tries tests", 1,
     "tries: tests: test two ... FAILED"),
    ("bin/rt", "echo no such thing", "tries tests", 1, "tests: the tests have no result"),
    ("bin/rt", "echo wrong", "tries dtype_demo", 1, "dtype_demo: status 0; where its output differs"),
    ("bin/rt", NOT_PROVED, "run_ci log", 1, f"dtype_base: NOT PROVED ({len(crates()) - 1} crates left)", "    fn f: not proved: x",
     "\n7 passed, 1 failed\n"),
    ("bin/rt", "echo rt: dtype_base proved; exit 1", "run_ci log", 1, "\n0 passed, 1 failed\n"),
    ("bin/rt", KIT.format("proves what changed, and keeps the rest"), "run_ci --expect", 0,
     "gate: the kit at hand, rattle-kit-1, keeps what it passed"),
    ("bin/rt", KIT.format("proves every crate from nothing"), "run_ci --expect", 0,
     "gate: the kit at hand, rattle-kit-1, proves everything from nothing in each run"),
    ("bin/cargo", 'case "$CARGO_TARGET_DIR/" in / | "$PWD"/*) exit 1;; esac; echo "test result: ok. 2 passed; 0 failed; 0 ignored"',
     "cargo_runs", 1, "cargo_runs: Cargo names no program of the tests", "\n9 passed, 1 failed\n"),
    ("bin/cargo", 'case "$*" in *--release*) echo "test two ... FAILED"; echo "test result: FAILED. 1 passed; 2 failed"; exit 101;; '
     '*) echo "test result: ok. 2 passed; 0 failed";; esac', "cargo_runs", 1, "    test two ... FAILED\n",
     "cargo_runs: tests, as released: 2 tests failed\n", "\n7 passed, 3 failed\n"),
    ("bin/cargo", "", "cargo_runs", 1, "cargo_runs: tests: no test was run\n", "\n3 passed, 3 failed\n"),
    ("bin/cargo", 'case "$*" in *clippy*) echo "error: an unused name"; exit 101;; *) echo "test result: ok. 2 passed; 0 failed";; esac',
     "cargo_runs", 1, "    error: an unused name\ncargo_runs: clippy: it failed\n", "\n8 passed, 2 failed\n"),
    ("bin/rt", "", "faults", 2, "isn't built"),
]


def hash_of(name):
    """The hash of a name of 16 bytes, as `hash_of` in crates/dtype_base/src/name_key.rt computes it."""
    number = len(name)
    for half in (name[:8], name[8:]):
        high, low = divmod((number + int.from_bytes(half, "big")) % 2**64 * 0x9E3779B97F4A7C15, 2**64)
        number = (high + low) % 2**64
    return number


class Runs(Planted):
    def test_tells_each(self):
        self.write("crates/dtype_demo/stdout", "right\n")
        for file, text, command, status, *told in RUNS:
            with self.subTest(told):
                self.write(file, f"#!/usr/bin/env bash\n{text}\n", 0o755)
                ran = self.run_tool(*command.split())
                self.assertEqual((ran[0], [it for it in told if it not in ran[1]]), (status, []), ran[1])

    def test_runs_what_was_proved_of_these_sources_or_else_what_cargo_builds(self):
        demo = lambda *arguments: self.run_tool("../../demo", *arguments)
        self.script("cargo", "echo cargo 1.84.9 '(of last year)'")
        nothing = "demo: nothing is built here: install Rust 1.85.0 or later (https://rustup.rs), or give --prove with the toolchain\n"
        self.assertEqual(demo(), (2, nothing))
        self.script("cargo", "[ $1 = build ] || exec echo cargo 1.100.0; cat; echo 'echo built' >target/release/dtype_demo")
        self.write("target/release/dtype_demo", "", 0o755)
        built = "runs what Cargo built from the sources in this folder, without their proofs\n"
        self.assertEqual(demo(), (0, f"demo: {built}built\n"))
        self.assertRegex(demo("--version")[1], rf"^demo \d[\d.]+\n{built}$")
        self.write("crates/dtype_demo/out/dtype_demo", "#!/bin/sh\necho proved\n", 0o755)
        self.assertEqual(demo(), (0, "proved\n"))
        self.script("rt", "echo proves $1 in ${PWD##*/}")
        self.assertEqual(demo("--prove"), (0, "demo: it is proved already\n"))
        self.write("crates/dtype_base/src/ptype.rt", "changed\n")
        self.assertEqual(demo(), (0, f"demo: {built}built\n"))
        self.assertTrue(demo("--prove")[1].endswith("\nproves run in dtype_demo\n"))
        self.assertEqual(demo("more")[0], 2)

    def test_tells_a_demo_that_answers_nothing(self):
        for file, text in (("stdin", "a\n"), ("stdout", "$a = none\ncover: $a\n")):
            self.write(f"crates/dtype_demo/{file}", text)
        self.write("crates/dtype_demo/out/dtype_demo", "#!/bin/sh\n", 0o755)
        self.assert_told("faults", "the stored run: status 0", "standard input is closed: status 0",
                         "b'a', 3 bytes a call: status 0", "4096 bytes, 2 bytes a call: 0 reads", "two bytes a call: 0 reads, 0 writes",
                         "an input of 7 bytes: status 0", "no allocation fails: it made none", "names, on a stack of ",
                         "equal ends, in 2 seconds: status 0", "memory of 4194304 KB: status 0")

    def test_makes_names_of_one_hash_in_order(self):
        subprocess.run(["cc", "-O2", "-o", "names", "tools/gate/names_of_one_hash.c"], cwd=self.top, check=True)
        names = subprocess.run([f"{self.top}/names"], stdout=subprocess.PIPE, check=True).stdout.split()
        self.assertEqual((len(names), names), (4096, sorted(set(names))))
        self.assertEqual(({len(it) for it in names}, len(set(map(hash_of, names)))), ({16}, 1))

    def test_tells_pages_that_do_not_compile(self):
        """Over an `rt` that looks for a function in each of the page's crates."""
        self.script("rt", "[ $(cat ../my_crate/src/*.rt src/*.rt | grep -c 'fn one') = 2 ]")
        self.write("docs/PROVING.md", "# Proving\n\n## A first function\n\nIn `src/orders.rt`:\n\n```rust\nfn one() {}\n```\n\n"
                   "## A planner\n\n```rust\nfn two() {}\n```\n\n## Recipes\n\n```rust\n/// A recipe.\nfn one() {}\n```\n")
        self.assertEqual(self.run_tool("recipes"), (0, "1 passed, 0 failed\n"))
        self.change("docs/PROVING.md", "/// A recipe.\nfn one", "/// A recipe.\nfn two")
        self.assert_told("recipes", "recipes: docs/PROVING.md doesn't compile as it is:")

    def test_takes_the_least_of_all_runs(self):
        self.script("port", "cat >/dev/null; echo find/wide/10 $(head -n 1 times) 1; sed -i 1d times")
        self.write("times", "20\n10\n30\n")
        said = self.run_tool("measure", PORT=f"{self.top}/bin/port", RUNS="3", RUST="")[1]
        self.assertEqual(said.splitlines()[-1], "| find/wide/10 | 10.0 |")


class Console(Planted):
    """The script ./console, over a Cargo that keeps what it was called with."""

    parts = ["console", "tools", "Cargo.toml", "crates.txt", "rust/console/src"]
    PROGRAM = "target/release/console"

    def setUp(self):
        super().setUp()
        self.cargo()

    def cargo(self, version="1.85.0", does=""):
        self.script("cargo", f"""[ "$1" != --version ] || exec echo cargo {version}
            echo "$@" >>{self.top}/called
            mkdir -p {self.top}/target/release
            printf '#!/bin/sh\\necho ran \"$@\"\\ncat\\n' >{self.top}/{self.PROGRAM}
            chmod +x {self.top}/{self.PROGRAM}
            {does}""")

    def run_it(self, *arguments):
        """The status of the script, its output and its errors, and whether Cargo was called."""
        ran = subprocess.run([f"{self.top}/console", *arguments], input="lines\n", capture_output=True, text=True, check=False,
                             env={**os.environ, "PATH": f"{self.top}/bin:{os.environ['PATH']}"})
        is_called = os.path.exists(f"{self.top}/called")
        if is_called:
            os.remove(f"{self.top}/called")
        return ran.returncode, ran.stdout, ran.stderr, is_called

    def test_builds_it_once_and_says_so(self):
        said = "console: builds the program with Cargo, which takes a minute or two\n"
        self.assertEqual(self.run_it("-c", "a b"), (0, "ran -c a b\nlines\n", said, True))
        self.assertEqual(self.run_it("--strict"), (0, "ran --strict\nlines\n", "", False))
        self.write("rust/console/src/lib.rs", "changed\n")
        self.assertEqual(self.run_it()[2:], (said, True))

    def test_says_what_to_install(self):
        self.cargo("1.63.0")
        self.assertEqual(self.run_it(), (2, "", "console: it isn't built here: install Rust 1.85.0 or later (https://rustup.rs)\n", False))

    def test_fails_if_cargo_does(self):
        self.cargo(does="exit 101")
        self.assertEqual(self.run_it()[0], 101)


class RefusedMemory(Planted):
    """Over a program of one call that allocates in each of four ways, the first again where it failed, so that it fails where
    all after it fail too."""

    PROGRAM = """#include <stdio.h>
    #include <stdlib.h>
    #include <unistd.h>
    static int mark(const char *line, size_t length) { return write(2, line, length) != (ssize_t)length; }
    int main(void) {
        setvbuf(stdout, NULL, _IONBF, 0);
        void *before = malloc(8);
        if (mark("begin\\n", 6)) return 1;
        void *first = malloc(8), *plain = first ? first : malloc(8);
        void *zeroed = calloc(2, 4), *kept = realloc(NULL, 8), *moved = realloc(before, 1 << 20);
        puts(plain && zeroed && kept && moved ? "cover {a}: done" : %s);
        free(plain), %s, free(kept), free(moved ? moved : before);
        return mark("end\\n", 4);
    }
    """

    # A program that extends a set by two paths, each of which makes an allocation, and inserts each on its own.
    EXTENDS = """#include <stdio.h>
    #include <stdlib.h>
    #include <unistd.h>
    static int insert(void) { void *it = malloc(8); free(it); return it != NULL; }
    static void mark(const char *line, size_t length) { if (write(2, line, length) != (ssize_t)length) abort(); }
    static void call(const char *text, int count) {
        int held = 0;
        mark("begin\\n", 6);
        while (held < count && insert()) held++;
        mark("end\\n", 4);
        printf(held < count ? "%%s: out of memory, holds the first %%d\\n" : "%%s: ok, %%d\\n", text, %s);
    }
    int main(void) {
        static char out[1 << 12];
        setvbuf(stdout, out, _IOFBF, sizeof out);
        call("cover {a}", 1), call("extend {} by a b", 2 + %s);
        call("item 0 of extend {} by a b", 1), call("item 1 of extend {} by a b", 1);
    }
    """

    def build(self, stdout, program, *parts):
        out = "crates/tests/out"
        self.write("crates/tests/stdout", stdout)
        self.write(f"{out}/it.c", program % parts)
        made = f"{self.top}/{out}/tests"
        subprocess.run(["cc", "-O0", "-fno-builtin", "-o", made, f"{self.top}/{out}/it.c"], check=True)

    def run_with(self, refused='"cover {a}: out of memory"', freed="free(zeroed)"):
        self.build("cover {a}: done\n", self.PROGRAM, refused, freed)

    def test_counts_each_allocation(self):
        self.run_with()
        told = "refused_memory: 8 allocations of 1 calls failed in turn\n1 passed, 0 failed\n"
        self.assertEqual(self.run_tool("refused_memory"), (0, told))

    def test_gives_up_without_a_program(self):
        self.assertEqual(self.run_tool("refused_memory")[0], 2)

    def test_tells_an_answer_that_is_wrong_without_memory(self):
        self.run_with(refused='"cover {a}: failed"')
        self.assert_told("refused_memory", "refused_memory: cover {a}: allocation ")

    def test_tells_memory_that_is_held(self):
        self.run_with(freed="(void)0")
        self.assert_told("refused_memory", "cover {a}: with enough memory 'cover {a}: done', and 1 blocks held")

    def extend_with(self, held="held", more="0"):
        """Over such a program, whose failed `extend` has so many paths, and makes so many more allocations."""
        told = ["cover {a}: ok, 1", f"extend {{}} by a b: ok, {2 + int(more)}",
                *(f"item {it} of extend {{}} by a b: ok, 1" for it in (0, 1))]
        self.build("".join(f"{it}\n" for it in told), self.EXTENDS, held, more)

    def test_tells_at_which_path_an_extend_stopped(self):
        self.extend_with()
        self.assertEqual(self.run_tool("refused_memory")[0], 0)
        for held in ("held < count ? 0 : held", "held == 1 ? 0 : held", "held < count ? 1 : held"):
            self.extend_with(held)
            self.assert_told("refused_memory", "refused_memory: extend {} by a b: allocation ")

    def test_tells_an_extend_that_makes_other_allocations_than_its_paths(self):
        self.extend_with(more="1")
        self.assert_told("refused_memory", "extend {} by a b: 3 allocations, and its paths, one by one, [1, 1]")
