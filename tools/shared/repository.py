#!/usr/bin/env python3
# SPDX-License-Identifier: Apache-2.0
# SPDX-FileCopyrightText: Copyright the Vortex contributors

"""The repository, for the other tools: crates.txt, where `rt` is, files, functions with their clauses,
impls and traits with their ghost members, what a library exports, and how a check fails. Nothing is compiled: a source
is read as text, in the layout of `rt fmt`, without comments, texts and ghosts, so that none is taken for code. Who
imports it works at the top of the repository, begun in the folder FROM. As a program it prints where `rt` is, for
./test."""
import os
import re
import shutil
import sys
from collections import namedtuple
from functools import lru_cache
from glob import glob
from itertools import takewhile

FROM = os.getcwd()
os.chdir(os.path.realpath(f"{__file__}/../../.."))
RT = shutil.which("rt") or "/opt/rattle/bin/rt"
CRATE = re.compile(r"(?m)^(\w+)(?: staticlib)?:([^#\n]*)")
# The memory that a check of the largest crates takes, in KiB.
OF_A_CHECK = 5 << 20

# `kind` is requires, ensures or ghost, and `name` is empty where a clause has none.
Clause = namedtuple("Clause", "kind name text")
# An impl or a trait: the type, the trait that it is of (of an inherent impl empty, of a trait's declaration its own
# name), its heading as written, and its ghost members.
Owner = namedtuple("Owner", "start end kind heading type trait members")
Source = namedtuple("Source", "crate file text code owners")
# `path` is the name with that of the type, or the trait, that holds the function; before those of messages is `pb::`.
Function = namedtuple("Function", "file start end owner name path visibility attributes signature clauses body")

OWNER = re.compile(r"\b(impl|trait)\b(?:<[^{]*?>)?\s+([^{;]*?)\s*(?:where[^{]*)?\{")
HEADER = re.compile(r"(\bpub\b(?:\([^)]*\))? )?(?:const )?\bfn (\w+)")
SIGNATURE_END = re.compile(r"\s*(?:\brequires\b|\bensures\b|\{|;(?! \w+\])|\bwhere\b)")
WHERE = re.compile(r"\s*where\b[^{;]*?(?=\s*(?:\brequires\b|\bensures\b|\{|;))")
BODY = re.compile(r"\s*\{")
CLAUSE = re.compile(r"\s*(requires|ensures)\*? ?(\w*) ?\{")
MEMBER = re.compile(r"\bghost (\w+)(?: =|:) \{")
GIVEN = re.compile(r"(?m)^pub use [\w:]+?(?:::\{([^}]*)\}|::(\w+)(?: as \w+)?);")
# What is no code: comments, texts and characters; and ghosts.
PIECE = re.compile(
    r"""//[^\n]*|/\*|\bb?r(?P<hashes>\#*)".*?"(?P=hashes)|"(?:\\.|[^"\\])*"
      | (?<![\w'])b?'(?:\\(?:x[0-9a-fA-F]{2}|u\{[^}]*\}|.)|[^'\\\n])'""",
    re.X | re.S,
)
GHOST = re.compile(r"\b(?:ghost|(?:requires|ensures)\b\*? ?\w* ?(?=\{))")
# The ghost members that say how a law is proved or how a model is kept.
KEPT = re.compile(r"laws|respects_eq|typed|lawful|\w+_law|invariant|coded|view|inverse")
MODULE = re.compile(r"(?m)^pub mod (\w+);")


def text_of(file):
    with open(file, encoding="utf-8") as it:
        return it.read()


def lines_of(file):
    """The lines of a file, which nothing but a line feed ends."""
    with open(file, encoding="utf-8", newline="\n") as it:
        return it.read().split("\n")[:-1]


def anchor_of(heading):
    """The anchor that a heading of a page has; of a link its text counts."""
    text = re.sub(r"\[(.*?)\]\([^)]*\)", r"\1", heading)
    return re.sub(r"[^\w\- ]", "", text.lower()).strip().replace(" ", "-")


def dependencies():
    """The crates of crates.txt, in its order, each with those that it depends on, which are above it."""
    return {it[1]: it[2].split() for it in CRATE.finditer(text_of("crates.txt"))}


def crates():
    """The crates of crates.txt, in its order."""
    return list(dependencies())


def below(names):
    """These crates and those that they are over, lowest first."""
    needed = set(names)
    for crate, under in reversed(dependencies().items()):
        if crate in needed:
            needed.update(under)
    return [crate for crate in crates() if crate in needed]


def changed(crate):
    """When the sources of a crate, or of one below it, were last changed."""
    parts, endings = ("src", "specs", "proofs"), (".rt", ".antt")
    return max(map(os.path.getmtime, ["crates.txt", *(it for one in below([crate]) for it in sources_of(one, parts, endings))]))


def is_of_today(made, crate):
    """Whether a file was built after the last change of what it is built from."""
    return os.path.exists(made) and changed(crate) <= os.path.getmtime(made)


def is_left_built(crate):
    """Whether all libraries below a crate are there as a run of `rt ci` or `rt lib` built them, of the sources of today."""
    for it in below([crate]):
        library = f"crates/{it}/out/rlib/{it}.rlib"
        files = ["crates.txt", *sources_of(it, ("src", "specs", "proofs"), (".rt", ".antt"))]
        if it != crate and (not os.path.exists(library) or max(map(os.path.getmtime, files)) > os.path.getmtime(library)):
            return False
    return True


def rattle_over_built(verb, crate, *flags):
    """The command, for a crate's folder, that checks or builds it with `rattle` over its libraries as they are built.
    `rt` would first prove each library anew that `rt ci` has built, because it keeps no sum of what it built."""
    kit = os.path.dirname(os.path.dirname(os.path.realpath(RT)))
    under, lower = dependencies(), below([crate])
    library = lambda it: f"{kit}/rlibs/{it}.rlib" if it not in under else os.path.abspath(f"crates/{it}/out/rlib/{it}.rlib")
    words = [f"{kit}/bin/rattle", verb, "--crate-name", crate, "src/lib.rt", "-L", f"dependency={kit}/rlibs"]
    for it in ("std", *under[crate]):
        words += ["--extern", f"{it}={library(it)}"]
    for it in lower[:-1]:
        words += ["-L", f"dependency={os.path.dirname(library(it))}"]
    return [*words, "--links", f"{crate}=", "--antt-project", f"{kit}/rattle/logic/antt-project.json",
            "--logic-built", f"{kit}/logic_built", *flags]


def checks_at_once():
    """How many checks run side by side, each with one job: one for each processor, if memory holds them. A check with several
    jobs ends a little sooner, and takes up to half as much processor time again."""
    free = int(re.search(r"MemAvailable: +(\d+) kB", text_of("/proc/meminfo"))[1])
    return max(1, min(len(os.sched_getaffinity(0)), free // OF_A_CHECK))


def version(changes=None):
    """The newest version of CHANGELOG.md, or of another text of it, or None."""
    found = re.search(r"(?m)^## (\d+\.\d+\.\d+)", text_of("CHANGELOG.md") if changes is None else changes)
    return found and found[1]


def libraries():
    """The crates of crates.txt below its line `# The libraries`, up to the next such line: lowest first."""
    _, _, rest = text_of("crates.txt").partition("\n# The libraries")
    return [it[1] for it in CRATE.finditer(re.split(r"(?m)^# ", rest)[0])]


class Report:
    """What a tool has checked: it prints each fault as it is told, and at the end how many checks passed and failed."""

    def __init__(self, tool):
        self.tool, self.passed, self.failed = tool, 0, 0

    def fault(self, text, where=""):
        """Tells one fault, which is a failed check."""
        self.failed += 1
        print(f"{self.tool}: {f'{where}: ' if where else ''}{text}")

    def check(self, faults, checked=1):
        """Tells the faults of one check, each a text or where it is and the text, or of so many checks."""
        faults = list(faults)
        self.passed += max(checked - len(faults), 0)
        for it in faults:
            self.fault(*reversed(it) if isinstance(it, tuple) else (it,))

    def end(self):
        """Prints the last line, and gives the status: 0 where nothing failed, else 1."""
        print(f"{self.passed} passed, {self.failed} failed")
        return int(self.failed > 0)


def give_up(tool, why):
    """Ends a tool that can't begin, with status 2."""
    print(f"{tool}: {why}", file=sys.stderr)
    sys.exit(2)


def sources_of(crate, parts=("src",), endings=(".rt",)):
    """The files of a crate's folders that end so, in order."""
    files = [it for part in parts for it in glob(f"crates/{crate}/{part}/**/*", recursive=True)]
    return sorted(it for it in files if it.endswith(endings))


def sources(names=None):
    """Each source of these crates, or of the libraries, as it is, without its comments, and its impls and traits."""
    for crate in names or libraries():
        for file in sources_of(crate):
            text = text_of(file)
            code = code_of(text)
            yield Source(crate, file, text, code, owners_in(code))


def end_of(shape, start, pair=r"([(\[{])|[)\]}]"):
    """The index after what closes what opens at `start`: of a source's shape a bracket."""
    depth = 0
    for it in re.compile(pair).finditer(shape, start):
        depth += 1 if it[1] else -1
        if depth == 0:
            return it.end()
    return len(shape)


def signature_of(text):
    """A signature, or a line of a contract, on one line."""
    text = re.sub(r",? ?\)", ")", re.sub(r"\( ", "(", " ".join(text.split())))
    return text.replace("(mut self", "(self")


def blanks(text):
    return re.sub(r"[^\n]", " ", text)


@lru_cache(maxsize=None)
def code_of(text, texts=True):
    """A source with blanks for its comments, at the same indices."""
    found, at = [], 0
    while piece := PIECE.search(text, at):
        # (comments may hold others)
        end = end_of(text, piece.start(), r"(/\*)|\*/") if piece[0] == "/*" else piece.end()
        is_kept = texts and not piece[0].startswith("/")
        found += [text[at:piece.start()], piece[0] if is_kept else blanks(text[piece.start():end])]
        at = end
    return "".join(found) + text[at:]


def shape_of(code):
    """The same with blanks for texts and characters, so that all braces are code."""
    return code_of(code, texts=False)


def bare(code):
    """A source without comments, as its shape with blanks for clauses and ghost items."""
    shape, found, at = shape_of(code), [], 0
    while ghost := GHOST.search(shape, at):
        begin = re.compile("[{;]").search(shape, ghost.end())
        end = begin.end() if begin and begin[0] == ";" else end_of(shape, begin.start()) if begin else len(shape)
        if ghost[0] == "ghost" and begin and begin[0] == "{":
            # (the braces of an import are within it, and a semicolon may follow those of an item)
            end = re.compile(r"\s*;?").match(shape, end).end()
        found += [shape[at:ghost.start()], blanks(shape[ghost.start():end])]
        at = end
    return "".join(found) + shape[at:]


def without_path(name):
    """The last part of a path, without a lifetime and the parameters of a type."""
    name = re.split(r"(?<!:):(?!:)", re.sub(r"<.*|'\w+ ", "", name.strip().lstrip("&")))[0]
    return name.strip().rpartition("::")[2]


@lru_cache(maxsize=None)
def owners_in(code):
    """The impls and the traits of a source without comments."""
    owners, shape = [], shape_of(code)
    for it in OWNER.finditer(shape):
        end = end_of(shape, it.end() - 1)
        of_trait, _, of_type = it[2].rpartition(" for ")
        of_type = without_path(of_type)
        trait = of_type if it[1] == "trait" else without_path(re.sub(r"<.*", "", of_trait)) if of_trait else ""
        members = [Clause("ghost", found[1], code[found.end():end_of(shape, found.end() - 1) - 1])
                   for found in MEMBER.finditer(shape, it.end(), end)]
        owners.append(Owner(it.start(), end, it[1], it[2], of_type, trait, members))
    return owners


def owner_at(owners, at):
    """The innermost of these that holds an index, or None."""
    return next((owner for owner in reversed(owners) if owner.start < at < owner.end), None)


def lines_above(text, start):
    """The comment lines and the attributes right above an index, each without indentation, in order."""
    above = map(str.strip, reversed(text[:max(text.rfind("\n", 0, start), 0)].split("\n")))
    is_its = lambda line: line.startswith(("#[", "//")) and not line.startswith("// SPDX")
    return list(takewhile(is_its, above))[::-1]


@lru_cache(maxsize=None)
def functions_of(file):
    """The functions of a source: where each begins and ends, and the impl or the trait that holds it, or None."""
    text = text_of(file)
    code = code_of(text)
    shape, owners, found = shape_of(code), owners_in(code), []
    for it in HEADER.finditer(shape):
        behind = SIGNATURE_END.search(shape, it.end())
        if not behind:
            continue
        start, where = code.rfind("\n", 0, it.start()) + 1, WHERE.match(shape, behind.start())
        at, clauses = where.end() if where else behind.start(), []
        while clause := CLAUSE.match(shape, at):
            at = end_of(shape, clause.end() - 1)
            clauses.append(Clause(clause[1], clause[2], code[clause.end():at - 1]))
        brace, owner = BODY.match(shape, at), owner_at(owners, it.start())
        end = end_of(shape, brace.end() - 1) if brace else at
        attributes = [line for line in lines_above(text, start) if line.startswith("#[")]
        within = f"{'pb::' * file.startswith('crates/dtype_messages/')}{owner.type}::" if owner else ""
        found.append(Function(file, start, end, owner, it[2], within + it[2], (it[1] or "").strip(), attributes,
                              code[it.end():behind.start()], clauses, code[at:end]))
    return found


def functions(names=None):
    """The functions of these crates, or of the libraries."""
    return [it for source in sources(names) for it in functions_of(source.file)]


def names_in(listing):
    """The names that a list in braces imports, each with what it is called there."""
    for it in filter(None, (it.strip() for it in (listing or "").split(","))):
        name, _, alias = it.partition(" as ")
        yield name, alias or name


def given_out(crate):
    """The names that a library, or a program, exports, and its public modules."""
    root = f"crates/{crate}/src/lib.rt"
    text = text_of(root if os.path.exists(root) else f"crates/{crate}/src/main.rt")
    names = {alias for it in GIVEN.finditer(text) for _, alias in names_in(it[1] or it[2])}
    return names | set(re.findall(r"(?m)^pub (?:fn|const) (\w+)", text)), set(MODULE.findall(text))


def heads_of(owner):
    """The trait and the type of an impl, or the trait that is declared."""
    return {owner.type, owner.trait} - {""}


def is_public(function, names, modules):
    """Whether a user of a library that exports these names and these modules can call the function."""
    module = os.path.basename(function.file).removesuffix(".rt")
    owner = function.owner
    is_open = module in modules or (bool(heads_of(owner) & names) if owner else function.name in names)
    return is_open and (bool(owner and owner.trait) or function.visibility == "pub")


def law_of(crate, function):
    """The name of a law as `crate::laws::name`, or None: a public function of a module `..laws`, or what `laws`
    re-exports."""
    laws = f"crates/{crate}/src/laws.rt"
    if function.owner or function.visibility != "pub" or not os.path.exists(laws):
        return None
    if not function.file.endswith("laws.rt"):
        passed_on = re.search(rf"(?m)^pub use crate::\w+::{function.name};", text_of(laws))
        return f"{crate}::laws::{function.name}" if passed_on else None
    return f"{crate}::{os.path.basename(function.file).removesuffix('.rt')}::{function.name}"


def public_calls():
    """The functions of the libraries that a user can call: each its crate and itself, but for laws."""
    names = {name for crate in libraries() for name in given_out(crate)[0]}
    return [(crate, it) for crate in libraries() for it in functions([crate])
            if not law_of(crate, it) and is_public(it, names, given_out(crate)[1])]


if __name__ == "__main__":
    print(RT)
