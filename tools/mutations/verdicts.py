# SPDX-License-Identifier: Apache-2.0
# SPDX-FileCopyrightText: Copyright the Vortex contributors

"""How mutations are planted in a copy of a crate, checked, and judged, for the tool `mutations`. The checksum of a verdict
has this file in it, so an edit of it has every mutation tried again."""
import difflib
import os
import re
import subprocess
from collections import namedtuple

from edits import applied
from repository import (
    RT, below, code_of, crates, dependencies, functions, functions_of, owners_in, text_of,
)

# `edits` are as they are written, and `changes` are the pairs of old and new text by file. `functions` are those whose
# proof must fail, or of an impl of a trait, whose laws must fail, `impl TYPE TRAIT`. `paths` is what a check is asked for
# them, and `cycles` are those of the functions: the functions of a cycle have one proof, in which each goal begins with
# the function that it is of.
Mutation = namedtuple("Mutation", "name edits changes functions paths cycles")
FUNCTION = re.compile(r"^(?:fn|impl) ([\w:<>& ]+?): (.*)$", re.M)
# (behind the name of a record that is long, the line breaks)
ERROR = re.compile(r"^\./(proofs/\S+?):\d+:\d+: error: (?:`([\w:-]+)`: )?(.*(?:\n  has no .*)?)", re.M)
NO_LONGER_FITS = re.compile(r"has no field|is not in scope|has no `|was not admitted")
# An error that only follows from another, and a part of a verdict that only names another that isn't proved.
FOLLOWS = re.compile(r"is not admitted|declarations? that depends? on")
ELSEWHERE = re.compile(r"it (calls|passes|waits)|stands on|did not finish|expected answers in")
KIT = os.path.dirname(os.path.dirname(os.path.realpath(RT)))


def module_of(crate, file):
    """The path of a source's module."""
    module = file.removeprefix(f"crates/{crate}/src/").removesuffix(".rt").replace("/", "::")
    return crate if module in ("lib", "main") else f"{crate}::{module}"


def path_of(crate, function):
    """What names a function to a check. A method of a type is named by the type and itself, because the check puts it
    into the module that declares the type; and one of an impl of a trait, whose name is made of type and trait there, by
    its module."""
    if not function.owner:
        return f"{module_of(crate, function.file)}::{function.name}"
    return module_of(crate, function.file) if function.owner.trait else function.path.removeprefix("pb::")


def read(written):
    """A mutation as it is tried, or None and why it can't be."""
    found, impls, crate = [], [], written.crate
    try:
        texts = applied(written.edits)
    except (OSError, ValueError) as why:
        return None, f"{written.place}: {why}"
    for source, old, _ in written.edits:
        at = text_of(source).find(old)
        inside = [it for it in functions_of(source) if it.start <= at < it.end]
        found += inside
        if not inside and source.endswith(".rt"):
            impls += [(source, it) for it in owners_in(code_of(text_of(source)))
                      if it.kind == "impl" and it.trait and it.start <= at < it.end]
    found += [it for it in functions([crate]) if it.path == written.words.get("fails")]
    if not found and not impls:
        return None, f"{written.place}: its text is in no function, so it needs a line `fails: FUNCTION`"
    changes = tuple((it, changed_parts(text_of(it), text)) for it, text in texts.items())
    names = {it.path for it in found} or {f"impl {it.type} {it.trait}" for _, it in impls}
    paths = {path_of(crate, it) for it in found} or {module_of(crate, file) for file, _ in impls}
    cycles = {name for it in found for line in it.attributes for name in re.findall(r"^#\[cycle\((\w+)", line)}
    return Mutation(written.name, written.edits, changes, frozenset(names), frozenset(paths), frozenset(cycles)), None


def changed_parts(before, after):
    """What of a text becomes what, as pairs of an old part, from one line's begin to another's end, and a new one."""
    lines = before.splitlines(keepends=True), after.splitlines(keepends=True)
    steps = difflib.SequenceMatcher(None, *lines, autojunk=False).get_opcodes()
    return tuple((a, b, "".join(lines[1][c:d])) for kind, a, b, c, d in steps if kind != "equal")


def batches_of(mutations):
    """The mutations in groups, in each of which no two change the same function or lines."""
    groups = []
    for it in mutations:
        group = next((group for group in groups if not any(meet(it, other) for other in group)), None)
        if group is None:
            groups.append([it])
        else:
            group.append(it)
    return groups


def meet(one, other):
    """Whether two mutations change one function, or lines that touch, or need different checks."""
    lines = lambda it: [(file, begin, end) for file, parts in it.changes for begin, end, _ in parts]
    if is_of_laws(one) != is_of_laws(other):
        return True
    return bool(one.functions & other.functions) or any(
        a == x and b <= z and y <= c for a, b, c in lines(one) for x, y, z in lines(other))


def is_of_laws(mutation):
    """Whether a mutation must be refused by a law of an impl, and not at the proof of a function."""
    return any(it.startswith("impl ") for it in mutation.functions)


def planted(texts, group):
    """These texts with the mutations of a group in them."""
    texts = dict(texts)
    for file in {file for it in group for file, _ in it.changes}:
        lines = texts[file].splitlines(keepends=True)
        parts = [part for it in group for at, found in it.changes if at == file for part in found]
        for begin, end, new in sorted(parts, reverse=True):
            lines[begin:end] = [new]
        texts[file] = "".join(lines)
    return texts


def is_of(path, function):
    """Whether a path of the prover, as crate::module::Type::name, is that of a function, as Type::name. An impl of a
    trait is called by type and trait, as FieldNameHash; for the impl itself a function is written `impl FieldName Hash`."""
    if function.startswith("impl "):
        _, of_type, trait = function.split(" ")
        name = path.rpartition("::")[2].lower()
        return name.startswith(of_type.lower()) and name.endswith(trait.lower())
    *owner, name = function.split("::")
    parts = re.sub(r"<[^>]*>", "", path).split("::")
    if parts[-1] != name:
        return False
    return not owner or len(parts) > 1 and parts[-2].lower().startswith(owner[-1].lower())


class Said:
    """What a check said of a crate with mutations in it, and the processor time that it took, in seconds."""

    def __init__(self, text, seconds):
        self.text, self.seconds = text, seconds
        self.verdicts = {path: said for path, said in FUNCTION.findall(text)}
        self.is_read = bool(re.search(r"(?m)^(holes|logic|only)=", text))
        self.open = {path: said for path, said in self.verdicts.items() if not re.match(r"(no holes|proved)", said)}
        self.errors = [it for it in ERROR.findall(text) if not FOLLOWS.search(it[2])]

    def of(self, mutation, is_alone):
        """What came of a mutation, and whether it counts as refused; None if the check doesn't tell, since what the
        function calls, or a lemma of its proof, isn't proved either."""
        own = {path: said for path, said in self.open.items() if any(is_of(path, it) for it in mutation.functions)}
        is_of_own = self.is_of_own(mutation, own) if mutation.cycles and not is_alone else lambda _: True
        for path, said in own.items():
            goals = re.search(r"did not prove ([^;]*)", said)
            if names := [it for it in re.findall("`([^`]+)`", goals[1] if goals else "") if is_of_own(it)]:
                return f"refused by {', '.join(names)}", True
        for path, said in own.items():
            if law := re.search(r"antt refuses `([\w-]+?)(?:-value)?` in", said):
                return f"refused by the law {law[1]}", True
        for path, said in own.items():
            if found := self.at_its_proof(path, said, mutation.cycles, is_of_own):
                return found
        if mutation.cycles and not is_alone:
            return None if own else ("NOT REFUSED", False)
        for said in own.values() if is_alone else ():
            if lemma := self.lemma_below(said):
                return f"refused at its proof, at the lemma {lemma}", True
        for said in own.values():
            reasons = [it for it in said.split("; ") if not ELSEWHERE.search(it)]
            if reasons and reasons not in (["not proved"], ["no proof"]):
                return f"refused: {reasons[0][:100]}", True
        return None if own else ("NOT REFUSED", False)

    def is_of_own(self, mutation, own):
        """A test of a goal of a cycle, which begins with the end of a function's path: whether it is of the function that
        was changed, and of no other."""
        changed = {path for path in own if any(f"::{path}".endswith(f"::{it}") for it in mutation.paths)}
        of_goal = lambda goal: {it for it in self.verdicts if f"::{it}".endswith(f"::{goal.partition('-')[0]}")}
        return lambda goal: len(of_goal(goal)) == 1 and of_goal(goal) <= changed

    def at_its_proof(self, path, said, cycles, is_of_own):
        """What came of a function whose verdict names its own proof by hand, or that of its cycle, or None if only a
        lemma of that fails. Of a cycle's errors those count that are of the function."""
        folders = [f"proofs/{'/'.join(re.sub(r'<[^>]*>', '', path).split('::')[1:])}/", *(f"/+{it}/" for it in cycles)]
        errors = [it for it in self.errors if any(folder in it[0] for folder in folders) and is_of_own(it[1])]
        if not errors or not any(folder.replace("/", ".") in said for folder in folders):
            return None
        goals = sorted({goal or "a lemma" for _, goal, what in errors if not NO_LONGER_FITS.search(what)})
        return (f"refused at its proof of {', '.join(goals)}", True) if goals else ("proof doesn't fit", False)

    def lemma_below(self, said):
        """The lemma that fails, of those on which a function stands by this verdict, or None. If a ruleset of the
        function can't be read, the verdict only names the proof that is missing."""
        failed = [(file, goal) for file, goal, what in self.errors if not NO_LONGER_FITS.search(what)]
        if lemma := re.search(r"stands on `Rattle\.\w+\.proofs\.([\w.]+)\.([\w-]+)`", said):
            return lemma[2] if f"proofs/{lemma[1].replace('.', '/')}.antt" in (file for file, _ in failed) else None
        return ", ".join(filter(None, (goal for _, goal in failed))) if "expected answers in" in said else None


def words_of(crate):
    """The words by which `rt` checks a crate over the libraries in out/rlib."""
    text, below_it = text_of("crates.txt"), dependencies()[crate]
    top = "src/main.rt" if os.path.exists(f"crates/{crate}/src/main.rt") else "src/lib.rt"
    words = ["--crate-name", crate, top, "--links", f"{crate}=", "--jobs", "1"]
    for it in ["std", *(it for it in below_it if it not in crates())]:
        words += ["--extern", f"{it}={KIT}/rlibs/{it}.rlib"]
    words += ["-L", f"dependency={KIT}/rlibs"]
    for it in (it for it in below([crate]) if it != crate):
        rlib = os.path.abspath(f"crates/{it}/out/rlib")
        words += ["--extern", f"{it}={rlib}/{it}.rlib"] if it in below_it else ["-L", f"dependency={rlib}"]
    words += ["--antt-project", f"{KIT}/rattle/logic/antt-project.json", "--logic-built", f"{KIT}/logic_built"]
    return words + ["--crate-type", "staticlib"] * (f"\n{crate} staticlib:" in text)


def is_ready(crate, is_after_ci):
    """Whether the libraries below a crate are in out/rlib: as `rt ci` leaves them, which has no file `stamp`, or else as
    `rt lib` finds or builds them."""
    needed = [it for it in below([crate]) if it != crate]
    rlibs = [f"crates/{it}/out/rlib" for it in needed]
    if is_after_ci and all(os.path.isdir(f"{at}/{it}.rlib") and not os.path.exists(f"{at}/stamp")
                           for it, at in zip(needed, rlibs)):
        return True
    return all(subprocess.run([RT, "lib"], cwd=f"crates/{it}", stdin=subprocess.DEVNULL, check=False).returncode == 0
               for it in needed)


def check(copy, crate, group):
    """What a check of the functions of a group, or of the whole crate if the group is of laws, says past open goals."""
    paths = sorted({path for it in group for path in it.paths if not is_of_laws(it)})
    asked = [word for path in paths for word in ("--only", path)]
    words = [*words_of(crate), "--incremental", "out/incremental", "--allow-holes", *asked]
    with subprocess.Popen([f"{KIT}/bin/rattle", "check", *words], cwd=f"{copy}/crates/{crate}", stdin=subprocess.DEVNULL,
                          stdout=subprocess.PIPE, stderr=subprocess.STDOUT, text=True, errors="replace") as ran:
        text = ran.stdout.read()
        _, ran.returncode, spent = os.wait4(ran.pid, 0)
    return Said(text, spent.ru_utime + spent.ru_stime)


def said_of(copy, crate, texts, group):
    """What a check says of a copy of a crate in which a group of mutations is planted."""
    for file, text in planted(texts, group).items():
        path = f"{copy}/{file}"
        if text_of(path) != text:
            with open(path, "w", encoding="utf-8") as it:
                it.write(text)
    said = check(copy, crate, group)
    if os.environ.get("MUTATIONS_LOG"):
        with open(f"{os.environ['MUTATIONS_LOG']}/{crate}-{group[0].name}", "w", encoding="utf-8") as it:
            it.write(said.text)
    return said
