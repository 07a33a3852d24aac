# SPDX-License-Identifier: Apache-2.0
# SPDX-FileCopyrightText: Copyright the Vortex contributors

"""What the verdict on a mutation rests on, for the tool `mutations`. A function is proved from the statements of what it
names. So from the functions that a mutation changes one goes on to the functions, types and constants that they name, to
the definitions and lemmas that these import, and so on. What is named is looked up by its name alone, so this finds too
much rather than too little."""
import os
import re
from collections import namedtuple
from functools import lru_cache

from repository import below, code_of, functions, functions_of, owners_in, sources_of, text_of
from verdicts import is_of_laws

# The files of a proof by hand of one function, or of a cycle, in a folder of its name.
OF_A_FUNCTION = ("Answers.antt", "Invariants.antt", "Proof.antt")
# A part of a source, with the names by which others reach it.
Item = namedtuple("Item", "names text")
IMPORT = re.compile(r"\bghost use ([\w.-]+)(?:\.\{([^}]*)\}| as (\w+))?;")
DECLARED = re.compile(r"\b(pub |pub\([^)]*\) |)(?:struct|enum|trait|const|static|type|macro_rules!) (\w+)")
# What says how something is proved, and imports.
LEFT_OUT = re.compile(r"#!?\[(?:tactic|inline)\b[^\]]*\]|\b(?:pub )?(?:ghost )?(?:use|mod) [^;]*;")
PATH = re.compile(r"\b(Rattle|crate|[a-z]\w*)((?:(?:\.|::)[\w-]+)+)")


@lru_cache(maxsize=None)
def words_in(text):
    return frozenset(re.findall(r"\w+", text))


def with_imports(text, file):
    """A part of a source, with the modules of the definitions that it names."""
    words, modules = set(re.findall(r"[\w-]+|[^\s\w(){}]+", text)), []
    for module, names, alias in IMPORT.findall(code_of(text_of(file))):
        named = {it.split(" as ")[-1].strip() for it in names.split(",")} | {alias or module.rpartition(".")[2]}
        if any(it in words or "◌" in it for it in named):
            modules.append(module)
    return "\n".join([" ".join(text.split()), *modules])


@lru_cache(maxsize=None)
def statements_of(file, is_from_above):
    """The parts of a source: each function without its body, and the rest. A function of an impl of a trait is reached by
    the type and the trait, and the rest by what it declares. A crate above sees no functions and no types that it can't
    name."""
    code, parts = code_of(text_of(file)), []
    for it in reversed(functions_of(file)):
        is_of_trait = bool(it.owner and it.owner.trait)
        if it.visibility == "pub" or is_of_trait or not is_from_above:
            names = {it.owner.type, it.owner.trait} if is_of_trait else {it.name}
            parts.append((names, f"{it.path} {code[it.start:it.end - len(it.body)]}"))
        code = code[:it.start] + code[it.end:]
    rest = LEFT_OUT.sub("", code)
    declared = DECLARED.findall(rest)
    names = {it.type for it in owners_in(rest)} | {name for _, name in declared}
    if is_from_above:
        names -= {name for visibility, name in declared if visibility != "pub "}
    return [Item(frozenset(names), with_imports(text, file)) for names, text in [*parts, (names, rest)]]


@lru_cache(maxsize=None)
def logic_of(crate, is_from_above):
    """The files of definitions and lemmas of a crate, by their names, and what others call them."""
    files, aliases = {}, {}
    for file in sources_of(crate, ("specs", "proofs"), (".antt",)):
        is_private = is_from_above and not re.match(r"crates/\w+/(specs/(?!private\b)|proofs/(lemmas|rulesets)\b)", file)
        aliases.update(re.findall(r"(?m)^pub use [\w.]+\.(\w+) as (\w+)$", text_of(file)))
        if not is_private and os.path.basename(file) not in (*OF_A_FUNCTION, "Lib.antt"):
            files.setdefault(os.path.basename(file).removesuffix(".antt"), []).append(file)
    return files, {alias: name for name, alias in aliases.items()}


@lru_cache(maxsize=None)
def imported(text, crate):
    """The files of definitions and lemmas that a text names by their paths."""
    found = set()
    for one in below([crate]):
        files, aliases = logic_of(one, one != crate)
        for _, path in PATH.findall(text):
            for name in re.split(r"\.|::", path):
                found.update(files.get(name, files.get(aliases.get(name), ())))
    return found


def reached(crate, texts):
    """The parts of sources and the files of logic that these texts name, and those that these name, and so on, in order."""
    left = [item for it in below([crate]) for file in sources_of(it) for item in statements_of(file, it != crate)]
    files, found, ahead = set(), [], list(texts)
    names = set()
    while ahead:
        came = {file for text in ahead for file in imported(text, crate)} - files
        files |= came
        words = frozenset().union(*(words_in(text) for text in ahead)) - names
        names |= words
        items = [it for it in left if it.names & words]
        left = [it for it in left if not it.names & words]
        ahead = [it.text for it in items] + [re.sub(r"(?m) *--.*$", "", text_of(file)) for file in sorted(came)]
        found += ahead
    return sorted(found)


def rests_on(crate, mutation):
    """The texts on which the verdict on a mutation rests, beside the mutation itself: the functions that it changes with
    their proofs by hand, and what they reach. A mutation of an impl is tried in a check of the whole crate, which reads all
    of it."""
    if is_of_laws(mutation):
        own = [text_of(it) for it in sources_of(crate, ("src", "proofs"), (".rt", ".antt"))]
    else:
        changed = [it for it in functions([crate]) if it.path in mutation.functions]
        own = [with_imports("\n".join([*it.attributes, text_of(it.file)[it.start:it.end]]), it.file) for it in changed]
        own += [it.path for it in changed]
        folders = {it.name for it in changed} | {f"+{it}" for it in mutation.cycles}
        own += [text_of(it) for it in sources_of(crate, ("proofs",), (".antt",))
                if os.path.basename(it) in OF_A_FUNCTION and os.path.basename(os.path.dirname(it)) in folders]
    return [*own, *reached(crate, [*own, *(text for _, *texts in mutation.edits for text in texts)])]
