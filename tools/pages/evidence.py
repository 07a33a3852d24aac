# SPDX-License-Identifier: Apache-2.0
# SPDX-FileCopyrightText: Copyright the Vortex contributors

"""What stands behind each public item of the libraries, for `reference`, computed from the sources: the laws about
it, and the mutations of it that the prover rejects. And the checks that none of it is lost (`faults`).

An item has the name of its heading on the pages, as `FieldPathSet::insert`, `PartialEq for Field` or `PType`. A
law names what it is about in the last paragraph of its comment, as "About [`FieldPath::resolve`]." A mutation is of the
public function whose body it changes; one of a private function, of a derive or of a constant names the items behind its
name, as `NAME of ITEM, ITEM`."""
import os
import re
from collections import defaultdict

from edits import mutations_of
from repository import KEPT, anchor_of, bare, functions, functions_of, law_of, libraries, public_calls, signature_of, text_of

ABOUT = re.compile(r"\[`([^`]+)`\]")
# What prints, compares, hashes, copies and walks without a call that is written out.
BEHIND = set("fmt eq ne cmp partial_cmp hash clone drop from try_from next index bitor".split())
# The traits whose calls have no clause where they are written, and why.
WITHOUT_CLAUSE = {
    "Debug": "what it prints is for people, and isn't promised",
    "ExactSizeIterator": "the trait of std says what `len` returns, by the impl of `Iterator`",
    "DTypeProto": "the impl for `DType` has the clauses",
    "FieldPathProto": "the impl for `FieldPath` has the clauses",
}


def comment_of(function):
    """The comment above a function."""
    text = text_of(function.file)
    lines = text[:function.start].split("\n")[:-1]
    found = []
    for line in reversed(lines):
        line = line.strip()
        if line.startswith("///"):
            found.append(line[3:].strip())
        elif not line.startswith(("#[", "//")):
            break
    return "\n".join(reversed(found))


def item_of(function):
    """The name of the item that has a function: of an impl of a trait that of the impl."""
    owner = function.owner
    if owner and owner.kind == "impl" and owner.trait:
        return re.sub(r"<'\w+>|'\w+ |\bfmt::", "", signature_of(owner.heading))
    return function.path


def laws():
    """The laws of the libraries: each its crate, its name in the reference, and the items that its comment names."""
    for crate in libraries():
        for it in functions([crate]):
            if law := law_of(crate, it):
                about = comment_of(it).rpartition("\n\n")[2]
                named = ABOUT.findall(about) if about.startswith("About [") else []
                yield crate, law.partition("::")[2], named


def mutations():
    """The mutations of the libraries: each as it is written, the items that it is of, and the functions that it changes."""
    public = {(it.file, it.start): item_of(it) for _, it in public_calls()}
    for it in (it for crate in libraries() for it in mutations_of(crate)):
        places = [(source, text_of(source).find(old)) for source, old, _ in it.edits
                  if source.endswith(".rt") and os.path.exists(source)]
        changed = [function for source, at in places for function in functions_of(source) if function.start <= at < function.end]
        named = it.of + [public[of.file, of.start] for of in changed if (of.file, of.start) in public]
        yield it, list(dict.fromkeys(named)), {of.path for of in changed}


class Graph:
    """The functions of the libraries, and which calls which, by names: a call of a name that several functions have may
    be of each of them."""

    def __init__(self):
        self.bodies, self.by_name, self.calls, self.paths = defaultdict(list), defaultdict(set), {}, defaultdict(set)
        for function in functions(libraries()):
            self.bodies[function.path].append(bare(function.body))
            self.by_name[function.name].add(function.path)
            self.paths[item_of(function)].add(function.path)

    def called_by(self, path):
        """What the functions of a path may call; of a trait's call, that of each impl."""
        if path not in self.calls:
            self.calls[path] = {called for body in self.bodies[path] for called in self.calls_of(body)}
            if "" in self.bodies[path]:
                self.calls[path] |= self.by_name[path.rpartition("::")[2]]
        return self.calls[path]

    def calls_of(self, body):
        for it in re.finditer(r"\w+", body):
            if it[0] not in self.by_name:
                continue
            path = re.search(r"(\w*)::$", body[:it.start()])
            exact = f"{path and path[1]}::{it[0]}"
            if path and path[1][:1].isupper() and path[1] != "Self" and exact in self.bodies:
                yield exact
            elif path or body.startswith(("(", "::"), it.end()):
                yield from self.by_name[it[0]]

    def below(self, item):
        """The functions that the calls of an item reach."""
        reached, ahead = set(), list(self.paths.get(item, ()))
        while ahead:
            path = ahead.pop()
            if path not in reached:
                reached.add(path)
                ahead += self.called_by(path)
        # (operators, `?`, `==`, loops and texts call these)
        return reached | {it for name in BEHIND if reached for it in self.by_name.get(name, ())}


class Evidence:
    """What stands behind the items of the libraries."""

    def __init__(self):
        self.laws, self.mutations = defaultdict(list), defaultdict(list)
        for crate, law, about in laws():
            for item in about:
                self.laws[item].append((crate, law))
        for mutation, of, _ in mutations():
            for item in of:
                self.mutations[item].append(mutation.name)

    def facts_of(self, name):
        """The lines of the reference on what stands behind an item."""
        if found := self.laws.get(name):
            links = (f"[`{law}`]({crate}.md#{anchor_of(law)})" for crate, law in found)
            yield f"- laws: {', '.join(links)}"
        if found := list(dict.fromkeys(self.mutations.get(name, ()))):
            yield f"- mutations that are rejected: {', '.join(f'`{it}`' for it in found)}"


def is_without_clause(function, fixed):
    """Whether neither a function nor its impl has a clause, where no reason is listed. An impl of a trait has those of
    the trait, whose calls that have some are `fixed`."""
    owner = function.owner
    if any(it.kind == "ensures" for it in function.clauses) or owner and owner.trait in WITHOUT_CLAUSE:
        return False
    if owner and any(not KEPT.fullmatch(it.name) for it in owner.members):
        return False
    return not (owner and owner.trait and f"{owner.trait}::{function.name}" in fixed)


def faults(names):
    """How much is checked, and what is lost: where it was, and the fault. A law names items, which are among these
    names. A mutation is of such an item, and changes a function that it reaches. A public call has a clause. (That a test
    runs it is checked by tools/gate/linked.py.)"""
    found, count, graph = [], 0, Graph()
    for crate, law, about in laws():
        count += 1
        if not about:
            found.append((f"crates/{crate}", f"the law {law} names no call: its comment ends with \"About [`CALL`].\""))
        found += [(f"crates/{crate}", f"the law {law} is about {it}, which isn't there") for it in about if it not in names]
    for mutation, of, changed in mutations():
        count += 1
        told = lambda text, it=mutation: (it.place, f"{it.name} {text}")
        found += [told(f"is of {it}, which isn't there") for it in of if it not in names]
        if not of:
            found.append(told("is of no public item: name one behind it, as `NAME of ITEM`"))
        reached = set().union(*map(graph.below, of))
        if reached and changed and not changed & reached:
            found.append(told(f"changes {', '.join(sorted(changed))}, which {' and '.join(of)} doesn't reach"))
    calls = public_calls()
    fixed = {it.path for _, it in calls if any(clause.kind == "ensures" for clause in it.clauses)}
    found += [(it.file, f"{it.path} has no clause: write one, or a reason into WITHOUT_CLAUSE") for _, it in calls
              if is_without_clause(it, fixed)]
    count += len(calls)
    return count, found
