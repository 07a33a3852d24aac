# SPDX-License-Identifier: Apache-2.0
# SPDX-FileCopyrightText: Copyright the Vortex contributors

"""Reads the mutations of a crate, for the tools that try them, count them or list them. A mutation is an edit that makes
a body wrong. The file crates/NAME/wrong.txt has those that the checker must refuse, and wrong_for_tests.txt those that only
a test can refuse:

    # A comment.
    file: src/dtype/nullability.rt
    as_nullable_gives_a_copy
    - self.with_nullability(alloc, Nullability::Nullable)
    + self.try_clone(alloc)

    file: src/dtype/nullability_bounds.rt
    nullability_of_the_first_alone of merge_nullability
    - Ok(DType::Struct(t.merge_under(alloc, u, rule)?, rule.of(*m, *n)))
    + Ok(DType::Struct(t.merge_under(alloc, u, rule)?, *m))

`file:` names the source that the edits below it change. A mutation begins with a line of its name, after which ` of ` may
name the public calls that it guards. Lines with `- ` are the text that is replaced, as it stands in the source, and lines
with `+ ` the text that takes its place. An edit of several lines has several of either. A line `- ` after a line `+ `
begins another edit of the same mutation. Before the edits there may be lines `fails: TEXT` and `says: TEXT`, which the
tools explain that read them. Empty lines mean nothing."""
import os
import re
from collections import namedtuple
from itertools import groupby

from repository import crates, give_up, lines_of, text_of

# `place` is the line at which a mutation begins, `of` has the calls that it guards, `words` its lines `fails:` and `says:`,
# and `edits` of each edit the source, the text that is replaced, and the new one.
Written = namedtuple("Written", "crate name place of words edits")
NAME = re.compile(r"(\w+)(?: of (\S.*))?")
WORD = re.compile(r"(fails|says): (.*)")
MARKS = ("- ", "+ ", "-", "+")


def file_of(crate, kind="wrong"):
    return f"crates/{crate}/{kind}.txt"


def mutations_of(crate, kind="wrong"):
    """The mutations in a crate's file `wrong.txt`, or `wrong_for_tests.txt`. It ends the tool if one can't be read."""
    file, source, found, names = file_of(crate, kind), "", [], set()
    for number, line in enumerate(lines_of(file) if os.path.exists(file) else (), 1):
        place, last = f"{file}:{number}", found[-1] if found else None
        if line.startswith("file: "):
            source = f"crates/{crate}/{line[6:]}"
        elif line[:2] in MARKS and last and source:
            last.edits.append((line[0], source, line[2:]))
        elif last and not last.edits and (word := WORD.fullmatch(line)):
            last.words[word[1]] = word[2]
        elif (name := NAME.fullmatch(line)) and name[1] not in names:
            names.add(name[1])
            of = [it.strip() for it in (name[2] or "").split(",")]
            found.append(Written(crate, name[1], place, [it for it in of if it], {}, []))
        elif line and not line.startswith("#"):
            give_up("edits", f"{place}: `{line}` is neither a line of a mutation nor the name of another one")
    return [it._replace(edits=edits_of(it)) for it in found]


def edits_of(mutation):
    """The edits that the lines of a mutation make, which have `-` and `+` by turns."""
    runs = [(*key, "\n".join(text for *_, text in lines)) for key, lines in groupby(mutation.edits, lambda it: it[:2])]
    pairs = list(zip(runs[::2], runs[1::2]))
    if not runs or len(runs) % 2 or any((old[0], new[0], old[1]) != ("-", "+", new[1]) for old, new in pairs):
        give_up("edits", f"{mutation.place}: {mutation.name} needs lines `- OLD` and then lines `+ NEW`, for each of its edits")
    return [(source, old, new) for (_, source, old), (_, _, new) in pairs]


def every_mutation(kind="wrong"):
    """The mutations of all crates."""
    return [it for crate in crates() for it in mutations_of(crate, kind)]


def applied(edits):
    """The sources that these edits change, each as it is then. An edit applies to what earlier ones made. A ValueError or
    an OSError says why they can't be made."""
    texts = {}
    for source, old, new in edits:
        text = texts[source] if source in texts else text_of(source)
        if text.count(old) != 1:
            raise ValueError(f"'{old}' doesn't stand in {source} exactly once")
        texts[source] = text.replace(old, new)
    return texts
