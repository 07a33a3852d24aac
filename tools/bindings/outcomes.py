# SPDX-License-Identifier: Apache-2.0
# SPDX-FileCopyrightText: Copyright the Vortex contributors

"""Which numbers the contract of an exported function lets it return, as far as its clauses say so in a form that is known
here; and what it does with a slot, and which kind of object the slot contains. A clause is followed into the definitions
that it uses, over each of their cases. Whatever isn't known counts as a statement that says nothing of the number, so the
numbers that are found are never too few.

For example, `Tells result P` is `((code ≡ 0) × P) ⊎ ((code ≡ 1) × (P → ⊥))`, so a function with this clause returns 0
or 1."""
import re
from collections import namedtuple
from functools import lru_cache

from repository import dependencies, sources_of, text_of

# An expression, and what the names in it stand for.
Bound = namedtuple("Bound", "text names")
# One case of a definition: its parameters, and what it says of them.
Case = namedtuple("Case", "parameters text")

RESULT = "@"
DEEPEST = 40
DEFINITION = re.compile(r"(?m)^(?:abbrev )?(?:  )?pub (\w+) :")
COMMENT = re.compile(r"(?m)--.*$")
LAMBDA = re.compile(r"λ ([^.]*)\. (.*)$", re.S)
ERROR_NUMBERS = frozenset(range(100, 137))


def parts_of(text, separator):
    """The parts of an expression between these words, outside of brackets."""
    parts, depth, at = [""], 0, 0
    for word in re.findall(r"[()\[\]{}]|λ|[^\s()\[\]{}λ]+|\s+", text):
        if word == "λ" and depth == 0:
            # (what a λ says reaches as far as it can)
            parts[-1] += text[at:]
            break
        depth += (word in "([{") - (word in ")]}") if len(word) == 1 else 0
        if depth == 0 and word == separator:
            parts.append("")
        else:
            parts[-1] += word
        at += len(word)
    return [it.strip() for it in parts]


def arguments_of(text):
    """The function and the arguments of an application."""
    found, depth = [""], 0
    for letter in text:
        depth += (letter in "([{") - (letter in ")]}")
        if letter.isspace() and depth == 0:
            found.append("")
        else:
            found[-1] += letter
    return [it for it in found if it]


def bare(text):
    """An expression without the brackets around the whole of it."""
    text = text.strip()
    while text.startswith("(") and len(arguments_of(text)) == 1 and len(parts_of(text, ",")) == 1:
        inner, depth = text[1:-1], 0
        for letter in inner:
            depth += (letter == "(") - (letter == ")")
            if depth < 0:
                return text
        text = inner.strip()
    return text


@lru_cache(maxsize=None)
def definitions(crate):
    """The cases of each definition in the specs of a crate, and in those that it stands on, by the definition's name."""
    found = {}
    for one in [*dependencies()[crate], crate]:
        for file in sources_of(one, ("specs",), (".antt",)):
            text = COMMENT.sub("", text_of(file))
            for it in DEFINITION.finditer(text):
                name = it[1]
                cases = re.findall(rf"(?m)^(?:  )?{name}((?: [^\n=]*)?) =((?: .*)?(?:\n+[ ]{{4,}}.*)*)", text[it.end():])
                found[name] = [Case(arguments_of(given), said.strip()) for given, said in cases]
    return found


class Numbers:
    """The numbers that clauses of a crate's contracts allow."""

    def __init__(self, crate):
        self.definitions = definitions(crate)

    def of(self, clauses):
        """The numbers that all of these clauses allow, or None where no clause says anything of them."""
        found = None
        for it in clauses:
            text = re.sub(r"\bresult\b(?!\.)", RESULT, it)
            found = both(found, self.allowed(Bound(text, {}), []))
        return found

    def allowed(self, said, given, depth=0):
        """The numbers that a statement allows, which is applied to these arguments, or None for all."""
        text = bare(said.text)
        if depth > DEEPEST:
            return None
        if found := LAMBDA.match(text):
            names = found[1].split()
            if len(names) > len(given):
                return None
            return self.allowed(Bound(found[2], {**said.names, **dict(zip(names, given))}), given[len(names):], depth + 1)
        if len(parts_of(text, "→")) > 1:
            return None
        if len(cases := parts_of(text, "⊎")) > 1:
            return self.any_of([Bound(it, said.names) for it in cases], depth)
        if len(facts := parts_of(text, "×")) > 1:
            found = None
            for it in facts:
                found = both(found, self.allowed(Bound(it, said.names), [], depth + 1))
            return found
        if len(sides := parts_of(text, "≡")) == 2:
            return self.equal([Bound(it, said.names) for it in sides])
        return self.applied(said.names, *self.head_of(text, said.names, given), depth)

    def any_of(self, cases, depth):
        found = frozenset()
        for it in cases:
            numbers = self.allowed(it, [], depth + 1)
            if numbers is None:
                return None
            found |= numbers
        return found

    def head_of(self, text, names, given):
        name, *arguments = arguments_of(text) or [""]
        return name, [*(Bound(it, names) for it in arguments), *given]

    def applied(self, names, name, given, depth):
        """The same of a name that is applied to arguments."""
        if name in names:
            return self.allowed(names[name], given, depth + 1)
        if name == "⊥":
            return frozenset()
        if not self.definitions.get(name):
            return None
        found = frozenset()
        for case in self.definitions[name]:
            count = len(case.parameters)
            if count > len(given):
                return None
            bound = {it: value for it, value in zip(case.parameters, given) if re.fullmatch(r"[^\W\d]\w*", it)}
            if self.only_recurses(name, case, bound):
                bound[name] = Bound("⊥", {})
            numbers = self.allowed(Bound(case.text, bound), given[count:], depth + 1)
            if numbers is None:
                return None
            found |= numbers
        return found

    def only_recurses(self, name, case, bound):
        """Whether a case of a definition mentions it again, and each time with the same number at the end. Then that adds
        no number to those of the other cases."""
        again = re.findall(rf"\b{name}\b([^⊎×→]*)", case.text)
        last = case.parameters[-1] if case.parameters else ""
        return (bool(again) and last in bound and self.resolved(bound[last]).text == RESULT
                and all(re.search(rf"\s{last}\)*\s*$", it) for it in again))

    def equal(self, sides):
        """The numbers that an equation allows, if one side of it is the result."""
        one, other = map(self.resolved, sides)
        if RESULT not in (one.text, other.text):
            return None
        return self.values(other if one.text == RESULT else one)

    def resolved(self, it):
        """What a name stands for, if it is one."""
        it = Bound(bare(it.text), it.names)
        while it.text in it.names:
            it = it.names[it.text]
            it = Bound(bare(it.text), it.names)
        return it

    def values(self, it, depth=0):
        """The numbers that an expression can be, or None where that isn't known."""
        if it.text.isdigit():
            return frozenset([int(it.text)])
        if re.fullmatch(r"100 \+ number_of \w+", it.text):
            return ERROR_NUMBERS
        cases = self.definitions.get((arguments_of(it.text) or [""])[0], []) if depth < DEEPEST else []
        found = [self.values(Bound(case.text, {}), depth + 1) for case in cases]
        return frozenset().union(*found) if found and None not in found else None


def both(one, other):
    """The numbers that two statements allow together."""
    if one is None or other is None:
        return other if one is None else one
    return one & other


SEEN = r"\b(?!objects_in)(\w+_in) "


def slot_of(name, clauses, crate):
    """What a call does with the slot, or the slots, of this name, and the word that finds its object, as its clauses say.
    For example, `Puts type_in o result out.old.value out.new.value` says that a type is stored in `out`. The last two
    arguments of a word whose name ends in `Or`, such as `PutsOr`, are the slot for why the call failed."""
    role = kind = None
    for it in clauses:
        for fact in parts_of(bare(it), "×"):
            head, *given = arguments_of(bare(fact)) or [""]
            said = stored(head, given, name)
            role, kind = said if said else (role, kind)
    if not kind:
        kind = next((word for it in clauses if (word := seen_in(bare(it), name, crate))), None)
    return role, kind


def stored(head, given, name):
    """What an application of a word says that is done with a slot, or None. Several slots may be a tuple, for which the word
    has as many arguments that find an object."""
    slots = [re.match(r"(?:objects_in )?(\w+)\.old(?:\.value)?$", one) for it in given for one in items_of(it)]
    slots = [it[1] for it in slots if it and f"{it[1]}.new" in " ".join(given)]
    sees = [bare(it) for it in given if re.fullmatch(r"(?!objects_in)\w+_in", bare(it))]
    if head.endswith("Or") and slots and name == slots[-1]:
        return "tells", "error_in"
    if sees and name in slots[:len(sees)]:
        return ("changes" if head.startswith("Changes") else "puts"), sees[slots.index(name)]
    return None


def tuple_of(text):
    """The items of a tuple, or the expression itself."""
    text = text.strip()
    if not text.startswith("(") or len(arguments_of(text)) > 1:
        return [text]
    parts = parts_of(text[1:-1].replace(",", " , "), ",")
    return parts if len(parts) > 1 else tuple_of(parts[0])


def items_of(text):
    """The items of a tuple and of the tuples in it."""
    parts = tuple_of(text)
    return [one for it in parts for one in items_of(it)] if len(parts) > 1 else parts


def place_of(text, name):
    """Where a name is in an expression: `.1` for the second item of a pair, and an empty text if that is all of it."""
    parts = tuple_of(text)
    for at, it in enumerate(parts if len(parts) > 1 else ()):
        if re.search(rf"\b{re.escape(name)}\b", it):
            return f".{at}{place_of(it, name)}"
    return ""


def seen_in(text, name, crate, depth=0):
    """The word that finds the object in a slot, in a statement and in the definitions that it uses."""
    place = rf"(?:{re.escape(name)}(?:\.(?:old|new))?(?:\.value)?)(?![\w.])"
    if found := re.search(SEEN + place, text) or re.search(rf"each_in (\w+_in) \((?:[^()]*[ (])?{place}", text):
        return found[1]
    if depth > 4:
        return None
    for fact in (one for it in parts_of(text, "⊎") for one in parts_of(bare(it), "×")):
        head, *given = arguments_of(bare(fact)) or [""]
        for case in definitions(crate).get(head, ()):
            for parameter, value in zip(case.parameters, given):
                inner = name_within(parameter, value, name) if re.fullmatch(r"[^\W\d]\w*", parameter) else None
                if inner and (word := seen_in(case.text, inner, crate, depth + 1)):
                    return word
    return None


def name_within(parameter, value, name):
    """What a name is called in a definition whose parameter stands for this value, or None if it isn't in the value. For
    example, of the pair `(a, b)` for the parameter `p` the name `b` is `p.1`, and of the value `q` the name `q.1` is."""
    if re.search(rf"(?<![\w.]){re.escape(name)}\b", value):
        return parameter + place_of(value, name)
    whole, dot, rest = name.partition(".")
    if dot and re.search(rf"(?<![\w.]){whole}(?![\w.])", value):
        return f"{parameter}{place_of(value, whole)}.{rest}"
    return None
