# SPDX-License-Identifier: Apache-2.0
# SPDX-FileCopyrightText: Copyright the Vortex contributors

"""The exported functions of crates/vortex_logical_types, from their sources: their parameters and comments, what their
contracts say of each slot and of the number that is returned, and the numbers that stand for kinds, errors and so on."""
import re
import sys
from collections import namedtuple
from functools import lru_cache

sys.path.append(f"{sys.path[0]}/../shared")
from outcomes import Numbers, bare, definitions, parts_of, slot_of
from repository import (code_of, dependencies, end_of, functions_of, give_up, lines_above, shape_of, sources_of, text_of)

CRATE = "vortex_logical_types"
# A function by its public name, and by that of the proved function.
Export = namedtuple("Export", "name core doc parameters result kept numbers clauses is_plain")
# What the call does with a slot is its `role`, and `kind` is the word of specs that finds the object in it.
Parameter = namedtuple("Parameter", "name form type is_changed role kind")
# A struct that crosses by its fields.
Struct = namedtuple("Struct", "name doc fields")
# A number with a name: what a call returns, a kind, a primitive type and so on.
Number = namedtuple("Number", "name value doc")

EXPORTED = "#[unsafe(no_mangle)]"
# The proved functions have names of their own, below the public ones.
CORE, PUBLIC = "vlt_core_", "vlt_"
PARAMETERS = re.compile(r"\s*\((.*)\)\s*(?:->\s*(\w+))?\s*$", re.S)
TYPE = re.compile(r"(&(?:mut )?)?(?:\[(\w+)\]|(\w+))$")
NUMBERS = {"bool", "usize", *(f"{sign}{width}" for sign in "ui" for width in (8, 16, 32, 64))}
NUMBER, SLOT, SLOTS, SLICE, OUT = "a number", "a slot", "slots", "a slice", "an out-parameter"
# What a call does with a slot: it only reads it, stores a new object in it, changes its object, stores why it failed, or
# empties it.
READS, PUTS, CHANGES, TELLS, FREES = "reads", "puts", "changes", "tells", "frees"
# What a contract says of a slot, or of several, that have the same objects after the call.
KEPT = re.compile(r"(?:(\w+)\.new\.value ≡ \1\.old\.value|objects_in (\w+)\.new ≡ objects_in \2\.old)$")
PLAIN = re.compile(r"result ≡ [^→⊎×≢]+$")
ANY_KIND = re.compile(r"object_kind (\w+)\.old\.value|(\w+)\.new\.value ≡ None$")
STRUCT = re.compile(r"(?m)^pub struct (\w+) \{")
FIELD = re.compile(r"((?:^ *///.*\n)*)^ *pub (\w+): (\w+),$", re.M)
CONSTANT = re.compile(r"((?:^///.*\n)*)^pub (?:\(crate\) )?const (\w+): u32 = (\d+);$", re.M)
VARIANT = re.compile(r"((?:^    ///.*\n)+)(?:^    #\[.*\n)*^    (\w+)\b", re.M)
# The names of results, where they aren't those of the sources.
RESULT_NAMES = {"OK": "DONE", "NOT_UTF8": "UTF8", "TOO_DEEP": "DEEP", "TOO_SMALL": "SMALL"}
MEMORY = 100
# The struct of the nodes that c/arrow.c makes. The functions that take it are called by that file alone.
INTERNAL = "ArrowNode"


def doc_in(lines):
    """The text of doc comments, a line each, with the public names of functions."""
    return [it.strip().removeprefix("///").removeprefix(" ").replace(CORE, PUBLIC) for it in lines
            if it.strip().startswith("///")]


def parameter_of(text, where):
    name, _, written = (it.strip() for it in text.partition(":"))
    found = TYPE.match(written)
    borrowed, items, one = found.groups() if found else (None, None, None)
    kind = items or one
    is_known = kind and (kind in NUMBERS or kind[0].isupper())
    if not is_known or (items and not borrowed):
        give_up("bindings", f"{where}: the type of {name}, {written}, isn't one that these declarations know")
    if kind == "Slot":
        form = SLOTS if items else SLOT
    else:
        form = SLICE if items else OUT if borrowed else NUMBER
    return Parameter(name, form, kind, borrowed == "&mut ", None, None)


@lru_cache(maxsize=None)
def exports():
    """The exported functions, in the order of the sources."""
    return list(exports_as_written())


def exports_as_written():
    numbers, views = Numbers(CRATE), views_of(CRATE)
    for file in sources_of(CRATE):
        for it in functions_of(file):
            if EXPORTED in it.attributes:
                clauses = [one.text for one in it.clauses if one.kind == "ensures"]
                given, result = PARAMETERS.match(it.signature).groups()
                parts = [part for part in re.split(r",(?![^\[(]*[\])])", given) if part.strip()]
                found = [parameter_of(part, f"{file}: {it.name}") for part in parts]
                kept, name = kept_by(clauses), it.name.removeprefix(CORE).removeprefix(PUBLIC)
                body = text_of(file)[it.start:it.end]
                parameters = [with_role(one, clauses, kept, views, body) for one in found if one.type != "Global"]
                is_plain = bool(result) and any(PLAIN.match(bare(one)) for one in clauses)
                yield Export(PUBLIC + name, CORE + name, doc_in(lines_above(text_of(file), it.start)), parameters, result,
                             kept, numbers.of(clauses), clauses, is_plain)


def facts_of(clauses):
    return [bare(fact) for it in clauses for fact in parts_of(bare(it), "×")]


def kept_by(clauses):
    """The slots that have the same objects after a call, as its clauses say."""
    return {found[1] or found[2] for found in map(KEPT.match, facts_of(clauses)) if found}


def views_of(crate):
    """The word that finds an object of one kind in a slot, by what stands for this kind in a body: the function `as_..` that
    returns a reference to it, and the variant."""
    found = {f"Object::{name}": word for word, name in words_of_kinds(crate)}
    for file in sources_of(crate):
        for it in functions_of(file):
            for clause in it.clauses if it.name.startswith("as_") else ():
                if word := re.search(r"\b(\w+_in) slot\.old\.value", clause.text):
                    found[it.name] = word[1]
    return found


def with_role(it, clauses, kept, views, body):
    """A parameter with what the contract says of its slot."""
    if it.form not in (SLOT, SLOTS):
        return it
    role, kind = slot_of(it.name, clauses, CRATE)
    if it.name in kept:
        role = READS
    elif any((found := ANY_KIND.match(one)) and found[2] == it.name for one in facts_of(clauses)):
        role = FREES
    elif not role:
        is_seen = any(re.search(rf"\w+_in \(?{it.name}\.old", one) for one in clauses)
        role = CHANGES if is_seen else PUTS
    if not kind:
        # (Where the contract doesn't say which kind of object is in the slot, the body does, which has a word for one kind.)
        seen = {views[name] for name in re.findall(r"\bas_\w+|\bObject::\w+(?=\()", body) if name in views}
        kind = seen.pop() if len(seen) == 1 and role == READS else None
    return it._replace(role=role, kind=kind)


def takes_any_kind(export, parameter):
    """Whether the contract says that the slot's object may be of any kind."""
    return any((found := ANY_KIND.search(one)) and parameter.name in found.groups() for one in facts_of(export.clauses))


def is_internal(export):
    """Whether a function of C calls it, and no public function of its name does."""
    return any(it.type == INTERNAL for it in export.parameters)


def structs(given=None):
    """The structs that these exports take by their fields, or else the public ones, from the exports' crate and those that
    it stands on."""
    given = [it for it in exports() if not is_internal(it)] if given is None else given
    wanted = {one.type for it in given for one in it.parameters if one.type not in NUMBERS and one.type != "Slot"}
    for file in (it for crate in [CRATE, *dependencies()[CRATE]] for it in sources_of(crate)):
        text = text_of(file)
        shape = shape_of(code_of(text))
        for it in STRUCT.finditer(shape):
            if it[1] in wanted and "#[repr(C)]" in lines_above(text, it.start()):
                wanted.remove(it[1])
                body = text[it.end():end_of(shape, it.end() - 1)]
                yield Struct(it[1], doc_in(lines_above(text, it.start())),
                             [(found[2], found[3], doc_in(found[1].splitlines())) for found in FIELD.finditer(body)])
    if wanted:
        give_up("bindings", f"no struct of these names is #[repr(C)]: {', '.join(sorted(wanted))}")


# Numbers with names


@lru_cache(maxsize=None)
def results():
    """What a call returns: the constants of `errors.rt`."""
    found = [Number(RESULT_NAMES.get(name, name), int(value), " ".join(doc_in(doc.splitlines())))
             for file in sources_of(CRATE) if file.endswith("/errors.rt") for doc, name, value in CONSTANT.findall(text_of(file))]
    return sorted(found, key=lambda it: it.value)


def snake(name):
    """`FieldNotFound` as `FIELD_NOT_FOUND`."""
    return re.sub(r"(?<=[a-z0-9])(?=[A-Z])", "_", name).upper()


def numbers_in(word):
    """The numbers that a definition has for the variants of an enum, each with the variant, as `kind_number k.Null = 0` has."""
    for it in definitions(CRATE).get(word, ()):
        if it.parameters and it.text.isdigit():
            names = re.findall(r"\w+", it.parameters[-1])
            yield next((name for name in reversed(names) if name[0].isupper()), ""), int(it.text)


def errors():
    """The library's errors, each as the result of a call: 100 more than its own number."""
    found = [(prefix, name, value) for word, prefix in (("number_of", ""), ("fault_number", "MESSAGE_"))
             for name, value in numbers_in(word)]
    docs = {name: " ".join(doc_in(doc.splitlines())) for crate in dependencies() for file in sources_of(crate)
            if file.endswith("/vortex_error.rt") for doc, name in VARIANT.findall(text_of(file))}
    return [Number(prefix + snake(name), MEMORY + value, re.sub(r"^\d+: (.)", lambda it: it[1].upper(), docs.get(name, "")))
            for prefix, name, value in sorted(found, key=lambda it: it[2]) if value]


def dtype_kinds():
    """The kinds of types, as `vlt_dtype_kind` writes them: by their numbers, or by those and one more."""
    said = " ".join(clause for it in exports() if it.name == "vlt_dtype_kind" for clause in it.clauses)
    more = int(bool(re.search(r"(?:suc|1 \+|◌) \(?kind_number", said)))
    return [Number(snake(name), value + more, "") for name, value in numbers_in("kind_number")]


def primitive_types():
    text = " ".join(it.text for it in definitions(CRATE).get("ptype_numbered", ()))
    return [Number(name, int(value), "") for value, name in re.findall(r"n == (\d+) then Some (\w+)", text)]


def mask_kinds():
    return [Number(snake(name), value, "") for name, value in numbers_in("mask_number")]


def words_of_kinds(crate):
    """The words that find objects of one kind in a slot, each with the variant, as `type_in (Some (DType d)) = ..` does."""
    for word, cases in definitions(crate).items():
        found = re.search(r"Some \((\w+)", cases[0].parameters[-1]) if word.endswith("_in") and cases and cases[0].parameters else None
        if found:
            yield word, found[1]


@lru_cache(maxsize=None)
def object_kinds():
    """The kinds of objects: the number of each, by the word that finds it in a slot."""
    numbers = {}
    for it in definitions(CRATE).get("object_kind", ()):
        if (found := re.search(r"Some \((\w+)", it.parameters[-1])) and it.text.isdigit():
            numbers[found[1]] = int(it.text)
    found = {word: numbers[name] for word, name in words_of_kinds(CRATE) if name in numbers}
    return dict(sorted(found.items(), key=lambda it: it[1]))


def abi_version():
    """The version of the interface, which the contract of `vlt_abi_version` states."""
    said = [int(it.split("≡")[1]) for one in exports() if one.name == "vlt_abi_version" for it in one.clauses
            if re.fullmatch(r"\s*result ≡ \d+\s*", it)]
    return said[0] if said else 0
