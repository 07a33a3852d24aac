# SPDX-License-Identifier: Apache-2.0
# SPDX-FileCopyrightText: Copyright the Vortex contributors

"""What is written for C: the header's declarations, the layer over the proved functions, what arrow.c declares, and the
random calls."""
import re
import textwrap

from exports import (CHANGES, MEMORY, NUMBER, OUT, PUTS, READS, SLICE, SLOT, SLOTS, TELLS, abi_version, dtype_kinds, errors,
                     exports, give_up, is_internal, mask_kinds, object_kinds, primitive_types, results, structs,
                     takes_any_kind)

WIDTH = 120
JOINED = " || "
# The parts of the interface, by the first word of their functions' names.
GENERAL = "All objects"
PARTS = {"dtype": "Types", "struct": "Structs (of another type the calls return VLT_CONDITION)",
         "union": "Unions (of another type the calls return VLT_CONDITION)", "fields": "Fields", "path": "Paths",
         "set": "Sets of paths", "paths": "Lists of paths", "project": "The parts of a type that paths lead to", "mask": "Masks",
         "message": "Messages of types", "error": "Errors"}
# Words whose functions are in the part of another word.
PART_OF = {"without": "project", "with": "project", "leaf": "project"}
# The types of C for objects of one kind, by the words that find such an object in a slot; and what each contains.
TYPES = {"type_in": ("dtype", "a type"), "path_in": ("path", "a path"), "set_in": ("path_set", "a set of paths"),
         "paths_in": ("path_list", "a list of paths"), "mask_in": ("mask", "a mask"),
         "message_in": ("message", "the message of a type"), "fields_in": ("fields", "names with types"),
         "error_in": ("error", "an error")}
# The public functions that are written by hand, in the layer and in c/arrow.c.
BY_HAND = ["vlt_wrong_argument", "vlt_dtype_from_arrow", "vlt_dtype_to_arrow", "vlt_arrow_capsule"]
C = {"bool": "bool", "usize": "size_t", **{f"{sign}{width}": f"{'u' * (sign == 'u')}int{width}_t"
                                          for sign in "ui" for width in (8, 16, 32, 64)}}
# A number in a comment that a call returns, or a range of them; and the function whose errors a call has.
STATED = re.compile(r"\b(1[0-3]\d)(?! levels| others)(?: to (1[0-3]\d))?\b|\b(10|\d)(?=,? if\b| for\b)|(?<=eturns )(10|\d)\b")
# The same with the numbers that are only compared with a result.
NAMED = re.compile(r"\b(1[0-3]\d)(?! levels| others| less)(?: to (1[0-3]\d))?\b|\b(?<!it is )(10|\d)(?=,? if\b)|(?<=eturns )(10|\d)\b"
                   r"|(?<=eturn )(10|\d)\b|(?<=another number than )(0)\b")
# How the comment of a proved function says what it answers: 0 for yes and 1 for no.
YES_OR_NO = (
    (re.compile(r"Returns 0 if ([^.]+?),(?: and)? 1 if [^.,]+, and (\d) if"), r"Writes to `answer` whether \1. Returns \2 if"),
    (re.compile(r"Returns 0 if ([^.]+?),(?: and)? 1 if [^.,]+\."), r"Writes to `answer` whether \1."),
    (re.compile(r"Returns 0 if ([^.]+)\. Returns 1 if ([^.]+)\."), r"Writes to `answer` whether \1. It isn't if \2."),
    (re.compile(r"it returns 0 for"), "it is true for"),
)
SAME_AS = re.compile(r"errors are those of `(\w+)`")
# Results that a contract allows, as far as the words in it tell, and that can't come.
NEVER = {("vlt_dtype_union_nullability", 5): "a type doesn't become non-nullable"}


def part_of(name):
    """Which part of the interface a function belongs to: the word behind `vlt_`, or that of PART_OF, if it is one of PARTS."""
    word = name.split("_")[1]
    word = PART_OF.get(word, word)
    return word if word in PARTS else ""


def in_order():
    """The public exports part by part, and within each in the order of the sources."""
    order = ["", *PARTS]
    return sorted((it for it in exports() if not is_internal(it)), key=lambda it: order.index(part_of(it.name)))


def pairs_of(export):
    """The pairs of parameters of a call that may not be one slot."""
    slots = [it for it in export.parameters if it.form in (SLOT, SLOTS)]
    if sum(it.form == SLOTS for it in slots) > 1:
        give_up("bindings", f"{export.name}: two arrays of slots aren't one of the forms that these declarations know")
    pairs = [(one, other) for at, one in enumerate(slots) for other in slots[at + 1:]]
    return [it for it in pairs if it not in read_together(export)]


def read_together(export):
    """The pairs of slots that a call only reads. Two of them may be one slot, or have one object, unless nothing copies objects
    of their kind."""
    read = [it for it in export.parameters if it.form == SLOT and it.role == READS]
    pairs = [(one, other) for at, one in enumerate(read) for other in read[at + 1:]]
    return [it for it in pairs if it[0].kind != it[1].kind or copy_of(it[0])]


def copied(export):
    """The two slots of one kind that a call only reads, if there are two, or None. The layer copies an object that is passed as
    both. Of two slots of different kinds that have one object, one has another kind than it should."""
    pairs = [it for it in read_together(export) if it[0].kind == it[1].kind]
    if len(pairs) > 1:
        give_up("bindings", f"{export.name}: three slots of one kind that are read aren't one of the forms that these declarations know")
    return pairs[0] if pairs else None


def is_question(export):
    """Whether a proved function answers yes or no by its result, so that the layer writes the answer to a `bool`."""
    return any(it.split()[0] == "Answers" for it in export.clauses)


# What a call returns


def stated(export):
    """The results that the comment of a function states, and those that the head of the header states for all."""
    forms = {it.form for it in export.parameters}
    is_filled = any(it.form == SLICE and it.is_changed for it in export.parameters)
    is_read = any(it.form == SLOTS or it.role in (READS, CHANGES) for it in export.parameters)
    cases = {2: is_read, 7: is_filled, 8: is_apart(export), 9: bool(forms & {SLICE, SLOTS})}
    found = {0, 100, *(number for number, is_so in cases.items() if is_so)}
    doc = " ".join(export.doc)
    for name in SAME_AS.findall(doc):
        found |= stated(next(it for it in exports() if it.name == name))
    for first, last, *one in STATED.findall(doc):
        found |= set(range(int(first), int(last or first) + 1)) if first else {int(one[0] or one[1])}
    return {it for it in found if it <= 136}


def is_apart(export):
    """Whether a call has several slots, which have to be different."""
    return bool(pairs_of(export)) or any(it.form == SLOTS for it in export.parameters)


def returned(export):
    """What a function of C returns: what both the contract and the comment state, and what the layer returns itself."""
    found = stated(export)
    if export.numbers is None:
        return sorted(found)
    added = {8} if is_apart(export) else set()
    added |= {9} if any(it.form in (SLICE, SLOTS) for it in export.parameters) else set()
    added |= {100} if copied(export) else set()
    return sorted((found & export.numbers) - ({1} if is_question(export) else set()) | added)


def unstated(export):
    """The results that a contract allows and that the comment doesn't state."""
    if export.numbers is None or export.is_plain or len(export.numbers) > 30:
        return []
    return [it for it in sorted(export.numbers - stated(export)) if (export.name, it) not in NEVER]


def names_of_results():
    return {**{it.value: f"VLT_{it.name}" for it in results()}, **{it.value: f"VLT_ERROR_{it.name}" for it in errors()}}


def sentence_of(export):
    """The sentence that lists all results of a function."""
    names = names_of_results()
    found = [names.get(it, str(it)) for it in returned(export)]
    if export.is_plain or not export.result:
        return []
    said = f"{', '.join(found[:-1])} or {found[-1]}" if len(found) > 1 else found[0]
    return ["", *wrapped(f"Results: {said}.")]


def wrapped(text):
    lines = [""]
    for word in text.split(" "):
        if len(lines[-1]) + len(word) > WIDTH - 6:
            lines.append("")
        lines[-1] = f"{lines[-1]} {word}".strip()
    return lines


def blocks_of(doc):
    """The paragraphs and the items of lists of a comment, each as its lines."""
    block = []
    for line in doc:
        if block and (not line or not block[0] or line.startswith("- ")):
            yield block
            block = []
        block.append(line)
    yield block


def in_words_of_c(export):
    """The comment of a function, with the names of results, and of a question with where its answer goes."""
    names, known = names_of_results(), set(stated(export)) | {0}

    def name(found):
        first, last, *one = found.groups()
        numbers = [int(it) for it in (first, last, *one) if it]
        is_result = not export.is_plain and (numbers[0] >= MEMORY or numbers[0] in known)
        return " to ".join(names[it] for it in numbers) if is_result and all(it in names for it in numbers) else found[0]

    for block in blocks_of(export.doc):
        old = " ".join(it.strip() for it in block)
        new = old
        for pattern, words in YES_OR_NO if is_question(export) else ():
            new = pattern.sub(words, new)
        new = NAMED.sub(name, new)
        indent = "  " if new.startswith("- ") else ""
        yield from block if new == old else textwrap.wrap(
            new, WIDTH - 4, subsequent_indent=indent, break_long_words=False, break_on_hyphens=False)


# Declarations


def filled(opening, parts, closing, indent=""):
    """A list of C on one line where it fits, and else on as few lines as take it."""
    line = f"{indent}{opening}{', '.join(parts)}{closing}"
    if len(line) <= WIDTH:
        return [line]
    lines = [indent + opening]
    for at, it in enumerate(parts):
        part = f"{it}," if at + 1 < len(parts) else it + closing
        if lines[1:] and len(lines[-1]) + 1 + len(part) <= WIDTH:
            lines[-1] += f" {part}"
        else:
            lines.append(f"{indent}        {part}")
    return lines


def comment(doc):
    """Doc comments as one comment of C, with C's word for the greatest length."""
    doc = [it.replace("*/", "* /").replace("usize::MAX", "SIZE_MAX") for it in doc]
    if len(doc) == 1:
        return [f"/* {doc[0]} */"]
    lines = [f"{'/*' if at == 0 else ' *'} {it}".rstrip() for at, it in enumerate(doc)]
    return lines[:-1] + [f"{lines[-1]} */"] if doc else []


def c_type(name):
    return C.get(name) or f"vlt_{re.sub(r'(?<!^)(?=[A-Z])', '_', name).lower()}"


def slot_type(it):
    """The type of C for a slot: that of the objects of its kind, or the type of all slots."""
    return f"vlt_{TYPES[it.kind][0]}" if it.kind in TYPES else "vlt_slot"


def declared(it):
    """The declarations of a parameter in the header."""
    if it.form == NUMBER:
        return [f"{c_type(it.type)} {it.name}"]
    is_slot = it.form in (SLOT, SLOTS)
    is_const = it.role == READS if is_slot else not it.is_changed
    pointer = f"{'const ' * is_const}{slot_type(it) if is_slot else c_type(it.type)} *{it.name}"
    return [pointer, f"size_t {it.name}_len"] if it.form in (SLOTS, SLICE) else [pointer]


def all_declared(export):
    """The declarations of all parameters in the header."""
    answer = ["bool *answer"] * is_question(export)
    return [*(one for each in export.parameters for one in declared(each)), *answer] or ["void"]


def result_of(export):
    return "void" if not export.result else C[export.result] if export.is_plain else "vlt_result"


def enum_lines(name, about, prefix, numbers):
    """An enum, with the comment of each number that has one."""
    if not numbers:
        return
    yield from ["", *comment([about]), "typedef enum {"]
    for it in numbers:
        yield from (f"    {line}" for doc in [it.doc] * bool(it.doc) for line in comment(wrapped(doc)))
        yield f"    {prefix}{it.name} = {it.value},"
    yield f"}} {name};"


def object_lines():
    """The type of C for the objects of each kind, and the number of each kind."""
    numbers = object_kinds()
    yield from ["", "/* The kinds of objects, which vlt_kind returns. */", "typedef enum {", "    /* The slot is empty. */",
                "    VLT_OBJECT_NONE = 0,"]
    yield from (f"    VLT_OBJECT_{TYPES[word][0].upper()} = {value}," for word, value in numbers.items() if word in TYPES)
    yield "} vlt_object_kind;"
    for name, what in (TYPES[word] for word in numbers if word in TYPES):
        yield from ["", f"/* A slot for {what}. */", "typedef struct {", "    vlt_slot slot;", f"}} vlt_{name};"]


def head_lines():
    """What stands before the functions: numbers and types."""
    yield from ["/* The version of the interface that this header declares. vlt_abi_version returns that of the library. */",
                f"#define VLT_ABI_VERSION {abi_version()}u"]
    # (An answer is a result of the proved functions alone.)
    named = [it._replace(doc=re.sub(r", or the answer is \w+", "", it.doc)) for it in results()]
    named += [it._replace(name=f"ERROR_{it.name}") for it in errors()]
    yield from enum_lines("vlt_result", "What a call returns. From 101 on it is 100 and the number of the library's error.",
                          "VLT_", named)
    yield from enum_lines("vlt_dtype_kinds", "The kinds of types, which vlt_dtype_kind writes.", "VLT_DTYPE_", dtype_kinds())
    yield from enum_lines("vlt_ptype", "The primitive types.", "VLT_PTYPE_", primitive_types())
    yield from enum_lines("vlt_mask_kinds", "The kinds of masks, which vlt_mask_kind writes.", "VLT_MASK_", mask_kinds())
    yield from object_lines()
    for it in structs():
        yield from ["", *struct_lines(it)]


def struct_lines(it):
    yield from [*comment(it.doc), "typedef struct {"]
    for name, kind, doc in it.fields:
        yield from (f"    {line}" for line in [*comment(doc), f"{c_type(kind)} {name};"])
    yield f"}} {c_type(it.name)};"


def header_lines():
    yield from head_lines()
    part = None
    for it in in_order():
        if part_of(it.name) != part:
            part = part_of(it.name)
            yield from ["", "", f"/* == {PARTS.get(part, GENERAL)} == */"]
            yield from free_lines(part)
        yield from ["", *comment([*in_words_of_c(it), *sentence_of(it)])]
        must_use = "VLT_MUST_USE " * (result_of(it) == "vlt_result")
        yield from filled(f"{must_use}{result_of(it)} {it.name}(", all_declared(it), ");")


def free_lines(part):
    """The functions that empty a slot of one kind, before the general functions."""
    for name, _ in (TYPES[word] for word in object_kinds() if word in TYPES and part == ""):
        yield from ["", "/* Drops the object in the slot, if there is one, and leaves the slot empty. The pointer may be null. */",
                    f"void vlt_{name}_free(vlt_{name} *{name});"]


# The layer


def slot_at(it):
    """The slot of a parameter, as the layer names it."""
    return "told" if it.role == TELLS else f"&{it.name}->slot" if it.kind in TYPES else it.name


def slots_at(it):
    return f"(const vlt_slot *){it.name}"


def core_declared(it):
    """The declarations of a parameter of a proved function."""
    if it.form == NUMBER:
        return [f"{c_type(it.type)} {it.name}"]
    is_slot = it.form in (SLOT, SLOTS)
    pointer = f"{'' if it.is_changed or is_slot else 'const '}{'vlt_slot' if is_slot else c_type(it.type)} *{it.name}"
    return [pointer, f"size_t {it.name}_len"] if it.form in (SLOTS, SLICE) else [pointer]


def is_same(one, other):
    """The test of C whether two parameters are one slot, or have one object."""
    if one.form == other.form == SLOT:
        return f"are_same({slot_at(one)}, {slot_at(other)})"
    slot, slots = (one, other) if one.form == SLOT else (other, one)
    return f"is_among({slot_at(slot)}, {slots_at(slots)}, {slots.name}_len)"


def given(it):
    """What the layer passes for a parameter: never null for a slice."""
    if it.form == SLOT:
        return [f"(vlt_slot *){slot_at(it)}" if it.role == READS else slot_at(it)]
    if it.form not in (SLICE, SLOTS):
        return [it.name]
    cast = "(vlt_slot *)" if it.form == SLOTS else f"({'' if it.is_changed else 'const '}{c_type(it.type)} *)"
    return [f"{it.name} ? {cast if it.form == SLOTS else ''}{it.name} : {cast}no_items", f"{it.name}_len"]


def if_any(tests):
    """The lines that ask whether one of these tests of C is true."""
    line = f"    if ({JOINED.join(tests)})"
    return [line] if len(line) <= WIDTH else [
        f"    if ({tests[0]}", *(f"        || {one}" for one in tests[1:-1]), f"        || {tests[-1]})"]


def tested(it, tests, result="VLT_SAME_SLOT"):
    """The lines that return a result where one of these tests of C is true, by which this parameter is wrong."""
    if not tests:
        return
    yield from if_any(tests)
    yield f'        return vlt_is_wrong("{it.name}", {result});'


def pairs_tested(export, pairs):
    """The lines that return where two of these pairs of parameters are one slot, by which the second of them is wrong."""
    for it in export.parameters:
        yield from tested(it, [is_same(*pair) for pair in pairs if pair[1] == it])


def named(export):
    """The slots whose objects a proved function reads, and what its other results are about, as C names it: the text, and the
    numbers or else the slot."""
    slots = [it for it in export.parameters if it.form in (SLOT, SLOTS) and it.role in (READS, CHANGES)]
    slices = {it.type: it.name for it in reversed(export.parameters) if it.form == SLICE and not it.is_changed}
    ranged = slices.get("usize") or slices.get("Node") or next(
        (it.name for it in export.parameters if it.form == NUMBER and it.type == "u32"), None) or next((it.name for it in slots), None)
    names = [f'"{it}"' if it else "NULL" for it in (slices.get("u8"), ranged)]
    return slots, names



def looked_at(export):
    """The lines that return the result of the proved function, and keep which argument was wrong, if it says that one was."""
    slots, names = named(export)
    if result_of(export) != "vlt_result" or not set(returned(export)) & {2, 3, 5, 9}:
        return
    yield from filled("return with_argument(", ["result", *arguments(slots), *names], ");", " " * 4)


def arguments(slots):
    """What the layer passes for slots with their names and kinds."""
    kinds = [f'{{"{it.name}", {slots_at(it) if it.form == SLOTS else slot_at(it)}, '
             f'{f"{it.name}_len" if it.form == SLOTS else 1}, {kind_of(it)}}}' for it in slots]
    return [f"ARGUMENTS({', '.join(kinds)})"] if kinds else ["NULL", "0"]


def kind_of(it):
    """The kind of object that a proved function wants in a slot, as C names it, or 0 if it takes any."""
    return f"VLT_OBJECT_{TYPES[it.kind][0].upper()}" if it.kind in TYPES else "VLT_OBJECT_NONE"


def checks_of(export):
    """The checks of a function of the layer, before its call. An error that was there before is dropped first."""
    told = [it for it in export.parameters if it.role == TELLS]
    for it in told:
        yield from ["    vlt_slot unwanted = {0};", f"    vlt_slot *told = {it.name} ? &{it.name}->slot : &unwanted;"]
        yield from pairs_tested(export, [pair for pair in pairs_of(export) if it in pair])
        yield "    empty(told);"
    for it in export.parameters:
        if it.form in (SLICE, SLOTS):
            yield from tested(it, [f"!{it.name} && {it.name}_len"], "VLT_RANGE")
    yield from pairs_tested(export, [pair for pair in pairs_of(export) if not any(it in told for it in pair)])
    for it in export.parameters:
        if it.form == SLOTS:
            yield from tested(it, [f"have_repeats({slots_at(it)}, {it.name}_len)"])
    if apart := [it for it in read_together(export) if it[0].kind != it[1].kind]:
        read = [it for it in export.parameters if any(it in pair for pair in apart)]
        yield from if_any([is_same(*it) for it in apart])
        yield from filled("return with_argument(", ["VLT_KIND", *arguments(read), "NULL", "NULL"], ");", " " * 8)


def called(export):
    """The call of the proved function, and what is dropped after it. Of an object that is passed twice the second is a copy."""
    passed = [one for each in export.parameters for one in given(each)]
    told = any(it.role == TELLS for it in export.parameters)
    result = result_of(export)
    opening, closing = f"{export.core}(", ")"
    if is_question(export):
        opening, closing = f"answered({opening}", "), answer)"
    elif result == "vlt_result":
        opening = f"(vlt_result){opening}"
    indent = " " * 4
    if pair := copied(export):
        one, other = pair
        yield from ["    vlt_slot copy = {0};", f"    const vlt_slot *apart = {slot_at(other)};",
                    f"    vlt_result result = copied_if_same({slot_at(one)}, &apart, {copy_of(one)}, &copy);",
                    "    if (result == VLT_DONE)"]
        passed = ["(vlt_slot *)apart" if it == given(other)[0] else it for it in passed]
        yield from filled(f"result = {opening}", passed, f"{closing};", " " * 8)
        yield "    empty(&copy);"
    elif told or list(looked_at(export)):
        yield from filled(f"{result} result = {opening}", passed, f"{closing};", indent)
    else:
        yield from filled(f"{'return ' * bool(export.result)}{opening}", passed, f"{closing};", indent)
        return
    if told:
        yield "    empty(&unwanted);"
    yield from list(looked_at(export)) or ["    return result;"]


def copy_of(slot):
    """The proved function that copies the object of a slot of this kind, or None."""
    name = f"vlt_{slot.kind and TYPES[slot.kind][0]}_copy".replace("path_set", "set")
    return next((it.core for it in exports() if it.name == name), None)


def layer_lines():
    """The public functions, each over the proved one. No program that links the library sees the proved ones."""
    yield "#pragma GCC visibility push(hidden)"
    for it in exports():
        if not is_internal(it):
            yield from core_lines(it)
    yield "#pragma GCC visibility pop"
    for name, _ in (TYPES[word] for word in object_kinds() if word in TYPES):
        yield from ["", f"void vlt_{name}_free(vlt_{name} *{name}) {{", f"    if ({name})",
                    f"        vlt_core_free(&{name}->slot);", "}"]
    for it in in_order():
        yield from ["", *filled(f"{result_of(it)} {it.name}(", all_declared(it), ") {"), *checks_of(it), *called(it), "}"]


def core_lines(export):
    """The declaration of a proved function."""
    parameters = [one for each in export.parameters for one in core_declared(each)] or ["void"]
    return filled(f"{C[export.result] if export.result else 'void'} {export.core}(", parameters, ");")


def arrow_lines():
    """The structs and the proved functions that arrow.c uses."""
    internal = [it for it in exports() if is_internal(it)]
    for it in structs(internal):
        yield from [*struct_lines(it), ""]
    yield "#pragma GCC visibility push(hidden)"
    for it in exports():
        if is_internal(it) or it.name == "vlt_free":
            yield from core_lines(it)
    yield "#pragma GCC visibility pop"


def names():
    """The names of the public functions."""
    frees = [f"vlt_{TYPES[word][0]}_free" for word in object_kinds() if word in TYPES]
    return [*frees, *(it.name for it in in_order()), *BY_HAND]


# Random calls


def items_of(one, names, kind):
    """What stands before a random call for a slice, and its arguments."""
    if one.type == "u8" and one.is_changed:
        return [], ["buffer, any(2) ? sizeof buffer : any(8)"]
    if one.type == "Node" and one.is_changed:
        return [], ["nodes_buffer, any(2) ? sizeof nodes_buffer / sizeof *nodes_buffer : any(8)"]
    if one.type == "usize" and one.is_changed:
        return [], ["lengths_buffer, any(2) ? sizeof lengths_buffer / sizeof *lengths_buffer : any(8)"]
    if one.type == "usize":
        return [], ["lengths", "lengths_count"]
    if one.type not in ("u8", "Node"):
        give_up("bindings", f"{kind}: no random call has items of the type of {one.name}, {one.type}")
    take = "nodes" if one.type == "Node" else "names" if f"{one.name[:-1]}_lengths" in names else "text"
    before = f"{'counted_nodes' if one.type == 'Node' else 'bytes'} {one.name} = any_{take}();"
    return [before], [f"{one.name}.at", f"{one.name}.length"]


def call_of(it):
    """A random call in C: what stands before it, its arguments, and its slots."""
    before, passed, slots, names = [], [], [], [one.name for one in it.parameters]
    for one in it.parameters:
        kind, name = c_type(one.type), one.name
        if one.form == SLOT:
            # (NULL is passed as such, because the slot that would stand for it could be another one of the call)
            optional = "any(8) == 0 ? NULL : " if one.role == TELLS else ""
            before.append(f"vlt_slot *{name} = {optional}any_slot();")
            passed.append(f"({slot_type(one)} *){name}" if one.kind in TYPES else name)
            slots.append(one)
        elif one.form == SLOTS:
            before += [f"size_t {name}_len = any(4);", f"vlt_slot *{name} = &slots[any(SLOTS - {name}_len)];"]
            passed += [f"({slot_type(one)} *){name}", f"{name}_len"]
        elif one.form == NUMBER and slots and slots[-1].kind == "paths_in":
            passed.append(f"ranked({slots[-1].name}, any_number())")
        elif one.form == NUMBER:
            passed.append({"bool": "any(2) != 0", "i8": "(int8_t)any(256)"}.get(one.type, f"({kind})any_number()"))
        elif one.form == OUT:
            before.append(f"{kind} {name} = 0;")
            passed.append(f"&{name}")
        else:
            lines, items = items_of(one, names, it.name)
            before += lines
            passed += items
    if is_question(it):
        before.append("bool answer = false;")
        passed.append("&answer")
    return before, passed, slots


def random_lines():
    """A function that makes the random call of a number."""
    called = [it for it in in_order() if it.result == "u32" and it.parameters]
    if any(one.role == TELLS for it in called for one in it.parameters):
        yield from ["/* Whether a call with this result may have stored in the slot why it failed. */",
                    "static bool tells(uint32_t result, const vlt_slot *error) {",
                    "    return vlt_kind(error) == VLT_OBJECT_ERROR && (result == VLT_UNREADABLE || result == VLT_DEEP || result > VLT_LIBRARY);",
                    "}", ""]
    yield from [f"enum {{ CALLS = {len(called)} }};", "", "static const char *const call_names[CALLS] = {",
                *(f'    "{it.name}",' for it in called), "};", "", "static uint32_t make_call(size_t number) {",
                "    uint32_t result = 0;", "    switch (number) {"]
    for at, it in enumerate(called):
        before, passed, slots = call_of(it)
        yield from [f"    case {at}: {{", *(f"        {line}" for line in before)]
        stored = [one for one in slots if one.role in (PUTS, TELLS)]
        arrays = [one for one in it.parameters if one.form == SLOTS and one.role == PUTS]
        for one in arrays:
            yield from [f"        void *{one.name}_had[4] = {{NULL}};", f"        for (size_t i = 0; i < {one.name}_len; i++)",
                        f"            {one.name}_had[i] = {one.name}[i].at;"]
        yield from (f"        void *{one.name}_had = {f'{one.name} == NULL ? NULL : ' * (one.role == TELLS)}{one.name}->at;"
                    for one in stored)
        yield from filled(f"result = {it.name}(", passed, ");", " " * 8)
        for one in stored:
            test = f"expect(result == 0 || {one.name}->at == {one.name}_had);" if one.role == PUTS else \
                f"expect({one.name} == NULL || ({one.name}->at == {one.name}_had && result == VLT_SAME_SLOT) || " \
                f"{one.name}->at == NULL || tells(result, {one.name}));"
            yield f"        {test}"
        if not it.is_plain:
            yield "        expect(is_result(result));"
        yield from (f"        {f'if ({one.name} != NULL) ' * (one.role == TELLS)}trim({one.name});" for one in slots)
        for one in arrays:
            yield from [f"        for (size_t i = 0; i < {one.name}_len; i++) {{",
                        f"            expect(result == 0 || {one.name}[i].at == {one.name}_had[i]);",
                        f"            trim(&{one.name}[i]);", "        }"]
        written = [one.name for one in it.parameters if one.form == OUT] + ["answer"] * is_question(it)
        yield from (f"        note(&{name}, sizeof {name});" for name in written)
        yield from (f"        note_slots({one.name}, {f'{one.name}_len' if one.form == SLOTS else f'{one.name} != NULL'});"
                    for one in it.parameters if one.form in (SLOT, SLOTS))
        yield from ["        break;", "    }"]
    yield from ["    default:", "        break;", "    }", "    return result;", "}"]


def wrong_comments():
    """Results that a contract allows and the comment doesn't state, and slots of which nothing says what is in them."""
    for it in exports():
        if numbers := unstated(it):
            yield f"the comment of {it.name} doesn't state that it returns {', '.join(map(str, numbers))}"
        # (A function that isn't public has no types of slots.)
        for one in () if is_internal(it) else it.parameters:
            if one.role and one.kind not in TYPES and not takes_any_kind(it, one):
                yield f"the contract of {it.name} doesn't say which kind of object is in {one.name}"
