# SPDX-License-Identifier: Apache-2.0
# SPDX-FileCopyrightText: Copyright the Vortex contributors

"""Finds the public calls of the libraries that nothing runs, for the tool `cargo_runs`. A contract lets a call return
OutOfMemory for any input, and what a machine makes of a proved body is seen only where it runs. The linker leaves out of a
program what nothing in it may call. So each public call must be in a program that Cargo builds for the tests. One of these
is the console, each of whose commands the stored transcript makes (a test of the console says so). A call that none of them
has is in IN_RATTLE, with a test of crates/tests that makes it."""
import json
import re
import subprocess

from repository import end_of, functions, public_calls, without_path

CRATE = "vortex_logical_types::"
# A function that is always inlined is in no program, so the function is looked for into which it is inlined.
INLINED = {"bucket_of_name": "tree_of"}
# The calls that a test in Rust need not make, by the tests of crates/tests that make them.
IN_RATTLE = {
    "extensions::foreign_extensions_are_copied_compared_and_printed": ["ForeignExtMetadata::fmt"],
    "extensions::foreign_extensions_keep_all_bytes": [
        "ForeignExtDType::id", "ForeignExtDType::deserialize_metadata", "ForeignExtDType::serialize_metadata",
        "ForeignExtDType::validate_dtype"],
    "extensions::sessions_and_typed_extensions_have_debug_texts": ["DTypeSession::fmt"],
    "extensions::typed_extensions_have_their_id": ["ExtDType::id"],
    "names::a_name_is_made_of_its_shared_text": ["FieldName::from_inner", "FieldName::inner", "FieldName::into_inner"],
    "names::names_are_ordered": ["FieldName::partial_cmp"],
    "native::a_nullability_is_joined_in_place": ["Nullability::bitor_assign"],
    "native::kept_decimals_have_their_parts": ["PrecisionScale::precision", "PrecisionScale::scale"],
}


def programs(said):
    """The programs that Cargo says that it has built, by its messages in JSON, but for examples, which no test runs."""
    built = [json.loads(line) for line in said.splitlines() if line.startswith("{")]
    return sorted({it["executable"] for it in built if it.get("executable") and it["target"]["kind"] != ["example"]})


def symbols(files):
    """The functions of the crate in these programs, as their symbols are read by nm."""
    ran = subprocess.run(["nm", "-C", "--defined-only", *files], stdout=subprocess.PIPE, text=True, errors="replace", check=True)
    return {line.split(" ", 2)[2] for line in ran.stdout.splitlines() if CRATE in line and line.count(" ") > 1}


def key_of(symbol):
    """The type, the trait and the name of a function, of which the first two may be empty. A symbol is a path, or begins with
    `<TYPE as TRAIT>`, or has `<impl TYPE>` or `<impl TRAIT for TYPE>` in it; and there may be brackets inside of brackets."""
    symbol = symbol.replace("->", "")
    at = symbol.find("<impl ") if "<impl " in symbol else symbol.find("<", 0, 1)
    if at < 0:
        path = [it for it in without_brackets(symbol).split("::") if it and not it.startswith("{")]
        return path[-2] if path[-2][:1].isupper() else "", "", path[-1]
    end = end_of(symbol, at, r"(<)|>")
    inner, name = without_brackets(symbol[at + 1:end - 1]), re.match(r"(?:::)?(\w*)", symbol[end:])[1]
    if inner.startswith("impl "):
        trait, _, of_type = inner[5:].rpartition(" for ")
    else:
        of_type, _, trait = inner.partition(" as ")
    return without_path(of_type), without_path(trait), name


def without_brackets(text):
    """A text without what stands in angle brackets."""
    while (shorter := re.sub(r"<[^<>]*>", "", text)) != text:
        text = shorter
    return text


def is_run(function, keys):
    """Whether one of these keys is that of a function, or of its form with `try_`."""
    owner, keys_of = function.owner, {function.name, f"try_{function.name}", INLINED.get(function.name)}
    if owner and owner.kind == "trait":
        return any(key[2] in keys_of and owner.type in key[:2] for key in keys)
    head = (owner.type, owner.trait) if owner else ("", "")
    return any((*head, name) in keys for name in keys_of)


def faults(files):
    """How many public calls there are, and each that nothing runs, or that is listed wrongly: where, and the fault."""
    keys = {key_of(it) for it in symbols(files)}
    calls = [it for _, it in public_calls() if it.body]
    others = {it.path: it.file for it in calls if not is_run(it, keys)}
    listed = {call for calls_of in IN_RATTLE.values() for call in calls_of}
    tests = {f"{it.file[len('crates/tests/src/'):-len('.rt')]}::{it.name}"
             for it in functions(["tests"]) if "#[test]" in it.attributes}
    found = [(others[it], f"no test in Rust runs {it}, and IN_RATTLE in tools/gate/linked.py has no test in Rattle")
             for it in sorted(others.keys() - listed)]
    found += [("IN_RATTLE", f"{it} is no public call") for it in sorted(listed - {it.path for it in calls})]
    found += [("IN_RATTLE", f"there is no test {it}") for it in sorted(IN_RATTLE.keys() - tests)]
    return len(calls), found
