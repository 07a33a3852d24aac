# SPDX-License-Identifier: Apache-2.0
# SPDX-FileCopyrightText: Copyright the Vortex contributors

"""tools/gate/linked.py, by tools/gate/cargo_runs, over a Cargo that names a program and an nm that prints its symbols."""
from planted import Planted
from repository import public_calls

SAID = """[ "$1" = fmt ] || case "$*" in
    *--no-run*) echo '{"reason":"build-script-executed"}'
        echo '{"executable":null,"target":{"kind":["lib"]}}'
        echo '{"executable":"/built/a-0","target":{"kind":["example"]}}'
        echo '{"executable":"/built/a-1","target":{"kind":["test"]}}';;
    *test*) echo "test result: ok. 2 passed; 0 failed";;
esac"""
CRATE = "vortex_logical_types"
# The calls without a symbol of their own.
IN_RATTLE = {
    "ForeignExtMetadata::fmt", "ForeignExtDType::id", "ForeignExtDType::deserialize_metadata",
    "ForeignExtDType::serialize_metadata", "ForeignExtDType::validate_dtype", "DTypeSession::fmt", "ExtDType::id",
    "FieldName::from_inner", "FieldName::inner", "FieldName::into_inner", "FieldName::partial_cmp",
    "Nullability::bitor_assign", "PrecisionScale::precision", "PrecisionScale::scale"}


def symbol(crate, function):
    """A function as nm prints it: the form with `try_` of each second one of a type."""
    owner, name = function.owner, function.name
    if not owner:
        return f"{CRATE}::{crate}::{name}::{{{{closure}}}}"
    if owner.kind == "trait":
        return f"{CRATE}::{crate}::{owner.type}::{name}"
    if owner.trait:
        return f"<{CRATE}::{crate}::{owner.type} as core::cmp::{owner.trait}<alloc::vec::Vec<u8>>>::{name}::<fn() -> u8>"
    of_type = f"{CRATE}::{crate}::{owner.type}"
    return f"{CRATE}::{crate}::dtype::<impl {of_type}>::{name}" if len(name) % 2 else f"{of_type}<T>::try_{name}"


class PublicCalls(Planted):
    parts = ("crates.txt", "crates", "tools")

    def setUp(self):
        super().setUp()
        self.symbols = {(it.path, symbol(crate, it)) for crate, it in public_calls() if it.body and it.path not in IN_RATTLE}
        self.symbols |= {("bucket_of_name", f"{CRATE}::dtype_paths::child_table::tree_of"), ("", "core::fmt::write")}
        self.script("cargo", SAID)
        self.script("nm", f"[ \"$*\" = '-C --defined-only /built/a-1' ] && cat {self.top}/symbols")

    def ran(self, without=None):
        """The status of cargo_runs, and what it says of the calls, where nm prints no symbol of one of them."""
        self.write("symbols", "".join(f"0000000000000010 t {it}\n" for path, it in self.symbols if path != without))
        status, said = self.run_tool("cargo_runs")
        return status, [it for it in said.splitlines() if "public call" in it or "IN_RATTLE" in it]

    def test_takes_what_each_call_is_in(self):
        status, (said,) = self.ran()
        self.assertRegex(said, r"^cargo_runs: public calls: (\d+) of \1 are run$")
        self.assertEqual(status, 0)

    def test_tells_a_call_that_is_in_no_program(self):
        for path, file in (("FieldPath::resolve", "dtype_paths/src/field_path.rt"), ("FieldName::cmp", "dtype_base/src/field_name.rt"),
                           ("merge_columns", "dtype_merging/src/merge.rt")):
            with self.subTest(path):
                status, said = self.ran(path)
                self.assertEqual((status, said[0].split(", and")[0]), (
                    1, f"cargo_runs: crates/{file}: no test in Rust runs {path}"))

    def test_tells_what_is_listed_wrongly(self):
        self.change("crates/tests/src/native.rt", "fn a_nullability_is_joined_in_place(", "fn a_nullability_is_joined(")
        self.change("tools/gate/linked.py", '["ExtDType::id"]', '["ExtDType::id", "ExtDType::gone"]')
        status, said = self.ran()
        self.assertEqual((status, said[:2]), (1, [
            "cargo_runs: IN_RATTLE: ExtDType::gone is no public call",
            "cargo_runs: IN_RATTLE: there is no test native::a_nullability_is_joined_in_place"]))
