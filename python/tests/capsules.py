# SPDX-License-Identifier: Apache-2.0
# SPDX-FileCopyrightText: Copyright the Vortex contributors

"""Capsules that nobody reads, one whose schema was moved out, and capsules that are alive at the end of the interpreter.
tools/bindings/bindings_runs runs this under valgrind."""
import ctypes
import sys

from arrow_structs import moved_out, release
from vortex_logical_types import DType

ORDERS = DType("{id=u64, lines=list({sku=utf8, price=decimal(10,2)?}), paid=vortex.date[0x04](i32?)}")

for _ in range(10):
    ORDERS.__arrow_c_schema__()
schema = moved_out(ORDERS.__arrow_c_schema__())
assert DType.from_arrow_address(ctypes.addressof(schema)) == ORDERS
release(schema)
assert DType.from_arrow(ORDERS) == ORDERS
# One in a module, one in a module that goes last, and one in a cycle.
kept = ORDERS.__arrow_c_schema__()
sys.kept = ORDERS.__arrow_c_schema__()
cycle = [ORDERS.__arrow_c_schema__()]
cycle.append(cycle)
print("capsules: done")
