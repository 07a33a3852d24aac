# SPDX-License-Identifier: Apache-2.0
# SPDX-FileCopyrightText: Copyright the Vortex contributors

"""Looks up the column that a path leads to, and prints the part of a schema that two paths need."""
from vortex_logical_types import DType, FieldPath

orders = DType("{id=u64, customer={city=utf8?}, lines=list({sku=utf8, price=decimal(10,2)?})}")
city = FieldPath("customer.city")
print(f"{city.to_source()} = {city.resolve(orders)}")
print(orders.project_paths([city, "lines.[].sku"]))
