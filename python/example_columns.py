# SPDX-License-Identifier: Apache-2.0
# SPDX-FileCopyrightText: Copyright the Vortex contributors

"""Which columns of a table does a program open, if it reads these paths?"""
from vortex_logical_types import DType, FieldPathSet


def columns_to_open(table, *paths):
    """Returns the type of the columns to open, of a table, a data frame or a schema of Arrow."""
    schema, wanted = DType.from_arrow(table), FieldPathSet(paths)
    missing = [path.to_source() for path in wanted.unresolved(schema)]
    if missing:
        raise KeyError(f"no column {', '.join(missing)} in {schema}")
    return schema.project_paths(wanted)


# In place of `orders` stands any object of pyarrow, polars or DuckDB, for example `pyarrow.parquet.read_schema("orders.parquet")`.
orders = DType("{id=u64?, customer={city=utf8?, zip=utf8?}?, lines=list({sku=utf8?, price=decimal(10,2)?}?)?}")
for name, dtype in columns_to_open(orders, "customer.city", "lines.[].price"):
    print(f"{name}: {dtype}")
