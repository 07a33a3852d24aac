# SPDX-License-Identifier: Apache-2.0
# SPDX-FileCopyrightText: Copyright the Vortex contributors

"""Makes one table of three files whose columns differ. A column that has another name in one file is renamed, one that has
different types is left out, with the reason, and so is one that the readers of the table mustn't see."""
from vortex_logical_types import DType, MergeConflict

# In place of a text stands any schema of Arrow, for example `DType.from_arrow(pyarrow.parquet.read_schema("2023.parquet"))`.
FILES = {"2023.parquet": DType("{order_id=u64, customer={name=utf8, email=utf8}, total=f64}"),
         "2024.parquet": DType("{id=u64, customer={name=utf8, email=utf8?, city=utf8}, total=f64, note=null}"),
         "2025.parquet": DType("{id=u64, customer={name=utf8}, total=decimal(10,2), note=utf8}")}


def merged(files):
    """Returns the type as which all of these can be read, without the columns whose types differ."""
    while True:
        try:
            return DType.merge_all(files)
        except MergeConflict as conflict:
            if conflict.path.is_root:
                raise
            path, name = conflict.path.to_source(), list(FILES)[conflict.index]
            print(f"left out: {path}, which is {conflict.right} in {name} and {conflict.left} before")
            files = [it.without_paths([conflict.path]) for it in files]


table = merged([it.with_fields_renamed({"order_id": "id"}) for it in FILES.values()])
print(table)
print(table.without_paths(["customer.email"]))
