# SPDX-License-Identifier: Apache-2.0
# SPDX-FileCopyrightText: Copyright the Vortex contributors

"""Reads the type of each type of pyarrow, writes it, has pyarrow import it, and reads that again. It does the same with a data frame
of pandas, if pandas is there. tools/arrow/producers runs it.
The last line is `N passed, M failed`."""
import sys

import pyarrow as pa
try:
    import pandas
except ImportError:
    pandas = None
from vortex_logical_types import DType, LibraryError

# Each type of pyarrow, the type that is read of a nullable field of it, and what pyarrow imports of that type: the same type if
# nothing is there. A type that can't be read has no text.
TYPES = [
    (pa.null(), "null"), (pa.bool_(), "bool?"), (pa.int8(), "i8?"), (pa.uint8(), "u8?"), (pa.int16(), "i16?"), (pa.uint16(), "u16?"),
    (pa.int32(), "i32?"), (pa.uint32(), "u32?"), (pa.int64(), "i64?"), (pa.uint64(), "u64?"),
    (pa.float16(), "f16?"), (pa.float32(), "f32?"), (pa.float64(), "f64?"),
    (pa.string(), "utf8?"), (pa.large_string(), "utf8?", pa.string()), (pa.string_view(), "utf8?", pa.string()),
    (pa.binary(), "binary?"), (pa.large_binary(), "binary?", pa.binary()), (pa.binary_view(), "binary?", pa.binary()),
    (pa.binary(16), "fixed_size_list(u8)[16]?"), (pa.binary(0), "fixed_size_list(u8)[0]?"),
    (pa.decimal32(9, 2), "decimal(9,2)?", pa.decimal128(9, 2)), (pa.decimal64(18, 2), "decimal(18,2)?", pa.decimal128(18, 2)),
    (pa.decimal128(38, -2), "decimal(38,-2)?"), (pa.decimal256(76, 2), "decimal(76,2)?"),
    (pa.decimal256(10, 2), "decimal(10,2)?", pa.decimal128(10, 2)), (pa.decimal128(2, 4), None),
    (pa.date32(), "vortex.date[0x04](i32?)"), (pa.date64(), "vortex.date[0x02](i64?)"),
    (pa.time32("s"), "vortex.time[0x03](i32?)"), (pa.time32("ms"), "vortex.time[0x02](i32?)"),
    (pa.time64("us"), "vortex.time[0x01](i64?)"), (pa.time64("ns"), "vortex.time[0x00](i64?)"),
    (pa.timestamp("s"), "vortex.timestamp[0x030000](i64?)"), (pa.timestamp("ms"), "vortex.timestamp[0x020000](i64?)"),
    (pa.timestamp("us", "UTC"), "vortex.timestamp[0x010300555443](i64?)"), (pa.timestamp("ns", "UTC"), "vortex.timestamp[0x000300555443](i64?)"),
    (pa.duration("s"), "arrow.duration[0x744473](i64?)"), (pa.duration("ms"), "arrow.duration[0x74446d](i64?)"),
    (pa.duration("us"), "arrow.duration[0x744475](i64?)"), (pa.duration("ns"), "arrow.duration[0x74446e](i64?)"),
    (pa.month_day_nano_interval(), "arrow.interval[0x74696e](fixed_size_list(u8)[16]?)"),
    (pa.list_(pa.int8()), "list(i8?)?"), (pa.large_list(pa.int8()), "list(i8?)?", pa.list_(pa.int8())),
    (pa.list_view(pa.int8()), "list(i8?)?", pa.list_(pa.int8())), (pa.large_list_view(pa.int8()), "list(i8?)?", pa.list_(pa.int8())),
    (pa.list_(pa.int8(), 3), "fixed_size_list(i8?)[3]?"), (pa.list_(pa.uint8(), 3), "fixed_size_list(u8?)[3]?"),
    (pa.list_(pa.field("item", pa.int8(), nullable=False)), "list(i8)?"),
    (pa.list_(pa.binary(16)), "list(fixed_size_list(u8)[16]?)?"), (pa.list_(pa.uuid()), "list(arrow.uuid[0x](fixed_size_list(u8)[16]?))?"),
    (pa.struct([("a", pa.int8()), pa.field("b", pa.string(), nullable=False)]), "{a=i8?, b=utf8}?"), (pa.struct([]), "{}?"),
    (pa.map_(pa.string(), pa.int8()), "map(utf8, i8?, keys_sorted=false)?"),
    (pa.map_(pa.string(), pa.int8(), keys_sorted=True), "map(utf8, i8?, keys_sorted=true)?"),
    (pa.map_(pa.dictionary(pa.int8(), pa.string()), pa.int8()), "map(utf8, i8?, keys_sorted=false)?", pa.map_(pa.string(), pa.int8())),
    (pa.sparse_union([pa.field("a", pa.int8()), pa.field("b", pa.string())], [5, 9]), "union(a@5=i8?, b@9=utf8?)?"),
    (pa.dense_union([pa.field("a", pa.int8()), pa.field("b", pa.string())]), "union(a@0=i8?, b@1=utf8?)?",
     pa.sparse_union([pa.field("a", pa.int8()), pa.field("b", pa.string())])),
    (pa.dictionary(pa.int8(), pa.string()), "utf8?", pa.string()), (pa.dictionary(pa.int32(), pa.int64(), ordered=True), "i64?", pa.int64()),
    (pa.dictionary(pa.uint8(), pa.list_(pa.int8())), "list(i8?)?", pa.list_(pa.int8())),
    (pa.run_end_encoded(pa.int32(), pa.string()), "utf8?", pa.string()),
    (pa.uuid(), "arrow.uuid[0x](fixed_size_list(u8)[16]?)"), (pa.bool8(), "arrow.bool8[0x](i8?)"), (pa.json_(), "arrow.json[0x](utf8?)"),
    (pa.fixed_shape_tensor(pa.int32(), [2, 2]), None), (pa.fixed_shape_tensor(pa.uint8(), [2, 2]), None),
]
# (What these extensions have as metadata is pyarrow's own affair. Only that they come back is tested.)
OPEN = {pa.fixed_shape_tensor(pa.int32(), [2, 2]), pa.fixed_shape_tensor(pa.uint8(), [2, 2])}
passed, failed = 0, 0


def check(what, found, wanted):
    global passed, failed
    if found == wanted:
        passed += 1
    else:
        failed += 1
        print(f"{what}: {found} instead of {wanted}")


def read(field):
    """The type of a field, or None if it has none."""
    try:
        return DType.from_arrow(field)
    except LibraryError:
        return None


def one(kind, text, back):
    """A field of this type, nullable and not, alone and in a table."""
    dtype = read(pa.field("a", kind))
    if kind not in OPEN:
        check(kind, dtype, text and DType(text))
    if dtype is None:
        return
    forms = [(True, dtype)]
    # (The values of run ends are a field of their own, which pyarrow always makes nullable.)
    stays = text == "null" or isinstance(kind, pa.RunEndEncodedType)
    if text != "null":
        forms.append((stays, read(pa.field("a", kind, nullable=False))))
        check(f"{kind}, required", forms[1][1], dtype if stays else dtype.as_nonnullable())
    for nullable, it in forms:
        schema = pa.schema([pa.field("a", kind, nullable=nullable)])
        whole = DType.from_arrow(schema)
        imported = pa.schema(whole)
        check(f"{kind}, imported", imported.field("a").type, back)
        check(f"{kind}, nullable", imported.field("a").nullable, nullable)
        check(f"{kind}, read again", DType.from_arrow(imported), whole)
        check(f"{kind}, alone", DType.from_arrow(pa.field(it)), it)
    check(f"{kind}, an array", read(pa.nulls(0, kind)) if not isinstance(kind, pa.BaseExtensionType) else dtype, dtype)


for row in TYPES:
    one(row[0], row[1], row[2] if len(row) > 2 else row[0])
table = pa.table({"id": pa.array([b"x" * 16], pa.binary(16)), "city": pa.array(["a"]).dictionary_encode(), "n": pa.array([1])})
check("a table that is cast", table.cast(pa.schema(DType.from_arrow(table))).to_pydict(), table.to_pydict())
check("its own forms", pa.schema(DType.from_arrow(table).to_arrow(like=table)), table.schema)
check("a column", pa.schema(DType.from_arrow(table).project_paths(["city"]).to_arrow(like=table)), table.select(["city"]).schema)
if pandas:
    frame = pandas.DataFrame({
        "id": pandas.array([1, 2], dtype="UInt64"), "city": ["a", None], "kind": pandas.Categorical(["x", "y"]), "part": [1.5, None],
        "when": pandas.to_datetime(["2020-01-01", "2020-01-02"]).tz_localize("UTC"), "span": pandas.to_timedelta([1, 2], unit="s"),
    })
    read = DType.from_arrow(frame)
    check("a data frame", read, DType("""{id=u64?, city=utf8?, kind=utf8?, part=f64?, when=vortex.timestamp[0x000300555443](i64?),
        span=arrow.duration[0x74446e](i64?)}"""))
    check("a data frame in its own forms", pa.schema(read.to_arrow(like=frame)), pa.table(frame).schema)
    print(f"pandas {pandas.__version__}")
print(f"pyarrow {pa.__version__}: {len(TYPES)} types\n{passed} passed, {failed} failed")
sys.exit(bool(failed))
