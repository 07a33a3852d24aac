# SPDX-License-Identifier: Apache-2.0
# SPDX-FileCopyrightText: Copyright the Vortex contributors

"""The types of layers that GDAL makes, read from Python by their addresses. tools/bindings/bindings_runs runs this where the
module `osgeo` can be imported. The layers are those of c/tests/gdal.c."""
import contextlib
import ctypes
import ctypes.util
import unittest

from arrow_structs import ArrowArrayStream, ArrowSchema
from osgeo import gdal, ogr
from vortex_logical_types import DType, FieldPathSet, Kind, TimeUnit

gdal.UseExceptions()
library = ctypes.CDLL(ctypes.util.find_library("gdal"))
library.OGR_L_GetArrowStream.argtypes = [ctypes.c_void_p, ctypes.POINTER(ArrowArrayStream), ctypes.c_void_p]
library.OGR_L_GetArrowStream.restype = ctypes.c_bool
Release = ctypes.CFUNCTYPE(None, ctypes.POINTER(ArrowArrayStream))

NONE = ogr.OFSTNone
OF_PACKAGE = [("i", ogr.OFTInteger, NONE), ("flag", ogr.OFTInteger, ogr.OFSTBoolean), ("short", ogr.OFTInteger, ogr.OFSTInt16),
              ("long", ogr.OFTInteger64, NONE), ("real", ogr.OFTReal, NONE), ("float", ogr.OFTReal, ogr.OFSTFloat32),
              ("text", ogr.OFTString, NONE), ("json", ogr.OFTString, ogr.OFSTJSON), ("uuid", ogr.OFTString, ogr.OFSTUUID),
              ("day", ogr.OFTDate, NONE), ("at", ogr.OFTDateTime, NONE), ("blob", ogr.OFTBinary, NONE)]
TYPE_OF_PACKAGE = DType("""{
    fid=i64, i=i32?, flag=bool?, short=i16?, long=i64?, real=f64?, float=f32?, text=utf8?, json=utf8?, uuid=utf8?,
    day=vortex.date[0x04](i32?), at=vortex.timestamp[0x020000](i64?), blob=binary?, geom=ogc.wkb[0x](binary?)
}""")
# A newer GDAL says of a text that it is JSON, and that the times of a GeoPackage are those of UTC.
NEWER = {"json": DType("arrow.json[0x](utf8?)"), "at": DType("vortex.timestamp[0x020300555443](i64?)")}
OF_MEMORY = [("ints", ogr.OFTIntegerList, NONE), ("flags", ogr.OFTIntegerList, ogr.OFSTBoolean),
             ("shorts", ogr.OFTIntegerList, ogr.OFSTInt16), ("longs", ogr.OFTInteger64List, NONE), ("reals", ogr.OFTRealList, NONE),
             ("floats", ogr.OFTRealList, ogr.OFSTFloat32), ("texts", ogr.OFTStringList, NONE), ("time", ogr.OFTTime, NONE)]
TYPE_OF_MEMORY = DType("""{
    OGC_FID=i64, ints=list(i32)?, flags=list(bool)?, shorts=list(i16)?, longs=list(i64)?, reals=list(f64)?, floats=list(f32)?,
    texts=list(utf8)?, time=vortex.time[0x02](i32?)
}""")
CSV = "id,price,name,day,at,flag\n1,2.5,x,2020/01/01,2020/01/01 10:00:00,1\n"
CSVT = "Integer64,Real,String,Date,DateTime,Integer(Boolean)\n"
TYPE_OF_CSV = DType("""{
    OGC_FID=i64, id=i64?, price=f64?, name=utf8?, day=vortex.date[0x04](i32?), at=vortex.timestamp[0x020000](i64?), flag=bool?
}""")


def type_of(layer):
    """The type of a layer, by the address of its schema."""
    stream, schema = ArrowArrayStream(), ArrowSchema()
    assert library.OGR_L_GetArrowStream(int(layer.this), stream, None)
    try:
        assert stream.get_schema(stream, schema) == 0
        try:
            return DType.from_arrow_address(ctypes.addressof(schema))
        finally:
            schema.release(schema)
    finally:
        Release(stream.release)(stream)


def layer_of(dataset, geometry, fields):
    layer = dataset.CreateLayer("layer", None, geometry)
    for name, kind, subtype in fields:
        field = ogr.FieldDefn(name, kind)
        field.SetSubType(subtype)
        layer.CreateField(field)
    return layer


@contextlib.contextmanager
def files(texts):
    """Files in memory."""
    for name, text in texts.items():
        gdal.FileFromMemBuffer(f"/vsimem/{name}", text.encode())
    yield
    for name in texts:
        gdal.Unlink(f"/vsimem/{name}")


class Layers(unittest.TestCase):
    def test_a_geopackage(self):
        dataset = ogr.GetDriverByName("GPKG").CreateDataSource("/vsimem/python.gpkg")
        layer = layer_of(dataset, ogr.wkbPoint, OF_PACKAGE)
        dtype = type_of(layer)
        self.assertEqual(dtype.names, TYPE_OF_PACKAGE.names)
        for name in dtype.names:
            self.assertIn(dtype[name], (TYPE_OF_PACKAGE[name], NEWER.get(name)))
        self.assertEqual(dtype["at"].time_unit, TimeUnit.MILLISECONDS)
        self.assertIn(dtype["at"].time_zone, ("", "UTC"))
        self.assertIs(dtype["geom"].kind, Kind.EXTENSION)
        self.assertEqual(dtype.project_paths(FieldPathSet(["day", "i"])).names, ["i", "day"])

    def test_a_layer_in_memory(self):
        dataset = ogr.GetDriverByName("Memory").CreateDataSource("memory")
        self.assertEqual(type_of(layer_of(dataset, ogr.wkbNone, OF_MEMORY)), TYPE_OF_MEMORY)

    def test_a_csv_file(self):
        with files({"python.csv": CSV, "python.csvt": CSVT}):
            dataset = gdal.OpenEx("/vsimem/python.csv", gdal.OF_VECTOR)
            self.assertEqual(type_of(dataset.GetLayer(0)), TYPE_OF_CSV)


if __name__ == "__main__":
    unittest.main()
