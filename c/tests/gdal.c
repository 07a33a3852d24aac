// SPDX-License-Identifier: Apache-2.0
// SPDX-FileCopyrightText: Copyright the Vortex contributors

/* Reads the types of layers that GDAL makes: of a GeoPackage, of a layer in memory and of a CSV file, with fields of every
 * type that GDAL has. The last line is `N passed, M failed`. */
#include <gdal.h>
#include <ogr_api.h>
#include <ogr_recordbatch.h>

#include <cpl_vsi.h>
#include <stdio.h>
#include <string.h>

/* (The header of GDAL 3.6 declares the structs of Arrow without their guard.) */
#ifndef ARROW_C_DATA_INTERFACE
#define ARROW_C_DATA_INTERFACE
#endif
#include "../vortex_logical_types.h"

typedef struct {
    const char *name;
    OGRFieldType type;
    OGRFieldSubType subtype;
    int is_nullable;
} field;

static const field of_package[] = {
    {"required", OFTInteger, OFSTNone, 0}, {"i", OFTInteger, OFSTNone, 1}, {"flag", OFTInteger, OFSTBoolean, 1},
    {"short", OFTInteger, OFSTInt16, 1}, {"long", OFTInteger64, OFSTNone, 1}, {"real", OFTReal, OFSTNone, 1},
    {"float", OFTReal, OFSTFloat32, 1}, {"text", OFTString, OFSTNone, 1}, {"json", OFTString, OFSTJSON, 1},
    {"uuid", OFTString, OFSTUUID, 1}, {"day", OFTDate, OFSTNone, 1}, {"at", OFTDateTime, OFSTNone, 1},
    {"blob", OFTBinary, OFSTNone, 1},
};
static const char type_of_package[] =
    "{fid=i64, required=i32, i=i32?, flag=bool?, short=i16?, long=i64?, real=f64?, float=f32?, text=utf8?, json=utf8?, "
    "uuid=utf8?, day=vortex.date[0x04](i32?), at=vortex.timestamp[0x020000](i64?), blob=binary?, geom=ogc.wkb[0x](binary?)}";

static const field of_memory[] = {
    {"ints", OFTIntegerList, OFSTNone, 1}, {"flags", OFTIntegerList, OFSTBoolean, 1}, {"shorts", OFTIntegerList, OFSTInt16, 1},
    {"longs", OFTInteger64List, OFSTNone, 1}, {"reals", OFTRealList, OFSTNone, 1}, {"floats", OFTRealList, OFSTFloat32, 1},
    {"texts", OFTStringList, OFSTNone, 0}, {"time", OFTTime, OFSTNone, 1}, {"day", OFTDate, OFSTNone, 1},
    {"at", OFTDateTime, OFSTNone, 1}, {"blob", OFTBinary, OFSTNone, 1},
};
static const char type_of_memory[] =
    "{OGC_FID=i64, ints=list(i32)?, flags=list(bool)?, shorts=list(i16)?, longs=list(i64)?, reals=list(f64)?, "
    "floats=list(f32)?, texts=list(utf8), time=vortex.time[0x02](i32?), day=vortex.date[0x04](i32?), "
    "at=vortex.timestamp[0x020000](i64?), blob=binary?}";

static const char csv[] = "id,n,price,name,day,clock,at,flag,short,float,shape\n"
                          "1,2,3.5,x,2020/01/01,10:00:00,2020/01/01 10:00:00,1,2,1.5,POINT (1 2)\n";
static const char csvt[] = "Integer64,Integer,Real,String,Date,Time,DateTime,Integer(Boolean),Integer(Int16),Real(Float32),WKT\n";
static const char type_of_csv[] =
    "{OGC_FID=i64, id=i64?, n=i32?, price=f64?, name=utf8?, day=vortex.date[0x04](i32?), clock=vortex.time[0x02](i32?), "
    "at=vortex.timestamp[0x020000](i64?), flag=bool?, short=i16?, float=f32?, shape=utf8?, geom_shape=ogc.wkb[0x](binary?)}";

static size_t passed, failed;

static void check(int is_right, const char *what, const char *found) {
    passed += is_right != 0;
    failed += is_right == 0;
    if (!is_right)
        printf("gdal.c: %s: found %s\n", what, found);
}

/* Puts a shorter text in the place of another, if that is there. */
static void replace(char *text, const char *by, const char *other) {
    char *found = strstr(text, other);
    if (!found)
        return;
    memcpy(found, by, strlen(by));
    memmove(found + strlen(by), found + strlen(other), strlen(found + strlen(other)) + 1);
}

/* Reads the type of a layer from its stream, and compares its text. (A newer GDAL says of a text that it is JSON, and that the times
 * of a GeoPackage are those of UTC.) */
static void is_read(const char *what, OGRLayerH layer, const char *wanted) {
    char text[2048] = "";
    size_t length = 0;
    struct ArrowArrayStream stream;
    struct ArrowSchema schema;
    vlt_dtype dtype = VLT_EMPTY;
    vlt_error error = VLT_EMPTY;
    if (!layer || !OGR_L_GetArrowStream(layer, &stream, NULL) || stream.get_schema(&stream, &schema) != 0) {
        check(0, what, "no schema");
        return;
    }
    if (vlt_dtype_from_arrow(&schema, &dtype, &error) == VLT_DONE)
        check(vlt_dtype_to_text(&dtype, (uint8_t *)text, sizeof text - 1, &length) == VLT_DONE, what, "no text");
    else
        check(vlt_error_message(&error, (uint8_t *)text, sizeof text - 1, &length) == VLT_DONE, what, "no message");
    text[length] = '\0';
    replace(text, "utf8?", "arrow.json[0x](utf8?)");
    replace(text, "[0x020000]", "[0x020300555443]");
    check(strcmp(text, wanted) == 0, what, text);
    check(schema.release != NULL, what, "a schema that was released");
    schema.release(&schema);
    stream.release(&stream);
    vlt_dtype_free(&dtype);
    vlt_error_free(&error);
}

static OGRLayerH layer_of(GDALDatasetH dataset, OGRwkbGeometryType geometry, const field *fields, size_t count) {
    OGRLayerH layer = dataset ? GDALDatasetCreateLayer(dataset, "layer", NULL, geometry, NULL) : NULL;
    for (size_t at = 0; layer && at < count; at++) {
        OGRFieldDefnH defined = OGR_Fld_Create(fields[at].name, fields[at].type);
        OGR_Fld_SetSubType(defined, fields[at].subtype);
        OGR_Fld_SetNullable(defined, fields[at].is_nullable);
        check(OGR_L_CreateField(layer, defined, TRUE) == OGRERR_NONE, "a field", fields[at].name);
        OGR_Fld_Destroy(defined);
    }
    return layer;
}

static GDALDatasetH created(const char *driver, const char *name) {
    return GDALCreate(GDALGetDriverByName(driver), name, 0, 0, 0, GDT_Unknown, NULL);
}

static void write_file(const char *name, const char *text) {
    VSILFILE *file = VSIFOpenL(name, "wb");
    check(file && VSIFWriteL(text, 1, strlen(text), file) == strlen(text), "a file", name);
    if (file)
        (void)VSIFCloseL(file);
}

int main(void) {
    GDALDatasetH package, memory, table;
    GDALAllRegister();
    package = created("GPKG", "/vsimem/test.gpkg");
    is_read("a GeoPackage", layer_of(package, wkbPoint, of_package, sizeof of_package / sizeof *of_package), type_of_package);
    memory = created("Memory", "memory");
    is_read("a layer in memory", layer_of(memory, wkbNone, of_memory, sizeof of_memory / sizeof *of_memory), type_of_memory);
    write_file("/vsimem/test.csv", csv);
    write_file("/vsimem/test.csvt", csvt);
    table = GDALOpenEx("/vsimem/test.csv", GDAL_OF_VECTOR, NULL, NULL, NULL);
    is_read("a CSV file", table ? GDALDatasetGetLayer(table, 0) : NULL, type_of_csv);
    GDALClose(table);
    GDALClose(memory);
    GDALClose(package);
    printf("%zu passed, %zu failed\n", passed, failed);
    return failed != 0;
}
