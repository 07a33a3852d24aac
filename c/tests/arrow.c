// SPDX-License-Identifier: Apache-2.0
// SPDX-FileCopyrightText: Copyright the Vortex contributors

/* Types from and to Arrow, over the proved library.
 *
 *     arrow                          each row of the tables of which Arrow type is which type, what is refused, and how
 *                                    types are written
 *     arrow refused                  the same again and again, each time with another allocation refused
 *     arrow random COUNT [SEED]      random types, to Arrow and back
 *     arrow mutated COUNT [SEED]     schemas of random types in which something is changed at random
 *
 * Each struct of the test has to be released exactly once. The last line is `N passed, M failed`. */
#include "../vortex_logical_types.h"
#include "heap.h"
#include "refused.h"
#include "schemas.h"

#include <stdio.h>
#include <stdlib.h>
#include <string.h>

enum { NULLABLE = 2, SORTED = 4 };

static uint64_t state = 1;
static bool answer;

static void check(int is_right, int line, const char *what, const char *found) {
    passed += is_right != 0;
    failed += is_right == 0;
    if (!is_right)
        printf("arrow.c:%d: %s: %s, with allocation %zu refused\n", line, what, found, heap_refused);
}
#define HOLDS(condition) check((condition) != 0, __LINE__, #condition, "it doesn't hold")

/* The result of a call, which if it lacks memory is made once more. */
#define CALLED(result, call) \
    do { \
        (result) = (call); \
        if ((result) == VLT_LIBRARY && heap_refused != 0) { \
            lacked++; \
            (result) = (call); \
        } \
    } while (0)

/* A number below this one (xorshift). */
static size_t any(size_t below) {
    state ^= state << 13;
    state ^= state >> 7;
    state ^= state << 17;
    return (size_t)((state >> 11) % (below != 0 ? below : 1));
}

/* The text of a type, or that of an error, in a buffer that the next call overwrites. */
static const char *text_of(const vlt_dtype *dtype) {
    static char buffer[1 << 16];
    size_t length = 0;
    vlt_result result;
    CALLED(result, vlt_dtype_to_text(dtype, (uint8_t *)buffer, sizeof buffer - 1, &length));
    buffer[result == VLT_DONE ? length : 0] = '\0';
    return buffer;
}

static const char *message_of(const vlt_error *error) {
    static char buffer[4096];
    size_t length = 0;
    vlt_result result;
    CALLED(result, vlt_error_message(error, (uint8_t *)buffer, sizeof buffer - 1, &length));
    buffer[result == VLT_DONE ? length : 0] = '\0';
    return buffer;
}

/* Reads a schema, which has to give this type, and drops it. */
static void is_read(struct ArrowSchema *schema, const char *wanted, int line) {
    vlt_dtype dtype = VLT_EMPTY;
    vlt_error error = VLT_EMPTY;
    size_t before = seen(schema, 1);
    vlt_result result;
    CALLED(result, vlt_dtype_from_arrow(schema, &dtype, &error));
    check(result == VLT_DONE, line, wanted, message_of(&error));
    check(strcmp(text_of(&dtype), wanted) == 0, line, wanted, text_of(&dtype));
    check(seen(schema, 1) == before, line, wanted, "the schema was changed");
    vlt_dtype_free(&dtype);
    vlt_error_free(&error);
    drop(schema);
}
#define READ(wanted, ...) is_read(__VA_ARGS__, wanted, __LINE__)

/* Reads a schema, which has to fail with this result and with both texts in the message, and drops it. */
static void is_refused(struct ArrowSchema *schema, vlt_result wanted, const char *one, const char *other, int line) {
    vlt_dtype dtype = VLT_EMPTY;
    vlt_error error = VLT_EMPTY;
    vlt_result result;
    const char *message;
    CALLED(result, vlt_dtype_from_arrow(schema, &dtype, &error));
    message = message_of(&error);
    check(result == wanted, line, one, message);
    check(dtype.slot.at == NULL, line, one, "the slot isn't empty");
    check(strstr(message, one) && strstr(message, other), line, one, message);
    vlt_dtype_free(&dtype);
    vlt_error_free(&error);
    drop(schema);
}
#define REFUSED(one, other, ...) is_refused(__VA_ARGS__, VLT_ARROW, one, other, __LINE__)
#define FAILS(wanted, ...) is_refused(__VA_ARGS__, wanted, "", "", __LINE__)
#define FAILS_WITH(wanted, message, ...) is_refused(__VA_ARGS__, wanted, message, "", __LINE__)

#define LEAF(format, flags) field_of(format, "", flags, 0)
#define NAMED(name, format) field_of(format, name, 0, 0)
#define WITH(format, flags, ...) field_with(format, "", flags, __VA_ARGS__, NULL)

/* == What is read == */

static void formats(void) {
    static const char *const rows[][2] = {
        {"b", "bool"}, {"c", "i8"}, {"C", "u8"}, {"s", "i16"}, {"S", "u16"}, {"i", "i32"}, {"I", "u32"}, {"l", "i64"},
        {"L", "u64"}, {"e", "f16"}, {"f", "f32"}, {"g", "f64"}, {"u", "utf8"}, {"U", "utf8"}, {"vu", "utf8"},
        {"z", "binary"}, {"Z", "binary"}, {"vz", "binary"},
        {"w:0", "fixed_size_list(u8)[0]"}, {"w:16", "fixed_size_list(u8)[16]"}, {"w:2147483647", "fixed_size_list(u8)[2147483647]"},
        {"d:10,2", "decimal(10,2)"}, {"d:10,2,128", "decimal(10,2)"}, {"d:38,-3,32", "decimal(38,-3)"},
        {"d:76,76,256", "decimal(76,76)"}, {"d:1,0,64", "decimal(1,0)"}, {"d:5,-128", "decimal(5,-128)"},
    };
    size_t at;
    READ("null", LEAF("n", 0));
    READ("null", LEAF("n", NULLABLE));
    for (at = 0; at < sizeof rows / sizeof *rows; at++) {
        char wanted[100];
        READ(rows[at][1], LEAF(rows[at][0], 0));
        READ(rows[at][1], LEAF(rows[at][0], 1 | SORTED));
        snprintf(wanted, sizeof wanted, "%s?", rows[at][1]);
        READ(wanted, LEAF(rows[at][0], NULLABLE));
    }
}

static void times(void) {
    READ("vortex.date[0x04](i32)", LEAF("tdD", 0));
    READ("vortex.date[0x02](i64?)", LEAF("tdm", NULLABLE));
    READ("vortex.time[0x03](i32)", LEAF("tts", 0));
    READ("vortex.time[0x02](i32?)", LEAF("ttm", NULLABLE));
    READ("vortex.time[0x01](i64)", LEAF("ttu", 0));
    READ("vortex.time[0x00](i64)", LEAF("ttn", 0));
    READ("vortex.timestamp[0x030000](i64)", LEAF("tss:", 0));
    READ("vortex.timestamp[0x020300555443](i64)", LEAF("tsm:UTC", 0));
    READ("vortex.timestamp[0x0106002b30313a3030](i64?)", LEAF("tsu:+01:00", NULLABLE));
    READ("vortex.timestamp[0x000200c3a4](i64)", LEAF("tsn:\xc3\xa4", 0));
    READ("arrow.duration[0x744473](i64)", LEAF("tDs", 0));
    READ("arrow.duration[0x74446d](i64?)", LEAF("tDm", NULLABLE));
    READ("arrow.duration[0x744475](i64)", LEAF("tDu", 0));
    READ("arrow.duration[0x74446e](i64)", LEAF("tDn", 0));
    READ("arrow.interval[0x74694d](i32?)", LEAF("tiM", NULLABLE));
    READ("arrow.interval[0x746944](fixed_size_list(u8)[8])", LEAF("tiD", 0));
    READ("arrow.interval[0x74696e](fixed_size_list(u8)[16]?)", LEAF("tin", NULLABLE));
}

static void nested(void) {
    READ("list(utf8?)", WITH("+l", 0, LEAF("u", NULLABLE)));
    READ("list(i32)?", WITH("+L", NULLABLE, LEAF("i", 0)));
    READ("list(i32)", WITH("+vl", 0, LEAF("i", 0)));
    READ("list(i32?)", WITH("+vL", 0, LEAF("i", NULLABLE)));
    READ("fixed_size_list(f32?)[3]?", WITH("+w:3", NULLABLE, LEAF("f", NULLABLE)));
    READ("fixed_size_list(f32)[2147483647]", WITH("+w:2147483647", 0, LEAF("f", 0)));
    READ("{}", LEAF("+s", 0));
    READ("{a=i32, \"b c\"=utf8?, \"\"=bool}?",
         WITH("+s", NULLABLE, NAMED("a", "i"), field_of("u", "b c", NULLABLE, 0), field_of("b", NULL, 0, 0)));
    READ("{a=i8, a=i16}", WITH("+s", 0, NAMED("a", "c"), NAMED("a", "s")));
    READ("map(utf8, i32?, keys_sorted=false)",
         WITH("+m", 0, WITH("+s", 0, NAMED("key", "u"), field_of("i", "value", NULLABLE, 0))));
    READ("map(i64, bool, keys_sorted=true)?", WITH("+m", NULLABLE | SORTED, WITH("+s", NULLABLE, NAMED("k", "l"), NAMED("", "b"))));
    READ("union(a=i32, b=utf8)", WITH("+ud:0,1", 0, NAMED("a", "i"), NAMED("b", "u")));
    READ("union(a@5=i32, b@127=utf8?)?", WITH("+us:5,127", NULLABLE, NAMED("a", "i"), field_of("u", "b", NULLABLE, 0)));
    READ("utf8", WITH("+r", 0, NAMED("run_ends", "i"), NAMED("values", "u")));
    READ("utf8?", WITH("+r", NULLABLE, NAMED("run_ends", "i"), NAMED("values", "u")));
    READ("utf8?", WITH("+r", 0, NAMED("run_ends", "i"), field_of("u", "values", NULLABLE, 0)));
    READ("list(i8)?", WITH("+r", NULLABLE, NAMED("run_ends", "i"), WITH("+l", 0, LEAF("c", 0))));
}

static void dictionaries(void) {
    static const char *const indices[] = {"c", "C", "s", "S", "i", "I", "l", "L"};
    size_t at;
    for (at = 0; at < sizeof indices / sizeof *indices; at++)
        READ("utf8", with_dictionary(LEAF(indices[at], 0), LEAF("u", 0)));
    READ("utf8?", with_dictionary(LEAF("i", NULLABLE), LEAF("u", 0)));
    /* (The flags of the values have no meaning. pyarrow and DuckDB set them always.) */
    READ("utf8", with_dictionary(LEAF("i", 1), LEAF("u", NULLABLE)));
    READ("map(utf8, i8?, keys_sorted=false)",
         WITH("+m", 0, WITH("+s", 0, with_dictionary(field_of("c", "key", 0, 0), LEAF("u", NULLABLE)), field_of("c", "value", NULLABLE, 0))));
    READ("{a=i64}?", with_dictionary(LEAF("i", NULLABLE), WITH("+s", 0, NAMED("a", "l"))));
    READ("{a=f64?, b=bool}",
         WITH("+s", 0, with_dictionary(field_of("c", "a", NULLABLE, 0), LEAF("g", 0)), NAMED("b", "b")));
    REFUSED("\"f\"", "", with_dictionary(LEAF("f", 0), LEAF("u", 0)));
    REFUSED("\"tdX\"", "", with_dictionary(LEAF("i", 0), LEAF("tdX", 0)));
    REFUSED("column \"a\"", "\"u\"", WITH("+s", 0, with_dictionary(NAMED("a", "u"), LEAF("u", 0))));
}

#define ID "ARROW:extension:name"
#define ABOUT "ARROW:extension:metadata"

static void extensions(void) {
    READ("x.tag[0x](i32)", with_metadata(LEAF("i", 0), ID, "x.tag", NULL));
    READ("x.tag[0x6162](i32?)", with_metadata(LEAF("i", NULLABLE), "other", "c", ABOUT, "ab", ID, "x.tag", NULL));
    READ("i32", with_metadata(LEAF("i", 0), ABOUT, "ab", "k", "v", NULL));
    READ("x.tag[0x]({a=i8})", with_metadata(WITH("+s", 0, NAMED("a", "c")), ID, "x.tag", NULL));
    READ("x.tag[0x](vortex.date[0x04](i32))", with_metadata(LEAF("tdD", 0), ID, "x.tag", NULL));
    READ("x.tag[0x](utf8?)", with_metadata(with_dictionary(LEAF("i", NULLABLE), LEAF("u", 0)), ID, "x.tag", NULL));
    READ("{a=geo.point[0x7b7d](binary?)}",
         WITH("+s", 0, with_metadata(field_of("z", "a", NULLABLE, 0), ID, "geo.point", ABOUT, "{}", NULL)));
    REFUSED("column \"a\"", "\"i\"", WITH("+s", 0, with_metadata(NAMED("a", "i"), ID, "x", ID, "y", NULL)));
    REFUSED("", "\"i\"", with_metadata(LEAF("i", 0), ID, "\xff", NULL));
}

/* == What is refused == */

static void refused_formats(void) {
    static const char *const rows[] = {
        "", "x", "tD", "tDx", "tDss", "ti", "tim", "tix", "tdx", "ttx", "tsx:", "tss", "tsmUTC", "ii", "v", "vx", "+", "+x",
        "+v", "+vx", "w", "w:", "w:-1", "w:2147483648", "w:4294967296", "w: 3", "w:3 ", "w:+3", "w:3x", "w:99999999999999999999999999",
        "d", "d:", "d:10", "d:10,", "d:,2", "d:256,2", "d:10,2,", "d:10,2,16", "d:10,2,512", "d:10,2,128,", "d:-1,2", "d: 1,2",
        "d:1, 2", "d:10,200", "d:10,-129", "d:+10,2", "d:10,--2", "d:10,+2", "\xff", "i\xff",
    };
    static const char *const lists[] = {"+w", "+w:", "+w:-1", "+w:2147483648", "+w:4294967296", "+w: 1", "+w:1 "};
    size_t at;
    for (at = 0; at < sizeof rows / sizeof *rows; at++) {
        FAILS(VLT_ARROW, LEAF(rows[at], 0));
        REFUSED("column \"a.item\"", "", WITH("+s", 0, NAMED("b", "i"), field_with("+l", "a", 0, NAMED("item", rows[at]), NULL)));
    }
    for (at = 0; at < sizeof lists / sizeof *lists; at++)
        FAILS(VLT_ARROW, WITH(lists[at], 0, LEAF("i", 0)));
    REFUSED("column \"a.item\": ", "\"tdX\"", WITH("+s", 0, field_with("+l", "a", 0, NAMED("item", "tdX"), NULL)));
    REFUSED("\"tDD\"", "", LEAF("tDD", 0));
    FAILS(VLT_ERROR_PRECISION_ZERO, LEAF("d:0,0", 0));
    FAILS(VLT_ERROR_PRECISION_TOO_LARGE, LEAF("d:77,0", 0));
    FAILS(VLT_ERROR_PRECISION_TOO_LARGE, LEAF("d:255,0", 0));
    FAILS(VLT_ERROR_SCALE_TOO_LARGE, LEAF("d:76,77", 0));
    FAILS(VLT_ERROR_SCALE_ABOVE_PRECISION, LEAF("d:3,4", 0));
}

static void refused_children(void) {
    static const char *const leaves[] = {"n", "b", "i", "u", "vz", "w:3", "d:3,1", "tdD", "tts", "tss:"};
    static const char *const lists[] = {"+l", "+L", "+vl", "+vL", "+w:3", "+m"};
    size_t at;
    for (at = 0; at < sizeof leaves / sizeof *leaves; at++)
        FAILS(VLT_ARROW, WITH(leaves[at], 0, LEAF("i", 0)));
    for (at = 0; at < sizeof lists / sizeof *lists; at++) {
        FAILS(VLT_ARROW, LEAF(lists[at], 0));
        FAILS(VLT_ARROW, WITH(lists[at], 0, LEAF("i", 0), LEAF("i", 0)));
    }
    FAILS(VLT_ARROW, LEAF("+r", 0));
    FAILS(VLT_ARROW, WITH("+r", 0, LEAF("i", 0)));
    FAILS(VLT_ARROW, WITH("+r", 0, LEAF("i", 0), LEAF("i", 0), LEAF("i", 0)));
    FAILS(VLT_ARROW, WITH("+m", 0, LEAF("i", 0)));
    FAILS(VLT_ARROW, WITH("+m", 0, WITH("+l", 0, LEAF("i", 0))));
    FAILS(VLT_ARROW, WITH("+m", 0, WITH("+s", 0, LEAF("i", 0))));
    FAILS(VLT_ARROW, WITH("+m", 0, WITH("+s", 0, LEAF("i", 0), LEAF("i", 0), LEAF("i", 0))));
    FAILS(VLT_ERROR_MAP_KEY_NULLABLE, WITH("+m", 0, WITH("+s", 0, LEAF("i", NULLABLE), LEAF("i", 0))));
    REFUSED("column \"m.entries.value\": ", "\"tdX\"",
            WITH("+s", 0, field_with("+m", "m", 0, field_with("+s", "entries", 0, NAMED("key", "i"), NAMED("value", "tdX"), NULL), NULL)));
}

static void refused_unions(void) {
    static const char *const ids[] = {"+us:0,", "+us:,0", "+us:0,128", "+us:0,-1", "+us:0,256",
                                      "+us: 0,1", "+us:0 ,1", "+ux:0,1", "+u:0,1", "+us", "+us:0,x", "+us:0,,1"};
    size_t at;
    for (at = 0; at < sizeof ids / sizeof *ids; at++)
        FAILS(VLT_ARROW, WITH(ids[at], 0, NAMED("a", "i"), NAMED("b", "u")));
    FAILS(VLT_ERROR_UNION_TAGS_LENGTH, WITH("+us:", 0, NAMED("a", "i")));
    FAILS(VLT_ERROR_UNION_TAGS_LENGTH, WITH("+us:0", 0, NAMED("a", "i"), NAMED("b", "u")));
    FAILS(VLT_ERROR_UNION_TAGS_LENGTH, WITH("+ud:0,1,2", 0, NAMED("a", "i"), NAMED("b", "u")));
    FAILS(VLT_ERROR_UNION_EMPTY, LEAF("+us:", 0));
    FAILS(VLT_ERROR_UNION_TAGS_REPEAT, WITH("+us:3,3", 0, NAMED("a", "i"), NAMED("b", "u")));
    FAILS(VLT_ERROR_UNION_NAMES_REPEAT, WITH("+ud:3,4", 0, NAMED("a", "i"), NAMED("a", "u")));
}

/* The error of the library says in which column it is, and has its number. */
static void errors_of_columns(void) {
    struct ArrowSchema *schema = WITH("+s", 0, NAMED("a", "i"), NAMED("odd", "d:2,4"));
    vlt_dtype dtype = VLT_EMPTY;
    vlt_error error = VLT_EMPTY;
    uint32_t number = 0;
    size_t position = 7;
    vlt_result result;
    CALLED(result, vlt_dtype_from_arrow(schema, &dtype, &error));
    HOLDS(result == VLT_ERROR_SCALE_ABOVE_PRECISION);
    HOLDS(strcmp(message_of(&error), "column \"odd\": decimal scale 4 is greater than precision 2") == 0);
    HOLDS(vlt_error_number(&error, &number) == VLT_DONE && number == 4);
    HOLDS(vlt_error_position(&error, &position) == VLT_NONE && position == 7);
    vlt_error_free(&error);
    CALLED(result, vlt_dtype_from_arrow(schema, &dtype, NULL));
    HOLDS(result == VLT_ERROR_SCALE_ABOVE_PRECISION);
    drop(schema);
    FAILS_WITH(VLT_ERROR_PRECISION_ZERO, "column \"l.e\": decimal precision", WITH("+s", 0, field_with("+l", "l", 0, NAMED("e", "d:0,0"), NULL)));
    FAILS_WITH(VLT_ERROR_UNION_NAMES_REPEAT, "column \"u\": ", WITH("+s", 0, field_with("+us:0,1", "u", 0, NAMED("a", "i"), NAMED("a", "u"), NULL)));
    /* The root has no name. */
    FAILS_WITH(VLT_ERROR_PRECISION_ZERO, "decimal precision", LEAF("d:0,0", 0));
}

static void refused_texts(void) {
    struct ArrowSchema *schema = WITH("+s", 0, NAMED("a", "i"), NAMED("b\xff", "i"));
    static const char wrong[][16] = {"\xff\xff\xff\xff", "\1\0\0\0\xfe\xff\xff\xff", "\1\0\0\0\1\0\0\0k\0\0\0\x80"};
    static const size_t sizes[] = {4, 8, 13};
    size_t at;
    FAILS(VLT_ARROW, schema);
    FAILS(VLT_ARROW, LEAF("tsm:\xc3", 0));
    for (at = 0; at < 3; at++) {
        schema = WITH("+s", 0, NAMED("a", "i"), NAMED("b", "u"));
        schema->children[1]->metadata = copy_of_bytes(wrong[at], sizes[at]);
        REFUSED("column \"b\"", "\"u\"", schema);
    }
    /* The name of the root isn't read. */
    READ("i32", field_of("i", "\xff", 0, 0));
}

static void refused_structs(void) {
    struct ArrowSchema *schema = WITH("+s", 0, NAMED("a", "i"), NAMED("b", "u")), *hidden;
    schema->children[1]->release(schema->children[1]);
    FAILS(VLT_ARROW, schema);
    schema = LEAF("i", 0);
    schema->release(schema);
    FAILS(VLT_ARROW, schema);
    schema = WITH("+s", 0, NAMED("a", "i"), NAMED("b", "u"));
    free((char *)schema->children[1]->format);
    schema->children[1]->format = NULL;
    REFUSED("column \"b\"", "", schema);
    schema = WITH("+s", 0, NAMED("a", "i"), NAMED("b", "u"));
    hidden = schema->children[1];
    schema->children[1] = NULL;
    FAILS(VLT_ARROW, schema);
    drop(hidden);
    schema = LEAF("+s", 0);
    schema->n_children = -1;
    FAILS(VLT_ARROW, schema);
    schema = LEAF("+s", 0);
    schema->n_children = 3;
    {
        vlt_dtype dtype = VLT_EMPTY;
        vlt_result result;
        CALLED(result, vlt_dtype_from_arrow(schema, &dtype, NULL));
        HOLDS(result == VLT_ARROW);
        schema->n_children = 0;
        drop(schema);
    }
}

/* Lists inside one another, the innermost one of `leaf`. */
static struct ArrowSchema *lists(size_t count, struct ArrowSchema *leaf) {
    for (; count != 0; count--)
        leaf = WITH("+l", 0, leaf);
    return leaf;
}

/* A type may have 128 levels below it. Dictionaries are nodes, but no levels. */
static void levels(void) {
    vlt_dtype dtype = VLT_EMPTY;
    struct ArrowSchema *schema = lists(128, LEAF("i", 0)), made;
    size_t at;
    HOLDS(vlt_dtype_from_arrow(schema, &dtype, NULL) == VLT_DONE);
    drop(schema);
    HOLDS(vlt_dtype_to_arrow(&dtype, &made, NULL) == VLT_DONE);
    HOLDS(vlt_dtype_from_arrow(&made, &dtype, NULL) == VLT_DONE);
    made.release(&made);
    vlt_dtype_free(&dtype);
    FAILS_WITH(VLT_DEEP, "column \".", lists(129, LEAF("i", 0)));
    FAILS_WITH(VLT_DEEP, ".\": nested more than 128 levels deep", lists(129, LEAF("i", 0)));
    FAILS(VLT_DEEP, lists(128, LEAF("w:3", 0)));
    FAILS(VLT_DEEP, lists(128, LEAF("tdD", 0)));
    FAILS(VLT_DEEP, lists(299, LEAF("i", 0)));
    /* (The fields are read in order, and the 130th of them is too deep before the 301st is one too many.) */
    FAILS(VLT_DEEP, lists(300, LEAF("i", 0)));
    schema = LEAF("u", 0);
    for (at = 0; at < 299; at++)
        schema = with_dictionary(LEAF("i", 0), schema);
    READ("utf8", copy_of(schema));
    FAILS(VLT_ARROW, with_dictionary(LEAF("i", 0), schema));
}

/* == What is written == */

/* Appends a schema as a text: the format, the name, the flags, the metadata, and the children in brackets. */
static char *shown(char *to, const struct ArrowSchema *schema) {
    int64_t at;
    to += sprintf(to, "%s %s %d", schema->format, schema->name, (int)schema->flags);
    if (schema->metadata) {
        size_t length = length_of(schema->metadata), byte;
        *to++ = ' ';
        for (byte = 0; byte < length; byte++)
            to += schema->metadata[byte] > ' ' ? sprintf(to, "%c", schema->metadata[byte]) : sprintf(to, "<%d>", schema->metadata[byte]);
    }
    for (at = 0; at < schema->n_children; at++) {
        to += sprintf(to, at == 0 ? " [" : "; ");
        to = shown(to, schema->children[at]);
    }
    return to + sprintf(to, schema->n_children ? "]" : "");
}

/* Writes the type of this text, which has to give the schema that is shown so, and reads it again. */
static void is_written(const char *text, const char *wanted, int line) {
    static char buffer[1 << 16];
    vlt_dtype dtype = VLT_EMPTY, again = VLT_EMPTY;
    vlt_error error = VLT_EMPTY;
    struct ArrowSchema schema;
    vlt_result result;
    CALLED(result, vlt_dtype_from_text((const uint8_t *)text, strlen(text), &dtype, NULL));
    check(result == VLT_DONE, line, text, "it can't be read");
    CALLED(result, vlt_dtype_to_arrow(&dtype, &schema, &error));
    check(result == VLT_DONE, line, text, message_of(&error));
    if (result == VLT_DONE) {
        (void)shown(buffer, &schema);
        check(strcmp(buffer, wanted) == 0, line, text, buffer);
        CALLED(result, vlt_dtype_from_arrow(&schema, &again, &error));
        check(result == VLT_DONE && vlt_dtype_eq(&dtype, &again, &answer) == VLT_DONE && answer, line, text, "it is read as another type");
        schema.release(&schema);
        check(schema.release == NULL, line, text, "it wasn't released");
    }
    vlt_dtype_free(&dtype);
    vlt_dtype_free(&again);
    vlt_error_free(&error);
}
#define WRITTEN(text, wanted) is_written(text, wanted, __LINE__)

static void written(void) {
    WRITTEN("null", "n  2");
    WRITTEN("bool?", "b  2");
    WRITTEN("{a=i8, b=u8, c=i16, d=u16, e=i32, f=u32, g=i64, h=u64, i=f16, j=f32, k=f64}",
            "+s  0 [c a 0; C b 0; s c 0; S d 0; i e 0; I f 0; l g 0; L h 0; e i 0; f j 0; g k 0]");
    WRITTEN("{\"\"=utf8?, \"\xc3\xa4 b\"=binary}?", "+s  2 [u  2; z \xc3\xa4 b 0]");
    WRITTEN("{}", "+s  0");
    WRITTEN("decimal(10,2)", "d:10,2  0");
    WRITTEN("decimal(38,-128)?", "d:38,-128  2");
    WRITTEN("decimal(39,0)", "d:39,0,256  0");
    WRITTEN("list(i32?)?", "+l  2 [i item 2]");
    WRITTEN("fixed_size_list(u8)[16]", "w:16  0");
    WRITTEN("fixed_size_list(u8)[2147483647]?", "w:2147483647  2");
    WRITTEN("fixed_size_list(u8?)[16]", "+w:16  0 [C item 2]");
    WRITTEN("fixed_size_list(i8)[16]", "+w:16  0 [c item 0]");
    WRITTEN("fixed_size_list(i32)[2147483647]", "+w:2147483647  0 [i item 0]");
    WRITTEN("map(utf8, list(i8), keys_sorted=false)?", "+m  2 [+s entries 0 [u key 0; +l value 0 [c item 0]]]");
    WRITTEN("map(utf8, i8?, keys_sorted=true)", "+m  4 [+s entries 0 [u key 0; c value 2]]");
    WRITTEN("union(a=i32, b=utf8?)?", "+us:0,1  2 [i a 0; u b 2]");
    WRITTEN("union(a@127=i32, b@5=utf8)", "+us:127,5  0 [i a 0; u b 0]");
    WRITTEN("vortex.date[0x04](i32?)", "tdD  2");
    WRITTEN("vortex.date[0x02](i64)", "tdm  0");
    WRITTEN("vortex.time[0x03](i32)", "tts  0");
    WRITTEN("vortex.time[0x02](i32)", "ttm  0");
    WRITTEN("vortex.time[0x01](i64)", "ttu  0");
    WRITTEN("vortex.time[0x00](i64)", "ttn  0");
    WRITTEN("vortex.timestamp[0x030000](i64?)", "tss:  2");
    WRITTEN("vortex.timestamp[0x020300555443](i64)", "tsm:UTC  0");
    WRITTEN("vortex.timestamp[0x0101005a](i64)", "tsu:Z  0");
    WRITTEN("vortex.timestamp[0x000000](i64)", "tsn:  0");
    WRITTEN("arrow.duration[0x744473](i64?)", "tDs  2");
    WRITTEN("{a=arrow.interval[0x74694d](i32)}", "+s  0 [tiM a 0]");
    WRITTEN("arrow.interval[0x746944](fixed_size_list(u8)[8]?)", "tiD  2");
    WRITTEN("list(arrow.interval[0x74696e](fixed_size_list(u8)[16]))", "+l  0 [tin item 0]");
}

/* An extension is its storage type with the two keys, also a temporal one with other metadata or another storage type. */
static void written_extensions(void) {
    WRITTEN("x.tag[0x6162](i32?)", "i  2 <2><0><0><0><20><0><0><0>ARROW:extension:name<5><0><0><0>x.tag"
                                   "<24><0><0><0>ARROW:extension:metadata<2><0><0><0>ab");
    WRITTEN("vortex.date[0x04](i64)", "l  0 <2><0><0><0><20><0><0><0>ARROW:extension:name<11><0><0><0>vortex.date"
                                      "<24><0><0><0>ARROW:extension:metadata<1><0><0><0><4>");
    WRITTEN("x.y[0x61](vortex.date[0x04](i32))", "tdD  0 <2><0><0><0><20><0><0><0>ARROW:extension:name<3><0><0><0>x.y"
                                                 "<24><0><0><0>ARROW:extension:metadata<1><0><0><0>a");
}

/* Writes the type of this text, which has to fail with both texts in the message. */
static void is_unwritten(const char *text, const char *one, const char *other, int line) {
    vlt_dtype dtype = VLT_EMPTY;
    vlt_error error = VLT_EMPTY;
    struct ArrowSchema schema = {0};
    const char *message;
    vlt_result result;
    CALLED(result, vlt_dtype_from_text((const uint8_t *)text, strlen(text), &dtype, NULL));
    check(result == VLT_DONE, line, text, "it can't be read");
    CALLED(result, vlt_dtype_to_arrow(&dtype, &schema, &error));
    message = message_of(&error);
    check(result == VLT_ARROW && schema.format == NULL && schema.release == NULL, line, text, message);
    check(strstr(message, one) && strstr(message, other), line, text, message);
    vlt_dtype_free(&dtype);
    vlt_error_free(&error);
}
#define UNWRITTEN(text, one, other) is_unwritten(text, one, other, __LINE__)

static void unwritten(void) {
    UNWRITTEN("variant", "variant", "");
    UNWRITTEN("{b=i8, a=list(variant?)}", "column \"a.item\": ", "variant");
    UNWRITTEN("{m=map(utf8, {x=variant}, keys_sorted=false)}", "column \"m.entries.value.x\": ", "variant");
    UNWRITTEN("x.y[0x](x.z[0x](i32))", "extension", "");
    UNWRITTEN("x.y[0x](vortex.date[0x05](i32))", "extension", "");
    UNWRITTEN("{u=union(a@0=i8, b@128=i8)}", "column \"u\": ", "127");
    UNWRITTEN("fixed_size_list(u8)[2147483648]", "2147483647", "");
    UNWRITTEN("{\"a\\x00b\"=i8}", "", "");
    UNWRITTEN("\"x\\x00y\"[0x](i8)", "", "");
    UNWRITTEN("vortex.timestamp[0x01010000](i64)", "", "");
}

/* Children that are moved out outlive the rest. */
static void moved(void) {
    vlt_dtype dtype = VLT_EMPTY, part = VLT_EMPTY;
    struct ArrowSchema schema, child;
    const char *text = "{a=list(utf8), b=map(i32, x.tag[0x61](i64), keys_sorted=true)}";
    vlt_result result;
    CALLED(result, vlt_dtype_from_text((const uint8_t *)text, strlen(text), &dtype, NULL));
    HOLDS(result == VLT_DONE);
    CALLED(result, vlt_dtype_to_arrow(&dtype, &schema, NULL));
    HOLDS(result == VLT_DONE);
    child = *schema.children[1];
    schema.children[1]->release = NULL;
    CALLED(result, vlt_dtype_from_arrow(&schema, &part, NULL));
    HOLDS(result == VLT_ARROW && part.slot.at == NULL);
    schema.release(&schema);
    CALLED(result, vlt_dtype_from_arrow(&child, &part, NULL));
    HOLDS(result == VLT_DONE && strcmp(text_of(&part), "map(i32, x.tag[0x61](i64), keys_sorted=true)") == 0);
    HOLDS(strcmp(child.name, "b") == 0);
    child.release(&child);
    vlt_dtype_free(&dtype);
    vlt_dtype_free(&part);
}

static void arguments(void) {
    struct ArrowSchema *schema = LEAF("i", 0), made = {0};
    vlt_dtype dtype = VLT_EMPTY;
    vlt_error error = VLT_EMPTY;
    HOLDS(vlt_dtype_from_arrow(NULL, &dtype, &error) == VLT_RANGE);
    HOLDS(vlt_dtype_to_arrow(&dtype, &made, &error) == VLT_KIND && strcmp(vlt_wrong_argument(), "dtype") == 0);
    HOLDS(vlt_dtype_to_arrow(&dtype, NULL, &error) == VLT_RANGE);
    HOLDS(vlt_dtype_to_arrow(&dtype, &made, (vlt_error *)&dtype) == VLT_SAME_SLOT);
    HOLDS(vlt_dtype_from_arrow(schema, &dtype, (vlt_error *)&dtype) == VLT_SAME_SLOT);
    HOLDS(vlt_arrow_capsule(schema) == NULL && schema->release != NULL);
    drop(schema);
}

static void all(void) {
    formats();
    times();
    nested();
    dictionaries();
    extensions();
    refused_formats();
    refused_children();
    refused_unions();
    errors_of_columns();
    refused_texts();
    refused_structs();
    written();
    written_extensions();
    unwritten();
    moved();
    arguments();
    if (heap_refused == 0)
        levels();
    HOLDS(heap_blocks == 0);
    HOLDS(structs_made == structs_released);
}

/* == Random types == */

/* The text of a random type, whether it can be written, and how many nodes it has. */
static char text[1 << 16];
static size_t end;
static bool is_writable;

static void put(const char *part) {
    size_t length = strlen(part);
    memcpy(text + end, part, length);
    end += length;
}

static void put_number(const char *before, long number, const char *behind) {
    end += (size_t)sprintf(text + end, "%s%ld%s", before, number, behind);
}

static void put_name(size_t at) {
    static const char *const names[] = {"b_%zu", "\"x y.%zu\"", "\xc3\xa4%zu", "column_%zu", "\"%zu\""};
    size_t form = any(sizeof names / sizeof *names);
    end += (size_t)sprintf(text + end, names[form], at);
}

static void any_type(size_t around, bool may_be_null, bool may_extend);

static void any_leaf(bool may_be_null) {
    static const char *const leaves[] = {"bool", "u8", "u16", "u32", "u64", "i8", "i16", "i32", "i64", "f16", "f32", "f64", "utf8", "binary"};
    long precision = 1 + (long)any(76);
    if (any(8) == 0)
        put_number("decimal(", precision, ","), put_number("", (long)any((size_t)precision + 129) - 128, ")");
    else
        put(leaves[any(sizeof leaves / sizeof *leaves)]);
    if (may_be_null && any(2) == 0)
        put("?");
}

static void any_time(bool may_be_null) {
    static const char *const times[] = {
        "vortex.date[0x04](i32%s)", "vortex.date[0x02](i64%s)", "vortex.time[0x03](i32%s)", "vortex.time[0x02](i32%s)",
        "vortex.time[0x01](i64%s)", "vortex.time[0x00](i64%s)", "vortex.timestamp[0x030000](i64%s)",
        "vortex.timestamp[0x020300555443](i64%s)", "vortex.timestamp[0x010200c3a4](i64%s)", "vortex.timestamp[0x000000](i64%s)",
        /* Extensions of other forms. */
        "vortex.date[0x03](i32%s)", "vortex.date[0x0400](i32%s)", "vortex.date[0x](i32%s)", "vortex.time[0x04](i32%s)",
        "vortex.timestamp[0x03](i64%s)", "vortex.timestamp[0x030100](i64%s)", "vortex.timestamp[0x030000](i32%s)",
        "vortex.timestamp[0x030100ff](i64%s)",
    };
    end += (size_t)sprintf(text + end, times[any(sizeof times / sizeof *times)], may_be_null && any(2) == 0 ? "?" : "");
}

static void any_fields(size_t around, bool have_tags) {
    size_t count = have_tags + any(any(30) == 0 ? 40 : 5), first = any(3) == 0 ? any(89) : 0, at;
    for (at = 0; at < count; at++) {
        put(at == 0 ? "" : ", ");
        put_name(at);
        if (have_tags && first != 0)
            put_number("@", (long)(first + at), "");
        put("=");
        any_type(around + 1, true, true);
    }
    if (have_tags && first != 0 && any(20) == 0) {
        put_number(", last@", 128 + (long)any(128), "=i8");
        is_writable = false;
    }
}

static void any_extension(size_t around, bool may_be_null) {
    static const char hex[] = "0123456789abcdef";
    size_t bytes = any(5) == 0 ? any(40) : any(3), at;
    put(any(2) == 0 ? "x.tag" : "\"a b\"");
    put("[0x");
    for (at = 0; at < 2 * bytes; at++) {
        char digit[] = {hex[any(16)], '\0'};
        put(digit);
    }
    put("](");
    any_type(around + 1, may_be_null, false);
    put(")");
}

static void any_type(size_t around, bool may_be_null, bool may_extend) {
    size_t kind = around >= 6 || end > sizeof text / 4 ? any(3) : any(12);
    bool is_nullable = may_be_null && any(2) == 0;
    switch (kind) {
    case 3:
        put("list("), any_type(around + 1, true, true), put(")");
        break;
    case 4:
        put("fixed_size_list("), any_type(around + 1, true, true);
        put_number(")[", any(20) == 0 ? 2147483647 : (long)any(100), "]");
        break;
    case 5:
        put("map("), any_type(around + 1, false, true), put(", "), any_type(around + 1, true, true);
        put(any(2) == 0 ? ", keys_sorted=true)" : ", keys_sorted=false)");
        break;
    case 6:
    case 7:
        put("{"), any_fields(around, false), put("}");
        break;
    case 8:
        put("union("), any_fields(around, true), put(")");
        break;
    case 9:
        if (may_extend)
            any_extension(around, may_be_null);
        else
            any_leaf(may_be_null);
        return;
    case 10:
        /* (An extension over one that is of another form can't be written.) */
        if (may_extend)
            any_time(may_be_null);
        else
            put("vortex.date[0x04](i32"), put(may_be_null && any(2) == 0 ? "?)" : ")");
        return;
    case 11:
        if (may_be_null && any(20) == 0) {
            put("variant?");
            is_writable = false;
        } else {
            put(may_be_null ? "null" : "utf8");
        }
        return;
    default:
        any_leaf(may_be_null);
        return;
    }
    put(is_nullable ? "?" : "");
}

/* A random type in a slot. */
static void any_dtype(vlt_dtype *dtype) {
    vlt_error error = VLT_EMPTY;
    end = 0;
    is_writable = true;
    any_type(0, true, true);
    text[end] = '\0';
    if (vlt_dtype_from_text((const uint8_t *)text, end, dtype, &error) != VLT_DONE) {
        printf("%s: %s\n", text, message_of(&error));
        failed++;
    }
    vlt_error_free(&error);
}

static void random_types(size_t count) {
    vlt_dtype dtype = VLT_EMPTY, again = VLT_EMPTY;
    size_t at, unwritten = 0, most = 0;
    for (at = 0; at < count; at++) {
        struct ArrowSchema schema;
        vlt_result result;
        any_dtype(&dtype);
        most = end > most ? end : most;
        result = vlt_dtype_to_arrow(&dtype, &schema, NULL);
        if (result != (is_writable ? VLT_DONE : VLT_ARROW)) {
            check(0, __LINE__, text, "the result of vlt_dtype_to_arrow");
        } else if (is_writable) {
            result = vlt_dtype_from_arrow(&schema, &again, NULL);
            if (result != VLT_DONE || vlt_dtype_eq(&dtype, &again, &answer) != VLT_DONE || !answer)
                check(0, __LINE__, text, text_of(&again));
            else
                passed++;
            schema.release(&schema);
        } else {
            unwritten++;
            passed++;
        }
    }
    vlt_dtype_free(&dtype);
    vlt_dtype_free(&again);
    HOLDS(heap_blocks == 0);
    printf("random: %zu types to Arrow and back, of which %zu can't be written; the longest text has %zu bytes\n", count, unwritten, most);
}

/* == Schemas in which something is changed == */

/* One field of a schema that isn't released, each with the same chance. */
static void pick(struct ArrowSchema *field, size_t *count, struct ArrowSchema **picked) {
    int64_t at;
    if (!field->release)
        return;
    if (any(++*count) == 0)
        *picked = field;
    for (at = 0; at < field->n_children; at++)
        if (field->children[at])
            pick(field->children[at], count, picked);
    if (field->dictionary)
        pick(field->dictionary, count, picked);
}

static struct ArrowSchema *picked_from(struct ArrowSchema *field) {
    struct ArrowSchema *picked = NULL;
    size_t count = 0;
    pick(field, &count, &picked);
    return picked;
}

static void replace(const char **text_at, const char *by) {
    free((char *)*text_at);
    *text_at = by ? copy_of_bytes(by, strlen(by) + 1) : NULL;
}

/* Changes one byte of a text, or cuts it off there. */
static void spoil(const char **text_at) {
    char *it = (char *)*text_at;
    size_t length = it ? strlen(it) : 0;
    if (length != 0)
        it[any(length)] = (char)any(256);
}

/* Changes the schema somewhere. What a change takes away is released at once. */
static void change(struct ArrowSchema *schema) {
    static const char *const formats[] = {
        "n", "b", "i", "u", "z", "w:3", "d:10,2", "d:77,1,256", "+l", "+vL", "+w:5", "+s", "+m", "+ud:0,1", "+us:0", "+r", "tdD",
        "tsm:UTC", "tiM", "tDs", "", "+", "w:", "d:", "+us:", "ts", "\xff", "vu", "tts",
    };
    struct ArrowSchema *field = picked_from(schema);
    int32_t count;
    if (!field)
        return;
    switch (any(13)) {
    case 0:
        replace(&field->format, formats[any(sizeof formats / sizeof *formats)]);
        break;
    case 1:
        spoil(&field->format);
        break;
    case 2:
        spoil(&field->name);
        break;
    case 3:
        replace(any(2) == 0 ? &field->format : &field->name, NULL);
        break;
    case 4:
        field->flags = (int64_t)((uint64_t)field->flags ^ (uint64_t)1 << any(64));
        break;
    case 5:
        field->release(field);
        break;
    case 6:
        if (field->n_children > 0) {
            struct ArrowSchema **child = &field->children[any((size_t)field->n_children)];
            if (*child)
                drop(*child);
            *child = NULL;
        }
        break;
    case 7:
        /* (a child less) */
        if (field->n_children > 0) {
            if (field->children[field->n_children - 1])
                drop(field->children[field->n_children - 1]);
            field->n_children--;
        }
        break;
    case 8:
        /* (The children aren't released then, which is done before.) */
        while (field->n_children > 0)
            if (field->children[--field->n_children])
                drop(field->children[field->n_children]);
        field->n_children = any(2) == 0 ? 0 : -1 - (int64_t)any(3);
        break;
    case 9:
        if (!field->dictionary && any(2) == 0)
            field->dictionary = LEAF(formats[any(sizeof formats / sizeof *formats)], (int64_t)any(8));
        else if (field->dictionary)
            drop(field->dictionary), field->dictionary = NULL;
        break;
    case 10:
        replace(&field->metadata, NULL);
        with_metadata(field, any(2) == 0 ? ID : ABOUT, any(2) == 0 ? "x.y" : "\xff", any(2) == 0 ? ID : "key", "", NULL);
        break;
    case 11:
        /* A count or a length that is negative. Everything else would be read. */
        if (field->metadata) {
            count = -1 - (int32_t)any(1000);
            memcpy((char *)field->metadata + 4 * any(2), &count, sizeof count);
        }
        break;
    default:
        if (field->n_children > 1) {
            struct ArrowSchema *first = field->children[0];
            field->children[0] = field->children[field->n_children - 1];
            field->children[field->n_children - 1] = first;
        }
        break;
    }
}

/* Whether a result may come. */
static bool is_expected(vlt_result result) {
    return result == VLT_DONE || result == VLT_DEEP || result == VLT_ARROW
        || (result >= VLT_ERROR_PRECISION_ZERO && result <= VLT_ERROR_SCALE_ABOVE_PRECISION)
        || result == VLT_ERROR_MAP_KEY_NULLABLE || result == VLT_ERROR_UNION_TAGS_LENGTH || result == VLT_ERROR_UNION_EMPTY
        || result == VLT_ERROR_UNION_TAGS_REPEAT || result == VLT_ERROR_UNION_NAMES_REPEAT;
}

/* Reads a schema that was changed. If it is read, then what it is read as can be written and read again, unless the type
 * is one that can't be. */
static void is_read_or_refused(const struct ArrowSchema *schema) {
    vlt_dtype dtype = VLT_EMPTY, again = VLT_EMPTY;
    vlt_error error = VLT_EMPTY;
    struct ArrowSchema made = {0};
    vlt_result result = vlt_dtype_from_arrow(schema, &dtype, &error);
    HOLDS(is_expected(result));
    HOLDS((result == VLT_DONE) == (dtype.slot.at != NULL));
    HOLDS((result == VLT_DONE) == (error.slot.at == NULL));
    if (result == VLT_DONE) {
        result = vlt_dtype_to_arrow(&dtype, &made, &error);
        HOLDS(result == VLT_DONE || result == VLT_ARROW);
        if (result == VLT_DONE) {
            HOLDS(vlt_dtype_from_arrow(&made, &again, NULL) == VLT_DONE && vlt_dtype_eq(&dtype, &again, &answer) == VLT_DONE && answer);
            made.release(&made);
        }
    }
    vlt_dtype_free(&dtype);
    vlt_dtype_free(&again);
    vlt_error_free(&error);
}

static void mutated_schemas(size_t count) {
    vlt_dtype dtype = VLT_EMPTY;
    size_t read = 0, at, changes;
    for (at = 0; at < count; at++) {
        struct ArrowSchema made, *schema;
        vlt_dtype found = VLT_EMPTY;
        do
            any_dtype(&dtype);
        while (vlt_dtype_to_arrow(&dtype, &made, NULL) != VLT_DONE);
        schema = copy_of(&made);
        HOLDS(are_equal(schema, &made));
        made.release(&made);
        for (changes = 1 + any(3); changes != 0; changes--)
            change(schema);
        is_read_or_refused(schema);
        read += vlt_dtype_from_arrow(schema, &found, NULL) == VLT_DONE;
        vlt_dtype_free(&found);
        drop(schema);
    }
    vlt_dtype_free(&dtype);
    HOLDS(heap_blocks == 0);
    HOLDS(structs_made == structs_released);
    printf("random: %zu schemas were changed, of which %zu are read; %zu structs were released once each\n", count, read, structs_released);
}

int main(int count, char **given) {
    size_t times = count > 2 ? (size_t)strtoull(given[2], NULL, 10) : 0;
    state = count > 3 ? strtoull(given[3], NULL, 10) : 1;
    if (times != 0 && strcmp(given[1], "random") == 0) {
        random_types(times);
    } else if (times != 0) {
        mutated_schemas(times);
    } else {
        all();
        if (count > 1)
            with_each_refused("arrow", all);
    }
    printf("%zu passed, %zu failed\n", passed, failed);
    return failed != 0;
}
