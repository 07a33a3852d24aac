// SPDX-License-Identifier: Apache-2.0
// SPDX-FileCopyrightText: Copyright the Vortex contributors

/* Calls each exported function, and compares what it returns and writes. C and C++ alike.
 *
 *     calls           makes all calls once
 *     calls refused   makes all calls again and again: the first time with the first allocation refused, the second time
 *                     with the second, and so on until none is refused. A call that lacks memory has to return 100 and
 *                     change nothing: it is then made again, and has to answer as ever.
 *
 * The last line is `N passed, M failed`. */
#include "../vortex_logical_types.h"
#include "heap.h"
#include "refused.h"

#include <stdio.h>
#include <stdlib.h>
#include <string.h>

#define TEXT(text) (const uint8_t *)(text), strlen(text)

/* A slot for an object of any kind. (A program has a variable of the type that it needs. Here one slot has objects of several
 * kinds, one after the other, and calls are given objects of wrong kinds.) */
typedef union {
    vlt_slot slot;
    vlt_dtype dtype;
    vlt_path path;
    vlt_path_set set;
    vlt_path_list paths;
    vlt_mask mask;
    vlt_message message;
    vlt_fields fields;
    vlt_error error;
} any;

static void check(int is_right, int line, const char *what, unsigned long long found) {
    if (is_right) {
        passed++;
        return;
    }
    failed++;
    printf("calls.c:%d: %s: %llu, with allocation %zu refused\n", line, what, found, heap_refused);
}

/* Makes a call, which if it lacks memory is made once more, and compares what it returns. */
#define IS_AT(at, wanted, call) \
    do { \
        uint32_t result = (call); \
        if (result == VLT_LIBRARY && heap_refused != 0) { \
            lacked++; \
            result = (call); \
        } \
        check(result == (uint32_t)(wanted), at, #call, result); \
    } while (0)
#define IS(wanted, call) IS_AT(__LINE__, wanted, call)
#define DONE(call) IS(VLT_DONE, call)
#define NONE(call) IS(VLT_NONE, call)
#define HOLDS(condition) check((condition) != 0, __LINE__, #condition, 0)

/* Where the questions write their answers, and the checks of a question. */
static bool answer;
#define ANSWERS(wanted, call) \
    do { \
        answer = !(wanted); \
        DONE(call); \
        check(answer == (wanted), __LINE__, #call, answer); \
    } while (0)
#define YES(call) ANSWERS(true, call)
#define NO(call) ANSWERS(false, call)

/* Whether the slot has a type of this text. A buffer of the needed length comes from malloc, so that ASan sees any byte
 * that is written past its end. */
static void has_text(any *slot, const char *wanted, int line) {
    size_t length = 0;
    uint8_t *buffer;
    IS_AT(line, VLT_SMALL, vlt_dtype_to_text(&slot->dtype, NULL, 0, &length));
    buffer = (uint8_t *)malloc(length);
    IS_AT(line, VLT_DONE, vlt_dtype_to_text(&slot->dtype, buffer, length, &length));
    check(length == strlen(wanted) && memcmp(buffer, wanted, length) == 0, line, wanted, length);
    free(buffer);
}
#define HAS(slot, wanted) has_text(slot, wanted, __LINE__)

/* The type, or the path, of a text. */
static void type_of(any *slot, const char *text) {
    DONE(vlt_dtype_from_text(TEXT(text), &slot->dtype, NULL));
}

static void path_of(any *slot, const char *text) {
    DONE(vlt_path_from_text(TEXT(text), &slot->path, NULL));
}

static void is_path(any *slot, const char *wanted, int line) {
    uint8_t buffer[100];
    size_t length = 0;
    IS_AT(line, VLT_DONE, vlt_path_to_text(&slot->path, buffer, sizeof buffer, &length));
    check(length == strlen(wanted) && memcmp(buffer, wanted, length) == 0, line, wanted, length);
}
#define IS_PATH(slot, wanted) is_path(slot, wanted, __LINE__)

/* Empties so many slots. */
static void free_all(any *slots, size_t count) {
    size_t at;
    for (at = 0; at < count; at++) {
        vlt_free(&slots[at].slot);
        HOLDS(slots[at].slot.at == NULL);
    }
}

static void general(void) {
    any s[2] = {VLT_EMPTY, VLT_EMPTY};
    uint8_t buffer[100];
    size_t length = 0;
    HOLDS(vlt_abi_version() == VLT_ABI_VERSION);
    HOLDS(vlt_kind(&s[0].slot) == VLT_OBJECT_NONE);
    type_of(&s[0], "i32");
    HOLDS(vlt_kind(&s[0].slot) == VLT_OBJECT_DTYPE);
    vlt_free(&s[0].slot);
    vlt_free(&s[0].slot);
    HOLDS(vlt_kind(&s[0].slot) == VLT_OBJECT_NONE);
    DONE(vlt_error_text(100, buffer, sizeof buffer, &length));
    HOLDS(length == 11 && memcmp(buffer, "OutOfMemory", 11) == 0);
    DONE(vlt_error_text(109, buffer, sizeof buffer, &length));
    IS(VLT_RANGE, vlt_error_text(137, buffer, sizeof buffer, &length));
    IS(VLT_RANGE, vlt_error_text(99, buffer, sizeof buffer, &length));
    free_all(s, 2);
}

/* 128 levels below a type can be made, and 129 can't. (Not with allocations refused: there are thousands.) */
static void levels(void) {
    any s[2] = {VLT_EMPTY, VLT_EMPTY}, f = VLT_EMPTY, out = VLT_EMPTY;
    size_t depth;
    uint8_t *text = (uint8_t *)malloc(6 * 129 + 2);
    for (depth = 129; depth >= 128; depth--) {
        size_t at;
        for (at = 0; at < depth; at++)
            memcpy(text + 5 * at, "list(", 5);
        memcpy(text + 5 * depth, "i8", 2);
        memset(text + 5 * depth + 2, ')', depth);
        IS(depth == 128 ? VLT_DONE : VLT_DEEP, vlt_dtype_from_text(text, 6 * depth + 2, &s[0].dtype, NULL));
    }
    free(text);
    IS(VLT_DEEP, vlt_dtype_list(&s[0].dtype, false, &s[1].dtype));
    HOLDS(s[1].slot.at == NULL);
    DONE(vlt_fields_new(&f.fields));
    DONE(vlt_fields_push(&f.fields, TEXT("a"), &s[0].dtype));
    IS(VLT_DEEP, vlt_dtype_struct(&f.fields, false, &s[1].dtype));
    IS(VLT_DEEP, vlt_dtype_union(&f.fields, NULL, 0, false, &s[1].dtype, NULL));
    IS(VLT_DEEP, vlt_dtype_union_consecutive(&f.fields, false, &s[1].dtype, NULL));
    HOLDS(s[1].slot.at == NULL);
    type_of(&s[1], "list(i8)");
    path_of(&f, "[]");
    IS(VLT_DEEP, vlt_with_type_at(&s[1].dtype, &f.path, &s[0].dtype, &out.dtype));
    HOLDS(out.slot.at == NULL);
    DONE(vlt_with_type_at(&s[0].dtype, &f.path, &s[1].dtype, &out.dtype));
    HAS(&out, "list(list(i8))");
    type_of(&f, "{a=i8}");
    IS(VLT_DEEP, vlt_struct_push_field(&f.dtype, TEXT("b"), &s[0].dtype, &s[1].dtype));
    IS(VLT_DEEP, vlt_struct_with_field(&f.dtype, TEXT("a"), &s[0].dtype, &s[1].dtype));
    IS(VLT_DEEP, vlt_struct_with_field_at(&f.dtype, 9, TEXT("b"), &s[0].dtype, &s[1].dtype, NULL));
    HAS(&s[1], "list(i8)");
    free_all(s, 2);
    free_all(&f, 1);
    free_all(&out, 1);
}

/* 256 variants can be made without tags, and 257 can't. (Not with allocations refused: there are hundreds.) */
static void variants(void) {
    any s[2] = {VLT_EMPTY, VLT_EMPTY}, f = VLT_EMPTY;
    size_t count;
    DONE(vlt_fields_new(&f.fields));
    DONE(vlt_dtype_null(&s[1].dtype));
    for (count = 1; count <= 257; count++) {
        char name[8];
        DONE(vlt_fields_push(&f.fields, (const uint8_t *)name, (size_t)sprintf(name, "%u", (unsigned)count), &s[1].dtype));
        if (count >= 256)
            IS(count == 256 ? VLT_DONE : VLT_ERROR_UNION_TOO_MANY, vlt_dtype_union_consecutive(&f.fields, false, &s[0].dtype, NULL));
    }
    for (count = 256; count <= 257; count++) {
        char text[257 * 10 + 10] = "union(";
        size_t at, length = 6;
        for (at = 0; at < count; at++)
            length += (size_t)sprintf(text + length, "v%u=i8%s", (unsigned)at, at + 1 < count ? ", " : ")");
        if (count == 256)
            DONE(vlt_dtype_from_text((const uint8_t *)text, length, &s[0].dtype, NULL));
        else
            IS(114, vlt_dtype_from_text((const uint8_t *)text, length, &s[0].dtype, NULL));
    }
    free_all(s, 2);
    free_all(&f, 1);
}

/* The texts of a type, in buffers of every length, and what can't be read. */
static void texts(void) {
    any s[2] = {VLT_EMPTY, VLT_EMPTY};
    const char *text = "{a=list(i32?), \"b c\"=utf8}?";
    size_t length, room, needed = strlen(text);
    type_of(&s[0], text);
    for (room = 0; room <= needed + 1; room++) {
        uint8_t *buffer = (uint8_t *)malloc(room + 1);
        memset(buffer, 'x', room + 1);
        length = 99;
        IS(room < needed ? VLT_SMALL : VLT_DONE, vlt_dtype_to_text(&s[0].dtype, buffer, room, &length));
        HOLDS(length == needed);
        HOLDS(room < needed ? buffer[0] == 'x' : memcmp(buffer, text, needed) == 0);
        HOLDS(room < needed || buffer[needed] == 'x');
        free(buffer);
    }
    HAS(&s[0], text);
    IS(VLT_UNREADABLE, vlt_dtype_from_text(TEXT("{a=i33}"), &s[0].dtype, NULL));
    IS(VLT_UNREADABLE, vlt_dtype_from_text(NULL, 0, &s[0].dtype, NULL));
    IS(101, vlt_dtype_from_text(TEXT("decimal(0,0)"), &s[0].dtype, NULL));
    IS(102, vlt_dtype_from_text(TEXT("list(decimal(77,0))"), &s[0].dtype, NULL));
    IS(103, vlt_dtype_from_text(TEXT("decimal(76,77)"), &s[0].dtype, NULL));
    IS(104, vlt_dtype_from_text(TEXT("decimal(1,2)"), &s[0].dtype, NULL));
    IS(VLT_ERROR_MAP_KEY_NULLABLE, vlt_dtype_from_text(TEXT("{a=map(utf8?, i8, keys_sorted=true)}"), &s[0].dtype, NULL));
    IS(112, vlt_dtype_from_text(TEXT("union()"), &s[0].dtype, NULL));
    IS(113, vlt_dtype_from_text(TEXT("union(a@1=i8, b@1=i8)"), &s[0].dtype, NULL));
    IS(115, vlt_dtype_from_text(TEXT("union(a=i8, a=i8)"), &s[0].dtype, NULL));
    if (heap_refused == 0)
        variants();
    IS(VLT_UTF8, vlt_dtype_from_text(TEXT("{a\xff=i32}"), &s[0].dtype, NULL));
    IS(VLT_RANGE, vlt_dtype_from_text(NULL, 1, &s[0].dtype, NULL));
    HAS(&s[0], text);
    /* (a name of a zero byte) */
    DONE(vlt_dtype_from_text((const uint8_t *)"{\"a\0b\"=i32}", 11, &s[1].dtype, NULL));
    DONE(vlt_struct_find(&s[1].dtype, (const uint8_t *)"a\0b", 3, &length));
    if (heap_refused == 0)
        levels();
    type_of(&s[1], "{\"a, b\"=i32}");
    IS(VLT_SMALL, vlt_dtype_display(&s[1].dtype, NULL, 0, &length));
    HOLDS(length == 10);
    free_all(s, 2);
}

static void constructors(void) {
    any s[4] = {VLT_EMPTY, VLT_EMPTY, VLT_EMPTY, VLT_EMPTY};
    DONE(vlt_dtype_null(&s[0].dtype));
    HAS(&s[0], "null");
    DONE(vlt_dtype_bool(true, &s[0].dtype));
    HAS(&s[0], "bool?");
    DONE(vlt_dtype_primitive(VLT_PTYPE_F64, false, &s[0].dtype));
    HAS(&s[0], "f64");
    IS(VLT_RANGE, vlt_dtype_primitive(11, false, &s[0].dtype));
    DONE(vlt_dtype_decimal(10, -2, false, &s[1].dtype, NULL));
    HAS(&s[1], "decimal(10,-2)");
    IS(101, vlt_dtype_decimal(0, 0, false, &s[0].dtype, NULL));
    IS(102, vlt_dtype_decimal(77, 0, false, &s[0].dtype, NULL));
    IS(103, vlt_dtype_decimal(76, 77, false, &s[0].dtype, NULL));
    IS(104, vlt_dtype_decimal(3, 4, false, &s[0].dtype, NULL));
    DONE(vlt_dtype_utf8(false, &s[2].dtype));
    HAS(&s[2], "utf8");
    DONE(vlt_dtype_binary(true, &s[0].dtype));
    HAS(&s[0], "binary?");
    DONE(vlt_dtype_variant(false, &s[0].dtype));
    HAS(&s[0], "variant");
    DONE(vlt_dtype_list(&s[1].dtype, true, &s[0].dtype));
    HAS(&s[0], "list(decimal(10,-2))?");
    HAS(&s[1], "decimal(10,-2)");
    DONE(vlt_dtype_fixed_size_list(&s[1].dtype, 20, false, &s[0].dtype));
    HAS(&s[0], "fixed_size_list(decimal(10,-2))[20]");
    DONE(vlt_dtype_map(&s[2].dtype, &s[1].dtype, true, true, &s[0].dtype, NULL));
    HAS(&s[0], "map(utf8, decimal(10,-2), keys_sorted=true)?");
    DONE(vlt_dtype_bool(true, &s[3].dtype));
    IS(VLT_ERROR_MAP_KEY_NULLABLE, vlt_dtype_map(&s[3].dtype, &s[1].dtype, true, true, &s[0].dtype, NULL));
    DONE(vlt_dtype_extension(TEXT("x.tag"), (const uint8_t *)"a\0b", 3, &s[2].dtype, &s[0].dtype));
    HAS(&s[0], "x.tag[0x610062](utf8)");
    vlt_free(&s[1].slot);
    IS(VLT_KIND, vlt_dtype_list(&s[1].dtype, false, &s[0].dtype));
    HAS(&s[0], "x.tag[0x610062](utf8)");
    free_all(s, 4);
}

static void parts(void) {
    any s[3] = {VLT_EMPTY, VLT_EMPTY, VLT_EMPTY};
    uint32_t number = 77;
    uint8_t precision = 0, buffer[16];
    int8_t scale = 0;
    size_t size = 77;
    type_of(&s[0], "fixed_size_list(i32)[3]?");
    DONE(vlt_dtype_kind(&s[0].dtype, &number));
    HOLDS(number == VLT_DTYPE_FIXED_SIZE_LIST);
    YES(vlt_dtype_is_nullable(&s[0].dtype, &answer));
    YES(vlt_dtype_can_be_nonnullable(&s[0].dtype, &answer));
    DONE(vlt_dtype_with_nullability(&s[0].dtype, false, &s[1].dtype));
    HAS(&s[1], "fixed_size_list(i32)[3]");
    NO(vlt_dtype_is_nullable(&s[1].dtype, &answer));
    DONE(vlt_dtype_union_nullability(&s[1].dtype, true, &s[2].dtype));
    HAS(&s[2], "fixed_size_list(i32)[3]?");
    DONE(vlt_dtype_fixed_size(&s[0].dtype, &number));
    HOLDS(number == 3);
    DONE(vlt_dtype_element(&s[0].dtype, &s[1].dtype));
    HAS(&s[1], "i32");
    DONE(vlt_dtype_ptype(&s[1].dtype, &number));
    HOLDS(number == VLT_PTYPE_I32);
    NONE(vlt_dtype_ptype(&s[0].dtype, &number));
    NONE(vlt_dtype_element(&s[1].dtype, &s[2].dtype));
    NONE(vlt_dtype_fixed_size(&s[1].dtype, &number));
    NONE(vlt_dtype_decimal_parts(&s[1].dtype, &precision, &scale));
    HAS(&s[2], "fixed_size_list(i32)[3]?");
    DONE(vlt_dtype_element_size(&s[1].dtype, &size, NULL));
    HOLDS(size == 4);
    type_of(&s[0], "decimal(10,-2)");
    DONE(vlt_dtype_decimal_parts(&s[0].dtype, &precision, &scale));
    HOLDS(precision == 10 && scale == -2);
    type_of(&s[0], "null");
    NO(vlt_dtype_can_be_nonnullable(&s[0].dtype, &answer));
    IS(VLT_CONDITION, vlt_dtype_with_nullability(&s[0].dtype, false, &s[1].dtype));
    type_of(&s[0], "map(utf8, i32?, keys_sorted=true)");
    DONE(vlt_dtype_key(&s[0].dtype, &s[1].dtype));
    HAS(&s[1], "utf8");
    NONE(vlt_dtype_element_size(&s[1].dtype, &size, NULL));
    DONE(vlt_dtype_value(&s[0].dtype, &s[1].dtype));
    HAS(&s[1], "i32?");
    YES(vlt_dtype_keys_sorted(&s[0].dtype, &answer));
    IS(VLT_CONDITION, vlt_dtype_keys_sorted(&s[1].dtype, &answer));
    DONE(vlt_dtype_entries(&s[0].dtype, &s[1].dtype));
    HAS(&s[1], "{key=utf8, value=i32?}");
    NONE(vlt_dtype_key(&s[1].dtype, &s[2].dtype));
    NONE(vlt_dtype_value(&s[1].dtype, &s[2].dtype));
    NONE(vlt_dtype_entries(&s[1].dtype, &s[2].dtype));
    NONE(vlt_dtype_storage(&s[1].dtype, &s[2].dtype));
    NONE(vlt_dtype_id(&s[1].dtype, buffer, sizeof buffer, &size));
    NONE(vlt_dtype_metadata(&s[1].dtype, buffer, sizeof buffer, &size));
    type_of(&s[0], "x.tag[0x610062](utf8)");
    DONE(vlt_dtype_storage(&s[0].dtype, &s[1].dtype));
    HAS(&s[1], "utf8");
    DONE(vlt_dtype_id(&s[0].dtype, buffer, sizeof buffer, &size));
    HOLDS(size == 5 && memcmp(buffer, "x.tag", 5) == 0);
    DONE(vlt_dtype_metadata(&s[0].dtype, buffer, sizeof buffer, &size));
    HOLDS(size == 3 && memcmp(buffer, "a\0b", 3) == 0);
    free_all(s, 3);
}

static void comparisons(void) {
    any s[4] = {VLT_EMPTY, VLT_EMPTY, VLT_EMPTY, VLT_EMPTY};
    uint64_t one = 1, other = 2;
    type_of(&s[0], "{a=i32, b=utf8?}");
    type_of(&s[1], "{a=i32?, b=utf8}");
    DONE(vlt_dtype_copy(&s[0].dtype, &s[2].dtype));
    YES(vlt_dtype_eq(&s[0].dtype, &s[2].dtype, &answer));
    NO(vlt_dtype_eq(&s[0].dtype, &s[1].dtype, &answer));
    YES(vlt_dtype_eq_ignore_nullability(&s[0].dtype, &s[1].dtype, &answer));
    DONE(vlt_dtype_hash(&s[0].dtype, &one));
    DONE(vlt_dtype_hash(&s[2].dtype, &other));
    HOLDS(one == other);
    DONE(vlt_dtype_hash_ignore_nullability(&s[0].dtype, &one));
    DONE(vlt_dtype_hash_ignore_nullability(&s[1].dtype, &other));
    HOLDS(one == other);
    DONE(vlt_dtype_merge_nullability(&s[0].dtype, &s[1].dtype, &s[2].dtype));
    HAS(&s[2], "{a=i32?, b=utf8?}");
    YES(vlt_dtype_nullability_subset(&s[0].dtype, &s[2].dtype, &answer));
    NO(vlt_dtype_nullability_subset(&s[2].dtype, &s[0].dtype, &answer));
    YES(vlt_dtype_nullability_superset(&s[2].dtype, &s[0].dtype, &answer));
    DONE(vlt_dtype_intersect_nullability(&s[0].dtype, &s[1].dtype, &s[2].dtype));
    HAS(&s[2], "{a=i32, b=utf8}");
    type_of(&s[3], "i64");
    NONE(vlt_dtype_merge_nullability(&s[0].dtype, &s[3].dtype, &s[2].dtype));
    NONE(vlt_dtype_intersect_nullability(&s[0].dtype, &s[3].dtype, &s[2].dtype));
    HAS(&s[2], "{a=i32, b=utf8}");
    IS(VLT_SAME_SLOT, vlt_dtype_merge_nullability(&s[0].dtype, &s[2].dtype, &s[2].dtype));
    IS(VLT_SAME_SLOT, vlt_dtype_merge_nullability(&s[2].dtype, &s[0].dtype, &s[2].dtype));
    HAS(&s[0], "{a=i32, b=utf8?}");
    HAS(&s[2], "{a=i32, b=utf8}");
    free_all(s, 4);
}

/* One type for the schemas of two files, and where there is none. */
static void merging(void) {
    any s[5] = {VLT_EMPTY, VLT_EMPTY, VLT_EMPTY, VLT_EMPTY, VLT_EMPTY};
    uint8_t buffer[8];
    size_t length = 0;
    type_of(&s[0], "{a=i32, b=list({x=u8})}");
    type_of(&s[1], "{c=utf8, b=list({y=u8}), a=i32?}");
    DONE(vlt_dtype_merge_columns(&s[0].dtype, &s[1].dtype, &s[2].dtype));
    HAS(&s[2], "{a=i32?, b=list({x=u8?, y=u8?}), c=utf8?}");
    NONE(vlt_dtype_merge_conflict(&s[0].dtype, &s[1].dtype, &s[2].path, &s[3].dtype, &s[4].dtype));
    HAS(&s[2], "{a=i32?, b=list({x=u8?, y=u8?}), c=utf8?}");
    type_of(&s[0], "{u=union(x@5={a=u8}), r={a=u8, a={b=u8}}}");
    type_of(&s[1], "{r={a=u8, a={c=u8}}, u=union(x@5={b=u8})}");
    DONE(vlt_dtype_merge_columns(&s[0].dtype, &s[1].dtype, &s[2].dtype));
    HAS(&s[2], "{u=union(x@5={a=u8?, b=u8?}), r={a=u8, a={b=u8?, c=u8?}}}");
    type_of(&s[0], "{a=i32, b=list({x=u8})}");
    type_of(&s[1], "{b=list({x=f64}), a=i32}");
    NONE(vlt_dtype_merge_columns(&s[0].dtype, &s[1].dtype, &s[2].dtype));
    DONE(vlt_dtype_merge_conflict(&s[0].dtype, &s[1].dtype, &s[2].path, &s[3].dtype, &s[4].dtype));
    DONE(vlt_path_to_text(&s[2].path, buffer, sizeof buffer, &length));
    HOLDS(length == 6 && memcmp(buffer, "b.[].x", 6) == 0);
    HAS(&s[3], "u8");
    HAS(&s[4], "f64");
    IS(VLT_KIND, vlt_dtype_merge_columns(&s[0].dtype, &s[2].dtype, &s[3].dtype));
    IS(VLT_KIND, vlt_dtype_merge_conflict(&s[2].dtype, &s[0].dtype, &s[1].path, &s[3].dtype, &s[4].dtype));
    IS(VLT_SAME_SLOT, vlt_dtype_merge_conflict(&s[0].dtype, &s[1].dtype, &s[2].path, &s[3].dtype, &s[3].dtype));
    HAS(&s[3], "u8");
    free_all(s, 5);
}

/* A call that stores the types of all fields or variants in slots. */
typedef vlt_result storing(const vlt_dtype *dtype, vlt_dtype *types, size_t types_len, size_t *count);

/* Makes such a call. If it lacks memory, it leaves the slots as they were. */
static void all_types(storing *store, any *dtype, any *types, size_t types_len) {
    void *had[4];
    size_t at, count = 77;
    vlt_result result;
    for (at = 0; at < types_len; at++)
        had[at] = types[at].slot.at;
    result = store(&dtype->dtype, &types->dtype, types_len, &count);
    if (result == VLT_LIBRARY && heap_refused != 0) {
        lacked++;
        HOLDS(count == 77);
        for (at = 0; at < types_len; at++)
            HOLDS(types[at].slot.at == had[at]);
        result = store(&dtype->dtype, &types->dtype, types_len, &count);
    }
    HOLDS(result == VLT_DONE);
}

/* All names and all types of a struct, each in one call. */
static void all_fields(void) {
    any s[2] = {VLT_EMPTY, VLT_EMPTY}, t[4] = {VLT_EMPTY, VLT_EMPTY, VLT_EMPTY, VLT_EMPTY};
    size_t number = 77, count = 77, lengths[4] = {7, 7, 7, 7};
    uint8_t buffer[16];
    memset(buffer, '-', sizeof buffer);
    type_of(&s[0], "{id=u64, city=utf8?, id=list(i8)}");
    DONE(vlt_struct_names(&s[0].dtype, buffer, sizeof buffer, &number, lengths, 4, &count));
    HOLDS(number == 8 && memcmp(buffer, "idcityid-", 9) == 0);
    HOLDS(count == 3 && lengths[0] == 2 && lengths[1] == 4 && lengths[2] == 2 && lengths[3] == 7);
    number = count = 77;
    IS(VLT_SMALL, vlt_struct_names(&s[0].dtype, buffer, 7, &number, lengths, 3, &count));
    HOLDS(number == 8 && count == 3);
    number = count = 77;
    IS(VLT_SMALL, vlt_struct_names(&s[0].dtype, buffer, 8, &number, lengths, 2, &count));
    HOLDS(number == 8 && count == 3);
    IS(VLT_SMALL, vlt_struct_names(&s[0].dtype, NULL, 0, &number, NULL, 0, &count));
    IS(VLT_RANGE, vlt_struct_names(&s[0].dtype, buffer, 8, &number, NULL, 3, &count));
    DONE(vlt_struct_names(&s[0].dtype, buffer, 8, &number, lengths, 3, &count));
    type_of(&t[0], "bool");
    type_of(&t[3], "f16");
    IS(VLT_SMALL, vlt_struct_types(&s[0].dtype, &t->dtype, 2, &count));
    HOLDS(count == 3 && t[1].slot.at == NULL);
    HAS(&t[0], "bool");
    all_types(vlt_struct_types, &s[0], t, 4);
    HAS(&t[0], "u64");
    HAS(&t[1], "utf8?");
    HAS(&t[2], "list(i8)");
    HAS(&t[3], "f16");
    all_types(vlt_struct_types, &s[0], t, 3);
    HAS(&t[2], "list(i8)");
    HAS(&s[0], "{id=u64, city=utf8?, id=list(i8)}");
    IS(VLT_SAME_SLOT, vlt_struct_types(&t[1].dtype, &t->dtype, 4, &count));
    type_of(&s[1], "{}");
    DONE(vlt_struct_names(&s[1].dtype, NULL, 0, &number, NULL, 0, &count));
    HOLDS(number == 0 && count == 0);
    DONE(vlt_struct_types(&s[1].dtype, NULL, 0, &count));
    HOLDS(count == 0);
    type_of(&s[1], "i32");
    IS(VLT_CONDITION, vlt_struct_names(&s[1].dtype, buffer, 8, &number, lengths, 3, &count));
    IS(VLT_CONDITION, vlt_struct_types(&s[1].dtype, &t->dtype, 4, &count));
    path_of(&s[1], "a");
    IS(VLT_KIND, vlt_struct_names(&s[1].dtype, buffer, 8, &number, lengths, 3, &count));
    IS(VLT_KIND, vlt_struct_types(&s[1].dtype, &t->dtype, 4, &count));
    HAS(&t[3], "f16");
    free_all(s, 2);
    free_all(t, 4);
}

/* All names and all types of a union, each in one call. */
static void all_variants(void) {
    any s[2] = {VLT_EMPTY, VLT_EMPTY}, t[2] = {VLT_EMPTY, VLT_EMPTY};
    size_t number = 77, count = 77, lengths[2] = {7, 7};
    uint8_t buffer[16];
    type_of(&s[0], "union(number@5=i64, text@9={a=utf8})");
    DONE(vlt_union_names(&s[0].dtype, buffer, sizeof buffer, &number, lengths, 2, &count));
    HOLDS(number == 10 && memcmp(buffer, "numbertext", 10) == 0);
    HOLDS(count == 2 && lengths[0] == 6 && lengths[1] == 4);
    IS(VLT_SMALL, vlt_union_names(&s[0].dtype, buffer, sizeof buffer, &number, lengths, 1, &count));
    all_types(vlt_union_types, &s[0], t, 2);
    HAS(&t[0], "i64");
    HAS(&t[1], "{a=utf8}");
    IS(VLT_SMALL, vlt_union_types(&s[0].dtype, &t->dtype, 1, &count));
    HOLDS(count == 2);
    IS(VLT_CONDITION, vlt_union_names(&t[1].dtype, buffer, sizeof buffer, &number, lengths, 2, &count));
    IS(VLT_CONDITION, vlt_union_types(&t[1].dtype, &s[1].dtype, 1, &count));
    IS(VLT_KIND, vlt_union_names(&s[1].dtype, buffer, sizeof buffer, &number, lengths, 2, &count));
    IS(VLT_KIND, vlt_union_types(&s[1].dtype, &t->dtype, 2, &count));
    HAS(&t[0], "i64");
    free_all(s, 2);
    free_all(t, 2);
}

static void structs(void) {
    any s[3] = {VLT_EMPTY, VLT_EMPTY, VLT_EMPTY};
    const size_t lengths[2] = {1, 1};
    size_t number = 77;
    uint8_t buffer[64];
    type_of(&s[0], "{a=i32, b=utf8?, a=f64}");
    DONE(vlt_struct_nfields(&s[0].dtype, &number));
    HOLDS(number == 3);
    DONE(vlt_struct_field_name(&s[0].dtype, 1, buffer, sizeof buffer, &number));
    HOLDS(number == 1 && buffer[0] == 'b');
    NONE(vlt_struct_field_name(&s[0].dtype, 3, buffer, sizeof buffer, &number));
    NONE(vlt_struct_field_name(&s[0].dtype, SIZE_MAX, buffer, sizeof buffer, &number));
    DONE(vlt_struct_field_by_index(&s[0].dtype, 2, &s[1].dtype));
    HAS(&s[1], "f64");
    NONE(vlt_struct_field_by_index(&s[0].dtype, 3, &s[1].dtype));
    DONE(vlt_struct_find(&s[0].dtype, TEXT("a"), &number));
    HOLDS(number == 0);
    NONE(vlt_struct_find(&s[0].dtype, NULL, 0, &number));
    IS(VLT_UTF8, vlt_struct_find(&s[0].dtype, TEXT("\xff"), &number));
    DONE(vlt_struct_field(&s[0].dtype, TEXT("a"), &s[1].dtype));
    HAS(&s[1], "i32");
    NONE(vlt_struct_field(&s[0].dtype, TEXT("c"), &s[1].dtype));
    DONE(vlt_struct_project(&s[0].dtype, TEXT("ba"), lengths, 2, &s[1].dtype, NULL));
    HAS(&s[1], "{b=utf8?, a=i32}");
    IS(VLT_ERROR_FIELD_NOT_FOUND, vlt_struct_project(&s[0].dtype, TEXT("bc"), lengths, 2, &s[1].dtype, NULL));
    DONE(vlt_struct_without_field(&s[0].dtype, 0, &s[1].dtype, NULL));
    HAS(&s[1], "{b=utf8?, a=f64}");
    IS(117, vlt_struct_without_field(&s[0].dtype, 3, &s[1].dtype, NULL));
    type_of(&s[0], "{c=i8}");
    DONE(vlt_struct_disjoint_merge(&s[0].dtype, &s[1].dtype, &s[2].dtype, NULL));
    HAS(&s[2], "{c=i8, b=utf8?, a=f64}");
    IS(118, vlt_struct_disjoint_merge(&s[0].dtype, &s[2].dtype, &s[1].dtype, NULL));
    HAS(&s[1], "{b=utf8?, a=f64}");
    DONE(vlt_struct_indented(&s[0].dtype, buffer, sizeof buffer, &number));
    type_of(&s[0], "i32");
    IS(VLT_CONDITION, vlt_struct_nfields(&s[0].dtype, &number));
    IS(VLT_CONDITION, vlt_struct_field_by_index(&s[0].dtype, 0, &s[1].dtype));
    IS(VLT_CONDITION, vlt_struct_find(&s[0].dtype, TEXT("a"), &number));
    IS(VLT_CONDITION, vlt_struct_disjoint_merge(&s[1].dtype, &s[0].dtype, &s[2].dtype, NULL));
    free_all(s, 3);
}

static void unions(void) {
    any s[2] = {VLT_EMPTY, VLT_EMPTY};
    size_t number = 77;
    uint8_t buffer[16], tag = 77;
    type_of(&s[0], "union(a@5=i32, b@9=utf8)");
    DONE(vlt_union_len(&s[0].dtype, &number));
    HOLDS(number == 2);
    DONE(vlt_union_variant_name(&s[0].dtype, 1, buffer, sizeof buffer, &number));
    HOLDS(number == 1 && buffer[0] == 'b');
    NONE(vlt_union_variant_name(&s[0].dtype, 2, buffer, sizeof buffer, &number));
    DONE(vlt_union_variant_by_index(&s[0].dtype, 1, &s[1].dtype));
    HAS(&s[1], "utf8");
    NONE(vlt_union_variant_by_index(&s[0].dtype, 2, &s[1].dtype));
    DONE(vlt_union_find(&s[0].dtype, TEXT("b"), &number));
    HOLDS(number == 1);
    NONE(vlt_union_find(&s[0].dtype, TEXT("c"), &number));
    DONE(vlt_union_variant(&s[0].dtype, TEXT("a"), &s[1].dtype));
    HAS(&s[1], "i32");
    NONE(vlt_union_variant(&s[0].dtype, TEXT("c"), &s[1].dtype));
    DONE(vlt_union_child_index_to_tag(&s[0].dtype, 1, &tag));
    HOLDS(tag == 9);
    NONE(vlt_union_child_index_to_tag(&s[0].dtype, 2, &tag));
    DONE(vlt_union_tag_to_child_index(&s[0].dtype, 9, &number));
    HOLDS(number == 1);
    NONE(vlt_union_tag_to_child_index(&s[0].dtype, 6, &number));
    NO(vlt_union_is_consecutive(&s[0].dtype, &answer));
    IS(VLT_CONDITION, vlt_union_len(&s[1].dtype, &number));
    IS(VLT_CONDITION, vlt_union_is_consecutive(&s[1].dtype, &answer));
    free_all(s, 2);
}

static void paths(void) {
    any s[4] = {VLT_EMPTY, VLT_EMPTY, VLT_EMPTY, VLT_EMPTY};
    const size_t lengths[3] = {1, VLT_ELEMENT, 1}, long_lengths[2] = {2, 1};
    size_t number = 77;
    uint8_t buffer[64];
    uint64_t one = 1, other = 2;
    DONE(vlt_path_root(&s[0].path));
    IS_PATH(&s[0], ".");
    DONE(vlt_path_from_steps(TEXT("ab"), lengths, 3, &s[0].path));
    IS_PATH(&s[0], "a.[].b");
    IS(VLT_RANGE, vlt_path_from_steps(TEXT("abc"), lengths, 3, &s[1].path));
    IS(VLT_RANGE, vlt_path_from_steps(TEXT("a"), lengths, 3, &s[1].path));
    IS(VLT_UTF8, vlt_path_from_steps(TEXT("a\xff"), lengths, 3, &s[1].path));
    /* (the first of several faults) */
    IS(VLT_UTF8, vlt_path_from_steps(TEXT("\xff"), lengths, 3, &s[1].path));
    IS(VLT_UTF8, vlt_path_from_steps(TEXT("a\xff" "b"), lengths, 3, &s[1].path));
    IS(VLT_RANGE, vlt_path_from_steps(TEXT("\xff"), long_lengths, 2, &s[1].path));
    HOLDS(s[1].slot.at == NULL);
    path_of(&s[1], "a.[].b");
    YES(vlt_path_eq(&s[0].path, &s[1].path, &answer));
    DONE(vlt_path_hash(&s[0].path, &one));
    DONE(vlt_path_hash(&s[1].path, &other));
    HOLDS(one == other);
    IS(VLT_UNREADABLE, vlt_path_from_text(TEXT("a..b"), &s[1].path, NULL));
    DONE(vlt_path_display(&s[0].path, buffer, sizeof buffer, &number));
    HOLDS(number == 8 && memcmp(buffer, "$a.[].$b", 8) == 0);
    DONE(vlt_path_len(&s[0].path, &number));
    HOLDS(number == 3);
    DONE(vlt_path_step(&s[0].path, 0, buffer, sizeof buffer, &number));
    HOLDS(number == 1 && buffer[0] == 'a');
    DONE(vlt_path_step(&s[0].path, 1, NULL, 0, &number));
    HOLDS(number == VLT_ELEMENT);
    NONE(vlt_path_step(&s[0].path, 3, buffer, sizeof buffer, &number));
    DONE(vlt_path_push_name(&s[0].path, TEXT("c"), &s[1].path));
    IS_PATH(&s[1], "a.[].b.c");
    NO(vlt_path_eq(&s[0].path, &s[1].path, &answer));
    YES(vlt_path_overlap(&s[0].path, &s[1].path, &answer));
    YES(vlt_path_overlap(&s[1].path, &s[0].path, &answer));
    DONE(vlt_path_push_element(&s[0].path, &s[1].path));
    IS_PATH(&s[1], "a.[].b.[]");
    DONE(vlt_path_step_into(&s[0].path, &s[1].path));
    IS_PATH(&s[1], "[].b");
    IS(VLT_CONDITION, vlt_path_starts_with_name(&s[1].path, TEXT("a"), &answer));
    YES(vlt_path_starts_with_name(&s[0].path, TEXT("a"), &answer));
    NO(vlt_path_starts_with_name(&s[0].path, TEXT("b"), &answer));
    NO(vlt_path_overlap(&s[0].path, &s[1].path, &answer));
    DONE(vlt_path_copy(&s[0].path, &s[1].path));
    IS_PATH(&s[1], "a.[].b");
    type_of(&s[2], "{a=list({b=u32})?}");
    DONE(vlt_path_resolve(&s[2].dtype, &s[0].path, &s[3].dtype));
    HAS(&s[3], "u32");
    YES(vlt_path_exists_in(&s[2].dtype, &s[0].path, &answer));
    DONE(vlt_path_root(&s[0].path));
    NONE(vlt_path_step_into(&s[0].path, &s[1].path));
    NO(vlt_path_starts_with_name(&s[0].path, TEXT("a"), &answer));
    path_of(&s[0], "b");
    NONE(vlt_path_resolve(&s[2].dtype, &s[0].path, &s[3].dtype));
    HAS(&s[3], "u32");
    NO(vlt_path_exists_in(&s[2].dtype, &s[0].path, &answer));
    IS(VLT_KIND, vlt_path_resolve(&s[0].dtype, &s[2].path, &s[3].dtype));
    IS(VLT_SAME_SLOT, vlt_path_resolve(&s[2].dtype, &s[0].path, &s[2].dtype));
    IS(VLT_SAME_SLOT, vlt_path_resolve(&s[2].dtype, &s[0].path, &s[0].dtype));
    IS(VLT_KIND, vlt_path_exists_in(&s[0].dtype, &s[0].path, &answer));
    free_all(s, 4);
}

static void masks(void) {
    any s[4] = {VLT_EMPTY, VLT_EMPTY, VLT_EMPTY, VLT_EMPTY};
    uint32_t kind = 77;
    uint8_t buffer[16];
    size_t length = 77;
    path_of(&s[0], "a.b");
    DONE(vlt_mask_prefix(&s[0].path, &s[1].mask));
    DONE(vlt_mask_kind(&s[1].mask, &kind));
    HOLDS(kind == VLT_MASK_PREFIX);
    DONE(vlt_mask_path(&s[1].mask, &s[2].path));
    IS_PATH(&s[2], "a.b");
    DONE(vlt_mask_starting_field(&s[1].mask, buffer, sizeof buffer, &length, NULL));
    HOLDS(length == 1 && buffer[0] == 'a');
    NO(vlt_mask_matches_all(&s[1].mask, &answer));
    DONE(vlt_mask_step_into(&s[1].mask, &s[2].mask, NULL));
    DONE(vlt_mask_step_into(&s[2].mask, &s[3].mask, NULL));
    YES(vlt_mask_matches_all(&s[3].mask, &answer));
    YES(vlt_mask_matches_root(&s[3].mask, &answer));
    DONE(vlt_mask_all(&s[2].mask));
    NONE(vlt_mask_path(&s[2].mask, &s[0].path));
    IS(121, vlt_mask_starting_field(&s[2].mask, buffer, sizeof buffer, &length, NULL));
    DONE(vlt_mask_copy(&s[1].mask, &s[3].mask));
    YES(vlt_mask_eq(&s[1].mask, &s[3].mask, &answer));
    NO(vlt_mask_eq(&s[1].mask, &s[2].mask, &answer));
    DONE(vlt_path_root(&s[0].path));
    DONE(vlt_mask_exact(&s[0].path, &s[1].mask));
    DONE(vlt_mask_kind(&s[1].mask, &kind));
    HOLDS(kind == VLT_MASK_EXACT);
    YES(vlt_mask_matches_root(&s[1].mask, &answer));
    NONE(vlt_mask_starting_field(&s[1].mask, buffer, sizeof buffer, &length, NULL));
    IS(120, vlt_mask_step_into(&s[1].mask, &s[2].mask, NULL));
    path_of(&s[0], "[]");
    DONE(vlt_mask_exact(&s[0].path, &s[1].mask));
    DONE(vlt_mask_starting_field(&s[1].mask, NULL, 0, &length, NULL));
    HOLDS(length == VLT_ELEMENT);
    free_all(s, 4);
}

/* The paths of a list, in the order of their texts. */
static void is_list(any *list, const char *wanted, int line) {
    any path = VLT_EMPTY;
    char texts[8][32] = {{0}}, all[256] = "", *last = all;
    size_t count = 0, at, other;
    IS_AT(line, VLT_DONE, vlt_paths_len(&list->paths, &count));
    if (count > 8)
        count = 8;
    for (at = 0; at < count; at++) {
        size_t length = 0;
        IS_AT(line, VLT_DONE, vlt_paths_get(&list->paths, at, &path.path));
        IS_AT(line, VLT_DONE, vlt_path_to_text(&path.path, (uint8_t *)texts[at], 31, &length));
        for (other = at; other > 0 && strcmp(texts[other - 1], texts[other]) > 0; other--) {
            char swapped[32];
            memcpy(swapped, texts[other], 32);
            memcpy(texts[other], texts[other - 1], 32);
            memcpy(texts[other - 1], swapped, 32);
        }
    }
    IS_AT(line, VLT_NONE, vlt_paths_get(&list->paths, count, &path.path));
    for (at = 0; at < count; at++)
        last += sprintf(last, "%s ", texts[at]);
    check(strcmp(all, wanted) == 0, line, all, count);
    vlt_free(&path.slot);
}
#define IS_LIST(list, wanted) is_list(list, wanted, __LINE__)

static void sets(void) {
    any s[4] = {VLT_EMPTY, VLT_EMPTY, VLT_EMPTY, VLT_EMPTY}, p[3] = {VLT_EMPTY, VLT_EMPTY, VLT_EMPTY};
    size_t number = 77;
    bool is_end = false, has_element = false;
    DONE(vlt_set_new(&s[0].set));
    path_of(&s[1], "a.b");
    DONE(vlt_set_insert(&s[0].set, &s[1].path));
    DONE(vlt_set_insert(&s[0].set, &s[1].path));
    YES(vlt_set_contains(&s[0].set, &s[1].path, &answer));
    path_of(&s[1], "a");
    NO(vlt_set_contains(&s[0].set, &s[1].path, &answer));
    path_of(&p[0], "x");
    path_of(&p[1], "a");
    path_of(&p[2], "a.[].c");
    DONE(vlt_set_extend(&s[0].set, &p->path, 3, &number));
    HOLDS(number == 3);
    IS_PATH(&p[2], "a.[].c");
    DONE(vlt_set_extend(&s[0].set, NULL, 0, &number));
    HOLDS(number == 0);
    IS(VLT_SAME_SLOT, vlt_set_extend(&p[1].set, &p->path, 3, &number));
    DONE(vlt_set_len(&s[0].set, &number));
    HOLDS(number == 4);
    DONE(vlt_set_members(&s[0].set, &s[1].paths));
    IS_LIST(&s[1], "a a.[].c a.b x ");
    DONE(vlt_set_cover(&s[0].set, &s[2].paths));
    IS_LIST(&s[2], "a x ");
    DONE(vlt_paths_get(&s[2].paths, 1, &p[0].path));
    DONE(vlt_paths_take(&s[2].paths, 1, &p[1].path));
    YES(vlt_path_eq(&p[0].path, &p[1].path, &answer));
    NONE(vlt_paths_take(&s[2].paths, 2, &p[0].path));
    NONE(vlt_paths_take(&s[2].paths, SIZE_MAX, &p[0].path));
    YES(vlt_path_eq(&p[0].path, &p[1].path, &answer));
    DONE(vlt_paths_take(&s[2].paths, 0, &p[0].path));
    IS_LIST(&s[2], ". . ");
    NO(vlt_path_eq(&p[0].path, &p[1].path, &answer));
    DONE(vlt_paths_take(&s[2].paths, 1, &p[0].path));
    IS_PATH(&p[0], ".");
    IS(VLT_KIND, vlt_paths_take(&s[0].paths, 0, &p[0].path));
    path_of(&p[0], "x");
    path_of(&p[1], "a");
    DONE(vlt_set_new(&s[3].set));
    DONE(vlt_set_extend_from_list(&s[3].set, &s[1].paths));
    DONE(vlt_set_len(&s[3].set, &number));
    HOLDS(number == 4);
    DONE(vlt_set_copy(&s[0].set, &s[3].set));
    YES(vlt_set_contains(&s[3].set, &p[2].path, &answer));
    path_of(&s[1], "a");
    DONE(vlt_set_below(&s[0].set, &s[1].path, &is_end, &has_element, &number));
    HOLDS(is_end && has_element && number == 1);
    DONE(vlt_set_names_below(&s[0].set, &s[1].path, &s[2].paths));
    IS_LIST(&s[2], "b ");
    path_of(&s[1], "y");
    NONE(vlt_set_below(&s[0].set, &s[1].path, &is_end, &has_element, &number));
    NONE(vlt_set_names_below(&s[0].set, &s[1].path, &s[2].paths));
    IS_LIST(&s[2], "b ");
    type_of(&s[1], "{a=list({c=u32, d=i8})?, y=i64}");
    DONE(vlt_set_unresolved(&s[0].set, &s[1].dtype, &s[2].paths));
    IS_LIST(&s[2], "a.b x ");
    DONE(vlt_set_new(&s[3].set));
    DONE(vlt_set_insert(&s[3].set, &p[2].path));
    DONE(vlt_project_paths(&s[1].dtype, &s[3].set, &s[2].dtype));
    HAS(&s[2], "{a=list({c=u32})?}");
    DONE(vlt_set_new(&s[3].set));
    NONE(vlt_project_paths(&s[1].dtype, &s[3].set, &s[2].dtype));
    DONE(vlt_without_paths(&s[1].dtype, &s[3].set, &s[2].dtype));
    HAS(&s[2], "{a=list({c=u32, d=i8})?, y=i64}");
    DONE(vlt_set_insert(&s[3].set, &p[2].path));
    DONE(vlt_without_paths(&s[1].dtype, &s[3].set, &s[2].dtype));
    HAS(&s[2], "{a=list({d=i8})?, y=i64}");
    path_of(&s[2], ".");
    DONE(vlt_set_insert(&s[3].set, &s[2].path));
    NONE(vlt_without_paths(&s[1].dtype, &s[3].set, &s[2].dtype));
    IS(VLT_KIND, vlt_set_insert(&s[1].set, &p[0].path));
    IS(VLT_KIND, vlt_set_insert(&s[0].set, &s[1].path));
    vlt_free(&p[1].slot);
    IS(VLT_KIND, vlt_set_extend(&s[0].set, &p->path, 3, &number));
    free_all(s, 4);
    free_all(p, 3);
}

static void set_relations(void) {
    any s[4] = {VLT_EMPTY, VLT_EMPTY, VLT_EMPTY, VLT_EMPTY}, path = VLT_EMPTY;
    size_t number = 77;
    DONE(vlt_set_new(&s[0].set));
    DONE(vlt_set_new(&s[1].set));
    YES(vlt_set_eq(&s[0].set, &s[1].set, &answer));
    path_of(&path, "a.b");
    DONE(vlt_set_insert(&s[0].set, &path.path));
    NO(vlt_set_eq(&s[0].set, &s[1].set, &answer));
    YES(vlt_set_is_subset(&s[1].set, &s[0].set, &answer));
    NO(vlt_set_is_subset(&s[0].set, &s[1].set, &answer));
    path_of(&path, "c");
    DONE(vlt_set_insert(&s[1].set, &path.path));
    YES(vlt_set_is_disjoint(&s[0].set, &s[1].set, &answer));
    DONE(vlt_set_union(&s[0].set, &s[1].set, &s[2].set));
    DONE(vlt_set_len(&s[2].set, &number));
    HOLDS(number == 2);
    NO(vlt_set_is_disjoint(&s[1].set, &s[2].set, &answer));
    YES(vlt_set_is_subset(&s[1].set, &s[2].set, &answer));
    IS(VLT_SAME_SLOT, vlt_set_union(&s[0].set, &s[1].set, &s[1].set));
    IS(VLT_KIND, vlt_set_is_subset(&path.set, &s[0].set, &answer));
    IS(VLT_KIND, vlt_set_union(&s[0].set, &s[3].set, &s[2].set));
    free_all(s, 4);
    free_all(&path, 1);
}

/* The leaves of a type, and the type with the part at a path replaced. */
static void edits(void) {
    any s[3] = {VLT_EMPTY, VLT_EMPTY, VLT_EMPTY}, path = VLT_EMPTY, set = VLT_EMPTY;
    type_of(&s[0], "{a=list({c=u32, d={}})?, b=map(utf8, i8, keys_sorted=true), a=utf8}");
    DONE(vlt_leaf_paths(&s[0].dtype, &set.set));
    DONE(vlt_set_members(&set.set, &path.paths));
    IS_LIST(&path, "a.[].c a.[].d b ");
    IS(VLT_SAME_SLOT, vlt_leaf_paths(&s[0].dtype, &s[0].set));
    IS(VLT_KIND, vlt_leaf_paths(&path.dtype, &set.set));
    type_of(&s[1], "i64?");
    path_of(&path, "a.[].c");
    DONE(vlt_with_type_at(&s[0].dtype, &path.path, &s[1].dtype, &s[2].dtype));
    HAS(&s[2], "{a=list({c=i64?, d={}})?, b=map(utf8, i8, keys_sorted=true), a=utf8}");
    path_of(&path, "a");
    DONE(vlt_with_type_at(&s[0].dtype, &path.path, &s[0].dtype, &s[2].dtype));
    HAS(&s[2], "{a={a=list({c=u32, d={}})?, b=map(utf8, i8, keys_sorted=true), a=utf8}, b=map(utf8, i8, keys_sorted=true), a=utf8}");
    path_of(&path, "b.[]");
    NONE(vlt_with_type_at(&s[0].dtype, &path.path, &s[1].dtype, &s[2].dtype));
    path_of(&path, ".");
    DONE(vlt_with_type_at(&s[0].dtype, &path.path, &s[1].dtype, &s[2].dtype));
    HAS(&s[2], "i64?");
    IS(VLT_SAME_SLOT, vlt_with_type_at(&s[0].dtype, &path.path, &s[1].dtype, &s[1].dtype));
    IS(VLT_SAME_SLOT, vlt_with_type_at(&s[0].dtype, &path.path, &s[1].dtype, &path.dtype));
    IS(VLT_KIND, vlt_with_type_at(&s[0].dtype, &s[0].path, &s[1].dtype, &s[2].dtype));
    IS(VLT_KIND, vlt_with_type_at(&s[0].dtype, &path.path, &path.dtype, &s[2].dtype));
    IS(VLT_KIND, vlt_with_type_at(&s[0].dtype, &path.path, &set.dtype, &s[2].dtype));
    HAS(&s[2], "i64?");
    free_all(s, 3);
    free_all(&path, 1);
    free_all(&set, 1);
}

/* An error tells this number and this position (of which 0 is none), and its message contains this text. */
static void is_error(any *slot, uint32_t number, size_t position, const char *wanted, int line) {
    uint8_t buffer[300] = {0};
    uint32_t found = 77;
    size_t at = 77, length = 0;
    IS_AT(line, number == 77 ? VLT_NONE : VLT_DONE, vlt_error_number(&slot->error, &found));
    check(found == number, line, "number", found);
    IS_AT(line, position == 0 ? VLT_NONE : VLT_DONE, vlt_error_position(&slot->error, &at));
    check(position == 0 || at == position, line, "position", at);
    IS_AT(line, VLT_SMALL, vlt_error_message(&slot->error, NULL, 0, &length));
    IS_AT(line, VLT_DONE, vlt_error_message(&slot->error, buffer, sizeof buffer - 1, &length));
    check(strstr((const char *)buffer, wanted) != NULL, line, (const char *)buffer, length);
}
#define IS_ERROR(slot, number, position, wanted) is_error(slot, number, position, wanted, __LINE__)

/* Fields, and the structs and unions that are made of them. If a call doesn't return 0, the fields stay as they were. This is
 * also so if it lacks memory: then it is made again, and no name is there twice. */
static void fields(void) {
    any s[3] = {VLT_EMPTY, VLT_EMPTY, VLT_EMPTY}, f = VLT_EMPTY, none = VLT_EMPTY, why = VLT_EMPTY;
    const uint8_t tags[3] = {5, 9, 5}, others[3] = {5, 9, 7};
    type_of(&s[1], "decimal(10,-2)");
    type_of(&s[2], "{c=utf8}");
    DONE(vlt_fields_new(&none.fields));
    DONE(vlt_fields_new(&f.fields));
    HOLDS(vlt_kind(&f.slot) == VLT_OBJECT_FIELDS);
    DONE(vlt_dtype_struct(&f.fields, true, &s[0].dtype));
    HAS(&s[0], "{}?");
    DONE(vlt_fields_push(&f.fields, TEXT("a"), &s[1].dtype));
    DONE(vlt_fields_push(&f.fields, NULL, 0, &s[2].dtype));
    IS(VLT_UTF8, vlt_fields_push(&f.fields, TEXT("b\xff"), &s[1].dtype));
    IS(VLT_RANGE, vlt_fields_push(&f.fields, NULL, 1, &s[1].dtype));
    IS(VLT_KIND, vlt_fields_push(&f.fields, TEXT("b"), &why.dtype));
    IS(VLT_KIND, vlt_fields_push(&f.fields, TEXT("b"), &none.dtype));
    IS(VLT_KIND, vlt_fields_push(&why.fields, TEXT("b"), &s[1].dtype));
    IS(VLT_KIND, vlt_fields_push(&s[2].fields, TEXT("b"), &s[1].dtype));
    IS(VLT_SAME_SLOT, vlt_fields_push(&f.fields, TEXT("b"), &f.dtype));
    HAS(&s[1], "decimal(10,-2)");
    HAS(&s[2], "{c=utf8}");
    DONE(vlt_dtype_struct(&f.fields, false, &s[0].dtype));
    HAS(&s[0], "{a=decimal(10,-2), \"\"={c=utf8}}");
    DONE(vlt_dtype_union_consecutive(&f.fields, true, &s[0].dtype, NULL));
    HAS(&s[0], "union(a=decimal(10,-2), \"\"={c=utf8})?");
    DONE(vlt_dtype_union(&f.fields, tags, 2, false, &s[0].dtype, NULL));
    HAS(&s[0], "union(a@5=decimal(10,-2), \"\"@9={c=utf8})");
    IS(VLT_ERROR_UNION_TAGS_LENGTH, vlt_dtype_union(&f.fields, tags, 3, false, &s[0].dtype, &why.error));
    IS_ERROR(&why, 11, 0, "union names and type_ids length mismatch");
    IS(VLT_ERROR_UNION_EMPTY, vlt_dtype_union(&none.fields, NULL, 0, false, &s[0].dtype, &why.error));
    IS_ERROR(&why, 12, 0, "union must have at least one variant");
    IS(VLT_ERROR_UNION_EMPTY, vlt_dtype_union_consecutive(&none.fields, false, &s[0].dtype, NULL));
    DONE(vlt_fields_push(&f.fields, TEXT("a"), &s[2].dtype));
    IS(VLT_ERROR_UNION_TAGS_REPEAT, vlt_dtype_union(&f.fields, tags, 3, false, &s[0].dtype, &why.error));
    IS_ERROR(&why, 13, 0, "type_ids must be distinct");
    IS(VLT_ERROR_UNION_NAMES_REPEAT, vlt_dtype_union(&f.fields, others, 3, false, &s[0].dtype, &why.error));
    IS_ERROR(&why, 15, 0, "union variant names must be distinct");
    IS(VLT_ERROR_UNION_NAMES_REPEAT, vlt_dtype_union_consecutive(&f.fields, false, &s[0].dtype, NULL));
    IS(VLT_KIND, vlt_dtype_struct(&s[1].fields, false, &s[0].dtype));
    IS(VLT_KIND, vlt_dtype_union(&why.fields, tags, 3, false, &s[0].dtype, NULL));
    IS(VLT_KIND, vlt_dtype_union_consecutive(&s[1].fields, false, &s[0].dtype, NULL));
    IS(VLT_SAME_SLOT, vlt_dtype_struct(&f.fields, false, &f.dtype));
    IS(VLT_SAME_SLOT, vlt_dtype_union(&f.fields, others, 3, false, &s[0].dtype, &f.error));
    IS(VLT_RANGE, vlt_dtype_union(&f.fields, NULL, 3, false, &s[0].dtype, NULL));
    HAS(&s[0], "union(a@5=decimal(10,-2), \"\"@9={c=utf8})");
    DONE(vlt_dtype_struct(&f.fields, false, &s[0].dtype));
    HAS(&s[0], "{a=decimal(10,-2), \"\"={c=utf8}, a={c=utf8}}");
    free_all(s, 3);
    free_all(&f, 1);
    free_all(&none, 1);
    free_all(&why, 1);
}

/* One object that is passed twice to a call that only reads it. The call copies it for a moment, and keeps none. */
static void passed_twice(void) {
    size_t asked;
    any s[7] = {VLT_EMPTY, VLT_EMPTY, VLT_EMPTY, VLT_EMPTY, VLT_EMPTY, VLT_EMPTY, VLT_EMPTY};
    type_of(&s[0], "{a=i32, b=list(utf8?)}");
    path_of(&s[1], "b.[]");
    DONE(vlt_set_new(&s[2].set));
    DONE(vlt_set_insert(&s[2].set, &s[1].path));
    DONE(vlt_mask_prefix(&s[1].path, &s[3].mask));
    YES(vlt_dtype_eq(&s[0].dtype, &s[0].dtype, &answer));
    YES(vlt_dtype_eq_ignore_nullability(&s[0].dtype, &s[0].dtype, &answer));
    YES(vlt_dtype_nullability_subset(&s[0].dtype, &s[0].dtype, &answer));
    YES(vlt_dtype_nullability_superset(&s[0].dtype, &s[0].dtype, &answer));
    asked = heap_asked;
    YES(vlt_path_eq(&s[1].path, &s[1].path, &answer));
    HOLDS(heap_asked > asked);
    YES(vlt_path_overlap(&s[1].path, &s[1].path, &answer));
    YES(vlt_set_eq(&s[2].set, &s[2].set, &answer));
    YES(vlt_set_is_subset(&s[2].set, &s[2].set, &answer));
    NO(vlt_set_is_disjoint(&s[2].set, &s[2].set, &answer));
    YES(vlt_mask_eq(&s[3].mask, &s[3].mask, &answer));
    DONE(vlt_dtype_merge_nullability(&s[0].dtype, &s[0].dtype, &s[4].dtype));
    HAS(&s[4], "{a=i32, b=list(utf8?)}");
    DONE(vlt_dtype_intersect_nullability(&s[0].dtype, &s[0].dtype, &s[4].dtype));
    DONE(vlt_dtype_merge_columns(&s[0].dtype, &s[0].dtype, &s[5].dtype));
    YES(vlt_dtype_eq(&s[4].dtype, &s[5].dtype, &answer));
    NONE(vlt_dtype_merge_conflict(&s[0].dtype, &s[0].dtype, &s[1].path, &s[4].dtype, &s[5].dtype));
    IS(VLT_ERROR_DUPLICATE_NAMES, vlt_struct_disjoint_merge(&s[0].dtype, &s[0].dtype, &s[4].dtype, &s[6].error));
    DONE(vlt_dtype_map(&s[0].dtype, &s[0].dtype, false, false, &s[4].dtype, &s[6].error));
    HAS(&s[4], "map({a=i32, b=list(utf8?)}, {a=i32, b=list(utf8?)}, keys_sorted=false)");
    DONE(vlt_set_union(&s[2].set, &s[2].set, &s[5].set));
    YES(vlt_set_eq(&s[2].set, &s[5].set, &answer));
    /* (what is written may not be what is read, and an empty slot stays one) */
    IS(VLT_SAME_SLOT, vlt_dtype_merge_columns(&s[0].dtype, &s[0].dtype, &s[0].dtype));
    IS(VLT_KIND, vlt_set_contains(&s[2].set, (vlt_path *)&s[2], &answer));
    vlt_dtype_free(&s[4].dtype);
    answer = true;
    IS(VLT_KIND, vlt_dtype_eq(&s[4].dtype, &s[4].dtype, &answer));
    HOLDS(answer);
    HAS(&s[0], "{a=i32, b=list(utf8?)}");
    free_all(s, 7);
}

/* Stores an error in the slot. */
static void fails(any *slot) {
    any dtype = VLT_EMPTY;
    IS(VLT_ERROR_PRECISION_ZERO, vlt_dtype_decimal(0, 0, false, &dtype.dtype, &slot->error));
    HOLDS(slot->slot.at != NULL);
}

/* Errors with their data. Each call that takes an error first empties its slot, whatever it returns then. */
static void errors(void) {
    any s[3] = {VLT_EMPTY, VLT_EMPTY, VLT_EMPTY}, why = VLT_EMPTY, path = VLT_EMPTY;
    const size_t lengths[2] = {1, 1};
    uint32_t number = 77;
    size_t length = 77;
    IS(VLT_KIND, vlt_error_number(&why.error, &number));
    IS(VLT_KIND, vlt_error_position(&why.error, &length));
    IS(VLT_KIND, vlt_error_message(&why.error, NULL, 0, &length));
    IS(102, vlt_dtype_decimal(77, 0, false, &s[0].dtype, &why.error));
    HOLDS(vlt_kind(&why.slot) == VLT_OBJECT_ERROR && s[0].slot.at == NULL);
    IS_ERROR(&why, 2, 0, "decimal precision 77 exceeds MAX_PRECISION 76");
    DONE(vlt_dtype_from_text(TEXT("{a=i32, b=utf8?}"), &s[0].dtype, &why.error));
    HOLDS(why.slot.at == NULL);
    fails(&why);
    IS(VLT_UTF8, vlt_dtype_from_text(TEXT("\xff"), &s[1].dtype, &why.error));
    HOLDS(why.slot.at == NULL);
    fails(&why);
    IS(VLT_KIND, vlt_dtype_map(&s[0].dtype, &s[1].dtype, false, false, &s[2].dtype, &why.error));
    HOLDS(why.slot.at == NULL);
    fails(&why);
    IS(VLT_RANGE, vlt_dtype_from_text(NULL, 1, &s[1].dtype, &why.error));
    HOLDS(why.slot.at == NULL);
    fails(&why);
    IS(VLT_SAME_SLOT, vlt_dtype_map(&s[0].dtype, &s[1].dtype, false, false, &s[0].dtype, &why.error));
    HOLDS(why.slot.at == NULL);
    IS(VLT_ERROR_FIELD_NOT_FOUND, vlt_struct_project(&s[0].dtype, TEXT("bc"), lengths, 2, &s[1].dtype, &why.error));
    IS_ERROR(&why, 16, 0, "field 1 of the projection not found");
    IS(VLT_UNREADABLE, vlt_dtype_from_text(TEXT("{a=i33}"), &s[1].dtype, &why.error));
    IS_ERROR(&why, 77, 4, "expected a type");
    IS(VLT_UNREADABLE, vlt_path_from_text(TEXT("a..b"), &path.path, &why.error));
    IS_ERROR(&why, 77, 3, "expected");
    IS(VLT_UNREADABLE, vlt_path_from_text(TEXT("a[0]"), &path.path, &why.error));
    IS_ERROR(&why, 77, 2, "expected the end of the text, found `[`; [] is a step of its own, for example in a.[].b");
    IS(VLT_UNREADABLE, vlt_path_from_text(TEXT("a/b"), &path.path, &why.error));
    IS_ERROR(&why, 77, 2, "expected the end of the text, found `/`; steps are joined by dots, for example a.[].b");
    IS(VLT_SAME_SLOT, vlt_dtype_decimal(1, 0, false, &s[1].dtype, (vlt_error *)&s[1]));
    IS(VLT_SAME_SLOT, vlt_dtype_map(&s[0].dtype, &s[1].dtype, false, false, &s[2].dtype, (vlt_error *)&s[0]));
    HAS(&s[0], "{a=i32, b=utf8?}");
    vlt_error_free(&why.error);
    vlt_error_free(&why.error);
    vlt_error_free(NULL);
    free_all(s, 3);
    free_all(&path, 1);
    free_all(&why, 1);
}

/* A field more, and another type of a field. */
static void added_fields(void) {
    any s[3] = {VLT_EMPTY, VLT_EMPTY, VLT_EMPTY}, why = VLT_EMPTY;
    type_of(&s[0], "{a=i32, b=utf8?, a=f64}?");
    type_of(&s[1], "u8?");
    DONE(vlt_struct_push_field(&s[0].dtype, TEXT("a"), &s[1].dtype, &s[2].dtype));
    HAS(&s[2], "{a=i32, b=utf8?, a=f64, a=u8?}?");
    DONE(vlt_struct_with_field(&s[0].dtype, TEXT("a"), &s[1].dtype, &s[2].dtype));
    HAS(&s[2], "{a=u8?, b=utf8?, a=f64}?");
    DONE(vlt_struct_with_field(&s[0].dtype, NULL, 0, &s[1].dtype, &s[2].dtype));
    HAS(&s[2], "{a=i32, b=utf8?, a=f64, \"\"=u8?}?");
    DONE(vlt_struct_with_field_at(&s[0].dtype, 0, TEXT("c"), &s[1].dtype, &s[2].dtype, NULL));
    HAS(&s[2], "{c=u8?, a=i32, b=utf8?, a=f64}?");
    DONE(vlt_struct_with_field_at(&s[0].dtype, 3, TEXT("c"), &s[1].dtype, &s[2].dtype, &why.error));
    HAS(&s[2], "{a=i32, b=utf8?, a=f64, c=u8?}?");
    IS(117, vlt_struct_with_field_at(&s[0].dtype, 4, TEXT("c"), &s[1].dtype, &s[2].dtype, &why.error));
    IS_ERROR(&why, 17, 0, "index 4 out of bounds for struct with 3 fields");
    IS(VLT_UTF8, vlt_struct_with_field_at(&s[0].dtype, SIZE_MAX, TEXT("\xff"), &s[1].dtype, &s[2].dtype, &why.error));
    HOLDS(why.slot.at == NULL);
    IS(VLT_UTF8, vlt_struct_push_field(&s[0].dtype, TEXT("\xff"), &s[1].dtype, &s[2].dtype));
    IS(VLT_UTF8, vlt_struct_with_field(&s[0].dtype, TEXT("\xff"), &s[1].dtype, &s[2].dtype));
    IS(VLT_CONDITION, vlt_struct_push_field(&s[1].dtype, TEXT("a"), &s[0].dtype, &s[2].dtype));
    IS(VLT_CONDITION, vlt_struct_with_field(&s[1].dtype, TEXT("a"), &s[0].dtype, &s[2].dtype));
    IS(VLT_CONDITION, vlt_struct_with_field_at(&s[1].dtype, 0, TEXT("a"), &s[0].dtype, &s[2].dtype, NULL));
    IS(VLT_KIND, vlt_struct_push_field(&s[0].dtype, TEXT("a"), &why.dtype, &s[2].dtype));
    IS(VLT_SAME_SLOT, vlt_struct_with_field(&s[0].dtype, TEXT("a"), &s[1].dtype, &s[0].dtype));
    HAS(&s[2], "{a=i32, b=utf8?, a=f64, c=u8?}?");
    DONE(vlt_struct_with_field(&s[0].dtype, TEXT("b"), &s[0].dtype, &s[2].dtype));
    HAS(&s[2], "{a=i32, b={a=i32, b=utf8?, a=f64}?, a=f64}?");
    free_all(s, 3);
    free_all(&why, 1);
}

/* Other names of fields. The names are pairs of an old and a new one. */
static void renamed_fields(void) {
    any s[2] = {VLT_EMPTY, VLT_EMPTY}, path = VLT_EMPTY;
    const size_t lengths[4] = {1, 1, 1, 1}, uneven[4] = {1, 2, 0, 1};
    type_of(&s[0], "{a=i32, b=utf8?, c=f64}?");
    path_of(&path, "a");
    DONE(vlt_struct_with_fields_renamed_allowing_repeats(&s[0].dtype, TEXT("abba"), lengths, 4, &s[1].dtype));
    HAS(&s[1], "{b=i32, a=utf8?, c=f64}?");
    DONE(vlt_struct_with_fields_renamed_allowing_repeats(&s[0].dtype, TEXT("axay"), lengths, 4, &s[1].dtype));
    HAS(&s[1], "{x=i32, b=utf8?, c=f64}?");
    DONE(vlt_struct_with_fields_renamed_allowing_repeats(&s[0].dtype, TEXT("bxyz"), uneven, 4, &s[1].dtype));
    HAS(&s[1], "{a=i32, xy=utf8?, c=f64}?");
    DONE(vlt_struct_with_fields_renamed_allowing_repeats(&s[0].dtype, NULL, 0, NULL, 0, &s[1].dtype));
    HAS(&s[1], "{a=i32, b=utf8?, c=f64}?");
    DONE(vlt_struct_with_fields_renamed_allowing_repeats(&s[0].dtype, TEXT("acba"), lengths, 4, &s[1].dtype));
    HAS(&s[1], "{c=i32, a=utf8?, c=f64}?");
    DONE(vlt_struct_with_fields_renamed_allowing_repeats(&s[1].dtype, TEXT("cd"), lengths, 2, &s[0].dtype));
    HAS(&s[0], "{d=i32, a=utf8?, d=f64}?");
    IS(VLT_RANGE, vlt_struct_with_fields_renamed_allowing_repeats(&s[0].dtype, TEXT("aba"), lengths, 3, &s[1].dtype));
    IS(VLT_RANGE, vlt_struct_with_fields_renamed_allowing_repeats(&s[0].dtype, TEXT("abb"), lengths, 4, &s[1].dtype));
    IS(VLT_RANGE, vlt_struct_with_fields_renamed_allowing_repeats(&s[0].dtype, TEXT("abc"), lengths, 2, &s[1].dtype));
    IS(VLT_UTF8, vlt_struct_with_fields_renamed_allowing_repeats(&s[0].dtype, TEXT("a\xff"), lengths, 2, &s[1].dtype));
    IS(VLT_KIND, vlt_struct_with_fields_renamed_allowing_repeats(&path.dtype, TEXT("ab"), lengths, 2, &s[1].dtype));
    IS(VLT_SAME_SLOT, vlt_struct_with_fields_renamed_allowing_repeats(&s[0].dtype, TEXT("ab"), lengths, 2, &s[0].dtype));
    type_of(&s[0], "i32");
    IS(VLT_CONDITION, vlt_struct_with_fields_renamed_allowing_repeats(&s[0].dtype, TEXT("ab"), lengths, 2, &s[1].dtype));
    HAS(&s[1], "{c=i32, a=utf8?, c=f64}?");
    free_all(s, 2);
    free_all(&path, 1);
}

/* The message of the type of a text. */
static void message_of(any *slot, const char *text) {
    any dtype = VLT_EMPTY;
    type_of(&dtype, text);
    DONE(vlt_dtype_to_message(&dtype.dtype, &slot->message));
    vlt_dtype_free(&dtype.dtype);
}

static void messages(void) {
    any s[4] = {VLT_EMPTY, VLT_EMPTY, VLT_EMPTY, VLT_EMPTY};
    const vlt_node unknown[3] = {{VLT_DTYPE_EXTENSION, 0, 0, 1, 0, 0, 0, 0, 0, 0},
                                 {14, 0, 0, 0, 0, 0, 0, 0, 5, 0},
                                 {VLT_DTYPE_UTF8, 0, 0, 0, 0, 0, 0, 0, 0, 0}};
    const vlt_node no_types[2] = {{VLT_DTYPE_STRUCT, 0, 0, 0, 0, 1, 0, 0, 0, 0}, {14, 0, 0, 0, 0, 0, 0, 0, 1, 0}};
    const vlt_node none[1] = {{0, 0, 0, 0, 0, 0, 0, 0, 0, 0}};
    message_of(&s[0], "{a=list(i32)?}");
    HOLDS(vlt_kind(&s[0].slot) == VLT_OBJECT_MESSAGE);
    DONE(vlt_message_to_dtype(&s[0].message, false, &s[1].dtype, NULL));
    HAS(&s[1], "{a=list(i32)?}");
    DONE(vlt_dtype_to_message(&s[1].dtype, &s[2].message));
    YES(vlt_message_eq(&s[0].message, &s[2].message, &answer));
    DONE(vlt_message_copy(&s[0].message, &s[3].message));
    YES(vlt_message_eq(&s[0].message, &s[3].message, &answer));
    DONE(vlt_message_from_nodes(unknown, 3, TEXT("x.tag"), &s[2].message));
    NO(vlt_message_eq(&s[0].message, &s[2].message, &answer));
    IS(135, vlt_message_to_dtype(&s[2].message, false, &s[1].dtype, NULL));
    IS(135, vlt_message_normal(&s[2].message, false, &s[1].message, NULL));
    HAS(&s[1], "{a=list(i32)?}");
    DONE(vlt_message_to_dtype(&s[2].message, true, &s[1].dtype, NULL));
    HAS(&s[1], "x.tag[0x](utf8)");
    DONE(vlt_message_normal(&s[2].message, true, &s[3].message, NULL));
    NO(vlt_message_eq(&s[2].message, &s[3].message, &answer));
    DONE(vlt_dtype_to_message(&s[1].dtype, &s[2].message));
    YES(vlt_message_eq(&s[2].message, &s[3].message, &answer));
    DONE(vlt_message_from_nodes(none, 1, NULL, 0, &s[2].message));
    IS(124, vlt_message_to_dtype(&s[2].message, true, &s[1].dtype, NULL));
    DONE(vlt_message_from_nodes(no_types, 2, TEXT("a"), &s[2].message));
    IS(132, vlt_message_normal(&s[2].message, true, &s[1].message, NULL));
    YES(vlt_message_eq(&s[2].message, &s[2].message, &answer));
    IS(VLT_SAME_SLOT, vlt_message_to_dtype(&s[2].message, true, &s[2].dtype, NULL));
    IS(VLT_KIND, vlt_message_to_dtype(&s[1].message, true, &s[2].dtype, NULL));
    IS(VLT_KIND, vlt_dtype_to_message(&s[2].dtype, &s[1].message));
    free_all(s, 4);
}

/* The flat form of a message, into buffers of every length, and nodes that are those of no message. */
static void nodes(void) {
    any s[2] = {VLT_EMPTY, VLT_EMPTY};
    const vlt_node wanted[4] = {{11, 1, 0, 0, 0, 1, 1, 1, 0, 0},
                                {14, 0, 0, 0, 0, 0, 0, 0, 2, 0},
                                {15, 0, 0, 0, 0, 0, 0, 0, 0, 7},
                                {4, 0, 0, 0, 0, 0, 0, 0, 10, -2}};
    const char *text = "union(id@7=decimal(10,-2))?";
    vlt_node found[5];
    uint8_t texts[3];
    size_t count, length, room, text_room;
    type_of(&s[0], text);
    DONE(vlt_dtype_to_message(&s[0].dtype, &s[1].message));
    for (room = 0; room <= 5; room++)
        for (text_room = 0; text_room <= 3; text_room++) {
            int fits = room >= 4 && text_room >= 2;
            memset(found, 'x', sizeof found);
            memset(texts, 'x', sizeof texts);
            count = length = 99;
            IS(fits ? VLT_DONE : VLT_SMALL,
               vlt_message_to_nodes(&s[1].message, room ? found : NULL, room, &count, text_room ? texts : NULL, text_room, &length));
            HOLDS(count == 4 && length == 2);
            HOLDS(fits ? memcmp(found, wanted, sizeof wanted) == 0 : found[0].nullable == 'x');
            HOLDS(fits ? memcmp(texts, "idx", 3) == 0 : texts[0] == 'x');
            HOLDS(found[4].nullable == 'x' && texts[2] == 'x');
        }
    DONE(vlt_message_from_nodes(wanted, 4, TEXT("id"), &s[0].message));
    YES(vlt_message_eq(&s[0].message, &s[1].message, &answer));
    DONE(vlt_message_to_dtype(&s[0].message, false, &s[1].dtype, NULL));
    HAS(&s[1], text);
    IS(VLT_RANGE, vlt_message_from_nodes(wanted, 3, TEXT("id"), &s[1].message));
    IS(VLT_RANGE, vlt_message_from_nodes(wanted + 1, 3, TEXT("id"), &s[1].message));
    IS(VLT_RANGE, vlt_message_from_nodes(wanted, 4, TEXT("ids"), &s[1].message));
    IS(VLT_RANGE, vlt_message_from_nodes(wanted, 4, TEXT("i"), &s[1].message));
    IS(VLT_RANGE, vlt_message_from_nodes(NULL, 0, NULL, 0, &s[1].message));
    IS(VLT_RANGE, vlt_message_from_nodes(NULL, 1, NULL, 0, &s[1].message));
    IS(VLT_UTF8, vlt_message_from_nodes(wanted, 4, TEXT("i\xff"), &s[1].message));
    HAS(&s[1], text);
    /* (one message of no kind) */
    memset(found, 0, sizeof found);
    DONE(vlt_message_from_nodes(found, 1, NULL, 0, &s[0].message));
    IS(124, vlt_message_to_dtype(&s[0].message, true, &s[1].dtype, NULL));
    HAS(&s[1], text);
    IS(VLT_KIND, vlt_message_to_nodes(&s[1].message, found, 5, &count, texts, 3, &length));
    free_all(s, 2);
}

/* Messages that are nested in 128 others, and in 129. */
static void nested_messages(void) {
    any s[2] = {VLT_EMPTY, VLT_EMPTY};
    vlt_node lists[130];
    size_t at;
    memset(lists, 0, sizeof lists);
    for (at = 0; at < 129; at++) {
        lists[at].kind = 7;
        lists[at].has_first = 1;
    }
    lists[129].kind = 2;
    IS(VLT_DEEP, vlt_message_from_nodes(lists, 130, NULL, 0, &s[0].message));
    DONE(vlt_message_from_nodes(lists + 1, 129, NULL, 0, &s[0].message));
    DONE(vlt_message_to_dtype(&s[0].message, false, &s[1].dtype, NULL));
    IS(VLT_DEEP, vlt_dtype_list(&s[1].dtype, false, &s[0].dtype));
    free_all(s, 2);
}

static void path_messages(void) {
    any s = VLT_EMPTY;
    const size_t lengths[2] = {1, 2}, without_kind[2] = {1, VLT_ELEMENT};
    DONE(vlt_path_from_message(TEXT("abc"), lengths, 2, &s.path, NULL));
    IS_PATH(&s, "a.bc");
    IS(136, vlt_path_from_message(TEXT("a"), without_kind, 2, &s.path, NULL));
    /* (a fault of the names comes before a part without a kind) */
    IS(VLT_RANGE, vlt_path_from_message(TEXT("ab"), without_kind, 2, &s.path, NULL));
    IS(VLT_UTF8, vlt_path_from_message(TEXT("\xff"), without_kind, 2, &s.path, NULL));
    IS(VLT_RANGE, vlt_path_from_message(TEXT("ab"), lengths, 2, &s.path, NULL));
    IS(VLT_UTF8, vlt_path_from_message(TEXT("a\xff" "b"), lengths, 2, &s.path, NULL));
    IS_PATH(&s, "a.bc");
    DONE(vlt_path_from_message(NULL, 0, NULL, 0, &s.path, NULL));
    IS_PATH(&s, ".");
    free_all(&s, 1);
}

/* Slots that have the same object, because a program has copied one by =. */
static void copied_slots(void) {
    any s[4] = {VLT_EMPTY, VLT_EMPTY, VLT_EMPTY, VLT_EMPTY}, copy = VLT_EMPTY, d[2] = {VLT_EMPTY, VLT_EMPTY};
    size_t number = 77;
    type_of(&s[0], "{a=i32}");
    type_of(&s[1], "utf8");
    copy = s[0];
    YES(vlt_dtype_eq(&s[0].dtype, &copy.dtype, &answer));
    IS(VLT_SAME_SLOT, vlt_dtype_copy(&s[0].dtype, &copy.dtype));
    IS(VLT_SAME_SLOT, vlt_dtype_merge_nullability(&s[0].dtype, &s[1].dtype, &copy.dtype));
    IS(VLT_KIND, vlt_path_resolve(&s[0].dtype, &copy.path, &s[1].dtype));
    d[0] = s[0];
    d[1] = s[0];
    IS(VLT_SAME_SLOT, vlt_set_extend(&s[1].set, &d[0].path, 2, &number));
    d[1] = s[1];
    IS(VLT_SAME_SLOT, vlt_set_extend(&copy.set, &d[0].path, 2, &number));
    IS(VLT_SAME_SLOT, vlt_fields_push(&s[0].fields, TEXT("a"), &copy.dtype));
    HAS(&s[0], "{a=i32}");
    HAS(&s[1], "utf8");
    /* (two empty slots have no object in common) */
    IS(VLT_KIND, vlt_dtype_eq(&s[2].dtype, &s[3].dtype, &answer));
    free_all(s, 4);
}

/* An object of each kind is dropped by the function of its kind, which takes an empty slot and null, too. */
static void frees(void) {
    any s[7] = {VLT_EMPTY, VLT_EMPTY, VLT_EMPTY, VLT_EMPTY, VLT_EMPTY, VLT_EMPTY, VLT_EMPTY};
    size_t at;
    int times;
    DONE(vlt_dtype_null(&s[0].dtype));
    DONE(vlt_path_root(&s[1].path));
    DONE(vlt_set_new(&s[2].set));
    DONE(vlt_set_members(&s[2].set, &s[3].paths));
    DONE(vlt_mask_all(&s[4].mask));
    DONE(vlt_dtype_to_message(&s[0].dtype, &s[5].message));
    DONE(vlt_fields_new(&s[6].fields));
    for (at = 0; at < 7; at++)
        HOLDS(vlt_kind(&s[at].slot) == VLT_OBJECT_DTYPE + at);
    for (times = 0; times < 2; times++) {
        vlt_dtype_free(&s[0].dtype);
        vlt_path_free(&s[1].path);
        vlt_path_set_free(&s[2].set);
        vlt_path_list_free(&s[3].paths);
        vlt_mask_free(&s[4].mask);
        vlt_message_free(&s[5].message);
        vlt_fields_free(&s[6].fields);
        for (at = 0; at < 7; at++)
            HOLDS(s[at].slot.at == NULL);
    }
    vlt_dtype_free(NULL);
    vlt_path_free(NULL);
    vlt_path_set_free(NULL);
    vlt_path_list_free(NULL);
    vlt_mask_free(NULL);
    vlt_message_free(NULL);
    vlt_fields_free(NULL);
}

/* One object that is in two slots of a long array, at some distance. No other object is real, and none is used. */
static void repeats(size_t count, size_t distance, int are_alike) {
    any set = VLT_EMPTY;
    vlt_path *paths = (vlt_path *)calloc(count, sizeof *paths);
    uintptr_t next = 4096;
    size_t at, number = 77, parts = 8;
    for (at = 0; at < count; at++) {
        do
            next += 16;
        while (are_alike && ((uint64_t)next * 0x9e3779b97f4a7c15u >> 16) % parts != 0);
        paths[at].slot.at = (void *)next;
    }
    paths[count - 1] = paths[count - 1 - distance];
    IS(VLT_SAME_SLOT, vlt_set_extend(&set.set, paths, count, &number));
    HOLDS(number == 77);
    free(paths);
}

/* Arrays of every length at which the layer goes on in another way. In the last two all pointers are in one of the parts
 * into which it divides them, which is more than its table has room for. */
static void long_arrays(void) {
    size_t count;
    for (count = 2; count <= 70; count++)
        repeats(count, count / 2, 0);
    for (count = 128; count <= 1024; count *= 2) {
        repeats(count, count / 2, 0);
        repeats(count + 1, count / 2, 0);
    }
    repeats(1023, 1022, 0);
    repeats(1025, 1, 0);
    repeats(5000, 4999, 0);
    repeats(5000, 1234, 0);
    repeats(5000, 100, 1);
    repeats(5000, 4900, 1);
}

/* A long array without a repeated object, of slots that are empty. */
/* A call whose argument is wrong, and the name of this argument. */
#define WRONG(wanted, name, call) \
    do { \
        IS(wanted, call); \
        check(vlt_wrong_argument() && strcmp(vlt_wrong_argument(), name) == 0, __LINE__, #call, 0); \
    } while (0)

static void wrong_arguments(void) {
    any dtype = {{0}}, other = {{0}}, path = {{0}}, out = {{0}}, empty = {{0}}, set = {{0}};
    vlt_path two[2] = {VLT_EMPTY, VLT_EMPTY};
    vlt_node node;
    size_t length = 0, too_long = 5;
    memset(&node, 0, sizeof node);
    node.kind = 14;
    type_of(&dtype, "{a=i8}");
    type_of(&other, "i8");
    path_of(&path, "a");
    DONE(vlt_set_new(&set.set));
    WRONG(VLT_KIND, "element", vlt_dtype_list(&empty.dtype, false, &out.dtype));
    WRONG(VLT_KIND, "element", vlt_dtype_list(&path.dtype, false, &out.dtype));
    WRONG(VLT_KIND, "dtype", vlt_path_resolve(&path.dtype, &path.path, &out.dtype));
    WRONG(VLT_KIND, "path", vlt_path_resolve(&dtype.dtype, &dtype.path, &out.dtype));
    WRONG(VLT_KIND, "path", vlt_path_resolve(&dtype.dtype, &other.path, &out.dtype));
    WRONG(VLT_KIND, "paths", vlt_set_extend(&set.set, two, 2, &length));
    WRONG(VLT_KIND, "path", vlt_with_type_at(&dtype.dtype, &dtype.path, &other.dtype, &out.dtype));
    WRONG(VLT_KIND, "part", vlt_with_type_at(&dtype.dtype, &path.path, &path.dtype, &out.dtype));
    WRONG(VLT_KIND, "one", vlt_dtype_eq(&path.dtype, &dtype.dtype, &answer));
    WRONG(VLT_KIND, "other", vlt_dtype_eq(&dtype.dtype, &path.dtype, &answer));
    WRONG(VLT_SAME_SLOT, "out", vlt_dtype_list(&dtype.dtype, false, &dtype.dtype));
    WRONG(VLT_SAME_SLOT, "error", vlt_dtype_decimal(1, 0, false, &out.dtype, &out.error));
    WRONG(VLT_UTF8, "text", vlt_dtype_from_text((const uint8_t *)"\xff", 1, &out.dtype, NULL));
    WRONG(VLT_UTF8, "id", vlt_dtype_extension((const uint8_t *)"\xff", 1, TEXT("m"), &dtype.dtype, &out.dtype));
    WRONG(VLT_CONDITION, "dtype", vlt_struct_nfields(&other.dtype, &length));
    WRONG(VLT_CONDITION, "one", vlt_struct_disjoint_merge(&other.dtype, &dtype.dtype, &out.dtype, NULL));
    WRONG(VLT_CONDITION, "other", vlt_struct_disjoint_merge(&dtype.dtype, &other.dtype, &out.dtype, NULL));
    WRONG(VLT_RANGE, "number", vlt_dtype_primitive(11, false, &out.dtype));
    WRONG(VLT_RANGE, "name_lengths", vlt_path_from_steps(TEXT("a"), &too_long, 1, &out.path));
    WRONG(VLT_RANGE, "nodes", vlt_message_from_nodes(&node, 1, NULL, 0, &out.message));
    WRONG(VLT_RANGE, "code", vlt_error_text(37, NULL, 0, &length));
    WRONG(VLT_RANGE, "buffer", vlt_dtype_to_text(&dtype.dtype, NULL, 1, &length));
    /* A result that says something else leaves the name as it was. */
    IS(VLT_SMALL, vlt_dtype_to_text(&dtype.dtype, NULL, 0, &length));
    DONE(vlt_struct_nfields(&dtype.dtype, &length));
    HOLDS(strcmp(vlt_wrong_argument(), "buffer") == 0);
    vlt_free(&dtype.slot);
    vlt_free(&other.slot);
    vlt_free(&path.slot);
    vlt_free(&set.slot);
}

static void empty_slots(void) {
    any s[2] = {VLT_EMPTY, VLT_EMPTY};
    vlt_path *paths = (vlt_path *)calloc(3000, sizeof *paths);
    size_t number = 77, at;
    DONE(vlt_set_new(&s[0].set));
    IS(VLT_KIND, vlt_set_extend(&s[0].set, paths, 3000, &number));
    HOLDS(number == 0);
    for (at = 0; at < 100; at++)
        DONE(vlt_path_root(&paths[at]));
    DONE(vlt_set_extend(&s[0].set, paths, 100, &number));
    HOLDS(number == 100);
    for (at = 0; at < 100; at++)
        vlt_path_free(&paths[at]);
    free(paths);
    free_all(s, 2);
}

static void all(void) {
    general();
    copied_slots();
    frees();
    if (heap_refused == 0) {
        long_arrays();
        empty_slots();
        wrong_arguments();
    }
    texts();
    constructors();
    fields();
    parts();
    comparisons();
    merging();
    structs();
    all_fields();
    unions();
    all_variants();
    paths();
    masks();
    sets();
    set_relations();
    edits();
    errors();
    added_fields();
    renamed_fields();
    passed_twice();
    messages();
    nodes();
    if (heap_refused == 0)
        nested_messages();
    path_messages();
    HOLDS(heap_blocks == 0);
}

int main(int count, char **arguments) {
    all();
    if (count > 1 && strcmp(arguments[1], "refused") == 0)
        with_each_refused("calls", all);
    printf("%zu passed, %zu failed\n", passed, failed);
    return failed != 0;
}
