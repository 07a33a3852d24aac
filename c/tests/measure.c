// SPDX-License-Identifier: Apache-2.0
// SPDX-FileCopyrightText: Copyright the Vortex contributors

/* Makes one call as often as the second argument says, so that the instructions of one can be counted as the difference of
 * two runs (tools/bindings/instructions). The first argument is the name of the call. Without arguments the names are
 * printed. */
#include "../vortex_logical_types.h"

#include <stdio.h>
#include <stdlib.h>
#include <string.h>

#define TEXT(text) (const uint8_t *)(text), strlen(text)
#define COLUMNS 100

static vlt_dtype orders = VLT_EMPTY, again = VLT_EMPTY, other = VLT_EMPTY, made = VLT_EMPTY;
static vlt_dtype wide = VLT_EMPTY, wide_again = VLT_EMPTY;
static vlt_path price = VLT_EMPTY, made_path = VLT_EMPTY;
static vlt_path_set wanted = VLT_EMPTY, made_set = VLT_EMPTY;
static vlt_path_list listed = VLT_EMPTY;
static vlt_message message = VLT_EMPTY;
static vlt_error error = VLT_EMPTY;
static uint8_t buffer[8192];
static size_t length;
static uint64_t hash;
static bool answer;

static const char *const ORDERS =
        "{id=u64, at=i64, customer={id=u64, name=utf8, city=utf8?}, note=utf8?, "
        "lines=list({sku=utf8, price=decimal(10,2), count=u32?})}";

static void must(vlt_result result) {
    if (result != VLT_DONE) {
        fprintf(stderr, "measure: a call returned %u\n", (unsigned)result);
        exit(1);
    }
}

/* A struct with many columns, each of which has another name, and once more. */
static void make_wide(void) {
    char text[COLUMNS * 20] = "{", *end = text + 1;
    for (int i = 0; i < COLUMNS; i++)
        end += sprintf(end, "%scolumn_%d=i64?", i ? ", " : "", i);
    strcpy(end, "}");
    must(vlt_dtype_from_text(TEXT(text), &wide, &error));
    must(vlt_dtype_from_text(TEXT(text), &wide_again, &error));
}

static void setup(void) {
    static const char *const PATHS[] = {"customer.city", "lines.[].price", "id", "note"};
    must(vlt_dtype_from_text(TEXT(ORDERS), &orders, &error));
    must(vlt_dtype_from_text(TEXT(ORDERS), &again, &error));
    must(vlt_dtype_from_text(TEXT("{at=i64?, id=u64, lines=list({price=decimal(10,2), tax=f64?}), note=null}"), &other,
                             &error));
    must(vlt_set_new(&wanted));
    for (size_t i = 0; i < sizeof PATHS / sizeof *PATHS; i++) {
        must(vlt_path_from_text(TEXT(PATHS[i]), &price, &error));
        must(vlt_set_insert(&wanted, &price));
    }
    must(vlt_path_from_text(TEXT("lines.[].price"), &price, &error));
    must(vlt_dtype_to_message(&orders, &message));
    make_wide();
}

/* The calls: a row has the name and what one turn does. */
#define CALLS(ROW)                                                                                                     \
    ROW(dtype_from_text, must(vlt_dtype_from_text(TEXT(ORDERS), &made, &error)))                                       \
    ROW(dtype_to_text, must(vlt_dtype_to_text(&orders, buffer, sizeof buffer, &length)))                               \
    ROW(dtype_copy, must(vlt_dtype_copy(&orders, &made)))                                                              \
    ROW(dtype_eq, must(vlt_dtype_eq(&wide, &wide_again, &answer)))                                                     \
    ROW(dtype_hash, must(vlt_dtype_hash(&orders, &hash)))                                                              \
    ROW(dtype_with_nullability, must(vlt_dtype_with_nullability(&orders, true, &made)))                                \
    ROW(dtype_merge_nullability, must(vlt_dtype_merge_nullability(&orders, &again, &made)))                            \
    ROW(dtype_merge_columns, must(vlt_dtype_merge_columns(&orders, &other, &made)))                                    \
    ROW(dtype_to_message, must(vlt_dtype_to_message(&orders, &message)))                                               \
    ROW(message_copy, { vlt_message copy = VLT_EMPTY; must(vlt_message_copy(&message, &copy)); vlt_message_free(&copy); }) \
    ROW(struct_find, must(vlt_struct_find(&wide, TEXT("column_57"), &length)))                                         \
    ROW(struct_field, must(vlt_struct_field(&wide, TEXT("column_57"), &made)))                                         \
    ROW(path_from_text, must(vlt_path_from_text(TEXT("lines.[].price"), &made_path, &error)))                          \
    ROW(path_to_text, must(vlt_path_to_text(&price, buffer, sizeof buffer, &length)))                                  \
    ROW(path_resolve, must(vlt_path_resolve(&orders, &price, &made)))                                                  \
    ROW(path_exists_in, must(vlt_path_exists_in(&orders, &price, &answer)))                                            \
    ROW(set_insert, { must(vlt_set_new(&made_set)); must(vlt_set_insert(&made_set, &price)); })                        \
    ROW(set_contains, must(vlt_set_contains(&wanted, &price, &answer)))                                                \
    ROW(set_cover, must(vlt_set_cover(&wanted, &listed)))                                                              \
    ROW(project_paths, must(vlt_project_paths(&orders, &wanted, &made)))

int main(int count, char **words) {
    if (count < 3) {
#define NAME(name, turn) puts(#name);
        CALLS(NAME)
        return 0;
    }
    long turns = atol(words[2]);
    setup();
#define RUN(name, turn)                                                                                                \
    if (strcmp(words[1], #name) == 0)                                                                                  \
        for (long i = 0; i < turns; i++)                                                                               \
            turn;
    CALLS(RUN)
    return 0;
}
