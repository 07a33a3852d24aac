// SPDX-License-Identifier: Apache-2.0
// SPDX-FileCopyrightText: Copyright the Vortex contributors

/* Reads a schema, looks up the column that a path leads to, and prints the part of the schema that two paths need.
 *
 *     cc -I. example.c libvortex_logical_types.a -o example && ./example */
#include "vortex_logical_types.h"

#include <stdio.h>
#include <stdlib.h>
#include <string.h>

#define TEXT(text) (const uint8_t *)(text), strlen(text)

/* Why the last call failed, if it tells more than its result. */
static vlt_error error = VLT_EMPTY;

/* Ends the program with what the result means, unless it is done. */
static void must(vlt_result result, const char *what) {
    uint8_t text[200];
    size_t length = 0;
    if (result == VLT_DONE)
        return;
    if (vlt_error_message(&error, text, sizeof text, &length) != VLT_DONE
        && vlt_error_text(result, text, sizeof text, &length) != VLT_DONE)
        length = 0;
    fprintf(stderr, "%s: %u, %.*s\n", what, (unsigned)result, (int)length, (const char *)text);
    exit(1);
}

/* Prints a type, in a buffer that is as large as it needs. */
static void print(const char *what, const vlt_dtype *dtype) {
    uint8_t *text;
    size_t length = 0;
    if (vlt_dtype_to_text(dtype, NULL, 0, &length) != VLT_SMALL || !(text = (uint8_t *)malloc(length)))
        exit(1);
    must(vlt_dtype_to_text(dtype, text, length, &length), "to_text");
    printf("%s%.*s\n", what, (int)length, (const char *)text);
    free(text);
}

int main(void) {
    vlt_dtype orders = VLT_EMPTY, found = VLT_EMPTY;
    vlt_path path = VLT_EMPTY;
    vlt_path_set wanted = VLT_EMPTY;
    must(vlt_dtype_from_text(TEXT("{id=u64, customer={city=utf8?}, lines=list({sku=utf8, price=decimal(10,2)?})}"),
                             &orders, &error), "the schema");

    must(vlt_path_from_text(TEXT("customer.city"), &path, &error), "the path");
    must(vlt_path_resolve(&orders, &path, &found), "resolve");
    print("customer.city = ", &found);

    must(vlt_set_new(&wanted), "the set");
    must(vlt_set_insert(&wanted, &path), "insert");
    must(vlt_path_from_text(TEXT("lines.[].sku"), &path, &error), "the path");
    must(vlt_set_insert(&wanted, &path), "insert");
    must(vlt_project_paths(&orders, &wanted, &found), "project_paths");
    print("", &found);

    vlt_dtype_free(&orders);
    vlt_dtype_free(&found);
    vlt_path_free(&path);
    vlt_path_set_free(&wanted);
    return 0;
}
