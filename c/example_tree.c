// SPDX-License-Identifier: Apache-2.0
// SPDX-FileCopyrightText: Copyright the Vortex contributors

/* Prints a type as a tree: a line for each part, below the line of what it is in. The type is the first argument, or a
 * schema of orders.
 *
 *     cc -I. example_tree.c libvortex_logical_types.a -o tree && ./tree '{id=u64, tags=list(utf8)?}' */
#include "vortex_logical_types.h"

#include <stdio.h>
#include <stdlib.h>
#include <string.h>

#define ORDERS "{id=u64, customer={city=utf8?}, lines=list({sku=utf8, price=decimal(10,2)?})}"

/* Ends the program unless the call is done. The error tells more than the result, if there is one. */
static void must(vlt_result result, const vlt_error *error) {
    uint8_t text[300];
    size_t length = 0;
    if (result == VLT_DONE)
        return;
    if ((!error || vlt_error_message(error, text, sizeof text, &length) != VLT_DONE)
        && vlt_error_text(result, text, sizeof text, &length) != VLT_DONE)
        length = 0;
    fprintf(stderr, "%.*s\n", (int)length, (const char *)text);
    exit(1);
}

/* Prints the text of a type. Each text is asked for twice: without a buffer for its length, and then with one. */
static void print_text(const vlt_dtype *dtype) {
    size_t length = 0;
    (void)!vlt_dtype_to_text(dtype, NULL, 0, &length);
    uint8_t *text = (uint8_t *)malloc(length + 1);
    if (!text)
        must(VLT_LIBRARY, NULL);
    must(vlt_dtype_to_text(dtype, text, length, &length), NULL);
    printf("%.*s\n", (int)length, (const char *)text);
    free(text);
}

/* Prints the name of a field, which may be empty. */
static void print_name(const vlt_dtype *dtype, size_t index) {
    size_t length = 0;
    (void)!vlt_struct_field_name(dtype, index, NULL, 0, &length);
    uint8_t *name = (uint8_t *)malloc(length + 1);
    if (!name)
        must(VLT_LIBRARY, NULL);
    must(vlt_struct_field_name(dtype, index, name, length + 1, &length), NULL);
    printf("%.*s: ", (int)length, (const char *)name);
    free(name);
}

static void indent(unsigned depth) {
    printf("%*s", (int)(2 * depth), "");
}

/* Prints a type on the rest of a line, and its parts on the lines below. */
static void print_tree(const vlt_dtype *dtype, unsigned depth) {
    vlt_dtype part = VLT_EMPTY;
    uint32_t kind;
    bool nullable;
    size_t count;
    must(vlt_dtype_kind(dtype, &kind), NULL);
    must(vlt_dtype_is_nullable(dtype, &nullable), NULL);
    switch (kind) {
    case VLT_DTYPE_STRUCT:
        printf("struct%s\n", nullable ? "?" : "");
        must(vlt_struct_nfields(dtype, &count), NULL);
        for (size_t i = 0; i < count; i++) {
            indent(depth + 1);
            print_name(dtype, i);
            must(vlt_struct_field_by_index(dtype, i, &part), NULL);
            print_tree(&part, depth + 1);
        }
        break;
    case VLT_DTYPE_LIST:
        printf("list%s\n", nullable ? "?" : "");
        indent(depth + 1);
        printf("[]: ");
        must(vlt_dtype_element(dtype, &part), NULL);
        print_tree(&part, depth + 1);
        break;
    default:
        print_text(dtype);
    }
    vlt_dtype_free(&part);
}

int main(int count, char **words) {
    vlt_dtype dtype = VLT_EMPTY;
    vlt_error error = VLT_EMPTY;
    const char *text = count > 1 ? words[1] : ORDERS;
    must(vlt_dtype_from_text((const uint8_t *)text, strlen(text), &dtype, &error), &error);
    print_tree(&dtype, 0);
    vlt_dtype_free(&dtype);
    vlt_error_free(&error);
    return 0;
}
