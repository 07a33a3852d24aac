// SPDX-License-Identifier: Apache-2.0
// SPDX-FileCopyrightText: Copyright the Vortex contributors

#include "schemas.h"

#include <stdarg.h>
#include <stdlib.h>
#include <string.h>

size_t structs_made, structs_released;

static void let_go(struct ArrowSchema *field) {
    int64_t at;
    structs_released++;
    for (at = 0; at < field->n_children; at++)
        if (field->children[at])
            drop(field->children[at]);
    if (field->dictionary)
        drop(field->dictionary);
    free(field->children);
    free((char *)field->format);
    free((char *)field->name);
    free((char *)field->metadata);
    field->release = NULL;
}

void drop(struct ArrowSchema *field) {
    if (field->release)
        field->release(field);
    free(field);
}

char *copy_of_bytes(const char *bytes, size_t length) {
    char *copy = (char *)malloc(length);
    memcpy(copy, bytes, length);
    return copy;
}

struct ArrowSchema *field_of(const char *format, const char *name, int64_t flags, size_t count) {
    struct ArrowSchema *field = (struct ArrowSchema *)calloc(1, sizeof *field);
    field->format = copy_of_bytes(format, strlen(format) + 1);
    field->name = name ? copy_of_bytes(name, strlen(name) + 1) : NULL;
    field->flags = flags;
    field->n_children = (int64_t)count;
    field->children = count ? (struct ArrowSchema **)calloc(count, sizeof *field->children) : NULL;
    field->release = let_go;
    structs_made++;
    return field;
}

struct ArrowSchema *field_with(const char *format, const char *name, int64_t flags, ...) {
    struct ArrowSchema *field, *child;
    size_t count = 0;
    va_list children;
    va_start(children, flags);
    while (va_arg(children, struct ArrowSchema *))
        count++;
    va_end(children);
    field = field_of(format, name, flags, count);
    count = 0;
    va_start(children, flags);
    while ((child = va_arg(children, struct ArrowSchema *)))
        field->children[count++] = child;
    va_end(children);
    return field;
}

struct ArrowSchema *with_metadata(struct ArrowSchema *field, ...) {
    char bytes[4096];
    int32_t texts = 0, length;
    size_t end = sizeof texts;
    const char *text;
    va_list given;
    va_start(given, field);
    while ((text = va_arg(given, const char *))) {
        length = (int32_t)strlen(text);
        memcpy(bytes + end, &length, sizeof length);
        memcpy(bytes + end + sizeof length, text, (size_t)length);
        end += sizeof length + (size_t)length;
        texts++;
    }
    va_end(given);
    texts /= 2;
    memcpy(bytes, &texts, sizeof texts);
    field->metadata = copy_of_bytes(bytes, end);
    return field;
}

struct ArrowSchema *with_dictionary(struct ArrowSchema *field, struct ArrowSchema *values) {
    field->dictionary = values;
    return field;
}

size_t length_of(const char *metadata) {
    int32_t pairs, size;
    int64_t texts;
    size_t length = sizeof pairs;
    memcpy(&pairs, metadata, sizeof pairs);
    for (texts = 2 * (int64_t)pairs; texts > 0; texts--) {
        memcpy(&size, metadata + length, sizeof size);
        length += sizeof size + (size_t)size;
    }
    return length;
}

struct ArrowSchema *copy_of(const struct ArrowSchema *field) {
    struct ArrowSchema *copy = field_of(field->format, field->name, field->flags, (size_t)field->n_children);
    int64_t at;
    if (field->metadata)
        copy->metadata = copy_of_bytes(field->metadata, length_of(field->metadata));
    for (at = 0; at < field->n_children; at++)
        copy->children[at] = copy_of(field->children[at]);
    if (field->dictionary)
        copy->dictionary = copy_of(field->dictionary);
    return copy;
}

bool are_equal(const struct ArrowSchema *one, const struct ArrowSchema *other) {
    int64_t at;
    if (strcmp(one->format, other->format) != 0 || strcmp(one->name ? one->name : "", other->name ? other->name : "") != 0
        || one->flags != other->flags || one->n_children != other->n_children || !one->metadata != !other->metadata
        || !one->dictionary != !other->dictionary)
        return false;
    if (one->metadata && (length_of(one->metadata) != length_of(other->metadata)
                          || memcmp(one->metadata, other->metadata, length_of(one->metadata)) != 0))
        return false;
    for (at = 0; at < one->n_children; at++)
        if (!are_equal(one->children[at], other->children[at]))
            return false;
    return !one->dictionary || are_equal(one->dictionary, other->dictionary);
}

size_t seen(const struct ArrowSchema *field, size_t sum) {
    const unsigned char *bytes = (const unsigned char *)field;
    int64_t at;
    for (at = 0; at < (int64_t)sizeof *field; at++)
        sum = sum * 31 + bytes[at];
    for (at = 0; at < field->n_children; at++)
        sum = seen(field->children[at], sum);
    return field->dictionary ? seen(field->dictionary, sum) : sum;
}
