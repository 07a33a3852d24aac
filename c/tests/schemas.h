// SPDX-License-Identifier: Apache-2.0
// SPDX-FileCopyrightText: Copyright the Vortex contributors

/* Schemas of Arrow that tests make, each struct and each string in a block of its own, so that ASan sees what is read behind
 * one. How often a struct is released is counted. */
#ifndef SCHEMAS_H
#define SCHEMAS_H

#include "../vortex_logical_types.h"

/* How many structs were made, and how many times one was released. */
extern size_t structs_made, structs_released;

/* A field with an empty place for each child. `name` may be null. */
struct ArrowSchema *field_of(const char *format, const char *name, int64_t flags, size_t count);

/* A field with these children, which end in a null pointer. */
struct ArrowSchema *field_with(const char *format, const char *name, int64_t flags, ...);

/* The same field with these pairs of a key and a value as its metadata, which end in a null pointer. */
struct ArrowSchema *with_metadata(struct ArrowSchema *field, ...);

/* The same field with a dictionary. */
struct ArrowSchema *with_dictionary(struct ArrowSchema *field, struct ArrowSchema *values);

/* A copy of a field with all that is in it. */
struct ArrowSchema *copy_of(const struct ArrowSchema *field);

/* Releases a field that was made here if it wasn't, and frees its memory. */
void drop(struct ArrowSchema *field);

/* The number of bytes of metadata, and a copy of such bytes in a block of their own. */
size_t length_of(const char *metadata);
char *copy_of_bytes(const char *bytes, size_t length);

/* Whether two fields are equal. A name that is null is equal to an empty one. */
bool are_equal(const struct ArrowSchema *one, const struct ArrowSchema *other);

/* A number that depends on all pointers and numbers of a field, and of what is in it. */
size_t seen(const struct ArrowSchema *field, size_t sum);

#endif
