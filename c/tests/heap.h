// SPDX-License-Identifier: Apache-2.0
// SPDX-FileCopyrightText: Copyright the Vortex contributors

/* A heap for tests, linked in place of ../heap.c: it counts what is in use, and refuses one allocation. */
#ifndef HEAP_H
#define HEAP_H
#include <stddef.h>

#ifdef __cplusplus
extern "C" {
#endif

/* The number, from 1, of the allocation that is refused; 0 for none. */
extern size_t heap_refused;
/* How many allocations were asked for. */
extern size_t heap_asked;
/* How many blocks, and how many bytes, are in use; and the most bytes that were. */
extern size_t heap_blocks, heap_bytes, heap_most_bytes;

#ifdef __cplusplus
}
#endif
#endif
