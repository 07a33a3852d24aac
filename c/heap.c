// SPDX-License-Identifier: Apache-2.0
// SPDX-FileCopyrightText: Copyright the Vortex contributors

/* The heap under libvortex_logical_types.a: the library calls these three functions for memory. Besides them it calls only
 * memcpy, memmove, memset, memcmp, bcmp and strlen of the C library. Here the three call malloc, realloc and free. They are
 * weak symbols, so a program that has another heap can define the three itself.
 *
 * A function that can't find memory returns ok = false; the library then returns 100 (out of memory) from the call that
 * asked. `at` is never null, also not where ok is false. No block is aligned to more than 16 bytes. */
#include <stdbool.h>
#include <stddef.h>
#include <stdlib.h>

typedef struct {
    bool ok;
    void *at;
} rattle_tried;

__attribute__((weak)) rattle_tried rattle_alloc(size_t size, size_t align);
__attribute__((weak)) rattle_tried rattle_realloc(void *at, size_t kept, size_t size, size_t align);
__attribute__((weak)) void rattle_dealloc(void *at);

/* What malloc or realloc returned, as a result. */
static rattle_tried tried(void *at) {
    static char nothing;
    rattle_tried result = {at != NULL, at != NULL ? at : &nothing};
    return result;
}

/* A block of `size` bytes; of no bytes one of `align` bytes, so that malloc has no reason to return null. */
rattle_tried rattle_alloc(size_t size, size_t align) { return tried(malloc(size != 0 ? size : align)); }

/* The block with `size` bytes, of which the first `kept` are as before. If there is no memory, the block stays. */
rattle_tried rattle_realloc(void *at, size_t kept, size_t size, size_t align) {
    (void)kept;
    return tried(realloc(at, size != 0 ? size : align));
}

void rattle_dealloc(void *at) { free(at); }
