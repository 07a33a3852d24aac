// SPDX-License-Identifier: Apache-2.0
// SPDX-FileCopyrightText: Copyright the Vortex contributors

#include "heap.h"

#include <malloc.h>
#include <stdbool.h>
#include <stdlib.h>

typedef struct {
    bool ok;
    void *at;
} rattle_tried;

size_t heap_refused, heap_asked, heap_blocks, heap_bytes, heap_most_bytes;
static char nothing;

rattle_tried rattle_alloc(size_t size, size_t align);
rattle_tried rattle_realloc(void *at, size_t kept, size_t size, size_t align);
void rattle_dealloc(void *at);

/* Whether the next allocation is the one that is refused. */
static bool is_refused(void) { return ++heap_asked == heap_refused; }

/* A block from malloc, as a result; it is in use from now on. */
static rattle_tried used(void *at) {
    rattle_tried result = {at != NULL, at != NULL ? at : &nothing};
    if (at != NULL) {
        heap_blocks++;
        heap_bytes += malloc_usable_size(at);
        if (heap_bytes > heap_most_bytes)
            heap_most_bytes = heap_bytes;
    }
    return result;
}

/* A block that is no longer in use. */
static void *unused(void *at) {
    heap_blocks--;
    heap_bytes -= malloc_usable_size(at);
    return at;
}

rattle_tried rattle_alloc(size_t size, size_t align) {
    return used(is_refused() ? NULL : malloc(size != 0 ? size : align));
}

rattle_tried rattle_realloc(void *at, size_t kept, size_t size, size_t align) {
    (void)kept;
    if (is_refused()) {
        rattle_tried none = {false, &nothing};
        return none;
    }
    void *moved = realloc(unused(at), size != 0 ? size : align);
    if (moved != NULL)
        return used(moved);
    used(at);
    rattle_tried none = {false, &nothing};
    return none;
}

void rattle_dealloc(void *at) { free(unused(at)); }
