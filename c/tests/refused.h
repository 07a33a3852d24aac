// SPDX-License-Identifier: Apache-2.0
// SPDX-FileCopyrightText: Copyright the Vortex contributors

/* What a test counts, and a run of all its calls for each allocation, which is refused. C and C++ alike. */
#ifndef REFUSED_H
#define REFUSED_H

#include "heap.h"

#include <stdio.h>

/* How many checks were right, how many were wrong, and how many calls lacked memory. */
static size_t passed, failed, lacked;

/* Makes all calls again and again: the first time with the first allocation refused, the second time with the second, and so
 * on until none is refused. Each time at most one call may lack memory. Each allocation that was refused counts as one check,
 * beside the checks that were made before. */
static void with_each_refused(const char *test, void (*all)(void)) {
    const size_t checks = passed, faults = failed;
    size_t wrong = 0;
    do {
        heap_refused++;
        heap_asked = lacked = failed = 0;
        all();
        if (lacked > 1) {
            failed++;
            printf("%s: %zu calls lacked memory, with allocation %zu refused\n", test, lacked, heap_refused);
        }
        wrong += failed != 0;
    } while (heap_asked >= heap_refused);
    passed = checks + heap_refused - 1 - wrong;
    failed = faults + wrong;
    printf("%s: %zu allocations were refused in turn\n", test, heap_refused - 1);
}

#endif
