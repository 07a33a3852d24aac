// SPDX-License-Identifier: Apache-2.0
// SPDX-FileCopyrightText: Copyright the Vortex contributors

/* Eight threads use the same objects, and hand objects to one another, with one mutex that a thread holds during each call.
 *
 *     threads [ROUNDS]
 *
 * Under helgrind no two accesses may be in a race. The last line is `N passed, M failed`. */
#include "../vortex_logical_types.h"
#include "heap.h"

#include <pthread.h>
#include <stdio.h>
#include <stdlib.h>
#include <string.h>

enum { THREADS = 8, SHARED = 8 };

#define TEXT(text) (const uint8_t *)(text), strlen(text)

static pthread_mutex_t mutex = PTHREAD_MUTEX_INITIALIZER;
static vlt_dtype dtypes[SHARED];
static vlt_path_set set;
static vlt_path path;
static size_t rounds = 1000, wrong;

/* Makes a call, or compares what it returned, while the thread holds the mutex. */
#define HELD(statement) \
    do { \
        pthread_mutex_lock(&mutex); \
        statement; \
        pthread_mutex_unlock(&mutex); \
    } while (0)
#define EXPECT(wanted, call) HELD(wrong += (call) != (wanted))

/* Exchanges the object of a slot for that of a shared one, which another thread may have made. */
static void exchange(vlt_dtype *own, size_t at) {
    vlt_dtype other;
    HELD(other = dtypes[at]; dtypes[at] = *own);
    *own = other;
}

static void *work(void *given) {
    size_t number = (size_t)(uintptr_t)given, round;
    vlt_dtype own = VLT_EMPTY, part = VLT_EMPTY;
    uint64_t hash = 0;
    bool answer = false;
    EXPECT(VLT_DONE, vlt_dtype_copy(&dtypes[number % SHARED], &own));
    for (round = 0; round < rounds; round++) {
        size_t at = (number + round) % SHARED, other = (number + 3 * round + 1) % SHARED;
        EXPECT(VLT_DONE, vlt_dtype_eq(&dtypes[at], &dtypes[other], &answer));
        HELD(wrong += !answer);
        EXPECT(VLT_DONE, vlt_dtype_hash(&dtypes[at], &hash));
        EXPECT(VLT_DONE, vlt_path_resolve(&own, &path, &part));
        EXPECT(VLT_DONE, vlt_struct_field(&dtypes[at], TEXT("b"), &part));
        exchange(&own, at);
        EXPECT(VLT_DONE, vlt_set_insert(&set, &path));
        if (round % 16 == 0)
            EXPECT(VLT_DONE, vlt_dtype_copy(&dtypes[at], &own));
    }
    HELD(vlt_dtype_free(&own); vlt_dtype_free(&part));
    return NULL;
}

int main(int count, char **arguments) {
    pthread_t threads[THREADS];
    vlt_fields fields = VLT_EMPTY;
    uint8_t name = 'a';
    const size_t length = 1;
    size_t at, started = 0;
    if (count > 1)
        rounds = (size_t)strtoull(arguments[1], NULL, 10);
    wrong += vlt_set_new(&set) != VLT_DONE;
    wrong += vlt_path_from_steps(&name, 1, &length, 1, &path) != VLT_DONE;
    wrong += vlt_dtype_utf8(false, &dtypes[1]) != VLT_DONE;
    wrong += vlt_dtype_list(&dtypes[1], true, &dtypes[2]) != VLT_DONE;
    wrong += vlt_fields_new(&fields) != VLT_DONE;
    wrong += vlt_fields_push(&fields, TEXT("a"), &dtypes[1]) != VLT_DONE;
    wrong += vlt_fields_push(&fields, TEXT("b"), &dtypes[2]) != VLT_DONE;
    wrong += vlt_dtype_struct(&fields, false, &dtypes[0]) != VLT_DONE;
    vlt_fields_free(&fields);
    for (at = 1; at < SHARED; at++)
        wrong += vlt_dtype_copy(&dtypes[0], &dtypes[at]) != VLT_DONE;
    for (at = 0; at < THREADS; at++)
        started += pthread_create(&threads[at], NULL, work, (void *)(uintptr_t)at) == 0;
    for (at = 0; at < started; at++)
        pthread_join(threads[at], NULL);
    for (at = 0; at < SHARED; at++)
        vlt_dtype_free(&dtypes[at]);
    vlt_path_set_free(&set);
    vlt_path_free(&path);
    if (wrong != 0 || started != THREADS || heap_blocks != 0)
        printf("threads: %zu calls returned another result, %zu threads ran, %zu blocks are in use at the end\n", wrong, started,
               heap_blocks);
    printf("%d passed, %d failed\n", wrong == 0 && started == THREADS && heap_blocks == 0,
           wrong != 0 || started != THREADS || heap_blocks != 0);
    return wrong != 0 || started != THREADS || heap_blocks != 0;
}
