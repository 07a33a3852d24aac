// SPDX-License-Identifier: Apache-2.0
// SPDX-FileCopyrightText: Copyright the Vortex contributors

// Makes allocations fail, counts them, and says which of the allocated blocks were never freed.
//
// Loaded before the C library (LD_PRELOAD), it looks at the stretches of the program between the lines `begin` and
// `end` on standard error, or, where WHOLE is set, at the program from its start to its end. REFUSED=N makes the Nth
// allocation of each stretch fail, and, where ONWARD is set, all after it. When the program has ended, the file that COUNTS
// names has a line for each stretch: how many allocations were asked for in it, how many of them failed, and how many of
// the blocks allocated in it were never freed. The last line is that of the rest of the program, where no allocation fails.
#include <fcntl.h>
#include <stdio.h>
#include <stdlib.h>
#include <string.h>
#include <sys/syscall.h>
#include <unistd.h>

enum { MOST_STRETCHES = 1 << 13, MOST_BLOCKS = 1 << 18 };

void *__libc_malloc(size_t), *__libc_calloc(size_t, size_t), *__libc_realloc(void *, size_t);
void __libc_free(void *);

// How many allocations were asked for, how many failed, and how many blocks are held.
static struct stretch {
    long requests, refused, held;
} stretches[MOST_STRETCHES], rest, *now = &rest;
static int stretch_count;

// The blocks that are held.
static struct block {
    void *start;
    struct stretch *taken_in;
} blocks[MOST_BLOCKS];
static int block_count;

static long first_refused, is_onward;

static int refuses(void) {
    now->requests++;
    if (now == &rest || first_refused <= 0)
        return 0;
    int refused = is_onward ? now->requests >= first_refused : now->requests == first_refused;
    now->refused += refused;
    return refused;
}

static void *taken(void *start) {
    if (start) {
        if (block_count == MOST_BLOCKS)
            abort();
        blocks[block_count++] = (struct block){start, now};
        now->held++;
    }
    return start;
}

static struct block *held(void *start) {
    for (int i = block_count; start && i-- > 0;)
        if (blocks[i].start == start)
            return &blocks[i];
    return NULL;
}

void *malloc(size_t size) { return refuses() ? NULL : taken(__libc_malloc(size)); }
void *calloc(size_t count, size_t size) { return refuses() ? NULL : taken(__libc_calloc(count, size)); }

void free(void *start) {
    struct block *block = held(start);
    if (block) {
        block->taken_in->held--;
        *block = blocks[--block_count];
    }
    __libc_free(start);
}

void *realloc(void *old, size_t size) {
    if (refuses())
        return NULL;
    struct block *block = held(old);
    void *start = __libc_realloc(old, size);
    if (!start || !block)
        return taken(start);
    return block->start = start;
}

static void begin(void) {
    if (stretch_count == MOST_STRETCHES)
        abort();
    now = &stretches[stretch_count++];
}

ssize_t write(int file, const void *bytes, size_t length) {
    if (file == 2 && length == 6 && !memcmp(bytes, "begin\n", 6))
        begin();
    if (file == 2 && length == 4 && !memcmp(bytes, "end\n", 4))
        now = &rest;
    return syscall(SYS_write, file, bytes, length);
}

// What the environment asks for: a number, or 0.
static long setting(const char *name) {
    const char *text = getenv(name);
    return text ? atol(text) : 0;
}

__attribute__((constructor)) static void load(void) {
    first_refused = setting("REFUSED");
    is_onward = setting("ONWARD");
    if (setting("WHOLE"))
        begin();
}

__attribute__((destructor)) static void unload(void) {
    now = &rest;
    int file = open(getenv("COUNTS"), O_WRONLY | O_CREAT | O_TRUNC, 0666);
    for (int i = 0; i <= stretch_count; i++) {
        const struct stretch *one = i < stretch_count ? &stretches[i] : &rest;
        if (dprintf(file, "%ld %ld %ld\n", one->requests, one->refused, one->held) < 0)
            abort();
    }
    close(file);
}
