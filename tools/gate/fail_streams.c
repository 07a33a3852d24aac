// SPDX-License-Identifier: Apache-2.0
// SPDX-FileCopyrightText: Copyright the Vortex contributors

// Makes the reads of standard input and the writes to standard output short, makes one of them fail, and counts them.
//
// It is loaded before the C library (LD_PRELOAD). Then each of these calls takes at most MOST bytes. READ=N makes the Nth
// read fail, and WRITE=N makes the Nth write fail, with the error number ERROR. If ONWARD is set, all reads or writes
// after that one fail too. When the program ends, the number of reads and the number of writes are written to the file
// COUNTS.
#include <errno.h>
#include <fcntl.h>
#include <stdio.h>
#include <stdlib.h>
#include <sys/syscall.h>
#include <unistd.h>

static long reads, writes;

// Returns the number in an environment variable, or 0 if there is none.
static long setting(const char *name) {
    const char *text = getenv(name);
    return text ? atol(text) : 0;
}

// Returns whether the call with this number, counted from 1, is to fail. `name` is READ or WRITE.
static int fails(long count, const char *name) {
    long first = setting(name);
    return first > 0 && (setting("ONWARD") ? count >= first : count == first);
}

static ssize_t failure(void) {
    errno = (int)setting("ERROR");
    return -1;
}

static size_t at_most(size_t length) {
    size_t most = (size_t)setting("MOST");
    return length < most ? length : most;
}

ssize_t read(int file, void *bytes, size_t length) {
    if (file != 0)
        return syscall(SYS_read, file, bytes, length);
    return fails(++reads, "READ") ? failure() : syscall(SYS_read, file, bytes, at_most(length));
}

ssize_t write(int file, const void *bytes, size_t length) {
    if (file != 1)
        return syscall(SYS_write, file, bytes, length);
    return fails(++writes, "WRITE") ? failure() : syscall(SYS_write, file, bytes, at_most(length));
}

__attribute__((destructor)) static void unload(void) {
    int file = open(getenv("COUNTS"), O_WRONLY | O_CREAT | O_TRUNC, 0666);
    if (dprintf(file, "%ld %ld\n", reads, writes) < 0)
        abort();
    close(file);
}
