// SPDX-License-Identifier: Apache-2.0
// SPDX-FileCopyrightText: Copyright the Vortex contributors

// Prints 4,096 names of 16 bytes, in order, which have one hash by `hash_of` of crates/dtype_base/src/name_key.rt: that of a
// name is mixed(mixed(16, first), second), where `first` and `second` are its halves. So it is the same for all names of
// which mixed(16, first) + second is the same. For each first half the second follows from this sum, and one in 65,536
// has letters, digits, `_` and `-` alone. It takes a second or two.
#include <inttypes.h>
#include <stdio.h>
#include <stdlib.h>
#include <string.h>

enum { NAMES = 4096, LENGTH = 16, HALF = 8, PAIRS = 64 * 64 };

static const char symbols[] = "-0123456789ABCDEFGHIJKLMNOPQRSTUVWXYZ_abcdefghijklmnopqrstuvwxyz";
// Each two symbols as a number, and whether a number is two symbols.
static uint64_t pairs[PAIRS];
static char is_pair[1 << 16];
static char names[NAMES][LENGTH + 1];

static uint64_t mixed(uint64_t hash, uint64_t word) {
    unsigned __int128 product = (unsigned __int128)(hash + word) * 0x9E3779B97F4A7C15u;
    return (uint64_t)(product >> 64) + (uint64_t)product;
}

// A first half for each number below 2^48. No two are the same, because the factor is odd.
static uint64_t first_half(uint64_t number) {
    uint64_t rest = number * 0x9E3779B97F4Bu;
    return pairs[rest % PAIRS] << 48 | pairs[(rest >> 12) % PAIRS] << 32 | pairs[(rest >> 24) % PAIRS] << 16
        | pairs[(rest >> 36) % PAIRS];
}

static int is_half(uint64_t word) {
    return is_pair[word >> 48] && is_pair[word >> 32 & 0xFFFF] && is_pair[word >> 16 & 0xFFFF] && is_pair[word & 0xFFFF];
}

static void write_half(char *name, uint64_t word) {
    for (int i = 0; i < HALF; i++)
        name[i] = (char)(word >> (56 - 8 * i));
}

static int compared(const void *one, const void *other) { return strcmp(one, other); }

int main(void) {
    for (int i = 0; i < PAIRS; i++) {
        pairs[i] = (uint64_t)symbols[i / 64] << 8 | (uint64_t)symbols[i % 64];
        is_pair[pairs[i]] = 1;
    }
    uint64_t sum = mixed(LENGTH, first_half(0)) + first_half(1);
    for (uint64_t number = 0, count = 0; count < NAMES; number++) {
        uint64_t first = first_half(number), second = sum - mixed(LENGTH, first);
        if (is_half(second)) {
            write_half(names[count], first);
            write_half(names[count++] + HALF, second);
        }
    }
    qsort(names, NAMES, sizeof *names, compared);
    for (int i = 0; i < NAMES; i++)
        puts(names[i]);
    return 0;
}
