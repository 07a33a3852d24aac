// SPDX-License-Identifier: Apache-2.0
// SPDX-FileCopyrightText: Copyright the Vortex contributors

/* Makes random calls of all exports on 64 slots: of any kind, empty, equal, with texts that can be read and others.
 *
 *     random COUNT [SEED]
 *     random COUNT SEED trace      prints for each call 16 bytes in place of lines: its number and its result, and a digest
 *                                  of what it wrote and of what its slots contain (tools/bindings/compare_libraries)
 *
 * Each call has to return one of the results that there are, and leaves `out` as it was unless it is done. What is in use
 * must not grow, and nothing may be left at the end. The last line is `N passed, M failed`. */
#include "../vortex_logical_types.h"
#include "heap.h"

#include <stdio.h>
#include <stdlib.h>
#include <string.h>

enum { SLOTS = 64, ROOM = 4096 };

typedef struct {
    const uint8_t *at;
    size_t length;
} bytes;

typedef struct {
    const vlt_node *at;
    size_t length;
} counted_nodes;

static vlt_slot slots[SLOTS];
static vlt_node nodes_buffer[512];
static uint8_t buffer[ROOM], names[256];
static size_t lengths[8], lengths_count, lengths_buffer[512], failed;
static uint64_t state;

/* A number below this one (xorshift). */
static size_t any(size_t below) {
    state ^= state << 13;
    state ^= state >> 7;
    state ^= state << 17;
    return (size_t)((state >> 11) % (below != 0 ? below : 1));
}

static size_t any_number(void) {
    static const size_t edges[] = {0, 1, 10, 11, 76, 77, 255, 256, UINT32_MAX, SIZE_MAX};
    return any(8) != 0 ? any(12) : edges[any(sizeof edges / sizeof *edges)];
}

static vlt_slot *any_slot(void) { return &slots[any(SLOTS)]; }

static bytes any_text(void) {
    static const char *const texts[] = {
        "i32", "utf8?", "bool", "null", "decimal(10,2)", "variant?", "{a=i32, b=utf8?}", "{a=list({b=u32})?, c=i8}", "{}",
        "fixed_size_list(u8)[3]", "map(utf8, i32?, keys_sorted=true)", "union(a@5=i64, b@9=utf8)?", "union(a=i32, b={c=i8})",
        "x.tag[0x6162](utf8)", "{\"a b\"=f64, a={b={c=list(i16)}}}", "decimal(0,0)", "{a=i33}", "list(",
        ".", "a", "b", "c", "a.b", "a.[].b", "[]", "[].[]", "a.b.c", "\"a b\".[]", "a..b",
        "\xff", "a\xc0", "", "x.tag",
    };
    size_t at = any(sizeof texts / sizeof *texts + 1);
    bytes text = {NULL, 0};
    if (at < sizeof texts / sizeof *texts) {
        text.at = (const uint8_t *)texts[at];
        text.length = strlen(texts[at]);
    }
    return text;
}

/* The nodes of a message, of which one may be missing. Of most messages the texts are empty. */
static counted_nodes any_nodes(void) {
    static const vlt_node primitive[] = {{3, 1, 0, 0, 0, 0, 0, 0, 0, 6}}, unknown[] = {{16, 0, 0, 0, 0, 0, 0, 0, 0, 0}},
                          list[] = {{7, 0, 0, 1, 0, 0, 0, 0, 0, 0}, {2, 0, 0, 0, 0, 0, 0, 0, 0, 0}},
                          fields[] = {{10, 0, 0, 0, 0, 1, 0, 1, 0, 0}, {14, 0, 0, 0, 0, 0, 0, 0, 1, 0}, {5, 0, 0, 0, 0, 0, 0, 0, 0, 0}},
                          map[] = {{9, 0, 1, 1, 1, 0, 0, 0, 0, 0}, {5, 0, 0, 0, 0, 0, 0, 0, 0, 0}, {0, 0, 0, 0, 0, 0, 0, 0, 0, 0}};
    const counted_nodes all[] = {{primitive, 1}, {unknown, 1}, {list, 2}, {fields, 3}, {map, 3}, {NULL, 0}};
    counted_nodes nodes = all[any(sizeof all / sizeof *all)];
    if (any(16) == 0)
        nodes.length -= nodes.length != 0;
    return nodes;
}

/* Names as one text, and their lengths, which mostly add up to it. */
static bytes any_names(void) {
    bytes text = {names, 0};
    lengths_count = any(4);
    for (size_t at = 0; at < lengths_count; at++) {
        if (any(5) == 0) {
            lengths[at] = VLT_ELEMENT;
            continue;
        }
        lengths[at] = any(3);
        for (size_t i = 0; i < lengths[at]; i++)
            names[text.length++] = any(64) == 0 ? 0xff : (uint8_t)('a' + any(3));
    }
    if (any(16) == 0)
        text.length += any(3);
    return text;
}

static void expect(bool is_right) {
    if (!is_right)
        failed++;
}

static bool is_result(uint32_t result) { return result <= VLT_RANGE || (result >= VLT_LIBRARY && result <= VLT_LIBRARY + 36); }

/* Returns how large the object in a slot is, about. */
static size_t size_of(vlt_slot *slot) {
    size_t size = 0, nodes = 0;
    uint32_t result = VLT_DONE;
    switch (vlt_kind(slot)) {
    case VLT_OBJECT_DTYPE:
        result = vlt_dtype_to_text((vlt_dtype *)slot, NULL, 0, &size);
        break;
    case VLT_OBJECT_PATH:
        result = vlt_path_len((vlt_path *)slot, &size);
        size *= 64;
        break;
    case VLT_OBJECT_PATH_SET:
        result = vlt_set_len((vlt_path_set *)slot, &size);
        size *= 64;
        break;
    case VLT_OBJECT_PATH_LIST:
        result = vlt_paths_len((vlt_path_list *)slot, &size);
        size *= 64;
        break;
    case VLT_OBJECT_MESSAGE:
        result = vlt_message_to_nodes((vlt_message *)slot, NULL, 0, &nodes, NULL, 0, &size);
        size += 16 * nodes;
        break;
    case VLT_OBJECT_FIELDS: {
        vlt_dtype dtype = VLT_EMPTY;
        if ((result = vlt_dtype_struct((vlt_fields *)slot, false, &dtype)) == VLT_DONE)
            result = vlt_dtype_to_text(&dtype, NULL, 0, &size);
        vlt_dtype_free(&dtype);
        break;
    }
    default:
        break;
    }
    return result == VLT_DONE || result == VLT_SMALL ? size : 0;
}

/* Whether calls are traced, and the digest of the call that was made last. */
static bool is_traced;
static uint64_t digest;

/* The bytes that are noted of each buffer, and the room for what is in a slot. */
enum { NOTED = 512, LARGE = 1 << 16 };

static uint64_t mixed(uint64_t into, uint64_t number) {
    uint64_t product = (into ^ number) * 0x9e3779b97f4a7c15u;
    return product ^ product >> 29;
}

static uint64_t mixed_bytes(uint64_t into, const void *at, size_t length) {
    uint64_t word = 0;
    for (; length >= sizeof word; length -= sizeof word, at = (const uint8_t *)at + sizeof word) {
        memcpy(&word, at, sizeof word);
        into = mixed(into, word);
    }
    word = 0;
    memcpy(&word, at, length);
    return mixed(into, word ^ (uint64_t)length << 56);
}

/* Adds what a call wrote to its digest. */
static void note(const void *at, size_t length) { digest = is_traced ? mixed_bytes(digest, at, length) : 0; }

static uint8_t large[LARGE];

static uint64_t digest_of_path(const vlt_path *path) {
    size_t length = 0;
    vlt_result result = vlt_path_to_text(path, large, sizeof large, &length);
    return mixed_bytes(result, large, result == VLT_DONE ? length : 0);
}

static uint64_t digest_at(const vlt_path_list *paths, size_t index) {
    vlt_path path = VLT_EMPTY;
    vlt_result result = vlt_paths_get(paths, index, &path);
    uint64_t found = result == VLT_DONE ? digest_of_path(&path) : result;
    vlt_path_free(&path);
    return found;
}

/* The digest of the paths of a list, in whichever order they are. */
static uint64_t digest_of_paths(const vlt_path_list *paths) {
    size_t count = 0, at;
    uint64_t sum = vlt_paths_len(paths, &count);
    for (at = 0; at < count; at++)
        sum += digest_at(paths, at);
    return mixed(sum, count);
}

static uint64_t digest_of_set(const vlt_path_set *set) {
    vlt_path_list members = VLT_EMPTY;
    vlt_result result = vlt_set_members(set, &members);
    uint64_t found = result == VLT_DONE ? digest_of_paths(&members) : result;
    vlt_path_list_free(&members);
    return found;
}

static uint64_t digest_of_type(const vlt_dtype *dtype) {
    size_t length = 0;
    vlt_result result = vlt_dtype_to_text(dtype, large, sizeof large, &length);
    return mixed_bytes(result, large, result == VLT_DONE ? length : 0);
}

static uint64_t digest_of_fields(const vlt_fields *fields) {
    vlt_dtype dtype = VLT_EMPTY;
    vlt_result result = vlt_dtype_struct(fields, false, &dtype);
    uint64_t found = result == VLT_DONE ? digest_of_type(&dtype) : result;
    vlt_dtype_free(&dtype);
    return found;
}

static uint64_t digest_of_mask(const vlt_mask *mask) {
    vlt_path path = VLT_EMPTY;
    uint32_t kind = 0;
    uint64_t found = mixed(vlt_mask_kind(mask, &kind), vlt_mask_path(mask, &path));
    found = mixed(mixed(found, kind), path.slot.at ? digest_of_path(&path) : 0);
    vlt_path_free(&path);
    return found;
}

static uint64_t digest_of_message(const vlt_message *message) {
    static vlt_node nodes[LARGE / sizeof(vlt_node)];
    size_t count = 0, length = 0;
    vlt_result result = vlt_message_to_nodes(message, nodes, sizeof nodes / sizeof *nodes, &count, large, sizeof large, &length);
    if (result != VLT_DONE)
        return result;
    return mixed_bytes(mixed_bytes(result, nodes, count * sizeof *nodes), large, length);
}

static uint64_t digest_of_error(const vlt_error *error) {
    uint32_t number = 0;
    size_t position = 0, length = 0;
    uint64_t found = mixed(vlt_error_number(error, &number), vlt_error_position(error, &position));
    found = mixed(found, vlt_error_message(error, large, sizeof large, &length));
    return mixed_bytes(mixed(mixed(found, number), position), large, length);
}

static uint64_t digest_of(const vlt_slot *slot) {
    switch (vlt_kind(slot)) {
    case VLT_OBJECT_DTYPE:
        return digest_of_type((const vlt_dtype *)slot);
    case VLT_OBJECT_PATH:
        return digest_of_path((const vlt_path *)slot);
    case VLT_OBJECT_PATH_SET:
        return digest_of_set((const vlt_path_set *)slot);
    case VLT_OBJECT_PATH_LIST:
        return digest_of_paths((const vlt_path_list *)slot);
    case VLT_OBJECT_MASK:
        return digest_of_mask((const vlt_mask *)slot);
    case VLT_OBJECT_MESSAGE:
        return digest_of_message((const vlt_message *)slot);
    case VLT_OBJECT_FIELDS:
        return digest_of_fields((const vlt_fields *)slot);
    case VLT_OBJECT_ERROR:
        return digest_of_error((const vlt_error *)slot);
    default:
        return 0;
    }
}

/* Adds what these slots contain to the digest of a call. */
static void note_slots(const vlt_slot *noted, size_t count) {
    size_t at;
    for (at = 0; is_traced && at < count; at++)
        digest = mixed(mixed(digest, vlt_kind(&noted[at])), digest_of(&noted[at]));
}

/* The place in a list of the path with this index in the order of the digests, since the order of a list is open. */
static size_t ranked(const vlt_slot *list, size_t index) {
    const vlt_path_list *paths = (const vlt_path_list *)list;
    size_t count = 0, at, other;
    if (!is_traced || vlt_paths_len(paths, &count) != VLT_DONE || index >= count)
        return index;
    for (at = 0; at < count; at++) {
        uint64_t found = digest_at(paths, at);
        size_t before = 0;
        for (other = 0; other < count; other++) {
            uint64_t one = digest_at(paths, other);
            before += one < found || (one == found && other < at);
        }
        if (before == index)
            return at;
    }
    return index;
}

/* Adds the begin of a buffer to the digest of a call, and clears it. */
static void note_buffer(void *at) {
    note(at, NOTED);
    memset(at, 0, NOTED);
}

/* Prints the call that was made. */
static void print_call(size_t number, uint32_t result) {
    const uint32_t numbers[2] = {(uint32_t)number, result};
    note_buffer(buffer);
    note_buffer(nodes_buffer);
    note_buffer(lengths_buffer);
    fwrite(numbers, sizeof numbers, 1, stdout);
    fwrite(&digest, sizeof digest, 1, stdout);
    digest = 0;
}

/* Empties a slot whose object is large. */
static void trim(vlt_slot *slot) {
    if (size_of(slot) > 1500)
        vlt_free(slot);
}

/* Puts a struct, so that some slots have structs without a common name, which can be merged. */
static void put_struct(vlt_slot *out) {
    static const char *const texts[] = {"{a=i32}", "{b=utf8?, c={a=u8}}", "{\"a b\"=f64}"};
    const char *text = texts[any(sizeof texts / sizeof *texts)];
    expect(vlt_dtype_from_text((const uint8_t *)text, strlen(text), (vlt_dtype *)out, NULL) == 0);
}

/* Puts up to two fields, of which unions can be made with tags from the texts. */
static void put_fields(vlt_slot *out) {
    static const char *const letters[] = {"a", "b"};
    vlt_dtype dtype = VLT_EMPTY;
    size_t count = any(3), at;
    expect(vlt_fields_new((vlt_fields *)out) == 0 && vlt_dtype_utf8(any(2) != 0, &dtype) == 0);
    for (at = 0; at < count; at++)
        expect(vlt_fields_push((vlt_fields *)out, (const uint8_t *)letters[at], 1, &dtype) == 0);
    vlt_dtype_free(&dtype);
}

/* Puts a list of up to two paths, since few calls make one. */
static void put_paths(vlt_slot *out) {
    static const char *const texts[] = {"a", "b.[]"};
    vlt_path_set set = VLT_EMPTY;
    vlt_path path = VLT_EMPTY;
    size_t count = any(3), at;
    expect(vlt_set_new(&set) == 0);
    for (at = 0; at < count; at++)
        expect(vlt_path_from_text((const uint8_t *)texts[at], strlen(texts[at]), &path, NULL) == 0
               && vlt_set_insert(&set, &path) == 0);
    expect(vlt_set_members(&set, (vlt_path_list *)out) == 0);
    vlt_path_free(&path);
    vlt_path_set_free(&set);
}

#include "random_calls.h"

int main(int count, char **arguments) {
    size_t wanted = count > 1 ? (size_t)strtoull(arguments[1], NULL, 10) : 1000000, most[2] = {0, 0};
    static size_t results[140], answered[CALLS];
    uint64_t seed = count > 2 ? strtoull(arguments[2], NULL, 10) : 1;
    state = seed * 0x9e3779b97f4a7c15u + 1;
    is_traced = count > 3 && strcmp(arguments[3], "trace") == 0;
    for (size_t half = 0; half < 2; half++) {
        heap_most_bytes = heap_bytes;
        for (size_t at = 0; at < wanted / 2; at++) {
            size_t number = any(CALLS);
            uint32_t result = make_call(number);
            if (is_traced)
                print_call(number, result);
            results[result < 140 ? result : 139]++;
            answered[number] += result <= (uint32_t)VLT_NONE || strcmp(call_names[number], "vlt_kind") == 0;
            if (any(40) == 0)
                vlt_free(any_slot());
            if (any(32) == 0)
                put_struct(any_slot());
            if (any(16) == 0)
                put_fields(any_slot());
            if (any(64) == 0)
                put_paths(any_slot());
        }
        most[half] = heap_most_bytes;
    }
    for (size_t at = 0; at < SLOTS; at++)
        vlt_free(&slots[at]);
    if (is_traced)
        return failed != 0 || heap_blocks != 0;
    if (failed != 0)
        printf("random: %zu calls returned another result, or changed `out` though they weren't done\n", failed);
    size_t faults = failed != 0;
    for (size_t at = 0; at < CALLS; at++)
        if (answered[at] == 0 && wanted >= 500000) {
            printf("random: %s was never done\n", call_names[at]);
            faults++;
        }
    if (most[1] > 2 * most[0] + 65536) {
        printf("random: at most %zu bytes were in use in the first half of the calls, %zu in the second\n", most[0], most[1]);
        faults++;
    }
    if (heap_blocks != 0) {
        printf("random: %zu blocks are in use at the end\n", heap_blocks);
        faults++;
    }
    printf("random: %zu calls, seed %llu: %zu done, %zu none, %zu of a wrong kind, %zu with equal slots; at most %zu and then "
           "%zu bytes\n",
           wanted, (unsigned long long)seed, results[0], results[1], results[2], results[8], most[0], most[1]);
    printf("%zu passed, %zu failed\n", faults > CALLS ? 0 : CALLS + 3 - faults, faults);
    return faults != 0;
}
