// SPDX-License-Identifier: Apache-2.0
// SPDX-FileCopyrightText: Copyright the Vortex contributors

/* The walk through a struct ArrowSchema, and the structs that are made, by themselves. In place of the two proved functions
 * there are two here: one keeps the nodes and texts that it is passed, and the other returns those that were kept.
 *
 *     arrow_walk [COUNT [SEED]]
 *
 * Random schemas are walked and made again, which has to give equal schemas: also if an allocation fails, if children were
 * moved out, and if the structs are released on another thread. Then there is one schema for each fault. Each struct has
 * to be released exactly once. The last line is `N passed, M failed`. */
#define _GNU_SOURCE
#include "../vortex_logical_types.h"
#include "heap.h"
#include "schemas.h"

#include <pthread.h>
#include <stdio.h>
#include <stdlib.h>
#include <string.h>
#include <sys/mman.h>

/* The flat form of a field, as arrow.c has it. */
typedef struct {
    uint64_t flags;
    size_t format_length, name_length, metadata_length, child_count;
    uint32_t has_dictionary, fault;
} vlt_arrow_node;

static size_t passed, failed;
static uint64_t state;

static void check(int is_right, int line, const char *what) {
    passed += is_right != 0;
    failed += is_right == 0;
    if (!is_right)
        printf("arrow_walk.c:%d: %s, with allocation %zu refused\n", line, what, heap_refused);
}
#define HOLDS(condition) check((condition) != 0, __LINE__, #condition)

/* A number below this one (xorshift). */
static size_t any(size_t below) {
    state ^= state << 13;
    state ^= state >> 7;
    state ^= state << 17;
    return (size_t)((state >> 11) % (below != 0 ? below : 1));
}

/* == What stands for the proved functions == */

static struct {
    vlt_arrow_node *nodes;
    uint8_t *texts;
    size_t node_count, text_length, reads, writes;
    /* What the functions return, and whether they store an error. */
    uint32_t result;
    bool tells;
} kept;
static char object, reason;
/* How many errors are in slots. */
static size_t reasons;

static void forget(void) {
    free(kept.nodes);
    free(kept.texts);
    kept.nodes = NULL;
    kept.texts = NULL;
}

/* (The layer keeps the name of a wrong argument, which isn't tested here.) */
vlt_result vlt_is_wrong(const char *name, vlt_result result);
vlt_result vlt_is_wrong(const char *name, vlt_result result) {
    (void)name;
    return result;
}

uint32_t vlt_core_dtype_from_arrow_nodes(
        const vlt_arrow_node *nodes, size_t nodes_len, const uint8_t *texts, size_t texts_len, vlt_slot *out, vlt_slot *error) {
    forget();
    kept.reads++;
    kept.nodes = (vlt_arrow_node *)malloc(nodes_len * sizeof *nodes);
    kept.texts = (uint8_t *)malloc(texts_len + 1);
    memcpy(kept.nodes, nodes, nodes_len * sizeof *nodes);
    memcpy(kept.texts, texts, texts_len);
    kept.node_count = nodes_len;
    kept.text_length = texts_len;
    if (kept.tells) {
        error->at = &reason;
        reasons++;
    } else if (kept.result == 0)
        out->at = &object;
    return kept.result;
}

uint32_t vlt_core_dtype_to_arrow_nodes(
        vlt_slot *dtype, vlt_arrow_node *nodes, size_t nodes_len, size_t *node_count, uint8_t *texts, size_t texts_len,
        size_t *text_length, vlt_slot *error) {
    kept.writes++;
    if (dtype->at != &object)
        return VLT_KIND;
    if (kept.tells) {
        error->at = &reason;
        reasons++;
    }
    if (kept.result != 0)
        return kept.result;
    *node_count = kept.node_count;
    *text_length = kept.text_length;
    if (nodes_len < kept.node_count || texts_len < kept.text_length)
        return VLT_SMALL;
    memcpy(nodes, kept.nodes, kept.node_count * sizeof *nodes);
    memcpy(texts, kept.texts, kept.text_length);
    return VLT_DONE;
}

void vlt_core_free(vlt_slot *slot) {
    reasons -= slot->at == &reason;
    slot->at = NULL;
}

/* == Random schemas == */

static char *any_string(size_t longest) {
    size_t length = any(20) == 0 ? any(longest) : any(8), at;
    char *text = (char *)malloc(length + 1);
    for (at = 0; at < length; at++)
        text[at] = (char)(1 + any(255));
    text[length] = '\0';
    return text;
}

/* Metadata of some pairs, and how many bytes it has. */
static char *any_metadata(size_t *length) {
    int32_t pairs = (int32_t)any(4), sizes[6], at;
    char *bytes, *to;
    *length = sizeof pairs;
    for (at = 0; at < 2 * pairs; at++) {
        sizes[at] = (int32_t)any(any(10) == 0 ? 300 : 6);
        *length += sizeof pairs + (size_t)sizes[at];
    }
    bytes = to = (char *)malloc(*length);
    memcpy(to, &pairs, sizeof pairs);
    to += sizeof pairs;
    for (at = 0; at < 2 * pairs; at++) {
        memcpy(to, &sizes[at], sizeof pairs);
        memset(to + sizeof pairs, (int)any(256), (size_t)sizes[at]);
        to += sizeof pairs + (size_t)sizes[at];
    }
    return bytes;
}

/* A schema of at most so many fields, of which the number left is written. */
static struct ArrowSchema *any_schema(size_t *left, size_t around) {
    char *format = any_string(2000), *name = any_string(2000);
    size_t count = around >= 250 || *left == 0 ? 0 : any(any(30) == 0 ? 60 : 4), at, length;
    struct ArrowSchema *field;
    count = count > *left ? *left : count;
    *left -= count;
    field = field_of(format, any(6) == 0 ? NULL : name, any(5) == 0 ? (int64_t)(state * 3) : (int64_t)any(8), count);
    free(format);
    free(name);
    field->metadata = any(4) == 0 ? any_metadata(&length) : NULL;
    for (at = 0; at < count; at++)
        field->children[at] = any_schema(left, around + 1);
    if (*left != 0 && around < 250 && any(8) == 0) {
        *left -= 1;
        field->dictionary = any_schema(left, around + 1);
    }
    return field;
}

/* == Schemas that are walked and made again == */

/* Moves some children out of a schema that was made, releases the schema, and then looks at the children. */
static void move_children(struct ArrowSchema *made, const struct ArrowSchema *wanted) {
    struct ArrowSchema moved[4];
    size_t count = 0, at;
    for (at = 0; at < (size_t)made->n_children && count < 4; at++)
        if (any(2) == 0) {
            moved[count++] = *made->children[at];
            made->children[at]->release = NULL;
            /* (The index is remembered in a field that is not compared.) */
            moved[count - 1].flags = (int64_t)at;
        }
    made->release(made);
    HOLDS(made->release == NULL);
    for (at = 0; at < count; at++) {
        const struct ArrowSchema *it = wanted->children[moved[at].flags];
        moved[at].flags = it->flags;
        HOLDS(are_equal(it, &moved[at]));
        moved[at].release(&moved[at]);
        HOLDS(moved[at].release == NULL);
    }
}

static void *on_another_thread(void *given) {
    struct ArrowSchema *made = (struct ArrowSchema *)given;
    made->release(made);
    return NULL;
}

/* Walks through a schema and makes it again. */
static void there_and_back(const struct ArrowSchema *schema) {
    vlt_dtype dtype = VLT_EMPTY;
    struct ArrowSchema made;
    size_t before = seen(schema, 1), released = structs_released;
    vlt_result result = vlt_dtype_from_arrow(schema, &dtype, NULL);
    if (result == VLT_LIBRARY && heap_refused != 0) {
        HOLDS(dtype.slot.at == NULL && heap_blocks == 0);
        result = vlt_dtype_from_arrow(schema, &dtype, NULL);
    }
    HOLDS(result == VLT_DONE && dtype.slot.at == &object);
    HOLDS(seen(schema, 1) == before && structs_released == released && heap_blocks == 0);
    memset(&made, 0xee, sizeof made);
    result = vlt_dtype_to_arrow(&dtype, &made, NULL);
    if (result == VLT_LIBRARY && heap_refused != 0) {
        struct ArrowSchema untouched;
        memset(&untouched, 0xee, sizeof untouched);
        HOLDS(memcmp(&made, &untouched, sizeof made) == 0 && heap_blocks == 0);
        result = vlt_dtype_to_arrow(&dtype, &made, NULL);
    }
    HOLDS(result == VLT_DONE && are_equal(schema, &made));
    if (any(3) == 0) {
        move_children(&made, schema);
    } else if (any(500) == 0) {
        pthread_t thread;
        HOLDS(pthread_create(&thread, NULL, on_another_thread, &made) == 0);
        HOLDS(pthread_join(thread, NULL) == 0 && made.release == NULL);
    } else {
        made.release(&made);
        HOLDS(made.release == NULL);
    }
    HOLDS(heap_blocks == 0);
}

static void random_schemas(size_t count) {
    for (; count != 0; count--) {
        size_t left = any(20) == 0 ? 400 : 20;
        struct ArrowSchema *schema = any_schema(&left, 0);
        there_and_back(schema);
        drop(schema);
    }
}

/* One schema, with each allocation refused in turn. */
static void refused_allocations(void) {
    size_t left = 90;
    struct ArrowSchema *schema = any_schema(&left, 0);
    do {
        heap_refused++;
        heap_asked = 0;
        there_and_back(schema);
    } while (heap_asked >= heap_refused);
    heap_refused = 0;
    drop(schema);
}

/* == Nodes one by one == */

static void is_node(size_t at, vlt_arrow_node wanted, const char *text, size_t from, int line) {
    size_t length = wanted.format_length + wanted.name_length + wanted.metadata_length;
    check(at < kept.node_count && memcmp(&kept.nodes[at], &wanted, sizeof wanted) == 0, line, "the node");
    check(from + length <= kept.text_length && memcmp(kept.texts + from, text, length) == 0, line, "the texts");
}
#define IS_NODE(at, text, from, ...) \
    do { \
        vlt_arrow_node wanted = __VA_ARGS__; \
        is_node(at, wanted, text, from, __LINE__); \
    } while (0)

/* The nodes of a struct of a column with a dictionary and of another with metadata. */
static void known_nodes(void) {
    static const char metadata[] = "\1\0\0\0\1\0\0\0k\2\0\0\0vw";
    vlt_dtype dtype = VLT_EMPTY;
    struct ArrowSchema *schema = field_with("+s", NULL, 0, with_dictionary(field_of("i", "a", 2, 0), field_of("u", "", 0, 0)),
                                            field_of("tiM", "\xc3\xa4", 0, 0), NULL);
    schema->children[1]->metadata = copy_of_bytes(metadata, 15);
    HOLDS(vlt_dtype_from_arrow(schema, &dtype, NULL) == VLT_DONE);
    HOLDS(kept.node_count == 4 && kept.text_length == 25);
    IS_NODE(0, "+s", 0, {0, 2, 0, 0, 2, 0, 0});
    IS_NODE(1, "ia", 2, {2, 1, 1, 0, 0, 1, 0});
    IS_NODE(2, "u", 4, {0, 1, 0, 0, 0, 0, 0});
    IS_NODE(3, "tiM\xc3\xa4\1\0\0\0\1\0\0\0k\2\0\0\0vw", 5, {0, 3, 2, 15, 0, 0, 0});
    drop(schema);
}

/* == Faults == */

/* A struct of the columns a, b and c, of which b is a list. */
static struct ArrowSchema *sample(void) {
    return field_with("+s", "root", 0, field_of("i", "a", 0, 0), field_with("+l", "b", 0, field_of("u", "item", 0, 0), NULL),
                      field_of("b", "c", 0, 0), NULL);
}

/* Walks a schema in which the last of so many nodes has a fault, and drops it. */
static void has_fault(struct ArrowSchema *schema, uint32_t fault, size_t nodes, int line) {
    vlt_dtype dtype = VLT_EMPTY;
    vlt_error error = VLT_EMPTY;
    const vlt_arrow_node *last;
    kept.result = VLT_UNREADABLE;
    kept.tells = true;
    check(vlt_dtype_from_arrow(schema, &dtype, &error) == VLT_UNREADABLE, line, "the result");
    check(dtype.slot.at == NULL && error.slot.at == &reason && reasons == 1, line, "the slots");
    vlt_core_free(&error.slot);
    check(kept.node_count == nodes, line, "the number of nodes");
    last = &kept.nodes[kept.node_count - 1];
    check(last->fault == fault && last->child_count == 0 && last->has_dictionary == 0 && last->metadata_length == 0, line,
          "the last node");
    kept.result = VLT_DONE;
    kept.tells = false;
    drop(schema);
}
#define FAULT(fault, nodes) has_fault(schema, fault, nodes, __LINE__)

static void faults(void) {
    struct ArrowSchema *schema = sample(), *list, *hidden;
    static const char *const wrong[] = {"\xff\xff\xff\xff", "\1\0\0\0\xfe\xff\xff\xff", "\1\0\0\0\1\0\0\0k\0\0\0\x80"};
    static const size_t sizes[] = {4, 8, 13};
    int64_t counts[] = {-1, INT64_MIN, INT64_MAX, (int64_t)1 << 60};
    size_t at;
    schema->release(schema);
    FAULT(1, 1);
    schema = sample();
    schema->children[1]->release(schema->children[1]);
    FAULT(1, 3);
    schema = sample();
    free((char *)schema->children[1]->format);
    schema->children[1]->format = NULL;
    FAULT(2, 3);
    HOLDS(kept.nodes[2].name_length == 1 && kept.nodes[2].format_length == 0);
    schema = sample();
    free((char *)schema->format);
    schema->format = NULL;
    FAULT(2, 1);
    /* (The children that aren't there are put back, so that they are released.) */
    schema = sample();
    list = schema->children[1];
    hidden = list->children[0];
    list->children[0] = NULL;
    {
        vlt_dtype dtype = VLT_EMPTY;
        HOLDS(vlt_dtype_from_arrow(schema, &dtype, NULL) == VLT_DONE);
        HOLDS(kept.node_count == 3 && kept.nodes[2].fault == 3);
        list->children[0] = hidden;
        hidden = (struct ArrowSchema *)list->children;
        list->children = NULL;
        HOLDS(vlt_dtype_from_arrow(schema, &dtype, NULL) == VLT_DONE);
        HOLDS(kept.node_count == 3 && kept.nodes[2].fault == 3);
        list->children = (struct ArrowSchema **)hidden;
        for (at = 0; at < sizeof counts / sizeof *counts; at++) {
            list->n_children = counts[at];
            HOLDS(vlt_dtype_from_arrow(schema, &dtype, NULL) == VLT_DONE);
            HOLDS(kept.node_count == 3 && kept.nodes[2].fault == 4 && kept.nodes[2].child_count == 0);
        }
        list->n_children = (1 << 24) - 2;
        HOLDS(vlt_dtype_from_arrow(schema, &dtype, NULL) == VLT_DONE);
        HOLDS(kept.node_count == 1 && kept.nodes[0].fault == 6);
        list->n_children = 1;
        drop(schema);
    }
    for (at = 0; at < 3; at++) {
        schema = sample();
        schema->children[2]->metadata = copy_of_bytes(wrong[at], sizes[at]);
        FAULT(4, 5);
    }
}

/* So many fields inside one another, each of which but the last has another: as a child, or as its dictionary. */
static struct ArrowSchema *nested(size_t count) {
    struct ArrowSchema *whole = field_of("+l", "", 0, 0), *at = whole;
    for (; count > 1; count--) {
        struct ArrowSchema *inner = field_of("+l", "n", 0, 0);
        if (any(2) == 0) {
            at->children = (struct ArrowSchema **)malloc(sizeof *at->children);
            at->children[0] = inner;
            at->n_children = 1;
        } else {
            at->dictionary = inner;
        }
        at = inner;
    }
    return whole;
}

/* Structs of which each is the child of the next one twice, so there are 2^count - 1 fields. */
static void shared(size_t count, uint32_t fault) {
    struct ArrowSchema *fields = (struct ArrowSchema *)calloc(count, sizeof *fields), *pointers[64];
    vlt_dtype dtype = VLT_EMPTY;
    size_t at;
    for (at = 0; at < count; at++) {
        fields[at].format = "+s";
        fields[at].release = drop;
        pointers[2 * at] = pointers[2 * at + 1] = &fields[at];
        fields[at].n_children = at == 0 ? 0 : 2;
        fields[at].children = at == 0 ? NULL : &pointers[2 * at - 2];
    }
    HOLDS(vlt_dtype_from_arrow(&fields[count - 1], &dtype, NULL) == VLT_DONE);
    HOLDS(kept.nodes[kept.node_count - 1].fault == fault);
    HOLDS(kept.node_count == (fault ? 1 : ((size_t)1 << count) - 1));
    free(fields);
}

/* Metadata of two texts of 2^31 - 1 bytes each, of which only the lengths are in memory: too much, so nothing is copied. */
static void too_many_bytes(void) {
    static const uint8_t pairs[] = {1, 0, 0, 0}, length[] = {255, 255, 255, 127};
    const size_t second = 8 + (size_t)INT32_MAX, room = second + 4096;
    struct ArrowSchema *schema = field_of("i", "", 0, 0);
    uint8_t *metadata = (uint8_t *)mmap(NULL, room, PROT_READ | PROT_WRITE, MAP_PRIVATE | MAP_ANONYMOUS | MAP_NORESERVE, -1, 0);
    vlt_dtype dtype = VLT_EMPTY;
    HOLDS(metadata != MAP_FAILED);
    memcpy(metadata, pairs, sizeof pairs);
    memcpy(metadata + 4, length, sizeof length);
    memcpy(metadata + second, length, sizeof length);
    schema->metadata = (const char *)metadata;
    HOLDS(vlt_dtype_from_arrow(schema, &dtype, NULL) == VLT_DONE);
    HOLDS(kept.node_count == 1 && kept.nodes[0].fault == 4 && kept.nodes[0].metadata_length == 0 && kept.text_length == 0);
    schema->metadata = NULL;
    drop(schema);
    munmap(metadata, room);
}

/* Schemas with as many fields, and as many bytes, as arrow.c has room for without an allocation, and a few more or fewer. */
static void borders(void) {
    char name[4200];
    size_t fields, bytes;
    for (fields = 125; fields <= 131; fields++) {
        struct ArrowSchema *schema = field_of("+s", "", 0, fields);
        for (bytes = 0; bytes < fields; bytes++)
            schema->children[bytes] = field_of("i", "", 0, 0);
        there_and_back(schema);
        drop(schema);
    }
    for (bytes = 4085; bytes <= 4100; bytes++) {
        struct ArrowSchema *schema;
        memset(name, 'a', bytes);
        name[bytes] = '\0';
        schema = field_of("i", name, 0, 0);
        there_and_back(schema);
        drop(schema);
    }
}

static void limits(void) {
    struct ArrowSchema *schema = nested(300);
    there_and_back(schema);
    drop(schema);
    schema = nested(301);
    FAULT(5, 301);
    schema = nested(2000);
    FAULT(5, 301);
    shared(10, 0);
    shared(25, 6);
    shared(32, 6);
    too_many_bytes();
}

/* Arguments that a call refuses. */
static void arguments(void) {
    struct ArrowSchema *schema = sample(), made = {0};
    vlt_dtype dtype = VLT_EMPTY;
    vlt_error error = VLT_EMPTY;
    size_t reads = kept.reads, writes = kept.writes;
    HOLDS(vlt_dtype_from_arrow(NULL, &dtype, &error) == VLT_RANGE);
    HOLDS(vlt_dtype_from_arrow(schema, &dtype, (vlt_error *)&dtype) == VLT_SAME_SLOT);
    HOLDS(vlt_dtype_to_arrow(&dtype, &made, (vlt_error *)&dtype) == VLT_SAME_SLOT);
    HOLDS(vlt_dtype_to_arrow(&dtype, NULL, &error) == VLT_RANGE);
    HOLDS(kept.reads == reads && kept.writes == writes);
    HOLDS(vlt_dtype_to_arrow(&dtype, &made, &error) == VLT_KIND);
    HOLDS(vlt_dtype_from_arrow(schema, &dtype, &error) == VLT_DONE);
    kept.result = VLT_DEEP;
    HOLDS(vlt_dtype_to_arrow(&dtype, &made, &error) == VLT_DEEP);
    kept.tells = true;
    HOLDS(vlt_dtype_to_arrow(&dtype, &made, NULL) == VLT_DEEP && error.slot.at == NULL && reasons == 0);
    HOLDS(vlt_dtype_from_arrow(schema, &dtype, NULL) == VLT_DEEP && error.slot.at == NULL && reasons == 0);
    HOLDS(vlt_dtype_to_arrow(&dtype, &made, &error) == VLT_DEEP && error.slot.at == &reason && reasons == 1);
    vlt_core_free(&error.slot);
    HOLDS(made.release == NULL && made.format == NULL);
    kept.result = VLT_DONE;
    kept.tells = false;
    /* Without Python there are no capsules. */
    HOLDS(vlt_arrow_capsule(schema) == NULL && schema->release != NULL);
    HOLDS(vlt_arrow_capsule(NULL) == NULL);
    drop(schema);
}

int main(int count, char **given) {
    size_t schemas = count > 1 ? (size_t)strtoull(given[1], NULL, 10) : 10000;
    state = count > 2 ? strtoull(given[2], NULL, 10) : 1;
    known_nodes();
    faults();
    limits();
    arguments();
    refused_allocations();
    borders();
    random_schemas(schemas);
    HOLDS(structs_made == structs_released);
    HOLDS(heap_blocks == 0);
    forget();
    printf("arrow_walk: %zu schemas with %zu fields\n%zu passed, %zu failed\n", schemas, structs_made, passed, failed);
    return failed != 0;
}
