// SPDX-License-Identifier: Apache-2.0
// SPDX-FileCopyrightText: Copyright the Vortex contributors

/* Types from and to Arrow's C data interface. Two proved functions translate between a type and an array of nodes, one
 * node for each field of Arrow. This file walks a struct ArrowSchema into such nodes, and makes one of them. It
 * understands no format and no metadata: it copies strings, measures metadata, counts fields and bounds how many there
 * are. It isn't proved, but tested (c/tests). tools/bindings/bindings writes the declarations of the two proved
 * functions. */
#define _GNU_SOURCE
#include "vortex_logical_types.h"

#include <dlfcn.h>
#include <string.h>

/* begin of what tools/bindings writes */
/* One field of a schema in Arrow's C data interface. The node of a field is followed by the nodes of its children, each
 * with what belongs to it, and then by those of the type of its dictionary's values. The bytes of its format, its name
 * and its metadata are the next in the pool of texts. */
typedef struct {
    /* The flags of the struct: 1 if the dictionary is ordered, 2 if the field is nullable, and 4 if the keys of the map
     * are sorted. */
    uint64_t flags;
    /* The number of bytes of the format. */
    size_t format_length;
    /* The number of bytes of the name, which is 0 if there is no name. */
    size_t name_length;
    /* The number of bytes of the metadata as they lie in memory, which is 0 if there is no metadata. */
    size_t metadata_length;
    /* The number of children. */
    size_t child_count;
    /* 1 if the type of the values of a dictionary follows, and otherwise 0. */
    uint32_t has_dictionary;
    /* 0, or what is wrong with the struct of this field: 1 if the schema was released, 2 if the format is NULL, 3 if a
     * child or the array of children is NULL, 4 if a count is negative or too large, 5 if more than 300 fields are
     * inside one another, and 6 if there are more than 2^24 fields. */
    uint32_t fault;
} vlt_arrow_node;

#pragma GCC visibility push(hidden)
uint32_t vlt_core_dtype_from_arrow_nodes(
        const vlt_arrow_node *nodes, size_t nodes_len, const uint8_t *texts, size_t texts_len, vlt_slot *out,
        vlt_slot *error);
uint32_t vlt_core_dtype_to_arrow_nodes(
        vlt_slot *dtype, vlt_arrow_node *nodes, size_t nodes_len, size_t *node_count, uint8_t *texts, size_t texts_len,
        size_t *text_length, vlt_slot *error);
void vlt_core_free(vlt_slot *slot);
#pragma GCC visibility pop
/* end of what tools/bindings writes */

/* The heap of the library. */
typedef struct {
    bool ok;
    void *at;
} rattle_tried;

rattle_tried rattle_alloc(size_t size, size_t align);
void rattle_dealloc(void *at);

/* Keeps the name of an argument that is wrong, and returns the result that says so (argument.c). */
__attribute__((visibility("hidden"))) vlt_result vlt_is_wrong(const char *name, vlt_result result);

/* The alignment of all blocks, and the room on the stack for the nodes and the texts of a small schema. */
enum { ALIGNMENT = 16, FEW_NODES = 128, FEW_BYTES = 4096 };

/* How many fields may be inside one another, how many there may be in all, and how many bytes their texts may have. A field
 * that has two parents counts twice, and so do its texts, so the numbers also bound the time that a walk takes. */
enum { MOST_NESTED = 300, MOST_FIELDS = 1 << 24 };
#define MOST_BYTES ((size_t)1 << 31)

/* What can be wrong with a struct, so that nothing more of it is read. */
enum {
    NO_FAULT = 0,
    /* It was released. */
    RELEASED = 1,
    /* It has no format. */
    NO_FORMAT = 2,
    /* One of the children that it counts is missing, or all are. */
    NO_CHILD = 3,
    /* The number of children, or a number in the metadata, is negative or too large for memory. */
    WRONG_COUNT = 4,
    TOO_NESTED = 5,
    TOO_MANY = 6
};

/* Returns whether two slots are the same slot, or have the same object. */
static inline bool are_same(const vlt_slot *one, const vlt_slot *other) {
    return one == other || (one->at == other->at && one->at);
}

/* Items that were appended. They are on the stack until the room there is full, and then in a block. */
typedef struct {
    uint8_t *at;
    size_t length, room;
    bool is_block;
} buffer;

/* The nodes and the texts of the fields that were walked, both in bytes, and whether memory ran out. */
typedef struct {
    buffer nodes, texts;
    bool is_out_of_memory;
} walk;

/* Writes the number of bytes that the metadata has in memory, and returns whether no number in it is negative. Metadata is
 * a number of pairs, and then for each pair a number and so many bytes of its key, and the same of its value. The numbers
 * may be at any address. (The sum of at most 2^32 numbers below 2^31 and their own bytes is below 2^64.) */
static bool measure(const char *metadata, size_t *length) {
    int32_t pairs, bytes;
    size_t at = sizeof pairs;
    uint64_t texts;
    memcpy(&pairs, metadata, sizeof pairs);
    if (pairs < 0)
        return false;
    for (texts = 2 * (uint64_t)pairs; texts != 0; texts--) {
        memcpy(&bytes, metadata + at, sizeof bytes);
        if (bytes < 0)
            return false;
        at += sizeof bytes + (size_t)bytes;
    }
    *length = at;
    return true;
}

/* Appends bytes, or returns false if memory ran out. The room at least doubles, so each byte is moved about once. */
static bool append(buffer *to, const void *bytes, size_t length) {
    if (length > to->room - to->length) {
        size_t room = 2 * to->room > to->length + length ? 2 * to->room : to->length + length;
        rattle_tried block = rattle_alloc(room, ALIGNMENT);
        if (!block.ok)
            return false;
        memcpy(block.at, to->at, to->length);
        if (to->is_block)
            rattle_dealloc(to->at);
        to->at = (uint8_t *)block.at;
        to->room = room;
        to->is_block = true;
    }
    if (length)
        memcpy(to->at + to->length, bytes, length);
    to->length += length;
    return true;
}

/* Frees the block of a buffer, if it has one. */
static void drop_buffer(const buffer *it) {
    if (it->is_block)
        rattle_dealloc(it->at);
}

/* Returns what is wrong with a field. It is inside of `around` others, and `before` fields were counted before it. The
 * children are bounded before a pointer to one of them is read. Of a field that was released nothing else is read. */
static uint32_t fault_of(const struct ArrowSchema *field, size_t around, size_t before) {
    int64_t at;
    if (!field->release)
        return RELEASED;
    if (!field->format)
        return NO_FORMAT;
    if (around >= MOST_NESTED)
        return TOO_NESTED;
    if (field->n_children < 0 || (uint64_t)field->n_children > PTRDIFF_MAX / sizeof *field->children)
        return WRONG_COUNT;
    if (before >= MOST_FIELDS || (uint64_t)field->n_children > MOST_FIELDS - 1 - before)
        return TOO_MANY;
    if (field->n_children && !field->children)
        return NO_CHILD;
    for (at = 0; at < field->n_children; at++)
        if (!field->children[at])
            return NO_CHILD;
    return NO_FAULT;
}

/* Returns the node of a field, whose texts have at most `room` bytes. */
static vlt_arrow_node node_of(const struct ArrowSchema *field, size_t around, size_t before, size_t room) {
    vlt_arrow_node node = {0};
    node.fault = fault_of(field, around, before);
    if (node.fault == RELEASED)
        return node;
    if (!node.fault && field->metadata && !measure(field->metadata, &node.metadata_length))
        node.fault = WRONG_COUNT;
    node.flags = (uint64_t)field->flags;
    node.format_length = field->format ? strlen(field->format) : 0;
    node.name_length = field->name ? strlen(field->name) : 0;
    if (node.format_length > room || node.name_length > room - node.format_length
        || node.metadata_length > room - node.format_length - node.name_length) {
        node.fault = WRONG_COUNT;
        node.format_length = node.name_length = 0;
    }
    if (node.fault) {
        node.metadata_length = 0;
    } else {
        node.child_count = (size_t)field->n_children;
        node.has_dictionary = field->dictionary != NULL;
    }
    return node;
}

/* Walks through a field and all that is in it, in pre-order: the field, its children, its dictionary. Returns the first
 * fault, whose node is the last one. */
static uint32_t walk_through(walk *to, const struct ArrowSchema *field, size_t around) {
    const vlt_arrow_node node = node_of(field, around, to->nodes.length / sizeof node, MOST_BYTES - to->texts.length);
    uint32_t fault = node.fault;
    size_t at;
    if (!append(&to->nodes, &node, sizeof node) || !append(&to->texts, field->format, node.format_length)
        || !append(&to->texts, field->name, node.name_length)
        || !append(&to->texts, field->metadata, node.metadata_length)) {
        to->is_out_of_memory = true;
        return TOO_MANY;
    }
    for (at = 0; !fault && at < node.child_count; at++)
        fault = walk_through(to, field->children[at], around + 1);
    return !fault && node.has_dictionary ? walk_through(to, field->dictionary, around + 1) : fault;
}

/* A block for nodes, and for texts behind them. */
static rattle_tried block_for(size_t nodes, size_t texts) {
    size_t size = nodes * sizeof(vlt_arrow_node);
    return rattle_alloc(texts > SIZE_MAX - size ? SIZE_MAX : size + texts, ALIGNMENT);
}

/* Drops the error that an earlier call left in a slot. */
static void empty(vlt_slot *slot) {
    if (slot->at)
        vlt_core_free(slot);
}

/* Returns the result of a call, and drops the error in a slot that the caller didn't pass. */
static vlt_result with_error_dropped(uint32_t result, vlt_slot *unwanted) {
    empty(unwanted);
    return (vlt_result)result;
}

/* Returns what the proved function returns of a schema with this fault, of which nothing else is told. */
static uint32_t refused_as_a_whole(uint32_t fault, vlt_slot *out, vlt_slot *told) {
    vlt_arrow_node node = {0};
    uint8_t nothing = 0;
    node.fault = fault;
    return vlt_core_dtype_from_arrow_nodes(&node, 1, &nothing, 0, out, told);
}

vlt_result vlt_dtype_from_arrow(const struct ArrowSchema *schema, vlt_dtype *out, vlt_error *error) {
    vlt_arrow_node few_nodes[FEW_NODES];
    uint8_t few_bytes[FEW_BYTES];
    vlt_slot unwanted = {0};
    vlt_slot *told = error ? &error->slot : &unwanted;
    walk walked = {{(uint8_t *)few_nodes, 0, sizeof few_nodes, false}, {few_bytes, 0, FEW_BYTES, false}, false};
    uint32_t fault, result;
    if (are_same(told, &out->slot))
        return vlt_is_wrong("error", VLT_SAME_SLOT);
    empty(told);
    if (!schema)
        return vlt_is_wrong("schema", VLT_RANGE);
    fault = walk_through(&walked, schema, 0);
    if (walked.is_out_of_memory)
        result = VLT_LIBRARY;
    else if (fault == TOO_MANY)
        result = refused_as_a_whole(fault, &out->slot, told);
    else
        result = vlt_core_dtype_from_arrow_nodes((const vlt_arrow_node *)walked.nodes.at, walked.nodes.length / sizeof *few_nodes,
                                                 walked.texts.at, walked.texts.length, &out->slot, told);
    drop_buffer(&walked.nodes);
    drop_buffer(&walked.texts);
    return with_error_dropped(result, &unwanted);
}

/* Releases what a struct that was made here still has: those children that were not moved out, and its block. It calls
 * nothing of the library but the heap, so it may run on any thread and while another thread is in a call. */
static void release(struct ArrowSchema *schema) {
    int64_t at;
    for (at = 0; at < schema->n_children; at++)
        if (schema->children[at]->release)
            schema->children[at]->release(schema->children[at]);
    if (schema->dictionary && schema->dictionary->release)
        schema->dictionary->release(schema->dictionary);
    rattle_dealloc(schema->private_data);
    schema->release = NULL;
}

/* The node that is next, and its first text. */
typedef struct {
    const vlt_arrow_node *node;
    const uint8_t *text;
} place;

/* Copies the text that is next, and returns where the byte behind the copy is. */
static char *copied(char *to, const uint8_t *text, size_t length) {
    if (length)
        memcpy(to, text, length);
    return to + length;
}

/* Makes the struct of the node that is next, with all that is in it. Returns false if memory ran out. Then the struct
 * contains what was made until then, and has to be released if its `release` isn't null.
 *
 * A struct has one block, which contains the structs of its children and of its dictionary, the array of pointers to the
 * children, its metadata, format and name. What is in these structs isn't in the block, because a child may be moved out. */
static bool make(place *from, struct ArrowSchema *out) {
    const vlt_arrow_node *node = from->node++;
    const uint8_t *format = from->text, *name = format + node->format_length, *metadata = name + node->name_length;
    size_t count = node->child_count, parts = count + (node->has_dictionary != 0), at;
    rattle_tried block = rattle_alloc(parts * sizeof(struct ArrowSchema) + count * sizeof(struct ArrowSchema *)
                                      + node->metadata_length + node->format_length + node->name_length + 2, ALIGNMENT);
    struct ArrowSchema *inner = (struct ArrowSchema *)block.at;
    char *text;
    if (!block.ok)
        return false;
    from->text = metadata + node->metadata_length;
    out->children = count ? (struct ArrowSchema **)(inner + parts) : NULL;
    text = (char *)((struct ArrowSchema **)(inner + parts) + count);
    out->metadata = node->metadata_length ? text : NULL;
    text = copied(text, metadata, node->metadata_length);
    out->format = text;
    text = copied(text, format, node->format_length);
    *text++ = '\0';
    out->name = text;
    *copied(text, name, node->name_length) = '\0';
    out->flags = (int64_t)node->flags;
    out->n_children = (int64_t)count;
    out->dictionary = parts > count ? &inner[count] : NULL;
    out->release = release;
    out->private_data = block.at;
    for (at = 0; at < parts; at++)
        inner[at].release = NULL;
    for (at = 0; at < count; at++)
        out->children[at] = &inner[at];
    for (at = 0; at < parts; at++)
        if (!make(from, &inner[at]))
            return false;
    return true;
}

/* Makes the struct that nodes and texts describe, or leaves `out` as it is and returns that memory ran out. */
static uint32_t make_whole(const vlt_arrow_node *nodes, const uint8_t *texts, struct ArrowSchema *out) {
    struct ArrowSchema made = {0};
    place from = {nodes, texts};
    if (make(&from, &made)) {
        *out = made;
        return VLT_DONE;
    }
    if (made.release)
        made.release(&made);
    return VLT_LIBRARY;
}

vlt_result vlt_dtype_to_arrow(const vlt_dtype *dtype, struct ArrowSchema *out, vlt_error *error) {
    vlt_arrow_node few_nodes[FEW_NODES];
    uint8_t few_bytes[FEW_BYTES];
    vlt_slot unwanted = {0};
    vlt_slot *slot = (vlt_slot *)&dtype->slot, *told = error ? &error->slot : &unwanted;
    size_t nodes = 0, bytes = 0;
    uint32_t result;
    if (are_same(slot, told))
        return vlt_is_wrong("error", VLT_SAME_SLOT);
    empty(told);
    if (!out)
        return vlt_is_wrong("out", VLT_RANGE);
    result = vlt_core_dtype_to_arrow_nodes(slot, few_nodes, FEW_NODES, &nodes, few_bytes, FEW_BYTES, &bytes, told);
    if (result == VLT_DONE) {
        result = make_whole(few_nodes, few_bytes, out);
    } else if (result == VLT_SMALL) {
        rattle_tried block = block_for(nodes, bytes);
        vlt_arrow_node *many = (vlt_arrow_node *)block.at;
        uint8_t *texts = (uint8_t *)(many + nodes);
        if (!block.ok)
            return VLT_LIBRARY;
        result = vlt_core_dtype_to_arrow_nodes(slot, many, nodes, &nodes, texts, bytes, &bytes, told);
        if (result == VLT_DONE)
            result = make_whole(many, texts, out);
        rattle_dealloc(many);
    }
    if (result == VLT_KIND)
        result = vlt_is_wrong("dtype", VLT_KIND);
    return with_error_dropped(result, &unwanted);
}

/* Python's functions for capsules. They are weak, because a process without Python doesn't have them. A program may also load
 * Python after this library, and then they are found by their names when they are called. (A program that is linked
 * statically has no dlsym.) */
struct _object;
typedef struct _object *new_capsule(void *pointer, const char *name, void (*destructor)(struct _object *));
typedef void *pointer_of_capsule(struct _object *capsule, const char *name);
__attribute__((weak)) new_capsule PyCapsule_New;
__attribute__((weak)) pointer_of_capsule PyCapsule_GetPointer;
#pragma weak dlsym

/* The function with this name, which is null if the process has none. */
static void *function_named(const char *name) {
    return dlsym ? dlsym(RTLD_DEFAULT, name) : NULL;
}

static new_capsule *capsule_maker(void) {
    new_capsule *found = PyCapsule_New;
    if (!found)
        *(void **)&found = function_named("PyCapsule_New");
    return found;
}

static pointer_of_capsule *capsule_reader(void) {
    pointer_of_capsule *found = PyCapsule_GetPointer;
    if (!found)
        *(void **)&found = function_named("PyCapsule_GetPointer");
    return found;
}

static const char capsule_name[] = "arrow_schema";

/* What Python calls when it drops a capsule. The schema has been released by then if a consumer moved it out. */
static void drop(struct _object *capsule) {
    pointer_of_capsule *pointer_of = capsule_reader();
    struct ArrowSchema *schema = pointer_of ? (struct ArrowSchema *)pointer_of(capsule, capsule_name) : NULL;
    if (!schema)
        return;
    if (schema->release)
        schema->release(schema);
    rattle_dealloc(schema);
}

void *vlt_arrow_capsule(struct ArrowSchema *schema) {
    new_capsule *make_capsule = capsule_maker();
    rattle_tried block;
    struct _object *capsule;
    if (!schema || !make_capsule || !capsule_reader())
        return NULL;
    block = rattle_alloc(sizeof *schema, ALIGNMENT);
    if (!block.ok)
        return NULL;
    *(struct ArrowSchema *)block.at = *schema;
    capsule = make_capsule(block.at, capsule_name, drop);
    if (capsule)
        schema->release = NULL;
    else
        rattle_dealloc(block.at);
    return capsule;
}
