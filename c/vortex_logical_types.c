// SPDX-License-Identifier: Apache-2.0
// SPDX-FileCopyrightText: Copyright the Vortex contributors

/* The public functions of vortex_logical_types.h. Each of them checks its arguments and then calls the proved function,
 * whose name begins with vlt_core_. The contract of a proved function supposes two things that no type of C ensures, and
 * that are checked here: no two slots of a call are the same slot or have the same object, and no pointer is null. This
 * file isn't proved, but tested (c/tests). tools/bindings/bindings writes the functions at its end. */
#include "vortex_logical_types.h"

#include <string.h>

/* What is passed for a null pointer with the length 0, since a proved function takes no null pointer. */
static size_t no_items[2];

/* Returns whether two slots are the same slot, or have the same object. (The pointers to the objects are compared first,
 * because they mostly differ, and so a call with several slots loads each pointer once.) */
static inline bool are_same(const vlt_slot *one, const vlt_slot *other) {
    return one->at == other->at && (one->at || one == other);
}

/* Returns whether a slot is one of the `count` slots that begin at `slots`, or has the object of one of them. */
static bool is_among(const vlt_slot *slot, const vlt_slot *slots, size_t count) {
    bool has_object = false;
    for (size_t at = 0; at < count; at++)
        has_object |= slots[at].at == slot->at;
    return (has_object && slot->at) || (uintptr_t)slot - (uintptr_t)slots < count * sizeof(vlt_slot);
}

/* How many pointers are looked for among those before them, how many are in one part, about, and the room of a table for
 * them. */
enum { FEW = 64, MANY = 1024, ROOM = 2 * MANY };

/* A number that is different for most pointers. */
static inline uint64_t mixed(const void *pointer) { return (uint64_t)(uintptr_t)pointer * 0x9e3779b97f4a7c15u; }

/* Returns whether each pointer is greater than those before it, so that none is there twice. */
static bool are_in_order(const vlt_slot *slots, size_t count) {
    uintptr_t greatest = 0;
    for (size_t at = 0; at < count; at++) {
        uintptr_t pointer = (uintptr_t)slots[at].at;
        if (pointer && pointer <= greatest)
            return false;
        greatest = pointer ? pointer : greatest;
    }
    return true;
}

/* Returns whether one of the slots before `at` has the object of the slot at `at`. */
static bool is_earlier(const vlt_slot *slots, size_t at) {
    bool found = false;
    for (size_t before = 0; before < at; before++)
        found |= slots[before].at == slots[at].at;
    return found && slots[at].at;
}

/* Returns whether two of a few slots have the same object. Each pointer has one of 1,024 bits, and if no pointer before it
 * has that bit, then none of them is this pointer. */
static bool few_have_repeats(const vlt_slot *slots, size_t count) {
    uint64_t seen[16] = {0};
    for (size_t at = 0; at < count; at++) {
        uint64_t number = mixed(slots[at].at), bit = (uint64_t)1 << (number >> 54 & 63);
        uint64_t *word = &seen[number >> 60];
        if (*word & bit && is_earlier(slots, at))
            return true;
        *word |= bit;
    }
    return false;
}

/* Returns whether two of the slots whose pointers are in one of the parts have the same object. The number of parts, and the
 * room that is used of the table, are powers of two. The table is on the stack, so that the checks of a call can't lack
 * memory. */
static bool repeats_in_part(const vlt_slot *slots, size_t count, size_t part, size_t parts, size_t room) {
    const void *table[ROOM];
    size_t entered = 0;
    memset(table, 0, room * sizeof(*table));
    for (size_t at = 0; at < count; at++) {
        uint64_t number = mixed(slots[at].at);
        size_t place = (size_t)(number >> 40) & (room - 1);
        if (!slots[at].at || ((size_t)(number >> 16) & (parts - 1)) != part)
            continue;
        while (table[place] && table[place] != slots[at].at)
            place = (place + 1) & (room - 1);
        /* (If more pointers fall into this part than the table has room for, the slow test is made.) */
        if (table[place] || (entered == room - 1 && is_earlier(slots, at)))
            return true;
        if (entered < room - 1) {
            table[place] = slots[at].at;
            entered++;
        }
    }
    return false;
}

/* Returns whether two of the slots have the same object. Objects that were made one after another are mostly in this order
 * in memory, which is tested first. Many slots are divided into parts by their pointers, because looking for each among all
 * before it takes too long. */
static bool have_repeats(const vlt_slot *slots, size_t count) {
    size_t parts = 1, room = 4 * FEW;
    if (are_in_order(slots, count))
        return false;
    if (count <= FEW)
        return few_have_repeats(slots, count);
    while (parts * MANY < count)
        parts *= 2;
    while (room < ROOM && room < 2 * count)
        room *= 2;
    for (size_t part = 0; part < parts; part++)
        if (repeats_in_part(slots, count, part, parts, room))
            return true;
    return false;
}

static inline void empty(vlt_slot *slot);

/* Copies the object of a slot that is only read, if another slot that is only read has the same object, and lets `other` point
 * to the copy. */
static inline vlt_result copied_if_same(
        const vlt_slot *one, const vlt_slot **other, uint32_t (*copy)(vlt_slot *, vlt_slot *), vlt_slot *out) {
    if (!are_same(one, *other))
        return VLT_DONE;
    *other = out;
    return (vlt_result)copy((vlt_slot *)one, out);
}

/* Writes the answer of a proved function, which returns 0 for yes and 1 for no. */
static inline vlt_result answered(uint32_t result, bool *answer) {
    if (result > VLT_NONE)
        return (vlt_result)result;
    *answer = result == VLT_DONE;
    return VLT_DONE;
}

/* Keeps the name of an argument that is wrong, and returns the result that says so (argument.c). */
__attribute__((visibility("hidden"))) vlt_result vlt_is_wrong(const char *name, vlt_result result);

/* A slot, or several, in which a proved function looks for objects of a kind: the argument's name. */
typedef struct {
    const char *name;
    const vlt_slot *slots;
    size_t count;
    uint32_t kind;
} argument;

#define ARGUMENTS(...) (const argument[]){__VA_ARGS__}, sizeof((const argument[]){__VA_ARGS__}) / sizeof(argument)

static const char *with_another_kind(const argument *slots, size_t count);
static const char *without_condition(const argument *slots, size_t count);

/* Returns the result of a proved function. If it says that an argument was wrong, then its name is kept: that of one of the slots,
 * of the text, or of the number or the numbers. */
static inline vlt_result with_argument(
        vlt_result result, const argument *slots, size_t count, const char *text, const char *number) {
    switch (result) {
    case VLT_KIND:
        return vlt_is_wrong(with_another_kind(slots, count), result);
    case VLT_UTF8:
        return vlt_is_wrong(text, result);
    case VLT_CONDITION:
        return vlt_is_wrong(without_condition(slots, count), result);
    case VLT_RANGE:
        return vlt_is_wrong(number, result);
    default:
        return result;
    }
}

/* begin of what tools/bindings writes */
#pragma GCC visibility push(hidden)
uint32_t vlt_core_struct_push_field(
        vlt_slot *dtype, const uint8_t *name, size_t name_len, vlt_slot *part, vlt_slot *out);
uint32_t vlt_core_struct_with_field(
        vlt_slot *dtype, const uint8_t *name, size_t name_len, vlt_slot *part, vlt_slot *out);
uint32_t vlt_core_struct_with_field_at(
        vlt_slot *dtype, size_t index, const uint8_t *name, size_t name_len, vlt_slot *part, vlt_slot *out,
        vlt_slot *error);
uint32_t vlt_core_struct_names(
        vlt_slot *dtype, uint8_t *buffer, size_t buffer_len, size_t *length, size_t *name_lengths,
        size_t name_lengths_len, size_t *count);
uint32_t vlt_core_union_names(
        vlt_slot *dtype, uint8_t *buffer, size_t buffer_len, size_t *length, size_t *name_lengths,
        size_t name_lengths_len, size_t *count);
uint32_t vlt_core_struct_types(vlt_slot *dtype, vlt_slot *types, size_t types_len, size_t *count);
uint32_t vlt_core_union_types(vlt_slot *dtype, vlt_slot *types, size_t types_len, size_t *count);
uint32_t vlt_core_struct_without_field(vlt_slot *dtype, size_t index, vlt_slot *out, vlt_slot *error);
uint32_t vlt_core_struct_disjoint_merge(vlt_slot *one, vlt_slot *other, vlt_slot *out, vlt_slot *error);
uint32_t vlt_core_struct_project(
        vlt_slot *dtype, const uint8_t *names, size_t names_len, const size_t *name_lengths, size_t name_lengths_len,
        vlt_slot *out, vlt_slot *error);
uint32_t vlt_core_dtype_null(vlt_slot *out);
uint32_t vlt_core_dtype_bool(bool nullable, vlt_slot *out);
uint32_t vlt_core_dtype_utf8(bool nullable, vlt_slot *out);
uint32_t vlt_core_dtype_binary(bool nullable, vlt_slot *out);
uint32_t vlt_core_dtype_variant(bool nullable, vlt_slot *out);
uint32_t vlt_core_dtype_primitive(uint32_t number, bool nullable, vlt_slot *out);
uint32_t vlt_core_dtype_decimal(uint8_t precision, int8_t scale, bool nullable, vlt_slot *out, vlt_slot *error);
uint32_t vlt_core_dtype_list(vlt_slot *element, bool nullable, vlt_slot *out);
uint32_t vlt_core_dtype_fixed_size_list(vlt_slot *element, uint32_t size, bool nullable, vlt_slot *out);
uint32_t vlt_core_set_below(vlt_slot *paths, vlt_slot *path, bool *is_end, bool *has_element, size_t *name_count);
uint32_t vlt_core_set_names_below(vlt_slot *paths, vlt_slot *path, vlt_slot *out);
uint32_t vlt_core_leaf_paths(vlt_slot *dtype, vlt_slot *out);
uint32_t vlt_core_without_paths(vlt_slot *dtype, vlt_slot *set, vlt_slot *out);
uint32_t vlt_core_with_type_at(vlt_slot *dtype, vlt_slot *path, vlt_slot *part, vlt_slot *out);
uint32_t vlt_core_error_text(uint32_t code, uint8_t *buffer, size_t buffer_len, size_t *length);
uint32_t vlt_core_error_number(vlt_slot *error, uint32_t *number);
uint32_t vlt_core_error_position(vlt_slot *error, size_t *position);
uint32_t vlt_core_error_message(vlt_slot *error, uint8_t *buffer, size_t buffer_len, size_t *length);
uint32_t vlt_core_fields_new(vlt_slot *out);
uint32_t vlt_core_fields_push(vlt_slot *fields, const uint8_t *name, size_t name_len, vlt_slot *dtype);
uint32_t vlt_core_abi_version(void);
void vlt_core_free(vlt_slot *slot);
uint32_t vlt_core_kind(vlt_slot *slot);
uint32_t vlt_core_dtype_struct(vlt_slot *fields, bool nullable, vlt_slot *out);
uint32_t vlt_core_dtype_union(
        vlt_slot *fields, const uint8_t *tags, size_t tags_len, bool nullable, vlt_slot *out, vlt_slot *error);
uint32_t vlt_core_dtype_union_consecutive(vlt_slot *fields, bool nullable, vlt_slot *out, vlt_slot *error);
uint32_t vlt_core_mask_all(vlt_slot *out);
uint32_t vlt_core_mask_prefix(vlt_slot *path, vlt_slot *out);
uint32_t vlt_core_mask_exact(vlt_slot *path, vlt_slot *out);
uint32_t vlt_core_mask_kind(vlt_slot *mask, uint32_t *kind);
uint32_t vlt_core_mask_path(vlt_slot *mask, vlt_slot *out);
uint32_t vlt_core_mask_copy(vlt_slot *mask, vlt_slot *out);
uint32_t vlt_core_mask_step_into(vlt_slot *mask, vlt_slot *out, vlt_slot *error);
uint32_t vlt_core_mask_starting_field(
        vlt_slot *mask, uint8_t *buffer, size_t buffer_len, size_t *length, vlt_slot *error);
uint32_t vlt_core_mask_matches_all(vlt_slot *mask);
uint32_t vlt_core_mask_matches_root(vlt_slot *mask);
uint32_t vlt_core_mask_eq(vlt_slot *one, vlt_slot *other);
uint32_t vlt_core_dtype_merge_columns(vlt_slot *one, vlt_slot *other, vlt_slot *out);
uint32_t vlt_core_dtype_merge_conflict(vlt_slot *one, vlt_slot *other, vlt_slot *path, vlt_slot *left, vlt_slot *right);
uint32_t vlt_core_message_copy(vlt_slot *message, vlt_slot *out);
uint32_t vlt_core_message_eq(vlt_slot *one, vlt_slot *other);
uint32_t vlt_core_message_to_dtype(vlt_slot *message, bool allow_unknown, vlt_slot *out, vlt_slot *error);
uint32_t vlt_core_message_normal(vlt_slot *message, bool allow_unknown, vlt_slot *out, vlt_slot *error);
uint32_t vlt_core_dtype_to_message(vlt_slot *dtype, vlt_slot *out);
uint32_t vlt_core_message_from_nodes(
        const vlt_node *nodes, size_t nodes_len, const uint8_t *texts, size_t texts_len, vlt_slot *out);
uint32_t vlt_core_message_to_nodes(
        vlt_slot *message, vlt_node *nodes, size_t nodes_len, size_t *node_count, uint8_t *texts, size_t texts_len,
        size_t *text_length);
uint32_t vlt_core_dtype_with_nullability(vlt_slot *dtype, bool nullable, vlt_slot *out);
uint32_t vlt_core_dtype_union_nullability(vlt_slot *dtype, bool nullable, vlt_slot *out);
uint32_t vlt_core_dtype_hash(vlt_slot *dtype, uint64_t *hash);
uint32_t vlt_core_dtype_hash_ignore_nullability(vlt_slot *dtype, uint64_t *hash);
uint32_t vlt_core_dtype_element(vlt_slot *dtype, vlt_slot *out);
uint32_t vlt_core_dtype_key(vlt_slot *dtype, vlt_slot *out);
uint32_t vlt_core_dtype_value(vlt_slot *dtype, vlt_slot *out);
uint32_t vlt_core_dtype_storage(vlt_slot *dtype, vlt_slot *out);
uint32_t vlt_core_dtype_ptype(vlt_slot *dtype, uint32_t *number);
uint32_t vlt_core_dtype_id(vlt_slot *dtype, uint8_t *buffer, size_t buffer_len, size_t *length);
uint32_t vlt_core_dtype_metadata(vlt_slot *dtype, uint8_t *buffer, size_t buffer_len, size_t *length);
uint32_t vlt_core_dtype_fixed_size(vlt_slot *dtype, uint32_t *size);
uint32_t vlt_core_dtype_decimal_parts(vlt_slot *dtype, uint8_t *precision, int8_t *scale);
uint32_t vlt_core_dtype_keys_sorted(vlt_slot *dtype);
uint32_t vlt_core_paths_take(vlt_slot *paths, size_t index, vlt_slot *out);
uint32_t vlt_core_path_from_message(
        const uint8_t *names, size_t names_len, const size_t *name_lengths, size_t name_lengths_len, vlt_slot *out,
        vlt_slot *error);
uint32_t vlt_core_path_from_text(const uint8_t *text, size_t text_len, vlt_slot *out, vlt_slot *error);
uint32_t vlt_core_path_to_text(vlt_slot *path, uint8_t *buffer, size_t buffer_len, size_t *length);
uint32_t vlt_core_path_root(vlt_slot *out);
uint32_t vlt_core_path_len(vlt_slot *path, size_t *count);
uint32_t vlt_core_path_step(vlt_slot *path, size_t index, uint8_t *buffer, size_t buffer_len, size_t *length);
uint32_t vlt_core_path_push_name(vlt_slot *path, const uint8_t *name, size_t name_len, vlt_slot *out);
uint32_t vlt_core_path_push_element(vlt_slot *path, vlt_slot *out);
uint32_t vlt_core_path_step_into(vlt_slot *path, vlt_slot *out);
uint32_t vlt_core_path_copy(vlt_slot *path, vlt_slot *out);
uint32_t vlt_core_path_eq(vlt_slot *one, vlt_slot *other);
uint32_t vlt_core_path_overlap(vlt_slot *one, vlt_slot *other);
uint32_t vlt_core_path_resolve(vlt_slot *dtype, vlt_slot *path, vlt_slot *out);
uint32_t vlt_core_path_exists_in(vlt_slot *dtype, vlt_slot *path);
uint32_t vlt_core_path_display(vlt_slot *path, uint8_t *buffer, size_t buffer_len, size_t *length);
uint32_t vlt_core_path_starts_with_name(vlt_slot *path, const uint8_t *name, size_t name_len);
uint32_t vlt_core_path_hash(vlt_slot *path, uint64_t *hash);
uint32_t vlt_core_project_paths(vlt_slot *dtype, vlt_slot *set, vlt_slot *out);
uint32_t vlt_core_struct_with_fields_renamed_allowing_repeats(
        vlt_slot *dtype, const uint8_t *names, size_t names_len, const size_t *name_lengths, size_t name_lengths_len,
        vlt_slot *out);
uint32_t vlt_core_set_eq(vlt_slot *one, vlt_slot *other);
uint32_t vlt_core_set_is_subset(vlt_slot *one, vlt_slot *other);
uint32_t vlt_core_set_is_disjoint(vlt_slot *one, vlt_slot *other);
uint32_t vlt_core_set_union(vlt_slot *one, vlt_slot *other, vlt_slot *out);
uint32_t vlt_core_set_new(vlt_slot *out);
uint32_t vlt_core_set_insert(vlt_slot *paths, vlt_slot *path);
uint32_t vlt_core_set_contains(vlt_slot *paths, vlt_slot *path);
uint32_t vlt_core_set_copy(vlt_slot *paths, vlt_slot *out);
uint32_t vlt_core_set_cover(vlt_slot *paths, vlt_slot *out);
uint32_t vlt_core_set_members(vlt_slot *paths, vlt_slot *out);
uint32_t vlt_core_set_unresolved(vlt_slot *paths, vlt_slot *dtype, vlt_slot *out);
uint32_t vlt_core_set_len(vlt_slot *paths, size_t *count);
uint32_t vlt_core_paths_len(vlt_slot *paths, size_t *count);
uint32_t vlt_core_paths_get(vlt_slot *paths, size_t index, vlt_slot *out);
uint32_t vlt_core_set_extend(vlt_slot *set, vlt_slot *paths, size_t paths_len, size_t *inserted);
uint32_t vlt_core_set_extend_from_list(vlt_slot *paths, vlt_slot *list);
uint32_t vlt_core_dtype_from_text(const uint8_t *text, size_t text_len, vlt_slot *out, vlt_slot *error);
uint32_t vlt_core_dtype_to_text(vlt_slot *dtype, uint8_t *buffer, size_t buffer_len, size_t *length);
uint32_t vlt_core_path_from_steps(
        const uint8_t *names, size_t names_len, const size_t *name_lengths, size_t name_lengths_len, vlt_slot *out);
uint32_t vlt_core_struct_nfields(vlt_slot *dtype, size_t *count);
uint32_t vlt_core_struct_field_by_index(vlt_slot *dtype, size_t index, vlt_slot *out);
uint32_t vlt_core_struct_find(vlt_slot *dtype, const uint8_t *name, size_t name_len, size_t *index);
uint32_t vlt_core_struct_field(vlt_slot *dtype, const uint8_t *name, size_t name_len, vlt_slot *out);
uint32_t vlt_core_struct_field_name(vlt_slot *dtype, size_t index, uint8_t *buffer, size_t buffer_len, size_t *length);
uint32_t vlt_core_dtype_display(vlt_slot *dtype, uint8_t *buffer, size_t buffer_len, size_t *length);
uint32_t vlt_core_struct_indented(vlt_slot *dtype, uint8_t *buffer, size_t buffer_len, size_t *length);
uint32_t vlt_core_dtype_copy(vlt_slot *dtype, vlt_slot *out);
uint32_t vlt_core_dtype_eq(vlt_slot *one, vlt_slot *other);
uint32_t vlt_core_dtype_eq_ignore_nullability(vlt_slot *one, vlt_slot *other);
uint32_t vlt_core_dtype_nullability_subset(vlt_slot *one, vlt_slot *other);
uint32_t vlt_core_dtype_nullability_superset(vlt_slot *one, vlt_slot *other);
uint32_t vlt_core_dtype_merge_nullability(vlt_slot *one, vlt_slot *other, vlt_slot *out);
uint32_t vlt_core_dtype_intersect_nullability(vlt_slot *one, vlt_slot *other, vlt_slot *out);
uint32_t vlt_core_dtype_kind(vlt_slot *dtype, uint32_t *number);
uint32_t vlt_core_dtype_is_nullable(vlt_slot *dtype);
uint32_t vlt_core_dtype_can_be_nonnullable(vlt_slot *dtype);
uint32_t vlt_core_union_len(vlt_slot *dtype, size_t *count);
uint32_t vlt_core_union_variant_by_index(vlt_slot *dtype, size_t index, vlt_slot *out);
uint32_t vlt_core_union_find(vlt_slot *dtype, const uint8_t *name, size_t name_len, size_t *index);
uint32_t vlt_core_union_variant(vlt_slot *dtype, const uint8_t *name, size_t name_len, vlt_slot *out);
uint32_t vlt_core_union_tag_to_child_index(vlt_slot *dtype, uint8_t tag, size_t *index);
uint32_t vlt_core_union_child_index_to_tag(vlt_slot *dtype, size_t index, uint8_t *tag);
uint32_t vlt_core_union_variant_name(vlt_slot *dtype, size_t index, uint8_t *buffer, size_t buffer_len, size_t *length);
uint32_t vlt_core_union_is_consecutive(vlt_slot *dtype);
uint32_t vlt_core_dtype_element_size(vlt_slot *dtype, size_t *size, vlt_slot *error);
uint32_t vlt_core_dtype_entries(vlt_slot *dtype, vlt_slot *out);
uint32_t vlt_core_dtype_map(
        vlt_slot *one, vlt_slot *other, bool keys_sorted, bool nullable, vlt_slot *out, vlt_slot *error);
uint32_t vlt_core_dtype_extension(
        const uint8_t *id, size_t id_len, const uint8_t *metadata, size_t metadata_len, vlt_slot *storage,
        vlt_slot *out);
#pragma GCC visibility pop

void vlt_dtype_free(vlt_dtype *dtype) {
    if (dtype)
        vlt_core_free(&dtype->slot);
}

void vlt_path_free(vlt_path *path) {
    if (path)
        vlt_core_free(&path->slot);
}

void vlt_path_set_free(vlt_path_set *path_set) {
    if (path_set)
        vlt_core_free(&path_set->slot);
}

void vlt_path_list_free(vlt_path_list *path_list) {
    if (path_list)
        vlt_core_free(&path_list->slot);
}

void vlt_mask_free(vlt_mask *mask) {
    if (mask)
        vlt_core_free(&mask->slot);
}

void vlt_message_free(vlt_message *message) {
    if (message)
        vlt_core_free(&message->slot);
}

void vlt_fields_free(vlt_fields *fields) {
    if (fields)
        vlt_core_free(&fields->slot);
}

void vlt_error_free(vlt_error *error) {
    if (error)
        vlt_core_free(&error->slot);
}

uint32_t vlt_abi_version(void) {
    return vlt_core_abi_version();
}

void vlt_free(vlt_slot *slot) {
    vlt_core_free(slot);
}

uint32_t vlt_kind(const vlt_slot *slot) {
    return vlt_core_kind((vlt_slot *)slot);
}

vlt_result vlt_dtype_null(vlt_dtype *out) {
    return (vlt_result)vlt_core_dtype_null(&out->slot);
}

vlt_result vlt_dtype_bool(bool nullable, vlt_dtype *out) {
    return (vlt_result)vlt_core_dtype_bool(nullable, &out->slot);
}

vlt_result vlt_dtype_utf8(bool nullable, vlt_dtype *out) {
    return (vlt_result)vlt_core_dtype_utf8(nullable, &out->slot);
}

vlt_result vlt_dtype_binary(bool nullable, vlt_dtype *out) {
    return (vlt_result)vlt_core_dtype_binary(nullable, &out->slot);
}

vlt_result vlt_dtype_variant(bool nullable, vlt_dtype *out) {
    return (vlt_result)vlt_core_dtype_variant(nullable, &out->slot);
}

vlt_result vlt_dtype_primitive(uint32_t number, bool nullable, vlt_dtype *out) {
    vlt_result result = (vlt_result)vlt_core_dtype_primitive(number, nullable, &out->slot);
    return with_argument(result, NULL, 0, NULL, "number");
}

vlt_result vlt_dtype_decimal(uint8_t precision, int8_t scale, bool nullable, vlt_dtype *out, vlt_error *error) {
    vlt_slot unwanted = {0};
    vlt_slot *told = error ? &error->slot : &unwanted;
    if (are_same(&out->slot, told))
        return vlt_is_wrong("error", VLT_SAME_SLOT);
    empty(told);
    vlt_result result = (vlt_result)vlt_core_dtype_decimal(precision, scale, nullable, &out->slot, told);
    empty(&unwanted);
    return result;
}

vlt_result vlt_dtype_list(const vlt_dtype *element, bool nullable, vlt_dtype *out) {
    if (are_same(&element->slot, &out->slot))
        return vlt_is_wrong("out", VLT_SAME_SLOT);
    vlt_result result = (vlt_result)vlt_core_dtype_list((vlt_slot *)&element->slot, nullable, &out->slot);
    return with_argument(result, ARGUMENTS({"element", &element->slot, 1, VLT_OBJECT_DTYPE}), NULL, "element");
}

vlt_result vlt_dtype_fixed_size_list(const vlt_dtype *element, uint32_t size, bool nullable, vlt_dtype *out) {
    if (are_same(&element->slot, &out->slot))
        return vlt_is_wrong("out", VLT_SAME_SLOT);
    vlt_result result = (vlt_result)vlt_core_dtype_fixed_size_list(
            (vlt_slot *)&element->slot, size, nullable, &out->slot);
    return with_argument(result, ARGUMENTS({"element", &element->slot, 1, VLT_OBJECT_DTYPE}), NULL, "size");
}

vlt_result vlt_dtype_struct(const vlt_fields *fields, bool nullable, vlt_dtype *out) {
    if (are_same(&fields->slot, &out->slot))
        return vlt_is_wrong("out", VLT_SAME_SLOT);
    vlt_result result = (vlt_result)vlt_core_dtype_struct((vlt_slot *)&fields->slot, nullable, &out->slot);
    return with_argument(result, ARGUMENTS({"fields", &fields->slot, 1, VLT_OBJECT_FIELDS}), NULL, "fields");
}

vlt_result vlt_dtype_union(
        const vlt_fields *fields, const uint8_t *tags, size_t tags_len, bool nullable, vlt_dtype *out,
        vlt_error *error) {
    vlt_slot unwanted = {0};
    vlt_slot *told = error ? &error->slot : &unwanted;
    if (are_same(&fields->slot, told) || are_same(&out->slot, told))
        return vlt_is_wrong("error", VLT_SAME_SLOT);
    empty(told);
    if (!tags && tags_len)
        return vlt_is_wrong("tags", VLT_RANGE);
    if (are_same(&fields->slot, &out->slot))
        return vlt_is_wrong("out", VLT_SAME_SLOT);
    vlt_result result = (vlt_result)vlt_core_dtype_union(
            (vlt_slot *)&fields->slot, tags ? tags : (const uint8_t *)no_items, tags_len, nullable, &out->slot, told);
    empty(&unwanted);
    return with_argument(result, ARGUMENTS({"fields", &fields->slot, 1, VLT_OBJECT_FIELDS}), "tags", "fields");
}

vlt_result vlt_dtype_union_consecutive(const vlt_fields *fields, bool nullable, vlt_dtype *out, vlt_error *error) {
    vlt_slot unwanted = {0};
    vlt_slot *told = error ? &error->slot : &unwanted;
    if (are_same(&fields->slot, told) || are_same(&out->slot, told))
        return vlt_is_wrong("error", VLT_SAME_SLOT);
    empty(told);
    if (are_same(&fields->slot, &out->slot))
        return vlt_is_wrong("out", VLT_SAME_SLOT);
    vlt_result result = (vlt_result)vlt_core_dtype_union_consecutive(
            (vlt_slot *)&fields->slot, nullable, &out->slot, told);
    empty(&unwanted);
    return with_argument(result, ARGUMENTS({"fields", &fields->slot, 1, VLT_OBJECT_FIELDS}), NULL, "fields");
}

vlt_result vlt_dtype_merge_columns(const vlt_dtype *one, const vlt_dtype *other, vlt_dtype *out) {
    if (are_same(&one->slot, &out->slot) || are_same(&other->slot, &out->slot))
        return vlt_is_wrong("out", VLT_SAME_SLOT);
    vlt_slot copy = {0};
    const vlt_slot *apart = &other->slot;
    vlt_result result = copied_if_same(&one->slot, &apart, vlt_core_dtype_copy, &copy);
    if (result == VLT_DONE)
        result = (vlt_result)vlt_core_dtype_merge_columns((vlt_slot *)&one->slot, (vlt_slot *)apart, &out->slot);
    empty(&copy);
    return with_argument(
            result, ARGUMENTS({"one", &one->slot, 1, VLT_OBJECT_DTYPE}, {"other", &other->slot, 1, VLT_OBJECT_DTYPE}),
            NULL, "one");
}

vlt_result vlt_dtype_merge_conflict(
        const vlt_dtype *one, const vlt_dtype *other, vlt_path *path, vlt_dtype *left, vlt_dtype *right) {
    if (are_same(&one->slot, &path->slot) || are_same(&other->slot, &path->slot))
        return vlt_is_wrong("path", VLT_SAME_SLOT);
    if (are_same(&one->slot, &left->slot) || are_same(&other->slot, &left->slot) || are_same(&path->slot, &left->slot))
        return vlt_is_wrong("left", VLT_SAME_SLOT);
    if (are_same(&one->slot, &right->slot)
        || are_same(&other->slot, &right->slot)
        || are_same(&path->slot, &right->slot)
        || are_same(&left->slot, &right->slot))
        return vlt_is_wrong("right", VLT_SAME_SLOT);
    vlt_slot copy = {0};
    const vlt_slot *apart = &other->slot;
    vlt_result result = copied_if_same(&one->slot, &apart, vlt_core_dtype_copy, &copy);
    if (result == VLT_DONE)
        result = (vlt_result)vlt_core_dtype_merge_conflict(
                (vlt_slot *)&one->slot, (vlt_slot *)apart, &path->slot, &left->slot, &right->slot);
    empty(&copy);
    return with_argument(
            result, ARGUMENTS({"one", &one->slot, 1, VLT_OBJECT_DTYPE}, {"other", &other->slot, 1, VLT_OBJECT_DTYPE}),
            NULL, "one");
}

vlt_result vlt_dtype_to_message(const vlt_dtype *dtype, vlt_message *out) {
    if (are_same(&dtype->slot, &out->slot))
        return vlt_is_wrong("out", VLT_SAME_SLOT);
    vlt_result result = (vlt_result)vlt_core_dtype_to_message((vlt_slot *)&dtype->slot, &out->slot);
    return with_argument(result, ARGUMENTS({"dtype", &dtype->slot, 1, VLT_OBJECT_DTYPE}), NULL, "dtype");
}

vlt_result vlt_dtype_with_nullability(const vlt_dtype *dtype, bool nullable, vlt_dtype *out) {
    if (are_same(&dtype->slot, &out->slot))
        return vlt_is_wrong("out", VLT_SAME_SLOT);
    vlt_result result = (vlt_result)vlt_core_dtype_with_nullability((vlt_slot *)&dtype->slot, nullable, &out->slot);
    return with_argument(result, ARGUMENTS({"dtype", &dtype->slot, 1, VLT_OBJECT_DTYPE}), NULL, "dtype");
}

vlt_result vlt_dtype_union_nullability(const vlt_dtype *dtype, bool nullable, vlt_dtype *out) {
    if (are_same(&dtype->slot, &out->slot))
        return vlt_is_wrong("out", VLT_SAME_SLOT);
    vlt_result result = (vlt_result)vlt_core_dtype_union_nullability((vlt_slot *)&dtype->slot, nullable, &out->slot);
    return with_argument(result, ARGUMENTS({"dtype", &dtype->slot, 1, VLT_OBJECT_DTYPE}), NULL, "dtype");
}

vlt_result vlt_dtype_hash(const vlt_dtype *dtype, uint64_t *hash) {
    vlt_result result = (vlt_result)vlt_core_dtype_hash((vlt_slot *)&dtype->slot, hash);
    return with_argument(result, ARGUMENTS({"dtype", &dtype->slot, 1, VLT_OBJECT_DTYPE}), NULL, "dtype");
}

vlt_result vlt_dtype_hash_ignore_nullability(const vlt_dtype *dtype, uint64_t *hash) {
    vlt_result result = (vlt_result)vlt_core_dtype_hash_ignore_nullability((vlt_slot *)&dtype->slot, hash);
    return with_argument(result, ARGUMENTS({"dtype", &dtype->slot, 1, VLT_OBJECT_DTYPE}), NULL, "dtype");
}

vlt_result vlt_dtype_element(const vlt_dtype *dtype, vlt_dtype *out) {
    if (are_same(&dtype->slot, &out->slot))
        return vlt_is_wrong("out", VLT_SAME_SLOT);
    vlt_result result = (vlt_result)vlt_core_dtype_element((vlt_slot *)&dtype->slot, &out->slot);
    return with_argument(result, ARGUMENTS({"dtype", &dtype->slot, 1, VLT_OBJECT_DTYPE}), NULL, "dtype");
}

vlt_result vlt_dtype_key(const vlt_dtype *dtype, vlt_dtype *out) {
    if (are_same(&dtype->slot, &out->slot))
        return vlt_is_wrong("out", VLT_SAME_SLOT);
    vlt_result result = (vlt_result)vlt_core_dtype_key((vlt_slot *)&dtype->slot, &out->slot);
    return with_argument(result, ARGUMENTS({"dtype", &dtype->slot, 1, VLT_OBJECT_DTYPE}), NULL, "dtype");
}

vlt_result vlt_dtype_value(const vlt_dtype *dtype, vlt_dtype *out) {
    if (are_same(&dtype->slot, &out->slot))
        return vlt_is_wrong("out", VLT_SAME_SLOT);
    vlt_result result = (vlt_result)vlt_core_dtype_value((vlt_slot *)&dtype->slot, &out->slot);
    return with_argument(result, ARGUMENTS({"dtype", &dtype->slot, 1, VLT_OBJECT_DTYPE}), NULL, "dtype");
}

vlt_result vlt_dtype_storage(const vlt_dtype *dtype, vlt_dtype *out) {
    if (are_same(&dtype->slot, &out->slot))
        return vlt_is_wrong("out", VLT_SAME_SLOT);
    vlt_result result = (vlt_result)vlt_core_dtype_storage((vlt_slot *)&dtype->slot, &out->slot);
    return with_argument(result, ARGUMENTS({"dtype", &dtype->slot, 1, VLT_OBJECT_DTYPE}), NULL, "dtype");
}

vlt_result vlt_dtype_ptype(const vlt_dtype *dtype, uint32_t *number) {
    vlt_result result = (vlt_result)vlt_core_dtype_ptype((vlt_slot *)&dtype->slot, number);
    return with_argument(result, ARGUMENTS({"dtype", &dtype->slot, 1, VLT_OBJECT_DTYPE}), NULL, "dtype");
}

vlt_result vlt_dtype_id(const vlt_dtype *dtype, uint8_t *buffer, size_t buffer_len, size_t *length) {
    if (!buffer && buffer_len)
        return vlt_is_wrong("buffer", VLT_RANGE);
    vlt_result result = (vlt_result)vlt_core_dtype_id(
            (vlt_slot *)&dtype->slot, buffer ? buffer : (uint8_t *)no_items, buffer_len, length);
    return with_argument(result, ARGUMENTS({"dtype", &dtype->slot, 1, VLT_OBJECT_DTYPE}), NULL, "dtype");
}

vlt_result vlt_dtype_metadata(const vlt_dtype *dtype, uint8_t *buffer, size_t buffer_len, size_t *length) {
    if (!buffer && buffer_len)
        return vlt_is_wrong("buffer", VLT_RANGE);
    vlt_result result = (vlt_result)vlt_core_dtype_metadata(
            (vlt_slot *)&dtype->slot, buffer ? buffer : (uint8_t *)no_items, buffer_len, length);
    return with_argument(result, ARGUMENTS({"dtype", &dtype->slot, 1, VLT_OBJECT_DTYPE}), NULL, "dtype");
}

vlt_result vlt_dtype_fixed_size(const vlt_dtype *dtype, uint32_t *size) {
    vlt_result result = (vlt_result)vlt_core_dtype_fixed_size((vlt_slot *)&dtype->slot, size);
    return with_argument(result, ARGUMENTS({"dtype", &dtype->slot, 1, VLT_OBJECT_DTYPE}), NULL, "dtype");
}

vlt_result vlt_dtype_decimal_parts(const vlt_dtype *dtype, uint8_t *precision, int8_t *scale) {
    vlt_result result = (vlt_result)vlt_core_dtype_decimal_parts((vlt_slot *)&dtype->slot, precision, scale);
    return with_argument(result, ARGUMENTS({"dtype", &dtype->slot, 1, VLT_OBJECT_DTYPE}), NULL, "dtype");
}

vlt_result vlt_dtype_keys_sorted(const vlt_dtype *dtype, bool *answer) {
    vlt_result result = answered(vlt_core_dtype_keys_sorted((vlt_slot *)&dtype->slot), answer);
    return with_argument(result, ARGUMENTS({"dtype", &dtype->slot, 1, VLT_OBJECT_DTYPE}), NULL, "dtype");
}

vlt_result vlt_dtype_from_text(const uint8_t *text, size_t text_len, vlt_dtype *out, vlt_error *error) {
    vlt_slot unwanted = {0};
    vlt_slot *told = error ? &error->slot : &unwanted;
    if (are_same(&out->slot, told))
        return vlt_is_wrong("error", VLT_SAME_SLOT);
    empty(told);
    if (!text && text_len)
        return vlt_is_wrong("text", VLT_RANGE);
    vlt_result result = (vlt_result)vlt_core_dtype_from_text(
            text ? text : (const uint8_t *)no_items, text_len, &out->slot, told);
    empty(&unwanted);
    return with_argument(result, NULL, 0, "text", NULL);
}

vlt_result vlt_dtype_to_text(const vlt_dtype *dtype, uint8_t *buffer, size_t buffer_len, size_t *length) {
    if (!buffer && buffer_len)
        return vlt_is_wrong("buffer", VLT_RANGE);
    vlt_result result = (vlt_result)vlt_core_dtype_to_text(
            (vlt_slot *)&dtype->slot, buffer ? buffer : (uint8_t *)no_items, buffer_len, length);
    return with_argument(result, ARGUMENTS({"dtype", &dtype->slot, 1, VLT_OBJECT_DTYPE}), NULL, "dtype");
}

vlt_result vlt_dtype_display(const vlt_dtype *dtype, uint8_t *buffer, size_t buffer_len, size_t *length) {
    if (!buffer && buffer_len)
        return vlt_is_wrong("buffer", VLT_RANGE);
    vlt_result result = (vlt_result)vlt_core_dtype_display(
            (vlt_slot *)&dtype->slot, buffer ? buffer : (uint8_t *)no_items, buffer_len, length);
    return with_argument(result, ARGUMENTS({"dtype", &dtype->slot, 1, VLT_OBJECT_DTYPE}), NULL, "dtype");
}

vlt_result vlt_dtype_copy(const vlt_dtype *dtype, vlt_dtype *out) {
    if (are_same(&dtype->slot, &out->slot))
        return vlt_is_wrong("out", VLT_SAME_SLOT);
    vlt_result result = (vlt_result)vlt_core_dtype_copy((vlt_slot *)&dtype->slot, &out->slot);
    return with_argument(result, ARGUMENTS({"dtype", &dtype->slot, 1, VLT_OBJECT_DTYPE}), NULL, "dtype");
}

vlt_result vlt_dtype_eq(const vlt_dtype *one, const vlt_dtype *other, bool *answer) {
    vlt_slot copy = {0};
    const vlt_slot *apart = &other->slot;
    vlt_result result = copied_if_same(&one->slot, &apart, vlt_core_dtype_copy, &copy);
    if (result == VLT_DONE)
        result = answered(vlt_core_dtype_eq((vlt_slot *)&one->slot, (vlt_slot *)apart), answer);
    empty(&copy);
    return with_argument(
            result, ARGUMENTS({"one", &one->slot, 1, VLT_OBJECT_DTYPE}, {"other", &other->slot, 1, VLT_OBJECT_DTYPE}),
            NULL, "one");
}

vlt_result vlt_dtype_eq_ignore_nullability(const vlt_dtype *one, const vlt_dtype *other, bool *answer) {
    vlt_slot copy = {0};
    const vlt_slot *apart = &other->slot;
    vlt_result result = copied_if_same(&one->slot, &apart, vlt_core_dtype_copy, &copy);
    if (result == VLT_DONE)
        result = answered(vlt_core_dtype_eq_ignore_nullability((vlt_slot *)&one->slot, (vlt_slot *)apart), answer);
    empty(&copy);
    return with_argument(
            result, ARGUMENTS({"one", &one->slot, 1, VLT_OBJECT_DTYPE}, {"other", &other->slot, 1, VLT_OBJECT_DTYPE}),
            NULL, "one");
}

vlt_result vlt_dtype_nullability_subset(const vlt_dtype *one, const vlt_dtype *other, bool *answer) {
    vlt_slot copy = {0};
    const vlt_slot *apart = &other->slot;
    vlt_result result = copied_if_same(&one->slot, &apart, vlt_core_dtype_copy, &copy);
    if (result == VLT_DONE)
        result = answered(vlt_core_dtype_nullability_subset((vlt_slot *)&one->slot, (vlt_slot *)apart), answer);
    empty(&copy);
    return with_argument(
            result, ARGUMENTS({"one", &one->slot, 1, VLT_OBJECT_DTYPE}, {"other", &other->slot, 1, VLT_OBJECT_DTYPE}),
            NULL, "one");
}

vlt_result vlt_dtype_nullability_superset(const vlt_dtype *one, const vlt_dtype *other, bool *answer) {
    vlt_slot copy = {0};
    const vlt_slot *apart = &other->slot;
    vlt_result result = copied_if_same(&one->slot, &apart, vlt_core_dtype_copy, &copy);
    if (result == VLT_DONE)
        result = answered(vlt_core_dtype_nullability_superset((vlt_slot *)&one->slot, (vlt_slot *)apart), answer);
    empty(&copy);
    return with_argument(
            result, ARGUMENTS({"one", &one->slot, 1, VLT_OBJECT_DTYPE}, {"other", &other->slot, 1, VLT_OBJECT_DTYPE}),
            NULL, "one");
}

vlt_result vlt_dtype_merge_nullability(const vlt_dtype *one, const vlt_dtype *other, vlt_dtype *out) {
    if (are_same(&one->slot, &out->slot) || are_same(&other->slot, &out->slot))
        return vlt_is_wrong("out", VLT_SAME_SLOT);
    vlt_slot copy = {0};
    const vlt_slot *apart = &other->slot;
    vlt_result result = copied_if_same(&one->slot, &apart, vlt_core_dtype_copy, &copy);
    if (result == VLT_DONE)
        result = (vlt_result)vlt_core_dtype_merge_nullability((vlt_slot *)&one->slot, (vlt_slot *)apart, &out->slot);
    empty(&copy);
    return with_argument(
            result, ARGUMENTS({"one", &one->slot, 1, VLT_OBJECT_DTYPE}, {"other", &other->slot, 1, VLT_OBJECT_DTYPE}),
            NULL, "one");
}

vlt_result vlt_dtype_intersect_nullability(const vlt_dtype *one, const vlt_dtype *other, vlt_dtype *out) {
    if (are_same(&one->slot, &out->slot) || are_same(&other->slot, &out->slot))
        return vlt_is_wrong("out", VLT_SAME_SLOT);
    vlt_slot copy = {0};
    const vlt_slot *apart = &other->slot;
    vlt_result result = copied_if_same(&one->slot, &apart, vlt_core_dtype_copy, &copy);
    if (result == VLT_DONE)
        result = (vlt_result)vlt_core_dtype_intersect_nullability(
                (vlt_slot *)&one->slot, (vlt_slot *)apart, &out->slot);
    empty(&copy);
    return with_argument(
            result, ARGUMENTS({"one", &one->slot, 1, VLT_OBJECT_DTYPE}, {"other", &other->slot, 1, VLT_OBJECT_DTYPE}),
            NULL, "one");
}

vlt_result vlt_dtype_kind(const vlt_dtype *dtype, uint32_t *number) {
    vlt_result result = (vlt_result)vlt_core_dtype_kind((vlt_slot *)&dtype->slot, number);
    return with_argument(result, ARGUMENTS({"dtype", &dtype->slot, 1, VLT_OBJECT_DTYPE}), NULL, "dtype");
}

vlt_result vlt_dtype_is_nullable(const vlt_dtype *dtype, bool *answer) {
    vlt_result result = answered(vlt_core_dtype_is_nullable((vlt_slot *)&dtype->slot), answer);
    return with_argument(result, ARGUMENTS({"dtype", &dtype->slot, 1, VLT_OBJECT_DTYPE}), NULL, "dtype");
}

vlt_result vlt_dtype_can_be_nonnullable(const vlt_dtype *dtype, bool *answer) {
    vlt_result result = answered(vlt_core_dtype_can_be_nonnullable((vlt_slot *)&dtype->slot), answer);
    return with_argument(result, ARGUMENTS({"dtype", &dtype->slot, 1, VLT_OBJECT_DTYPE}), NULL, "dtype");
}

vlt_result vlt_dtype_element_size(const vlt_dtype *dtype, size_t *size, vlt_error *error) {
    vlt_slot unwanted = {0};
    vlt_slot *told = error ? &error->slot : &unwanted;
    if (are_same(&dtype->slot, told))
        return vlt_is_wrong("error", VLT_SAME_SLOT);
    empty(told);
    vlt_result result = (vlt_result)vlt_core_dtype_element_size((vlt_slot *)&dtype->slot, size, told);
    empty(&unwanted);
    return with_argument(result, ARGUMENTS({"dtype", &dtype->slot, 1, VLT_OBJECT_DTYPE}), NULL, "dtype");
}

vlt_result vlt_dtype_entries(const vlt_dtype *dtype, vlt_dtype *out) {
    if (are_same(&dtype->slot, &out->slot))
        return vlt_is_wrong("out", VLT_SAME_SLOT);
    vlt_result result = (vlt_result)vlt_core_dtype_entries((vlt_slot *)&dtype->slot, &out->slot);
    return with_argument(result, ARGUMENTS({"dtype", &dtype->slot, 1, VLT_OBJECT_DTYPE}), NULL, "dtype");
}

vlt_result vlt_dtype_map(
        const vlt_dtype *one, const vlt_dtype *other, bool keys_sorted, bool nullable, vlt_dtype *out,
        vlt_error *error) {
    vlt_slot unwanted = {0};
    vlt_slot *told = error ? &error->slot : &unwanted;
    if (are_same(&one->slot, told) || are_same(&other->slot, told) || are_same(&out->slot, told))
        return vlt_is_wrong("error", VLT_SAME_SLOT);
    empty(told);
    if (are_same(&one->slot, &out->slot) || are_same(&other->slot, &out->slot))
        return vlt_is_wrong("out", VLT_SAME_SLOT);
    vlt_slot copy = {0};
    const vlt_slot *apart = &other->slot;
    vlt_result result = copied_if_same(&one->slot, &apart, vlt_core_dtype_copy, &copy);
    if (result == VLT_DONE)
        result = (vlt_result)vlt_core_dtype_map(
                (vlt_slot *)&one->slot, (vlt_slot *)apart, keys_sorted, nullable, &out->slot, told);
    empty(&copy);
    empty(&unwanted);
    return with_argument(
            result, ARGUMENTS({"one", &one->slot, 1, VLT_OBJECT_DTYPE}, {"other", &other->slot, 1, VLT_OBJECT_DTYPE}),
            NULL, "one");
}

vlt_result vlt_dtype_extension(
        const uint8_t *id, size_t id_len, const uint8_t *metadata, size_t metadata_len, const vlt_dtype *storage,
        vlt_dtype *out) {
    if (!id && id_len)
        return vlt_is_wrong("id", VLT_RANGE);
    if (!metadata && metadata_len)
        return vlt_is_wrong("metadata", VLT_RANGE);
    if (are_same(&storage->slot, &out->slot))
        return vlt_is_wrong("out", VLT_SAME_SLOT);
    vlt_result result = (vlt_result)vlt_core_dtype_extension(
            id ? id : (const uint8_t *)no_items, id_len, metadata ? metadata : (const uint8_t *)no_items, metadata_len,
            (vlt_slot *)&storage->slot, &out->slot);
    return with_argument(result, ARGUMENTS({"storage", &storage->slot, 1, VLT_OBJECT_DTYPE}), "id", "storage");
}

vlt_result vlt_struct_push_field(
        const vlt_dtype *dtype, const uint8_t *name, size_t name_len, const vlt_dtype *part, vlt_dtype *out) {
    if (!name && name_len)
        return vlt_is_wrong("name", VLT_RANGE);
    if (are_same(&dtype->slot, &out->slot) || are_same(&part->slot, &out->slot))
        return vlt_is_wrong("out", VLT_SAME_SLOT);
    vlt_slot copy = {0};
    const vlt_slot *apart = &part->slot;
    vlt_result result = copied_if_same(&dtype->slot, &apart, vlt_core_dtype_copy, &copy);
    if (result == VLT_DONE)
        result = (vlt_result)vlt_core_struct_push_field(
                (vlt_slot *)&dtype->slot, name ? name : (const uint8_t *)no_items, name_len, (vlt_slot *)apart,
                &out->slot);
    empty(&copy);
    return with_argument(
            result, ARGUMENTS({"dtype", &dtype->slot, 1, VLT_OBJECT_DTYPE}, {"part", &part->slot, 1, VLT_OBJECT_DTYPE}),
            "name", "dtype");
}

vlt_result vlt_struct_with_field(
        const vlt_dtype *dtype, const uint8_t *name, size_t name_len, const vlt_dtype *part, vlt_dtype *out) {
    if (!name && name_len)
        return vlt_is_wrong("name", VLT_RANGE);
    if (are_same(&dtype->slot, &out->slot) || are_same(&part->slot, &out->slot))
        return vlt_is_wrong("out", VLT_SAME_SLOT);
    vlt_slot copy = {0};
    const vlt_slot *apart = &part->slot;
    vlt_result result = copied_if_same(&dtype->slot, &apart, vlt_core_dtype_copy, &copy);
    if (result == VLT_DONE)
        result = (vlt_result)vlt_core_struct_with_field(
                (vlt_slot *)&dtype->slot, name ? name : (const uint8_t *)no_items, name_len, (vlt_slot *)apart,
                &out->slot);
    empty(&copy);
    return with_argument(
            result, ARGUMENTS({"dtype", &dtype->slot, 1, VLT_OBJECT_DTYPE}, {"part", &part->slot, 1, VLT_OBJECT_DTYPE}),
            "name", "dtype");
}

vlt_result vlt_struct_with_field_at(
        const vlt_dtype *dtype, size_t index, const uint8_t *name, size_t name_len, const vlt_dtype *part,
        vlt_dtype *out, vlt_error *error) {
    vlt_slot unwanted = {0};
    vlt_slot *told = error ? &error->slot : &unwanted;
    if (are_same(&dtype->slot, told) || are_same(&part->slot, told) || are_same(&out->slot, told))
        return vlt_is_wrong("error", VLT_SAME_SLOT);
    empty(told);
    if (!name && name_len)
        return vlt_is_wrong("name", VLT_RANGE);
    if (are_same(&dtype->slot, &out->slot) || are_same(&part->slot, &out->slot))
        return vlt_is_wrong("out", VLT_SAME_SLOT);
    vlt_slot copy = {0};
    const vlt_slot *apart = &part->slot;
    vlt_result result = copied_if_same(&dtype->slot, &apart, vlt_core_dtype_copy, &copy);
    if (result == VLT_DONE)
        result = (vlt_result)vlt_core_struct_with_field_at(
                (vlt_slot *)&dtype->slot, index, name ? name : (const uint8_t *)no_items, name_len, (vlt_slot *)apart,
                &out->slot, told);
    empty(&copy);
    empty(&unwanted);
    return with_argument(
            result, ARGUMENTS({"dtype", &dtype->slot, 1, VLT_OBJECT_DTYPE}, {"part", &part->slot, 1, VLT_OBJECT_DTYPE}),
            "name", "dtype");
}

vlt_result vlt_struct_names(
        const vlt_dtype *dtype, uint8_t *buffer, size_t buffer_len, size_t *length, size_t *name_lengths,
        size_t name_lengths_len, size_t *count) {
    if (!buffer && buffer_len)
        return vlt_is_wrong("buffer", VLT_RANGE);
    if (!name_lengths && name_lengths_len)
        return vlt_is_wrong("name_lengths", VLT_RANGE);
    vlt_result result = (vlt_result)vlt_core_struct_names(
            (vlt_slot *)&dtype->slot, buffer ? buffer : (uint8_t *)no_items, buffer_len, length,
            name_lengths ? name_lengths : (size_t *)no_items, name_lengths_len, count);
    return with_argument(result, ARGUMENTS({"dtype", &dtype->slot, 1, VLT_OBJECT_DTYPE}), NULL, "dtype");
}

vlt_result vlt_struct_types(const vlt_dtype *dtype, vlt_dtype *types, size_t types_len, size_t *count) {
    if (!types && types_len)
        return vlt_is_wrong("types", VLT_RANGE);
    if (is_among(&dtype->slot, (const vlt_slot *)types, types_len))
        return vlt_is_wrong("types", VLT_SAME_SLOT);
    if (have_repeats((const vlt_slot *)types, types_len))
        return vlt_is_wrong("types", VLT_SAME_SLOT);
    vlt_result result = (vlt_result)vlt_core_struct_types(
            (vlt_slot *)&dtype->slot, types ? (vlt_slot *)types : (vlt_slot *)no_items, types_len, count);
    return with_argument(result, ARGUMENTS({"dtype", &dtype->slot, 1, VLT_OBJECT_DTYPE}), NULL, "dtype");
}

vlt_result vlt_struct_without_field(const vlt_dtype *dtype, size_t index, vlt_dtype *out, vlt_error *error) {
    vlt_slot unwanted = {0};
    vlt_slot *told = error ? &error->slot : &unwanted;
    if (are_same(&dtype->slot, told) || are_same(&out->slot, told))
        return vlt_is_wrong("error", VLT_SAME_SLOT);
    empty(told);
    if (are_same(&dtype->slot, &out->slot))
        return vlt_is_wrong("out", VLT_SAME_SLOT);
    vlt_result result = (vlt_result)vlt_core_struct_without_field((vlt_slot *)&dtype->slot, index, &out->slot, told);
    empty(&unwanted);
    return with_argument(result, ARGUMENTS({"dtype", &dtype->slot, 1, VLT_OBJECT_DTYPE}), NULL, "dtype");
}

vlt_result vlt_struct_disjoint_merge(const vlt_dtype *one, const vlt_dtype *other, vlt_dtype *out, vlt_error *error) {
    vlt_slot unwanted = {0};
    vlt_slot *told = error ? &error->slot : &unwanted;
    if (are_same(&one->slot, told) || are_same(&other->slot, told) || are_same(&out->slot, told))
        return vlt_is_wrong("error", VLT_SAME_SLOT);
    empty(told);
    if (are_same(&one->slot, &out->slot) || are_same(&other->slot, &out->slot))
        return vlt_is_wrong("out", VLT_SAME_SLOT);
    vlt_slot copy = {0};
    const vlt_slot *apart = &other->slot;
    vlt_result result = copied_if_same(&one->slot, &apart, vlt_core_dtype_copy, &copy);
    if (result == VLT_DONE)
        result = (vlt_result)vlt_core_struct_disjoint_merge(
                (vlt_slot *)&one->slot, (vlt_slot *)apart, &out->slot, told);
    empty(&copy);
    empty(&unwanted);
    return with_argument(
            result, ARGUMENTS({"one", &one->slot, 1, VLT_OBJECT_DTYPE}, {"other", &other->slot, 1, VLT_OBJECT_DTYPE}),
            NULL, "one");
}

vlt_result vlt_struct_project(
        const vlt_dtype *dtype, const uint8_t *names, size_t names_len, const size_t *name_lengths,
        size_t name_lengths_len, vlt_dtype *out, vlt_error *error) {
    vlt_slot unwanted = {0};
    vlt_slot *told = error ? &error->slot : &unwanted;
    if (are_same(&dtype->slot, told) || are_same(&out->slot, told))
        return vlt_is_wrong("error", VLT_SAME_SLOT);
    empty(told);
    if (!names && names_len)
        return vlt_is_wrong("names", VLT_RANGE);
    if (!name_lengths && name_lengths_len)
        return vlt_is_wrong("name_lengths", VLT_RANGE);
    if (are_same(&dtype->slot, &out->slot))
        return vlt_is_wrong("out", VLT_SAME_SLOT);
    vlt_result result = (vlt_result)vlt_core_struct_project(
            (vlt_slot *)&dtype->slot, names ? names : (const uint8_t *)no_items, names_len,
            name_lengths ? name_lengths : (const size_t *)no_items, name_lengths_len, &out->slot, told);
    empty(&unwanted);
    return with_argument(result, ARGUMENTS({"dtype", &dtype->slot, 1, VLT_OBJECT_DTYPE}), "names", "name_lengths");
}

vlt_result vlt_struct_with_fields_renamed_allowing_repeats(
        const vlt_dtype *dtype, const uint8_t *names, size_t names_len, const size_t *name_lengths,
        size_t name_lengths_len, vlt_dtype *out) {
    if (!names && names_len)
        return vlt_is_wrong("names", VLT_RANGE);
    if (!name_lengths && name_lengths_len)
        return vlt_is_wrong("name_lengths", VLT_RANGE);
    if (are_same(&dtype->slot, &out->slot))
        return vlt_is_wrong("out", VLT_SAME_SLOT);
    vlt_result result = (vlt_result)vlt_core_struct_with_fields_renamed_allowing_repeats(
            (vlt_slot *)&dtype->slot, names ? names : (const uint8_t *)no_items, names_len,
            name_lengths ? name_lengths : (const size_t *)no_items, name_lengths_len, &out->slot);
    return with_argument(result, ARGUMENTS({"dtype", &dtype->slot, 1, VLT_OBJECT_DTYPE}), "names", "name_lengths");
}

vlt_result vlt_struct_nfields(const vlt_dtype *dtype, size_t *count) {
    vlt_result result = (vlt_result)vlt_core_struct_nfields((vlt_slot *)&dtype->slot, count);
    return with_argument(result, ARGUMENTS({"dtype", &dtype->slot, 1, VLT_OBJECT_DTYPE}), NULL, "dtype");
}

vlt_result vlt_struct_field_by_index(const vlt_dtype *dtype, size_t index, vlt_dtype *out) {
    if (are_same(&dtype->slot, &out->slot))
        return vlt_is_wrong("out", VLT_SAME_SLOT);
    vlt_result result = (vlt_result)vlt_core_struct_field_by_index((vlt_slot *)&dtype->slot, index, &out->slot);
    return with_argument(result, ARGUMENTS({"dtype", &dtype->slot, 1, VLT_OBJECT_DTYPE}), NULL, "dtype");
}

vlt_result vlt_struct_find(const vlt_dtype *dtype, const uint8_t *name, size_t name_len, size_t *index) {
    if (!name && name_len)
        return vlt_is_wrong("name", VLT_RANGE);
    vlt_result result = (vlt_result)vlt_core_struct_find(
            (vlt_slot *)&dtype->slot, name ? name : (const uint8_t *)no_items, name_len, index);
    return with_argument(result, ARGUMENTS({"dtype", &dtype->slot, 1, VLT_OBJECT_DTYPE}), "name", "dtype");
}

vlt_result vlt_struct_field(const vlt_dtype *dtype, const uint8_t *name, size_t name_len, vlt_dtype *out) {
    if (!name && name_len)
        return vlt_is_wrong("name", VLT_RANGE);
    if (are_same(&dtype->slot, &out->slot))
        return vlt_is_wrong("out", VLT_SAME_SLOT);
    vlt_result result = (vlt_result)vlt_core_struct_field(
            (vlt_slot *)&dtype->slot, name ? name : (const uint8_t *)no_items, name_len, &out->slot);
    return with_argument(result, ARGUMENTS({"dtype", &dtype->slot, 1, VLT_OBJECT_DTYPE}), "name", "dtype");
}

vlt_result vlt_struct_field_name(
        const vlt_dtype *dtype, size_t index, uint8_t *buffer, size_t buffer_len, size_t *length) {
    if (!buffer && buffer_len)
        return vlt_is_wrong("buffer", VLT_RANGE);
    vlt_result result = (vlt_result)vlt_core_struct_field_name(
            (vlt_slot *)&dtype->slot, index, buffer ? buffer : (uint8_t *)no_items, buffer_len, length);
    return with_argument(result, ARGUMENTS({"dtype", &dtype->slot, 1, VLT_OBJECT_DTYPE}), NULL, "dtype");
}

vlt_result vlt_struct_indented(const vlt_dtype *dtype, uint8_t *buffer, size_t buffer_len, size_t *length) {
    if (!buffer && buffer_len)
        return vlt_is_wrong("buffer", VLT_RANGE);
    vlt_result result = (vlt_result)vlt_core_struct_indented(
            (vlt_slot *)&dtype->slot, buffer ? buffer : (uint8_t *)no_items, buffer_len, length);
    return with_argument(result, ARGUMENTS({"dtype", &dtype->slot, 1, VLT_OBJECT_DTYPE}), NULL, "dtype");
}

vlt_result vlt_union_names(
        const vlt_dtype *dtype, uint8_t *buffer, size_t buffer_len, size_t *length, size_t *name_lengths,
        size_t name_lengths_len, size_t *count) {
    if (!buffer && buffer_len)
        return vlt_is_wrong("buffer", VLT_RANGE);
    if (!name_lengths && name_lengths_len)
        return vlt_is_wrong("name_lengths", VLT_RANGE);
    vlt_result result = (vlt_result)vlt_core_union_names(
            (vlt_slot *)&dtype->slot, buffer ? buffer : (uint8_t *)no_items, buffer_len, length,
            name_lengths ? name_lengths : (size_t *)no_items, name_lengths_len, count);
    return with_argument(result, ARGUMENTS({"dtype", &dtype->slot, 1, VLT_OBJECT_DTYPE}), NULL, "dtype");
}

vlt_result vlt_union_types(const vlt_dtype *dtype, vlt_dtype *types, size_t types_len, size_t *count) {
    if (!types && types_len)
        return vlt_is_wrong("types", VLT_RANGE);
    if (is_among(&dtype->slot, (const vlt_slot *)types, types_len))
        return vlt_is_wrong("types", VLT_SAME_SLOT);
    if (have_repeats((const vlt_slot *)types, types_len))
        return vlt_is_wrong("types", VLT_SAME_SLOT);
    vlt_result result = (vlt_result)vlt_core_union_types(
            (vlt_slot *)&dtype->slot, types ? (vlt_slot *)types : (vlt_slot *)no_items, types_len, count);
    return with_argument(result, ARGUMENTS({"dtype", &dtype->slot, 1, VLT_OBJECT_DTYPE}), NULL, "dtype");
}

vlt_result vlt_union_len(const vlt_dtype *dtype, size_t *count) {
    vlt_result result = (vlt_result)vlt_core_union_len((vlt_slot *)&dtype->slot, count);
    return with_argument(result, ARGUMENTS({"dtype", &dtype->slot, 1, VLT_OBJECT_DTYPE}), NULL, "dtype");
}

vlt_result vlt_union_variant_by_index(const vlt_dtype *dtype, size_t index, vlt_dtype *out) {
    if (are_same(&dtype->slot, &out->slot))
        return vlt_is_wrong("out", VLT_SAME_SLOT);
    vlt_result result = (vlt_result)vlt_core_union_variant_by_index((vlt_slot *)&dtype->slot, index, &out->slot);
    return with_argument(result, ARGUMENTS({"dtype", &dtype->slot, 1, VLT_OBJECT_DTYPE}), NULL, "dtype");
}

vlt_result vlt_union_find(const vlt_dtype *dtype, const uint8_t *name, size_t name_len, size_t *index) {
    if (!name && name_len)
        return vlt_is_wrong("name", VLT_RANGE);
    vlt_result result = (vlt_result)vlt_core_union_find(
            (vlt_slot *)&dtype->slot, name ? name : (const uint8_t *)no_items, name_len, index);
    return with_argument(result, ARGUMENTS({"dtype", &dtype->slot, 1, VLT_OBJECT_DTYPE}), "name", "dtype");
}

vlt_result vlt_union_variant(const vlt_dtype *dtype, const uint8_t *name, size_t name_len, vlt_dtype *out) {
    if (!name && name_len)
        return vlt_is_wrong("name", VLT_RANGE);
    if (are_same(&dtype->slot, &out->slot))
        return vlt_is_wrong("out", VLT_SAME_SLOT);
    vlt_result result = (vlt_result)vlt_core_union_variant(
            (vlt_slot *)&dtype->slot, name ? name : (const uint8_t *)no_items, name_len, &out->slot);
    return with_argument(result, ARGUMENTS({"dtype", &dtype->slot, 1, VLT_OBJECT_DTYPE}), "name", "dtype");
}

vlt_result vlt_union_tag_to_child_index(const vlt_dtype *dtype, uint8_t tag, size_t *index) {
    vlt_result result = (vlt_result)vlt_core_union_tag_to_child_index((vlt_slot *)&dtype->slot, tag, index);
    return with_argument(result, ARGUMENTS({"dtype", &dtype->slot, 1, VLT_OBJECT_DTYPE}), NULL, "dtype");
}

vlt_result vlt_union_child_index_to_tag(const vlt_dtype *dtype, size_t index, uint8_t *tag) {
    vlt_result result = (vlt_result)vlt_core_union_child_index_to_tag((vlt_slot *)&dtype->slot, index, tag);
    return with_argument(result, ARGUMENTS({"dtype", &dtype->slot, 1, VLT_OBJECT_DTYPE}), NULL, "dtype");
}

vlt_result vlt_union_variant_name(
        const vlt_dtype *dtype, size_t index, uint8_t *buffer, size_t buffer_len, size_t *length) {
    if (!buffer && buffer_len)
        return vlt_is_wrong("buffer", VLT_RANGE);
    vlt_result result = (vlt_result)vlt_core_union_variant_name(
            (vlt_slot *)&dtype->slot, index, buffer ? buffer : (uint8_t *)no_items, buffer_len, length);
    return with_argument(result, ARGUMENTS({"dtype", &dtype->slot, 1, VLT_OBJECT_DTYPE}), NULL, "dtype");
}

vlt_result vlt_union_is_consecutive(const vlt_dtype *dtype, bool *answer) {
    vlt_result result = answered(vlt_core_union_is_consecutive((vlt_slot *)&dtype->slot), answer);
    return with_argument(result, ARGUMENTS({"dtype", &dtype->slot, 1, VLT_OBJECT_DTYPE}), NULL, "dtype");
}

vlt_result vlt_fields_new(vlt_fields *out) {
    return (vlt_result)vlt_core_fields_new(&out->slot);
}

vlt_result vlt_fields_push(vlt_fields *fields, const uint8_t *name, size_t name_len, const vlt_dtype *dtype) {
    if (!name && name_len)
        return vlt_is_wrong("name", VLT_RANGE);
    if (are_same(&fields->slot, &dtype->slot))
        return vlt_is_wrong("dtype", VLT_SAME_SLOT);
    vlt_result result = (vlt_result)vlt_core_fields_push(
            &fields->slot, name ? name : (const uint8_t *)no_items, name_len, (vlt_slot *)&dtype->slot);
    return with_argument(
            result,
            ARGUMENTS({"fields", &fields->slot, 1, VLT_OBJECT_FIELDS}, {"dtype", &dtype->slot, 1, VLT_OBJECT_DTYPE}),
            "name", "fields");
}

vlt_result vlt_path_from_message(
        const uint8_t *names, size_t names_len, const size_t *name_lengths, size_t name_lengths_len, vlt_path *out,
        vlt_error *error) {
    vlt_slot unwanted = {0};
    vlt_slot *told = error ? &error->slot : &unwanted;
    if (are_same(&out->slot, told))
        return vlt_is_wrong("error", VLT_SAME_SLOT);
    empty(told);
    if (!names && names_len)
        return vlt_is_wrong("names", VLT_RANGE);
    if (!name_lengths && name_lengths_len)
        return vlt_is_wrong("name_lengths", VLT_RANGE);
    vlt_result result = (vlt_result)vlt_core_path_from_message(
            names ? names : (const uint8_t *)no_items, names_len,
            name_lengths ? name_lengths : (const size_t *)no_items, name_lengths_len, &out->slot, told);
    empty(&unwanted);
    return with_argument(result, NULL, 0, "names", "name_lengths");
}

vlt_result vlt_path_from_text(const uint8_t *text, size_t text_len, vlt_path *out, vlt_error *error) {
    vlt_slot unwanted = {0};
    vlt_slot *told = error ? &error->slot : &unwanted;
    if (are_same(&out->slot, told))
        return vlt_is_wrong("error", VLT_SAME_SLOT);
    empty(told);
    if (!text && text_len)
        return vlt_is_wrong("text", VLT_RANGE);
    vlt_result result = (vlt_result)vlt_core_path_from_text(
            text ? text : (const uint8_t *)no_items, text_len, &out->slot, told);
    empty(&unwanted);
    return with_argument(result, NULL, 0, "text", NULL);
}

vlt_result vlt_path_to_text(const vlt_path *path, uint8_t *buffer, size_t buffer_len, size_t *length) {
    if (!buffer && buffer_len)
        return vlt_is_wrong("buffer", VLT_RANGE);
    vlt_result result = (vlt_result)vlt_core_path_to_text(
            (vlt_slot *)&path->slot, buffer ? buffer : (uint8_t *)no_items, buffer_len, length);
    return with_argument(result, ARGUMENTS({"path", &path->slot, 1, VLT_OBJECT_PATH}), NULL, "path");
}

vlt_result vlt_path_root(vlt_path *out) {
    return (vlt_result)vlt_core_path_root(&out->slot);
}

vlt_result vlt_path_len(const vlt_path *path, size_t *count) {
    vlt_result result = (vlt_result)vlt_core_path_len((vlt_slot *)&path->slot, count);
    return with_argument(result, ARGUMENTS({"path", &path->slot, 1, VLT_OBJECT_PATH}), NULL, "path");
}

vlt_result vlt_path_step(const vlt_path *path, size_t index, uint8_t *buffer, size_t buffer_len, size_t *length) {
    if (!buffer && buffer_len)
        return vlt_is_wrong("buffer", VLT_RANGE);
    vlt_result result = (vlt_result)vlt_core_path_step(
            (vlt_slot *)&path->slot, index, buffer ? buffer : (uint8_t *)no_items, buffer_len, length);
    return with_argument(result, ARGUMENTS({"path", &path->slot, 1, VLT_OBJECT_PATH}), NULL, "path");
}

vlt_result vlt_path_push_name(const vlt_path *path, const uint8_t *name, size_t name_len, vlt_path *out) {
    if (!name && name_len)
        return vlt_is_wrong("name", VLT_RANGE);
    if (are_same(&path->slot, &out->slot))
        return vlt_is_wrong("out", VLT_SAME_SLOT);
    vlt_result result = (vlt_result)vlt_core_path_push_name(
            (vlt_slot *)&path->slot, name ? name : (const uint8_t *)no_items, name_len, &out->slot);
    return with_argument(result, ARGUMENTS({"path", &path->slot, 1, VLT_OBJECT_PATH}), "name", "path");
}

vlt_result vlt_path_push_element(const vlt_path *path, vlt_path *out) {
    if (are_same(&path->slot, &out->slot))
        return vlt_is_wrong("out", VLT_SAME_SLOT);
    vlt_result result = (vlt_result)vlt_core_path_push_element((vlt_slot *)&path->slot, &out->slot);
    return with_argument(result, ARGUMENTS({"path", &path->slot, 1, VLT_OBJECT_PATH}), NULL, "path");
}

vlt_result vlt_path_step_into(const vlt_path *path, vlt_path *out) {
    if (are_same(&path->slot, &out->slot))
        return vlt_is_wrong("out", VLT_SAME_SLOT);
    vlt_result result = (vlt_result)vlt_core_path_step_into((vlt_slot *)&path->slot, &out->slot);
    return with_argument(result, ARGUMENTS({"path", &path->slot, 1, VLT_OBJECT_PATH}), NULL, "path");
}

vlt_result vlt_path_copy(const vlt_path *path, vlt_path *out) {
    if (are_same(&path->slot, &out->slot))
        return vlt_is_wrong("out", VLT_SAME_SLOT);
    vlt_result result = (vlt_result)vlt_core_path_copy((vlt_slot *)&path->slot, &out->slot);
    return with_argument(result, ARGUMENTS({"path", &path->slot, 1, VLT_OBJECT_PATH}), NULL, "path");
}

vlt_result vlt_path_eq(const vlt_path *one, const vlt_path *other, bool *answer) {
    vlt_slot copy = {0};
    const vlt_slot *apart = &other->slot;
    vlt_result result = copied_if_same(&one->slot, &apart, vlt_core_path_copy, &copy);
    if (result == VLT_DONE)
        result = answered(vlt_core_path_eq((vlt_slot *)&one->slot, (vlt_slot *)apart), answer);
    empty(&copy);
    return with_argument(
            result, ARGUMENTS({"one", &one->slot, 1, VLT_OBJECT_PATH}, {"other", &other->slot, 1, VLT_OBJECT_PATH}),
            NULL, "one");
}

vlt_result vlt_path_overlap(const vlt_path *one, const vlt_path *other, bool *answer) {
    vlt_slot copy = {0};
    const vlt_slot *apart = &other->slot;
    vlt_result result = copied_if_same(&one->slot, &apart, vlt_core_path_copy, &copy);
    if (result == VLT_DONE)
        result = answered(vlt_core_path_overlap((vlt_slot *)&one->slot, (vlt_slot *)apart), answer);
    empty(&copy);
    return with_argument(
            result, ARGUMENTS({"one", &one->slot, 1, VLT_OBJECT_PATH}, {"other", &other->slot, 1, VLT_OBJECT_PATH}),
            NULL, "one");
}

vlt_result vlt_path_resolve(const vlt_dtype *dtype, const vlt_path *path, vlt_dtype *out) {
    if (are_same(&dtype->slot, &out->slot) || are_same(&path->slot, &out->slot))
        return vlt_is_wrong("out", VLT_SAME_SLOT);
    if (are_same(&dtype->slot, &path->slot))
        return with_argument(
                VLT_KIND,
                ARGUMENTS({"dtype", &dtype->slot, 1, VLT_OBJECT_DTYPE}, {"path", &path->slot, 1, VLT_OBJECT_PATH}),
                NULL, NULL);
    vlt_result result = (vlt_result)vlt_core_path_resolve(
            (vlt_slot *)&dtype->slot, (vlt_slot *)&path->slot, &out->slot);
    return with_argument(
            result, ARGUMENTS({"dtype", &dtype->slot, 1, VLT_OBJECT_DTYPE}, {"path", &path->slot, 1, VLT_OBJECT_PATH}),
            NULL, "dtype");
}

vlt_result vlt_path_exists_in(const vlt_dtype *dtype, const vlt_path *path, bool *answer) {
    if (are_same(&dtype->slot, &path->slot))
        return with_argument(
                VLT_KIND,
                ARGUMENTS({"dtype", &dtype->slot, 1, VLT_OBJECT_DTYPE}, {"path", &path->slot, 1, VLT_OBJECT_PATH}),
                NULL, NULL);
    vlt_result result = answered(vlt_core_path_exists_in((vlt_slot *)&dtype->slot, (vlt_slot *)&path->slot), answer);
    return with_argument(
            result, ARGUMENTS({"dtype", &dtype->slot, 1, VLT_OBJECT_DTYPE}, {"path", &path->slot, 1, VLT_OBJECT_PATH}),
            NULL, "dtype");
}

vlt_result vlt_path_display(const vlt_path *path, uint8_t *buffer, size_t buffer_len, size_t *length) {
    if (!buffer && buffer_len)
        return vlt_is_wrong("buffer", VLT_RANGE);
    vlt_result result = (vlt_result)vlt_core_path_display(
            (vlt_slot *)&path->slot, buffer ? buffer : (uint8_t *)no_items, buffer_len, length);
    return with_argument(result, ARGUMENTS({"path", &path->slot, 1, VLT_OBJECT_PATH}), NULL, "path");
}

vlt_result vlt_path_starts_with_name(const vlt_path *path, const uint8_t *name, size_t name_len, bool *answer) {
    if (!name && name_len)
        return vlt_is_wrong("name", VLT_RANGE);
    vlt_result result = answered(vlt_core_path_starts_with_name(
            (vlt_slot *)&path->slot, name ? name : (const uint8_t *)no_items, name_len), answer);
    return with_argument(result, ARGUMENTS({"path", &path->slot, 1, VLT_OBJECT_PATH}), "name", "path");
}

vlt_result vlt_path_hash(const vlt_path *path, uint64_t *hash) {
    vlt_result result = (vlt_result)vlt_core_path_hash((vlt_slot *)&path->slot, hash);
    return with_argument(result, ARGUMENTS({"path", &path->slot, 1, VLT_OBJECT_PATH}), NULL, "path");
}

vlt_result vlt_path_from_steps(
        const uint8_t *names, size_t names_len, const size_t *name_lengths, size_t name_lengths_len, vlt_path *out) {
    if (!names && names_len)
        return vlt_is_wrong("names", VLT_RANGE);
    if (!name_lengths && name_lengths_len)
        return vlt_is_wrong("name_lengths", VLT_RANGE);
    vlt_result result = (vlt_result)vlt_core_path_from_steps(
            names ? names : (const uint8_t *)no_items, names_len,
            name_lengths ? name_lengths : (const size_t *)no_items, name_lengths_len, &out->slot);
    return with_argument(result, NULL, 0, "names", "name_lengths");
}

vlt_result vlt_set_below(
        const vlt_path_set *paths, const vlt_path *path, bool *is_end, bool *has_element, size_t *name_count) {
    if (are_same(&paths->slot, &path->slot))
        return with_argument(
                VLT_KIND,
                ARGUMENTS({"paths", &paths->slot, 1, VLT_OBJECT_PATH_SET}, {"path", &path->slot, 1, VLT_OBJECT_PATH}),
                NULL, NULL);
    vlt_result result = (vlt_result)vlt_core_set_below(
            (vlt_slot *)&paths->slot, (vlt_slot *)&path->slot, is_end, has_element, name_count);
    return with_argument(
            result,
            ARGUMENTS({"paths", &paths->slot, 1, VLT_OBJECT_PATH_SET}, {"path", &path->slot, 1, VLT_OBJECT_PATH}), NULL,
            "paths");
}

vlt_result vlt_set_names_below(const vlt_path_set *paths, const vlt_path *path, vlt_path_list *out) {
    if (are_same(&paths->slot, &out->slot) || are_same(&path->slot, &out->slot))
        return vlt_is_wrong("out", VLT_SAME_SLOT);
    if (are_same(&paths->slot, &path->slot))
        return with_argument(
                VLT_KIND,
                ARGUMENTS({"paths", &paths->slot, 1, VLT_OBJECT_PATH_SET}, {"path", &path->slot, 1, VLT_OBJECT_PATH}),
                NULL, NULL);
    vlt_result result = (vlt_result)vlt_core_set_names_below(
            (vlt_slot *)&paths->slot, (vlt_slot *)&path->slot, &out->slot);
    return with_argument(
            result,
            ARGUMENTS({"paths", &paths->slot, 1, VLT_OBJECT_PATH_SET}, {"path", &path->slot, 1, VLT_OBJECT_PATH}), NULL,
            "paths");
}

vlt_result vlt_set_eq(const vlt_path_set *one, const vlt_path_set *other, bool *answer) {
    vlt_slot copy = {0};
    const vlt_slot *apart = &other->slot;
    vlt_result result = copied_if_same(&one->slot, &apart, vlt_core_set_copy, &copy);
    if (result == VLT_DONE)
        result = answered(vlt_core_set_eq((vlt_slot *)&one->slot, (vlt_slot *)apart), answer);
    empty(&copy);
    return with_argument(
            result,
            ARGUMENTS({"one", &one->slot, 1, VLT_OBJECT_PATH_SET}, {"other", &other->slot, 1, VLT_OBJECT_PATH_SET}),
            NULL, "one");
}

vlt_result vlt_set_is_subset(const vlt_path_set *one, const vlt_path_set *other, bool *answer) {
    vlt_slot copy = {0};
    const vlt_slot *apart = &other->slot;
    vlt_result result = copied_if_same(&one->slot, &apart, vlt_core_set_copy, &copy);
    if (result == VLT_DONE)
        result = answered(vlt_core_set_is_subset((vlt_slot *)&one->slot, (vlt_slot *)apart), answer);
    empty(&copy);
    return with_argument(
            result,
            ARGUMENTS({"one", &one->slot, 1, VLT_OBJECT_PATH_SET}, {"other", &other->slot, 1, VLT_OBJECT_PATH_SET}),
            NULL, "one");
}

vlt_result vlt_set_is_disjoint(const vlt_path_set *one, const vlt_path_set *other, bool *answer) {
    vlt_slot copy = {0};
    const vlt_slot *apart = &other->slot;
    vlt_result result = copied_if_same(&one->slot, &apart, vlt_core_set_copy, &copy);
    if (result == VLT_DONE)
        result = answered(vlt_core_set_is_disjoint((vlt_slot *)&one->slot, (vlt_slot *)apart), answer);
    empty(&copy);
    return with_argument(
            result,
            ARGUMENTS({"one", &one->slot, 1, VLT_OBJECT_PATH_SET}, {"other", &other->slot, 1, VLT_OBJECT_PATH_SET}),
            NULL, "one");
}

vlt_result vlt_set_union(const vlt_path_set *one, const vlt_path_set *other, vlt_path_set *out) {
    if (are_same(&one->slot, &out->slot) || are_same(&other->slot, &out->slot))
        return vlt_is_wrong("out", VLT_SAME_SLOT);
    vlt_slot copy = {0};
    const vlt_slot *apart = &other->slot;
    vlt_result result = copied_if_same(&one->slot, &apart, vlt_core_set_copy, &copy);
    if (result == VLT_DONE)
        result = (vlt_result)vlt_core_set_union((vlt_slot *)&one->slot, (vlt_slot *)apart, &out->slot);
    empty(&copy);
    return with_argument(
            result,
            ARGUMENTS({"one", &one->slot, 1, VLT_OBJECT_PATH_SET}, {"other", &other->slot, 1, VLT_OBJECT_PATH_SET}),
            NULL, "one");
}

vlt_result vlt_set_new(vlt_path_set *out) {
    return (vlt_result)vlt_core_set_new(&out->slot);
}

vlt_result vlt_set_insert(vlt_path_set *paths, const vlt_path *path) {
    if (are_same(&paths->slot, &path->slot))
        return vlt_is_wrong("path", VLT_SAME_SLOT);
    vlt_result result = (vlt_result)vlt_core_set_insert(&paths->slot, (vlt_slot *)&path->slot);
    return with_argument(
            result,
            ARGUMENTS({"paths", &paths->slot, 1, VLT_OBJECT_PATH_SET}, {"path", &path->slot, 1, VLT_OBJECT_PATH}), NULL,
            "paths");
}

vlt_result vlt_set_contains(const vlt_path_set *paths, const vlt_path *path, bool *answer) {
    if (are_same(&paths->slot, &path->slot))
        return with_argument(
                VLT_KIND,
                ARGUMENTS({"paths", &paths->slot, 1, VLT_OBJECT_PATH_SET}, {"path", &path->slot, 1, VLT_OBJECT_PATH}),
                NULL, NULL);
    vlt_result result = answered(vlt_core_set_contains((vlt_slot *)&paths->slot, (vlt_slot *)&path->slot), answer);
    return with_argument(
            result,
            ARGUMENTS({"paths", &paths->slot, 1, VLT_OBJECT_PATH_SET}, {"path", &path->slot, 1, VLT_OBJECT_PATH}), NULL,
            "paths");
}

vlt_result vlt_set_copy(const vlt_path_set *paths, vlt_path_set *out) {
    if (are_same(&paths->slot, &out->slot))
        return vlt_is_wrong("out", VLT_SAME_SLOT);
    vlt_result result = (vlt_result)vlt_core_set_copy((vlt_slot *)&paths->slot, &out->slot);
    return with_argument(result, ARGUMENTS({"paths", &paths->slot, 1, VLT_OBJECT_PATH_SET}), NULL, "paths");
}

vlt_result vlt_set_cover(const vlt_path_set *paths, vlt_path_list *out) {
    if (are_same(&paths->slot, &out->slot))
        return vlt_is_wrong("out", VLT_SAME_SLOT);
    vlt_result result = (vlt_result)vlt_core_set_cover((vlt_slot *)&paths->slot, &out->slot);
    return with_argument(result, ARGUMENTS({"paths", &paths->slot, 1, VLT_OBJECT_PATH_SET}), NULL, "paths");
}

vlt_result vlt_set_members(const vlt_path_set *paths, vlt_path_list *out) {
    if (are_same(&paths->slot, &out->slot))
        return vlt_is_wrong("out", VLT_SAME_SLOT);
    vlt_result result = (vlt_result)vlt_core_set_members((vlt_slot *)&paths->slot, &out->slot);
    return with_argument(result, ARGUMENTS({"paths", &paths->slot, 1, VLT_OBJECT_PATH_SET}), NULL, "paths");
}

vlt_result vlt_set_unresolved(const vlt_path_set *paths, const vlt_dtype *dtype, vlt_path_list *out) {
    if (are_same(&paths->slot, &out->slot) || are_same(&dtype->slot, &out->slot))
        return vlt_is_wrong("out", VLT_SAME_SLOT);
    if (are_same(&paths->slot, &dtype->slot))
        return with_argument(
                VLT_KIND,
                ARGUMENTS({"paths", &paths->slot, 1, VLT_OBJECT_PATH_SET}, {"dtype", &dtype->slot, 1, VLT_OBJECT_DTYPE}),
                NULL, NULL);
    vlt_result result = (vlt_result)vlt_core_set_unresolved(
            (vlt_slot *)&paths->slot, (vlt_slot *)&dtype->slot, &out->slot);
    return with_argument(
            result,
            ARGUMENTS({"paths", &paths->slot, 1, VLT_OBJECT_PATH_SET}, {"dtype", &dtype->slot, 1, VLT_OBJECT_DTYPE}),
            NULL, "paths");
}

vlt_result vlt_set_len(const vlt_path_set *paths, size_t *count) {
    vlt_result result = (vlt_result)vlt_core_set_len((vlt_slot *)&paths->slot, count);
    return with_argument(result, ARGUMENTS({"paths", &paths->slot, 1, VLT_OBJECT_PATH_SET}), NULL, "paths");
}

vlt_result vlt_set_extend(vlt_path_set *set, const vlt_path *paths, size_t paths_len, size_t *inserted) {
    if (!paths && paths_len)
        return vlt_is_wrong("paths", VLT_RANGE);
    if (is_among(&set->slot, (const vlt_slot *)paths, paths_len))
        return vlt_is_wrong("paths", VLT_SAME_SLOT);
    if (have_repeats((const vlt_slot *)paths, paths_len))
        return vlt_is_wrong("paths", VLT_SAME_SLOT);
    vlt_result result = (vlt_result)vlt_core_set_extend(
            &set->slot, paths ? (vlt_slot *)paths : (vlt_slot *)no_items, paths_len, inserted);
    return with_argument(
            result,
            ARGUMENTS({"set", &set->slot, 1, VLT_OBJECT_PATH_SET}, {"paths", (const vlt_slot *)paths, paths_len, VLT_OBJECT_PATH}),
            NULL, "set");
}

vlt_result vlt_set_extend_from_list(vlt_path_set *paths, const vlt_path_list *list) {
    if (are_same(&paths->slot, &list->slot))
        return vlt_is_wrong("list", VLT_SAME_SLOT);
    vlt_result result = (vlt_result)vlt_core_set_extend_from_list(&paths->slot, (vlt_slot *)&list->slot);
    return with_argument(
            result,
            ARGUMENTS({"paths", &paths->slot, 1, VLT_OBJECT_PATH_SET}, {"list", &list->slot, 1, VLT_OBJECT_PATH_LIST}),
            NULL, "paths");
}

vlt_result vlt_paths_take(vlt_path_list *paths, size_t index, vlt_path *out) {
    if (are_same(&paths->slot, &out->slot))
        return vlt_is_wrong("out", VLT_SAME_SLOT);
    vlt_result result = (vlt_result)vlt_core_paths_take(&paths->slot, index, &out->slot);
    return with_argument(result, ARGUMENTS({"paths", &paths->slot, 1, VLT_OBJECT_PATH_LIST}), NULL, "paths");
}

vlt_result vlt_paths_len(const vlt_path_list *paths, size_t *count) {
    vlt_result result = (vlt_result)vlt_core_paths_len((vlt_slot *)&paths->slot, count);
    return with_argument(result, ARGUMENTS({"paths", &paths->slot, 1, VLT_OBJECT_PATH_LIST}), NULL, "paths");
}

vlt_result vlt_paths_get(const vlt_path_list *paths, size_t index, vlt_path *out) {
    if (are_same(&paths->slot, &out->slot))
        return vlt_is_wrong("out", VLT_SAME_SLOT);
    vlt_result result = (vlt_result)vlt_core_paths_get((vlt_slot *)&paths->slot, index, &out->slot);
    return with_argument(result, ARGUMENTS({"paths", &paths->slot, 1, VLT_OBJECT_PATH_LIST}), NULL, "paths");
}

vlt_result vlt_leaf_paths(const vlt_dtype *dtype, vlt_path_set *out) {
    if (are_same(&dtype->slot, &out->slot))
        return vlt_is_wrong("out", VLT_SAME_SLOT);
    vlt_result result = (vlt_result)vlt_core_leaf_paths((vlt_slot *)&dtype->slot, &out->slot);
    return with_argument(result, ARGUMENTS({"dtype", &dtype->slot, 1, VLT_OBJECT_DTYPE}), NULL, "dtype");
}

vlt_result vlt_without_paths(const vlt_dtype *dtype, const vlt_path_set *set, vlt_dtype *out) {
    if (are_same(&dtype->slot, &out->slot) || are_same(&set->slot, &out->slot))
        return vlt_is_wrong("out", VLT_SAME_SLOT);
    if (are_same(&dtype->slot, &set->slot))
        return with_argument(
                VLT_KIND,
                ARGUMENTS({"dtype", &dtype->slot, 1, VLT_OBJECT_DTYPE}, {"set", &set->slot, 1, VLT_OBJECT_PATH_SET}),
                NULL, NULL);
    vlt_result result = (vlt_result)vlt_core_without_paths(
            (vlt_slot *)&dtype->slot, (vlt_slot *)&set->slot, &out->slot);
    return with_argument(
            result,
            ARGUMENTS({"dtype", &dtype->slot, 1, VLT_OBJECT_DTYPE}, {"set", &set->slot, 1, VLT_OBJECT_PATH_SET}), NULL,
            "dtype");
}

vlt_result vlt_with_type_at(const vlt_dtype *dtype, const vlt_path *path, const vlt_dtype *part, vlt_dtype *out) {
    if (are_same(&dtype->slot, &out->slot) || are_same(&path->slot, &out->slot) || are_same(&part->slot, &out->slot))
        return vlt_is_wrong("out", VLT_SAME_SLOT);
    if (are_same(&dtype->slot, &path->slot) || are_same(&path->slot, &part->slot))
        return with_argument(
                VLT_KIND,
                ARGUMENTS({"dtype", &dtype->slot, 1, VLT_OBJECT_DTYPE}, {"path", &path->slot, 1, VLT_OBJECT_PATH}, {"part", &part->slot, 1, VLT_OBJECT_DTYPE}),
                NULL, NULL);
    vlt_slot copy = {0};
    const vlt_slot *apart = &part->slot;
    vlt_result result = copied_if_same(&dtype->slot, &apart, vlt_core_dtype_copy, &copy);
    if (result == VLT_DONE)
        result = (vlt_result)vlt_core_with_type_at(
                (vlt_slot *)&dtype->slot, (vlt_slot *)&path->slot, (vlt_slot *)apart, &out->slot);
    empty(&copy);
    return with_argument(
            result,
            ARGUMENTS({"dtype", &dtype->slot, 1, VLT_OBJECT_DTYPE}, {"path", &path->slot, 1, VLT_OBJECT_PATH}, {"part", &part->slot, 1, VLT_OBJECT_DTYPE}),
            NULL, "dtype");
}

vlt_result vlt_project_paths(const vlt_dtype *dtype, const vlt_path_set *set, vlt_dtype *out) {
    if (are_same(&dtype->slot, &out->slot) || are_same(&set->slot, &out->slot))
        return vlt_is_wrong("out", VLT_SAME_SLOT);
    if (are_same(&dtype->slot, &set->slot))
        return with_argument(
                VLT_KIND,
                ARGUMENTS({"dtype", &dtype->slot, 1, VLT_OBJECT_DTYPE}, {"set", &set->slot, 1, VLT_OBJECT_PATH_SET}),
                NULL, NULL);
    vlt_result result = (vlt_result)vlt_core_project_paths(
            (vlt_slot *)&dtype->slot, (vlt_slot *)&set->slot, &out->slot);
    return with_argument(
            result,
            ARGUMENTS({"dtype", &dtype->slot, 1, VLT_OBJECT_DTYPE}, {"set", &set->slot, 1, VLT_OBJECT_PATH_SET}), NULL,
            "dtype");
}

vlt_result vlt_mask_all(vlt_mask *out) {
    return (vlt_result)vlt_core_mask_all(&out->slot);
}

vlt_result vlt_mask_prefix(const vlt_path *path, vlt_mask *out) {
    if (are_same(&path->slot, &out->slot))
        return vlt_is_wrong("out", VLT_SAME_SLOT);
    vlt_result result = (vlt_result)vlt_core_mask_prefix((vlt_slot *)&path->slot, &out->slot);
    return with_argument(result, ARGUMENTS({"path", &path->slot, 1, VLT_OBJECT_PATH}), NULL, "path");
}

vlt_result vlt_mask_exact(const vlt_path *path, vlt_mask *out) {
    if (are_same(&path->slot, &out->slot))
        return vlt_is_wrong("out", VLT_SAME_SLOT);
    vlt_result result = (vlt_result)vlt_core_mask_exact((vlt_slot *)&path->slot, &out->slot);
    return with_argument(result, ARGUMENTS({"path", &path->slot, 1, VLT_OBJECT_PATH}), NULL, "path");
}

vlt_result vlt_mask_kind(const vlt_mask *mask, uint32_t *kind) {
    vlt_result result = (vlt_result)vlt_core_mask_kind((vlt_slot *)&mask->slot, kind);
    return with_argument(result, ARGUMENTS({"mask", &mask->slot, 1, VLT_OBJECT_MASK}), NULL, "mask");
}

vlt_result vlt_mask_path(const vlt_mask *mask, vlt_path *out) {
    if (are_same(&mask->slot, &out->slot))
        return vlt_is_wrong("out", VLT_SAME_SLOT);
    vlt_result result = (vlt_result)vlt_core_mask_path((vlt_slot *)&mask->slot, &out->slot);
    return with_argument(result, ARGUMENTS({"mask", &mask->slot, 1, VLT_OBJECT_MASK}), NULL, "mask");
}

vlt_result vlt_mask_copy(const vlt_mask *mask, vlt_mask *out) {
    if (are_same(&mask->slot, &out->slot))
        return vlt_is_wrong("out", VLT_SAME_SLOT);
    vlt_result result = (vlt_result)vlt_core_mask_copy((vlt_slot *)&mask->slot, &out->slot);
    return with_argument(result, ARGUMENTS({"mask", &mask->slot, 1, VLT_OBJECT_MASK}), NULL, "mask");
}

vlt_result vlt_mask_step_into(const vlt_mask *mask, vlt_mask *out, vlt_error *error) {
    vlt_slot unwanted = {0};
    vlt_slot *told = error ? &error->slot : &unwanted;
    if (are_same(&mask->slot, told) || are_same(&out->slot, told))
        return vlt_is_wrong("error", VLT_SAME_SLOT);
    empty(told);
    if (are_same(&mask->slot, &out->slot))
        return vlt_is_wrong("out", VLT_SAME_SLOT);
    vlt_result result = (vlt_result)vlt_core_mask_step_into((vlt_slot *)&mask->slot, &out->slot, told);
    empty(&unwanted);
    return with_argument(result, ARGUMENTS({"mask", &mask->slot, 1, VLT_OBJECT_MASK}), NULL, "mask");
}

vlt_result vlt_mask_starting_field(
        const vlt_mask *mask, uint8_t *buffer, size_t buffer_len, size_t *length, vlt_error *error) {
    vlt_slot unwanted = {0};
    vlt_slot *told = error ? &error->slot : &unwanted;
    if (are_same(&mask->slot, told))
        return vlt_is_wrong("error", VLT_SAME_SLOT);
    empty(told);
    if (!buffer && buffer_len)
        return vlt_is_wrong("buffer", VLT_RANGE);
    vlt_result result = (vlt_result)vlt_core_mask_starting_field(
            (vlt_slot *)&mask->slot, buffer ? buffer : (uint8_t *)no_items, buffer_len, length, told);
    empty(&unwanted);
    return with_argument(result, ARGUMENTS({"mask", &mask->slot, 1, VLT_OBJECT_MASK}), NULL, "mask");
}

vlt_result vlt_mask_matches_all(const vlt_mask *mask, bool *answer) {
    vlt_result result = answered(vlt_core_mask_matches_all((vlt_slot *)&mask->slot), answer);
    return with_argument(result, ARGUMENTS({"mask", &mask->slot, 1, VLT_OBJECT_MASK}), NULL, "mask");
}

vlt_result vlt_mask_matches_root(const vlt_mask *mask, bool *answer) {
    vlt_result result = answered(vlt_core_mask_matches_root((vlt_slot *)&mask->slot), answer);
    return with_argument(result, ARGUMENTS({"mask", &mask->slot, 1, VLT_OBJECT_MASK}), NULL, "mask");
}

vlt_result vlt_mask_eq(const vlt_mask *one, const vlt_mask *other, bool *answer) {
    vlt_slot copy = {0};
    const vlt_slot *apart = &other->slot;
    vlt_result result = copied_if_same(&one->slot, &apart, vlt_core_mask_copy, &copy);
    if (result == VLT_DONE)
        result = answered(vlt_core_mask_eq((vlt_slot *)&one->slot, (vlt_slot *)apart), answer);
    empty(&copy);
    return with_argument(
            result, ARGUMENTS({"one", &one->slot, 1, VLT_OBJECT_MASK}, {"other", &other->slot, 1, VLT_OBJECT_MASK}),
            NULL, "one");
}

vlt_result vlt_message_copy(const vlt_message *message, vlt_message *out) {
    if (are_same(&message->slot, &out->slot))
        return vlt_is_wrong("out", VLT_SAME_SLOT);
    vlt_result result = (vlt_result)vlt_core_message_copy((vlt_slot *)&message->slot, &out->slot);
    return with_argument(result, ARGUMENTS({"message", &message->slot, 1, VLT_OBJECT_MESSAGE}), NULL, "message");
}

vlt_result vlt_message_eq(const vlt_message *one, const vlt_message *other, bool *answer) {
    vlt_slot copy = {0};
    const vlt_slot *apart = &other->slot;
    vlt_result result = copied_if_same(&one->slot, &apart, vlt_core_message_copy, &copy);
    if (result == VLT_DONE)
        result = answered(vlt_core_message_eq((vlt_slot *)&one->slot, (vlt_slot *)apart), answer);
    empty(&copy);
    return with_argument(
            result,
            ARGUMENTS({"one", &one->slot, 1, VLT_OBJECT_MESSAGE}, {"other", &other->slot, 1, VLT_OBJECT_MESSAGE}), NULL,
            "one");
}

vlt_result vlt_message_to_dtype(const vlt_message *message, bool allow_unknown, vlt_dtype *out, vlt_error *error) {
    vlt_slot unwanted = {0};
    vlt_slot *told = error ? &error->slot : &unwanted;
    if (are_same(&message->slot, told) || are_same(&out->slot, told))
        return vlt_is_wrong("error", VLT_SAME_SLOT);
    empty(told);
    if (are_same(&message->slot, &out->slot))
        return vlt_is_wrong("out", VLT_SAME_SLOT);
    vlt_result result = (vlt_result)vlt_core_message_to_dtype(
            (vlt_slot *)&message->slot, allow_unknown, &out->slot, told);
    empty(&unwanted);
    return with_argument(result, ARGUMENTS({"message", &message->slot, 1, VLT_OBJECT_MESSAGE}), NULL, "message");
}

vlt_result vlt_message_normal(const vlt_message *message, bool allow_unknown, vlt_message *out, vlt_error *error) {
    vlt_slot unwanted = {0};
    vlt_slot *told = error ? &error->slot : &unwanted;
    if (are_same(&message->slot, told) || are_same(&out->slot, told))
        return vlt_is_wrong("error", VLT_SAME_SLOT);
    empty(told);
    if (are_same(&message->slot, &out->slot))
        return vlt_is_wrong("out", VLT_SAME_SLOT);
    vlt_result result = (vlt_result)vlt_core_message_normal(
            (vlt_slot *)&message->slot, allow_unknown, &out->slot, told);
    empty(&unwanted);
    return with_argument(result, ARGUMENTS({"message", &message->slot, 1, VLT_OBJECT_MESSAGE}), NULL, "message");
}

vlt_result vlt_message_from_nodes(
        const vlt_node *nodes, size_t nodes_len, const uint8_t *texts, size_t texts_len, vlt_message *out) {
    if (!nodes && nodes_len)
        return vlt_is_wrong("nodes", VLT_RANGE);
    if (!texts && texts_len)
        return vlt_is_wrong("texts", VLT_RANGE);
    vlt_result result = (vlt_result)vlt_core_message_from_nodes(
            nodes ? nodes : (const vlt_node *)no_items, nodes_len, texts ? texts : (const uint8_t *)no_items, texts_len,
            &out->slot);
    return with_argument(result, NULL, 0, "texts", "nodes");
}

vlt_result vlt_message_to_nodes(
        const vlt_message *message, vlt_node *nodes, size_t nodes_len, size_t *node_count, uint8_t *texts,
        size_t texts_len, size_t *text_length) {
    if (!nodes && nodes_len)
        return vlt_is_wrong("nodes", VLT_RANGE);
    if (!texts && texts_len)
        return vlt_is_wrong("texts", VLT_RANGE);
    vlt_result result = (vlt_result)vlt_core_message_to_nodes(
            (vlt_slot *)&message->slot, nodes ? nodes : (vlt_node *)no_items, nodes_len, node_count,
            texts ? texts : (uint8_t *)no_items, texts_len, text_length);
    return with_argument(result, ARGUMENTS({"message", &message->slot, 1, VLT_OBJECT_MESSAGE}), NULL, "message");
}

vlt_result vlt_error_text(uint32_t code, uint8_t *buffer, size_t buffer_len, size_t *length) {
    if (!buffer && buffer_len)
        return vlt_is_wrong("buffer", VLT_RANGE);
    vlt_result result = (vlt_result)vlt_core_error_text(
            code, buffer ? buffer : (uint8_t *)no_items, buffer_len, length);
    return with_argument(result, NULL, 0, NULL, "code");
}

vlt_result vlt_error_number(const vlt_error *error, uint32_t *number) {
    vlt_result result = (vlt_result)vlt_core_error_number((vlt_slot *)&error->slot, number);
    return with_argument(result, ARGUMENTS({"error", &error->slot, 1, VLT_OBJECT_ERROR}), NULL, "error");
}

vlt_result vlt_error_position(const vlt_error *error, size_t *position) {
    vlt_result result = (vlt_result)vlt_core_error_position((vlt_slot *)&error->slot, position);
    return with_argument(result, ARGUMENTS({"error", &error->slot, 1, VLT_OBJECT_ERROR}), NULL, "error");
}

vlt_result vlt_error_message(const vlt_error *error, uint8_t *buffer, size_t buffer_len, size_t *length) {
    if (!buffer && buffer_len)
        return vlt_is_wrong("buffer", VLT_RANGE);
    vlt_result result = (vlt_result)vlt_core_error_message(
            (vlt_slot *)&error->slot, buffer ? buffer : (uint8_t *)no_items, buffer_len, length);
    return with_argument(result, ARGUMENTS({"error", &error->slot, 1, VLT_OBJECT_ERROR}), NULL, "error");
}
/* end of what tools/bindings writes */

/* Drops the object in a slot, if there is one. */
static inline void empty(vlt_slot *slot) {
    if (slot->at)
        vlt_core_free(slot);
}

/* The name of the first argument that has a slot without an object of its kind. */
static const char *with_another_kind(const argument *slots, size_t count) {
    for (size_t at = 0; at < count; at++)
        for (size_t place = 0; place < slots[at].count; place++)
            if (vlt_core_kind((vlt_slot *)&slots[at].slots[place]) != slots[at].kind)
                return slots[at].name;
    return NULL;
}

/* The name of the argument by which a condition isn't met. (Only a call that takes two structs has two that may be.) */
static const char *without_condition(const argument *slots, size_t count) {
    uint32_t kind = VLT_DTYPE_NULL;
    if (count > 1 && vlt_core_dtype_kind((vlt_slot *)slots[0].slots, &kind) == VLT_DONE && kind == VLT_DTYPE_STRUCT)
        return slots[1].name;
    return count ? slots[0].name : NULL;
}
