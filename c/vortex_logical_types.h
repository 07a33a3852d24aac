// SPDX-License-Identifier: Apache-2.0
// SPDX-FileCopyrightText: Copyright the Vortex contributors

/* The logical types of columnar data, and paths into them: the C interface of a library that is proved.
 *
 * What is proved. Each function below checks its arguments and then calls a proved function, whose name begins with
 * vlt_core_. The contract of a proved function says what the function returns and what its slots contain afterwards. (The
 * contracts are in the folder crates/vortex_logical_types of the project's repository.) The checks are in
 * vortex_logical_types.c. They aren't proved, but tested.
 *
 * The contracts leave these things open, which are only tested: at which byte of a text an error is, what
 * vlt_error_message writes of an error of the library or of a text that can't be read, and how many paths
 * vlt_set_extend_from_list has added if memory runs out. A call that stores an object or writes bytes may always return
 * VLT_LIBRARY because memory runs out, and the order of the paths in a list is open.
 *
 * Slots. A slot is a place for one object, which it owns. There is a type of slots for each kind of object, for example
 * vlt_dtype for types and vlt_path for paths, so that a compiler refuses a path where a type is expected. Initialise a
 * slot with VLT_EMPTY, which makes it empty. When you no longer need its object, call the function of its kind that ends in
 * _free, for example vlt_dtype_free, which frees the object and leaves the slot empty. Never copy a slot by =, because
 * then two slots own one object. If the comment of a function says that it stores something in `out`, then the function
 * frees the object that `out` contained before and stores the result there if it returns VLT_DONE. If it returns any
 * other number, `out` is unchanged. A slot that is passed as a pointer to const keeps its object.
 *
 * One object may be passed twice to a call that only reads it: vlt_dtype_eq(&a, &a, &answer) writes true. Then the call
 * copies it for a moment, and so it may return VLT_LIBRARY. All other slots of one call must be different, and have
 * different objects, also those of an array. If two of them are the same slot or have the same object, the call returns
 * VLT_SAME_SLOT and changes nothing.
 *
 * Results. Each call returns a vlt_result, except those that free an object, vlt_kind and vlt_abi_version. The last
 * sentence of a comment lists all results of the function, and the sentences before it say when they are returned, except
 * for these, which have the same meaning everywhere:
 *
 *     VLT_DONE         The call has succeeded. If it is a test, it has written its answer to `answer`, a bool.
 *     VLT_NONE         There is no result, for example because a struct has no field of a name.
 *     VLT_KIND         A slot is empty, or has an object of another kind than the function takes.
 *     VLT_SMALL        A buffer is too small.
 *     VLT_SAME_SLOT    Two slots are the same slot, or have the same object, and one of them isn't only read.
 *     VLT_RANGE        A pointer is null and its length isn't 0.
 *     VLT_LIBRARY      Memory ran out.
 *     VLT_ERROR_..     The library returned this error.
 *
 * vlt_error_text writes what a number means, and vlt_wrong_argument returns which argument was wrong.
 *
 * Errors with their data. A function whose last parameter is `error` first empties this slot, and then stores an error in it
 * if it returns VLT_UNREADABLE, VLT_ARROW, a VLT_ERROR_.., or VLT_DEEP for a text or for a schema of Arrow. The error tells
 * more than the result, for example the position in a text at which reading failed. So after a call the slot is empty, or
 * contains why this call failed. (If the call returns VLT_SAME_SLOT because `error` is another of its slots, nothing is
 * changed.) The pointer may be null if the error isn't wanted. If no memory is left for the error, the function returns
 * VLT_LIBRARY.
 *
 * Texts and bytes that are passed in. A call takes a pointer and a length, and copies the bytes. They may contain zero
 * bytes. The pointer may be null if the length is 0. Several names are passed as two arrays: `names` contains the bytes
 * of all names, one name directly after the other, and `name_lengths` contains the length of each name. For example,
 * the names "id" and "city" are the bytes "idcity" with the lengths 2 and 4. Among the steps of a path, the length
 * VLT_ELEMENT means the step to the element of a list. This step has no bytes in `names`.
 *
 * Texts and bytes that are returned. The call writes them to `buffer`, which has room for `buffer_len` bytes. If it
 * returns VLT_DONE, it has written `*length` bytes, and no zero byte after them. If the buffer is too small, it returns
 * VLT_SMALL, writes nothing to the buffer, and sets `*length` to the size that is needed. So you can find the size with
 * a buffer that is null and a `buffer_len` of 0:
 *
 *     size_t length = 0;
 *     uint8_t *text = NULL;
 *     vlt_result result = vlt_dtype_to_text(&dtype, NULL, 0, &length);
 *     if (result == VLT_SMALL && (text = malloc(length)) != NULL)
 *         result = vlt_dtype_to_text(&dtype, text, length, &length);
 *
 * Several names are written to two buffers, in the form in which they are passed in: the bytes of all names, and the
 * length of each. If a step of a path is returned and `*length` is VLT_ELEMENT, then the step is the one to the element,
 * and no bytes were written.
 *
 * Messages. The library doesn't read the bytes of protobuf. A program that decodes them by itself writes what it
 * decoded as an array of vlt_node and as the bytes of all texts, one text directly after the other, and passes both to
 * vlt_message_from_nodes. In the other direction, vlt_message_to_nodes has one buffer for the nodes and one for the
 * bytes. If one of the two is too small, it returns VLT_SMALL and sets `*node_count` and `*text_length` to the sizes
 * that are needed.
 *
 * What the caller must ensure, because no call can test it:
 *
 * - A pointer is valid for its length.
 * - A pointer to a slot, or to a place where a call writes a number or an answer, isn't null. No other argument of the call overlaps
 *   such a place or a buffer. Only an `error` that isn't wanted, and the argument of a function that ends in _free, may be
 *   null.
 * - A slot is empty, or it was filled by the library.
 * - No two calls are made at the same time, on whatever threads and with whatever objects, because types share their
 *   parts, and the owners of a part are counted without a lock. For example, a program with several threads holds one
 *   mutex during each call. Objects may move between threads. That a slot is const promises no more: two calls that only
 *   read one object may not be made at the same time either. */
#ifndef VORTEX_LOGICAL_TYPES_H
#define VORTEX_LOGICAL_TYPES_H

#include <stdbool.h>
#include <stddef.h>
#include <stdint.h>

#ifdef __cplusplus
extern "C" {
#endif

/* Before a function whose result says whether the call has done anything, so that a compiler warns if it isn't used. */
#if defined(__GNUC__)
#define VLT_MUST_USE __attribute__((warn_unused_result))
#else
#define VLT_MUST_USE
#endif

/* A place for one object of any kind, or for none. The slots below for objects of one kind each contain such a place. */
typedef struct {
    void *at;
} vlt_slot;

/* What initialises a slot for objects of one kind, which is then empty: vlt_dtype orders = VLT_EMPTY; */
#define VLT_EMPTY {{0}}

/* The length of a step of a path that isn't a name, but the step to the element of a list. */
#define VLT_ELEMENT ((size_t)-1)

/* begin of what tools/bindings writes */
/* The version of the interface that this header declares. vlt_abi_version returns that of the library. */
#define VLT_ABI_VERSION 3u

/* What a call returns. From 101 on it is 100 and the number of the library's error. */
typedef enum {
    /* The call has succeeded. */
    VLT_DONE = 0,
    /* There is no result. */
    VLT_NONE = 1,
    /* A slot is empty or contains an object of another kind than the call takes. */
    VLT_KIND = 2,
    /* A text isn't UTF-8. */
    VLT_UTF8 = 3,
    /* A text can't be read. */
    VLT_UNREADABLE = 4,
    /* The call has a precondition, and the arguments don't meet it. */
    VLT_CONDITION = 5,
    /* A type or a message would be nested more than 128 levels deep. */
    VLT_DEEP = 6,
    /* A buffer is too small. */
    VLT_SMALL = 7,
    /* Two slots of one call are the same slot, or have the same object. No proved function returns this number, but the
     * code that calls these functions does, for example the layer of C. */
    VLT_SAME_SLOT = 8,
    /* An argument is out of its range. */
    VLT_RANGE = 9,
    /* A schema of Arrow has no type of this library, or a type no schema. */
    VLT_ARROW = 10,
    /* An allocation failed. This is also the number to which the number of an error of the library is added. */
    VLT_LIBRARY = 100,
    /* The precision of a decimal is 0. */
    VLT_ERROR_PRECISION_ZERO = 101,
    /* The precision of a decimal is above `max`, the greatest precision that is allowed. */
    VLT_ERROR_PRECISION_TOO_LARGE = 102,
    /* The scale of a decimal is above `max`, the greatest scale that is allowed. */
    VLT_ERROR_SCALE_TOO_LARGE = 103,
    /* The scale of a decimal is above its precision. */
    VLT_ERROR_SCALE_ABOVE_PRECISION = 104,
    /* The type isn't a decimal type. */
    VLT_ERROR_NOT_DECIMAL = 105,
    /* The type isn't a primitive type. */
    VLT_ERROR_NOT_PRIMITIVE = 106,
    /* The primitive type isn't a storage type of decimals, because it isn't `i8`, `i16`, `i32` or `i64`. */
    VLT_ERROR_NOT_DECIMAL_PTYPE = 107,
    /* The number of bytes isn't the width in bytes of the integer that is read from them. */
    VLT_ERROR_BYTES_LENGTH = 108,
    /* The key type of a map is nullable. */
    VLT_ERROR_MAP_KEY_NULLABLE = 109,
    /* A union has more or fewer types than names. */
    VLT_ERROR_UNION_TYPES_LENGTH = 110,
    /* A union has more or fewer tags than names. */
    VLT_ERROR_UNION_TAGS_LENGTH = 111,
    /* A union has no variants. */
    VLT_ERROR_UNION_EMPTY = 112,
    /* Two variants of a union have the same tag. */
    VLT_ERROR_UNION_TAGS_REPEAT = 113,
    /* A union has more than 256 variants. */
    VLT_ERROR_UNION_TOO_MANY = 114,
    /* Two variants of a union have the same name. */
    VLT_ERROR_UNION_NAMES_REPEAT = 115,
    /* A selected name isn't the name of a field. `position` is its place in the selection, counted from 0. */
    VLT_ERROR_FIELD_NOT_FOUND = 116,
    /* The index of a field isn't below the number of fields. */
    VLT_ERROR_INDEX_OUT_OF_BOUNDS = 117,
    /* Two structs can't be merged, because a name occurs in both of them, or twice in one of them. */
    VLT_ERROR_DUPLICATE_NAMES = 118,
    /* The width of a value in bytes is above `SIZE_MAX`. */
    VLT_ERROR_WIDTH_OVERFLOW = 119,
    /* A field mask that selects only the root can't be stepped into. */
    VLT_ERROR_EXACT_ROOT = 120,
    /* The field mask that selects all paths has no starting field. */
    VLT_ERROR_ALL_MASK = 121,
    /* The plugin or vtable of an extension type doesn't accept the metadata or the storage type, or the vtable can't
     * write the metadata. */
    VLT_ERROR_METADATA_REFUSED = 122,
    /* An extension type can't be downcast with a vtable whose id isn't the id of the extension type. */
    VLT_ERROR_EXTENSION_ID_DIFFERS = 123,
    /* The message of a type has no kind. */
    VLT_ERROR_MESSAGE_TYPE_MISSING = 124,
    /* The number of a primitive type isn't from 0 to 10. */
    VLT_ERROR_MESSAGE_PRIMITIVE_NUMBER = 125,
    /* The precision of a decimal is above 255. */
    VLT_ERROR_MESSAGE_PRECISION_RANGE = 126,
    /* The scale of a decimal isn't from -128 to 127. */
    VLT_ERROR_MESSAGE_SCALE_RANGE = 127,
    /* A list has no element type. */
    VLT_ERROR_MESSAGE_LIST_ELEMENT_MISSING = 128,
    /* A fixed-size list has no element type. */
    VLT_ERROR_MESSAGE_FIXED_ELEMENT_MISSING = 129,
    /* A map has no key type. */
    VLT_ERROR_MESSAGE_MAP_KEY_MISSING = 130,
    /* A map has no value type. */
    VLT_ERROR_MESSAGE_MAP_VALUE_MISSING = 131,
    /* A struct has more or fewer types than names. */
    VLT_ERROR_MESSAGE_STRUCT_LENGTHS = 132,
    /* A tag of a union isn't from 0 to 255. */
    VLT_ERROR_MESSAGE_TYPE_ID_RANGE = 133,
    /* An extension has no storage type. */
    VLT_ERROR_MESSAGE_STORAGE_MISSING = 134,
    /* No plugin is registered under the id of an extension, and the session doesn't keep unknown ids. */
    VLT_ERROR_MESSAGE_EXTENSION_UNREGISTERED = 135,
    /* A part of a path has no kind. */
    VLT_ERROR_MESSAGE_PATH_PART_MISSING = 136,
} vlt_result;

/* The kinds of types, which vlt_dtype_kind writes. */
typedef enum {
    VLT_DTYPE_NULL = 1,
    VLT_DTYPE_BOOL = 2,
    VLT_DTYPE_PRIMITIVE = 3,
    VLT_DTYPE_DECIMAL = 4,
    VLT_DTYPE_UTF8 = 5,
    VLT_DTYPE_BINARY = 6,
    VLT_DTYPE_LIST = 7,
    VLT_DTYPE_FIXED_SIZE_LIST = 8,
    VLT_DTYPE_MAP = 9,
    VLT_DTYPE_STRUCT = 10,
    VLT_DTYPE_UNION = 11,
    VLT_DTYPE_VARIANT = 12,
    VLT_DTYPE_EXTENSION = 13,
} vlt_dtype_kinds;

/* The primitive types. */
typedef enum {
    VLT_PTYPE_U8 = 0,
    VLT_PTYPE_U16 = 1,
    VLT_PTYPE_U32 = 2,
    VLT_PTYPE_U64 = 3,
    VLT_PTYPE_I8 = 4,
    VLT_PTYPE_I16 = 5,
    VLT_PTYPE_I32 = 6,
    VLT_PTYPE_I64 = 7,
    VLT_PTYPE_F16 = 8,
    VLT_PTYPE_F32 = 9,
    VLT_PTYPE_F64 = 10,
} vlt_ptype;

/* The kinds of masks, which vlt_mask_kind writes. */
typedef enum {
    VLT_MASK_ALL = 0,
    VLT_MASK_PREFIX = 1,
    VLT_MASK_EXACT = 2,
} vlt_mask_kinds;

/* The kinds of objects, which vlt_kind returns. */
typedef enum {
    /* The slot is empty. */
    VLT_OBJECT_NONE = 0,
    VLT_OBJECT_DTYPE = 1,
    VLT_OBJECT_PATH = 2,
    VLT_OBJECT_PATH_SET = 3,
    VLT_OBJECT_PATH_LIST = 4,
    VLT_OBJECT_MASK = 5,
    VLT_OBJECT_MESSAGE = 6,
    VLT_OBJECT_FIELDS = 7,
    VLT_OBJECT_ERROR = 8,
} vlt_object_kind;

/* A slot for a type. */
typedef struct {
    vlt_slot slot;
} vlt_dtype;

/* A slot for a path. */
typedef struct {
    vlt_slot slot;
} vlt_path;

/* A slot for a set of paths. */
typedef struct {
    vlt_slot slot;
} vlt_path_set;

/* A slot for a list of paths. */
typedef struct {
    vlt_slot slot;
} vlt_path_list;

/* A slot for a mask. */
typedef struct {
    vlt_slot slot;
} vlt_mask;

/* A slot for the message of a type. */
typedef struct {
    vlt_slot slot;
} vlt_message;

/* A slot for names with types. */
typedef struct {
    vlt_slot slot;
} vlt_fields;

/* A slot for an error. */
typedef struct {
    vlt_slot slot;
} vlt_error;

/* One item of the flat form of a message: a message, a text or a tag. The node of a message is followed by the nodes
 * of its texts, then by the nodes of its tags, and then by its parts, each of which is a message with the nodes that
 * follow it. A field that the kind of a node doesn't use is 0. */
typedef struct {
    /* What the node is: 0 for a message without a kind; 1 null, 2 bool, 3 primitive, 4 decimal, 5 utf8, 6 binary, 7
     * list, 8 fixed-size list, 9 map, 10 struct, 11 union, 12 variant and 13 extension for a message of this kind; 14
     * for a text; 15 for a tag. */
    uint32_t kind;
    /* 1 if the message has the flag `nullable` and the flag is set, and otherwise 0. The messages of null and of an
     * extension don't have this flag. */
    uint8_t nullable;
    /* 1 if the keys of a map are declared to be sorted, and otherwise 0. */
    uint8_t keys_sorted;
    /* 1 if the element type of a list or of a fixed-size list, the key type of a map or the storage type of an extension
     * follows, and otherwise 0. */
    uint8_t has_first;
    /* 1 if the value type of a map or the text of the metadata of an extension follows, and otherwise 0. */
    uint8_t has_second;
    /* The number of names that follow a struct or a union. */
    uint32_t names;
    /* The number of tags that follow a union. */
    uint32_t tags;
    /* The number of types that follow a struct or a union. */
    uint32_t types;
    /* The precision of a decimal, the size of a fixed-size list, or the number of bytes of a text. */
    uint32_t number;
    /* The number of a primitive type, the scale of a decimal, or a tag. */
    int32_t value;
} vlt_node;


/* == All objects == */

/* Drops the object in the slot, if there is one, and leaves the slot empty. The pointer may be null. */
void vlt_dtype_free(vlt_dtype *dtype);

/* Drops the object in the slot, if there is one, and leaves the slot empty. The pointer may be null. */
void vlt_path_free(vlt_path *path);

/* Drops the object in the slot, if there is one, and leaves the slot empty. The pointer may be null. */
void vlt_path_set_free(vlt_path_set *path_set);

/* Drops the object in the slot, if there is one, and leaves the slot empty. The pointer may be null. */
void vlt_path_list_free(vlt_path_list *path_list);

/* Drops the object in the slot, if there is one, and leaves the slot empty. The pointer may be null. */
void vlt_mask_free(vlt_mask *mask);

/* Drops the object in the slot, if there is one, and leaves the slot empty. The pointer may be null. */
void vlt_message_free(vlt_message *message);

/* Drops the object in the slot, if there is one, and leaves the slot empty. The pointer may be null. */
void vlt_fields_free(vlt_fields *fields);

/* Drops the object in the slot, if there is one, and leaves the slot empty. The pointer may be null. */
void vlt_error_free(vlt_error *error);

/* Returns the version of this interface, which is 3. */
uint32_t vlt_abi_version(void);

/* Drops the object in the slot, if there is one, and leaves the slot empty. */
void vlt_free(vlt_slot *slot);

/* Returns the kind of the object in the slot: 0 if the slot is empty, 1 for a type, 2 for a path, 3 for a set of
 * paths, 4 for a list of paths, 5 for a mask, 6 for the message of a type, 7 for fields, and 8 for an error. */
uint32_t vlt_kind(const vlt_slot *slot);


/* == Types == */

/* Stores in `out` the null type, which is always nullable.
 *
 * Results: VLT_DONE or VLT_LIBRARY. */
VLT_MUST_USE vlt_result vlt_dtype_null(vlt_dtype *out);

/* Stores in `out` the type of booleans. The type is nullable if `nullable` is true.
 *
 * Results: VLT_DONE or VLT_LIBRARY. */
VLT_MUST_USE vlt_result vlt_dtype_bool(bool nullable, vlt_dtype *out);

/* Stores in `out` the type of UTF-8 strings. The type is nullable if `nullable` is true.
 *
 * Results: VLT_DONE or VLT_LIBRARY. */
VLT_MUST_USE vlt_result vlt_dtype_utf8(bool nullable, vlt_dtype *out);

/* Stores in `out` the type of byte strings. The type is nullable if `nullable` is true.
 *
 * Results: VLT_DONE or VLT_LIBRARY. */
VLT_MUST_USE vlt_result vlt_dtype_binary(bool nullable, vlt_dtype *out);

/* Stores in `out` the variant type. Each of its values carries its own type. The type is nullable if `nullable` is
 * true.
 *
 * Results: VLT_DONE or VLT_LIBRARY. */
VLT_MUST_USE vlt_result vlt_dtype_variant(bool nullable, vlt_dtype *out);

/* Stores in `out` a primitive type. The number is 0 for u8, 1 for u16, 2 for u32, 3 for u64, 4 for i8, 5 for i16, 6
 * for i32, 7 for i64, 8 for f16, 9 for f32 and 10 for f64. Returns VLT_RANGE if the number is above 10. The type is
 * nullable if `nullable` is true.
 *
 * Results: VLT_DONE, VLT_RANGE or VLT_LIBRARY. */
VLT_MUST_USE vlt_result vlt_dtype_primitive(uint32_t number, bool nullable, vlt_dtype *out);

/* Stores in `out` the decimal type of this precision and this scale. The type is nullable if `nullable` is true.
 *
 * Returns VLT_ERROR_PRECISION_ZERO if the precision is 0, VLT_ERROR_PRECISION_TOO_LARGE if the precision is above 76,
 * VLT_ERROR_SCALE_TOO_LARGE if the scale is above 76, and VLT_ERROR_SCALE_ABOVE_PRECISION if the scale is above the
 * precision. If several of these are so, it returns the first of these numbers. The error with its numbers is in
 * `error` then.
 *
 * Results: VLT_DONE, VLT_SAME_SLOT, VLT_LIBRARY, VLT_ERROR_PRECISION_ZERO, VLT_ERROR_PRECISION_TOO_LARGE,
 * VLT_ERROR_SCALE_TOO_LARGE or VLT_ERROR_SCALE_ABOVE_PRECISION. */
VLT_MUST_USE vlt_result vlt_dtype_decimal(
        uint8_t precision, int8_t scale, bool nullable, vlt_dtype *out, vlt_error *error);

/* Stores in `out` the list type with the element type in `element`. Its values are lists of any length. The list type
 * is nullable if `nullable` is true. Returns VLT_DEEP if the element type has 128 levels.
 *
 * Results: VLT_DONE, VLT_KIND, VLT_DEEP, VLT_SAME_SLOT or VLT_LIBRARY. */
VLT_MUST_USE vlt_result vlt_dtype_list(const vlt_dtype *element, bool nullable, vlt_dtype *out);

/* Stores in `out` the fixed-size list type with the element type in `element`. Its values are lists of exactly `size`
 * elements. The list type is nullable if `nullable` is true. Returns VLT_DEEP if the element type has 128 levels.
 *
 * Results: VLT_DONE, VLT_KIND, VLT_DEEP, VLT_SAME_SLOT or VLT_LIBRARY. */
VLT_MUST_USE vlt_result vlt_dtype_fixed_size_list(
        const vlt_dtype *element, uint32_t size, bool nullable, vlt_dtype *out);

/* Stores in `out` the struct type of these fields, in order. The struct type is nullable if `nullable` is true.
 * Returns VLT_DEEP if the type of a field has 128 levels.
 *
 * Results: VLT_DONE, VLT_KIND, VLT_DEEP, VLT_SAME_SLOT or VLT_LIBRARY. */
VLT_MUST_USE vlt_result vlt_dtype_struct(const vlt_fields *fields, bool nullable, vlt_dtype *out);

/* Stores in `out` the union type whose variants are these fields, in order, with these tags. The union type is
 * nullable if `nullable` is true.
 *
 * Returns VLT_DEEP if the type of a field has 128 levels. Otherwise it returns the first of these numbers that
 * applies, with the error in `error`: VLT_ERROR_UNION_TAGS_LENGTH if there are more or fewer tags than fields,
 * VLT_ERROR_UNION_EMPTY if there are no fields, VLT_ERROR_UNION_TAGS_REPEAT if a tag occurs twice, and
 * VLT_ERROR_UNION_NAMES_REPEAT if a name occurs twice.
 *
 * Results: VLT_DONE, VLT_KIND, VLT_DEEP, VLT_SAME_SLOT, VLT_RANGE, VLT_LIBRARY, VLT_ERROR_UNION_TAGS_LENGTH,
 * VLT_ERROR_UNION_EMPTY, VLT_ERROR_UNION_TAGS_REPEAT or VLT_ERROR_UNION_NAMES_REPEAT. */
VLT_MUST_USE vlt_result vlt_dtype_union(
        const vlt_fields *fields, const uint8_t *tags, size_t tags_len, bool nullable, vlt_dtype *out,
        vlt_error *error);

/* Stores in `out` the union type whose variants are these fields, in order, with the tags 0, 1, 2 and so on. The union
 * type is nullable if `nullable` is true.
 *
 * Returns VLT_DEEP if the type of a field has 128 levels. Otherwise it returns the first of these numbers that
 * applies, with the error in `error`: VLT_ERROR_UNION_TOO_MANY if there are more than 256 fields,
 * VLT_ERROR_UNION_EMPTY if there are no fields, and VLT_ERROR_UNION_NAMES_REPEAT if a name occurs twice.
 *
 * Results: VLT_DONE, VLT_KIND, VLT_DEEP, VLT_SAME_SLOT, VLT_LIBRARY, VLT_ERROR_UNION_EMPTY, VLT_ERROR_UNION_TOO_MANY
 * or VLT_ERROR_UNION_NAMES_REPEAT. */
VLT_MUST_USE vlt_result vlt_dtype_union_consecutive(
        const vlt_fields *fields, bool nullable, vlt_dtype *out, vlt_error *error);

/* Stores in `out` the least type as which values of both types can be read:
 *
 * - A struct has the fields of the first type in their order, and then those that only the second has. A field that
 *   both have is merged by these rules. A field that only one of the two has is nullable.
 * - `null` can be merged with every type, which is made nullable.
 * - Lists, fixed-size lists of the same size, maps, and extensions with the same id and the same metadata are merged
 *   by their parts. Maps whose merged key type would be nullable can't be merged. The merged map declares sorted keys
 *   only if both maps do, and if their key types are equal except for nullabilities.
 * - A union has the variants of the first type in their order, and then those that only the second has. A variant that
 *   both have, with the same tag and the same name, is merged by these rules. A variant that only one of the two has
 *   stays as it is. Unions in which a tag has two names, or a name has two tags, can't be merged.
 * - Structs in which a name repeats are merged field by field, if both have the same names in the same order, because
 *   their columns can't be told apart by name.
 * - All other types are merged as `vlt_dtype_merge_nullability` merges them.
 * - A type that isn't an extension is nullable if one of the two is, at every depth.
 *
 * For example, it is `{a=i32, b=utf8?}` for `{a=i32}` and `{b=utf8, a=i32}`. Returns VLT_NONE if there is no such
 * type.
 *
 * Results: VLT_DONE, VLT_NONE, VLT_KIND, VLT_SAME_SLOT or VLT_LIBRARY. */
VLT_MUST_USE vlt_result vlt_dtype_merge_columns(const vlt_dtype *one, const vlt_dtype *other, vlt_dtype *out);

/* Stores in `path` the path to the first place at which two types can't be merged by `vlt_dtype_merge_columns`, in
 * `left` the type at this place in the first type, and in `right` the type at this place in the second. The first
 * place is the first one in the order of the fields of the first type. A path leads only into structs, lists and
 * fixed-size lists, so if the keys or values of two maps can't be merged, it is the path to the maps. The same is true
 * of unions, extensions, and structs in which a name repeats. For example, the call stores `customer.id`, `u64` and
 * `utf8` for `{customer={id=u64}}` and `{customer={id=utf8}}`. Returns VLT_NONE if the types can be merged.
 *
 * Results: VLT_DONE, VLT_NONE, VLT_KIND, VLT_SAME_SLOT or VLT_LIBRARY. */
VLT_MUST_USE vlt_result vlt_dtype_merge_conflict(
        const vlt_dtype *one, const vlt_dtype *other, vlt_path *path, vlt_dtype *left, vlt_dtype *right);

/* Stores in `out` the message that describes the type. `vlt_message_to_dtype` makes the same type of it. If the type
 * has an extension in it, `allow_unknown` must be true for that.
 *
 * Results: VLT_DONE, VLT_KIND, VLT_SAME_SLOT or VLT_LIBRARY. */
VLT_MUST_USE vlt_result vlt_dtype_to_message(const vlt_dtype *dtype, vlt_message *out);

/* Stores in `out` the type with the outer nullability that `nullable` states: nullable if it is true, and non-nullable
 * if it is false. The types inside it keep their nullabilities. For example, `list(i32)` becomes `list(i32)?` if
 * `nullable` is true. For an extension, the outer nullability is that of its storage type. Returns VLT_CONDITION if
 * `nullable` is false and the type can't be made non-nullable, which `vlt_dtype_can_be_nonnullable` tests.
 *
 * Results: VLT_DONE, VLT_KIND, VLT_CONDITION, VLT_SAME_SLOT or VLT_LIBRARY. */
VLT_MUST_USE vlt_result vlt_dtype_with_nullability(const vlt_dtype *dtype, bool nullable, vlt_dtype *out);

/* Stores in `out` the type, which is nullable if it was nullable or if `nullable` is true. The types inside it keep
 * their nullabilities. For example, `i32?` stays `i32?` if `nullable` is false.
 *
 * Results: VLT_DONE, VLT_KIND, VLT_SAME_SLOT or VLT_LIBRARY. */
VLT_MUST_USE vlt_result vlt_dtype_union_nullability(const vlt_dtype *dtype, bool nullable, vlt_dtype *out);

/* Writes a hash of the type to `hash`. Equal types have the same hash. The hash of a type may differ between versions
 * of the library.
 *
 * Results: VLT_DONE or VLT_KIND. */
VLT_MUST_USE vlt_result vlt_dtype_hash(const vlt_dtype *dtype, uint64_t *hash);

/* Writes a hash of the type to `hash` that is the same for types that are equal except for nullability, at every
 * depth. For example, `list(i32?)` and `list(i32)?` have the same hash. The hash of a type may differ between
 * versions of the library.
 *
 * Results: VLT_DONE or VLT_KIND. */
VLT_MUST_USE vlt_result vlt_dtype_hash_ignore_nullability(const vlt_dtype *dtype, uint64_t *hash);

/* Stores in `out` the element type of a list or of a fixed-size list. Returns VLT_NONE if the type is of another kind.
 *
 * Results: VLT_DONE, VLT_NONE, VLT_KIND, VLT_SAME_SLOT or VLT_LIBRARY. */
VLT_MUST_USE vlt_result vlt_dtype_element(const vlt_dtype *dtype, vlt_dtype *out);

/* Stores in `out` the key type of a map. Returns VLT_NONE if the type isn't a map.
 *
 * Results: VLT_DONE, VLT_NONE, VLT_KIND, VLT_SAME_SLOT or VLT_LIBRARY. */
VLT_MUST_USE vlt_result vlt_dtype_key(const vlt_dtype *dtype, vlt_dtype *out);

/* Stores in `out` the value type of a map. Returns VLT_NONE if the type isn't a map.
 *
 * Results: VLT_DONE, VLT_NONE, VLT_KIND, VLT_SAME_SLOT or VLT_LIBRARY. */
VLT_MUST_USE vlt_result vlt_dtype_value(const vlt_dtype *dtype, vlt_dtype *out);

/* Stores in `out` the storage type of an extension. Returns VLT_NONE if the type isn't an extension.
 *
 * Results: VLT_DONE, VLT_NONE, VLT_KIND, VLT_SAME_SLOT or VLT_LIBRARY. */
VLT_MUST_USE vlt_result vlt_dtype_storage(const vlt_dtype *dtype, vlt_dtype *out);

/* Writes the number of a primitive type to `number`: 0 u8, 1 u16, 2 u32, 3 u64, 4 i8, 5 i16, 6 i32, 7 i64, 8 f16, 9
 * f32, 10 f64. Returns VLT_NONE if the type isn't primitive.
 *
 * Results: VLT_DONE, VLT_NONE or VLT_KIND. */
VLT_MUST_USE vlt_result vlt_dtype_ptype(const vlt_dtype *dtype, uint32_t *number);

/* Writes the id of an extension to `buffer`. Returns VLT_NONE if the type isn't an extension.
 *
 * Results: VLT_DONE, VLT_NONE, VLT_KIND, VLT_SMALL or VLT_RANGE. */
VLT_MUST_USE vlt_result vlt_dtype_id(const vlt_dtype *dtype, uint8_t *buffer, size_t buffer_len, size_t *length);

/* Writes the metadata of an extension to `buffer`. Returns VLT_NONE if the type isn't an extension.
 *
 * Results: VLT_DONE, VLT_NONE, VLT_KIND, VLT_SMALL or VLT_RANGE. */
VLT_MUST_USE vlt_result vlt_dtype_metadata(const vlt_dtype *dtype, uint8_t *buffer, size_t buffer_len, size_t *length);

/* Writes the size of a fixed-size list to `size`. Returns VLT_NONE if the type isn't a fixed-size list.
 *
 * Results: VLT_DONE, VLT_NONE or VLT_KIND. */
VLT_MUST_USE vlt_result vlt_dtype_fixed_size(const vlt_dtype *dtype, uint32_t *size);

/* Writes the precision and the scale of a decimal to `precision` and `scale`. The precision is from 1 to 76. The scale
 * isn't above the precision, and it may be negative. Returns VLT_NONE if the type isn't a decimal.
 *
 * Results: VLT_DONE, VLT_NONE or VLT_KIND. */
VLT_MUST_USE vlt_result vlt_dtype_decimal_parts(const vlt_dtype *dtype, uint8_t *precision, int8_t *scale);

/* Writes to `answer` whether the keys of the map are declared to be sorted. Returns VLT_CONDITION if the type isn't a
 * map.
 *
 * Results: VLT_DONE, VLT_KIND or VLT_CONDITION. */
VLT_MUST_USE vlt_result vlt_dtype_keys_sorted(const vlt_dtype *dtype, bool *answer);

/* Reads a type from its text, for example `{a=i32, b=list(utf8)?}`, and stores it in `out`. The text is written in the
 * form of `vlt_dtype_to_text`, and may contain blanks, ends of lines and comments.
 *
 * Returns VLT_UTF8 if the text isn't UTF-8. The other failures store an error in `error`:
 *
 * - VLT_UNREADABLE if the text isn't spelled like a type. `vlt_error_position` returns at which byte, counted from 1,
 *   something else was expected, and `vlt_error_message` what.
 * - VLT_DEEP if types are nested more than 128 levels deep in the text, with the position of the first that is too
 *   deep.
 * - the number of the library's error if the text spells a type that can't be made: for a decimal
 *   VLT_ERROR_PRECISION_ZERO to VLT_ERROR_SCALE_ABOVE_PRECISION, as `vlt_dtype_decimal` returns them; for a map
 *   VLT_ERROR_MAP_KEY_NULLABLE if its key type is nullable; and for a union VLT_ERROR_UNION_EMPTY if it has no
 *   variants, VLT_ERROR_UNION_TAGS_REPEAT if a tag occurs twice, VLT_ERROR_UNION_TOO_MANY if it has more than 256
 *   variants without tags, and VLT_ERROR_UNION_NAMES_REPEAT if a name occurs twice. For example, it is
 *   VLT_ERROR_PRECISION_ZERO for `{a=decimal(0,0)}`.
 *
 * Results: VLT_DONE, VLT_UTF8, VLT_UNREADABLE, VLT_DEEP, VLT_SAME_SLOT, VLT_RANGE, VLT_LIBRARY,
 * VLT_ERROR_PRECISION_ZERO, VLT_ERROR_PRECISION_TOO_LARGE, VLT_ERROR_SCALE_TOO_LARGE,
 * VLT_ERROR_SCALE_ABOVE_PRECISION, VLT_ERROR_MAP_KEY_NULLABLE, VLT_ERROR_UNION_EMPTY, VLT_ERROR_UNION_TAGS_REPEAT,
 * VLT_ERROR_UNION_TOO_MANY or VLT_ERROR_UNION_NAMES_REPEAT. */
VLT_MUST_USE vlt_result vlt_dtype_from_text(const uint8_t *text, size_t text_len, vlt_dtype *out, vlt_error *error);

/* Writes the type to `buffer` in the form from which `vlt_dtype_from_text` reads the same type back. Nothing is
 * abbreviated. Names and ids stand in double quotes unless they consist of ASCII letters and digits, `_` and visible
 * characters beyond ASCII; and the metadata of extensions is in hexadecimal digits, for example
 * `vortex.date[0x00](i32?)`.
 *
 * Results: VLT_DONE, VLT_KIND, VLT_SMALL, VLT_RANGE or VLT_LIBRARY. */
VLT_MUST_USE vlt_result vlt_dtype_to_text(const vlt_dtype *dtype, uint8_t *buffer, size_t buffer_len, size_t *length);

/* Writes the type to `buffer` as the library displays it, for example `{a=i32, b=list(utf8)?}`. `vlt_dtype_from_text`
 * may not read it back. For example, a name that contains a comma is written without quotes.
 *
 * Results: VLT_DONE, VLT_KIND, VLT_SMALL, VLT_RANGE or VLT_LIBRARY. */
VLT_MUST_USE vlt_result vlt_dtype_display(const vlt_dtype *dtype, uint8_t *buffer, size_t buffer_len, size_t *length);

/* Stores in `out` a copy of the type.
 *
 * Results: VLT_DONE, VLT_KIND, VLT_SAME_SLOT or VLT_LIBRARY. */
VLT_MUST_USE vlt_result vlt_dtype_copy(const vlt_dtype *dtype, vlt_dtype *out);

/* Writes to `answer` whether the two types are equal.
 *
 * Results: VLT_DONE, VLT_KIND or VLT_LIBRARY. */
VLT_MUST_USE vlt_result vlt_dtype_eq(const vlt_dtype *one, const vlt_dtype *other, bool *answer);

/* Writes to `answer` whether the two types are equal when every nullability in them is ignored. For example, it is
 * true for `list(i32?)` and `list(i32)?`.
 *
 * Results: VLT_DONE, VLT_KIND or VLT_LIBRARY. */
VLT_MUST_USE vlt_result vlt_dtype_eq_ignore_nullability(const vlt_dtype *one, const vlt_dtype *other, bool *answer);

/* Writes to `answer` whether the first type is a subset of the other. It is a subset if the two are equal except for
 * nullabilities, and the other is nullable in each place in which the first is. For example, `i32` is a subset of
 * `i32?`.
 *
 * Results: VLT_DONE, VLT_KIND or VLT_LIBRARY. */
VLT_MUST_USE vlt_result vlt_dtype_nullability_subset(const vlt_dtype *one, const vlt_dtype *other, bool *answer);

/* Writes to `answer` whether the other type is a subset of the first. It is a subset if the two are equal except for
 * nullabilities, and the first is nullable in each place in which the other is. For example, `i32` is a subset of
 * `i32?`.
 *
 * Results: VLT_DONE, VLT_KIND or VLT_LIBRARY. */
VLT_MUST_USE vlt_result vlt_dtype_nullability_superset(const vlt_dtype *one, const vlt_dtype *other, bool *answer);

/* Stores in `out` the least type of which both types are subsets. It is nullable in each place in which one of the two
 * is. For example, it is `i32?` for `i32` and `i32?`. Returns VLT_NONE if the types differ in more than nullabilities.
 *
 * Results: VLT_DONE, VLT_NONE, VLT_KIND, VLT_SAME_SLOT or VLT_LIBRARY. */
VLT_MUST_USE vlt_result vlt_dtype_merge_nullability(const vlt_dtype *one, const vlt_dtype *other, vlt_dtype *out);

/* Stores in `out` the greatest type that is a subset of both types. It is nullable only in those places in which both
 * are. For example, it is `i32` for `i32` and `i32?`. Returns VLT_NONE if the types differ in more than nullabilities.
 *
 * Results: VLT_DONE, VLT_NONE, VLT_KIND, VLT_SAME_SLOT or VLT_LIBRARY. */
VLT_MUST_USE vlt_result vlt_dtype_intersect_nullability(const vlt_dtype *one, const vlt_dtype *other, vlt_dtype *out);

/* Writes the kind of the type to `number`: 1 null, 2 bool, 3 primitive, 4 decimal, 5 utf8, 6 binary, 7 list, 8
 * fixed-size list, 9 map, 10 struct, 11 union, 12 variant, 13 extension. The node of the message of a type has the
 * same number for the kind.
 *
 * Results: VLT_DONE or VLT_KIND. */
VLT_MUST_USE vlt_result vlt_dtype_kind(const vlt_dtype *dtype, uint32_t *number);

/* Writes to `answer` whether the type is nullable, so that its values may be null. The null type is always nullable,
 * and an extension is nullable if its storage type is.
 *
 * Results: VLT_DONE or VLT_KIND. */
VLT_MUST_USE vlt_result vlt_dtype_is_nullable(const vlt_dtype *dtype, bool *answer);

/* Writes to `answer` whether the type can be made non-nullable. The null type can't, and an extension can't if its
 * storage type can't. Every other type can.
 *
 * Results: VLT_DONE or VLT_KIND. */
VLT_MUST_USE vlt_result vlt_dtype_can_be_nonnullable(const vlt_dtype *dtype, bool *answer);

/* Writes the number of bytes that each value of the type takes to `size`:
 *
 * - A value of the null type takes 0 bytes, a Boolean takes 1 byte, and a number takes the bytes of its primitive
 *   type.
 * - A decimal takes the bytes of the smallest storage type, from `i8` to `i256`, for its precision. For example,
 *   `decimal(10,2)` takes 8 bytes, those of `i64`.
 * - A fixed-size list takes its size times the bytes of its element type, a struct takes the sum of the bytes of its
 *   fields, and an extension takes the bytes of its storage type.
 *
 * Returns VLT_NONE if the type or a part of it is of variable width, which all other types are, for example `utf8`.
 * Returns VLT_ERROR_WIDTH_OVERFLOW, with the error in `error`, if the type is of fixed width and its width, or the
 * width of a part of it, is above 2^64 - 1.
 *
 * Results: VLT_DONE, VLT_NONE, VLT_KIND, VLT_SAME_SLOT, VLT_LIBRARY or VLT_ERROR_WIDTH_OVERFLOW. */
VLT_MUST_USE vlt_result vlt_dtype_element_size(const vlt_dtype *dtype, size_t *size, vlt_error *error);

/* Stores in `out` the type of the entries of a map: the non-nullable struct with the fields `key` and `value`. Returns
 * VLT_NONE if the type isn't a map.
 *
 * Results: VLT_DONE, VLT_NONE, VLT_KIND, VLT_SAME_SLOT or VLT_LIBRARY. */
VLT_MUST_USE vlt_result vlt_dtype_entries(const vlt_dtype *dtype, vlt_dtype *out);

/* Stores in `out` the map type with the key type in `one` and the value type in `other`. `keys_sorted` declares that
 * the keys of each map are sorted, which nothing checks. The map type is nullable if `nullable` is true. Returns
 * VLT_DEEP if one of the two types has 128 levels, and VLT_ERROR_MAP_KEY_NULLABLE, with the error in `error`, if the
 * key type is nullable.
 *
 * Results: VLT_DONE, VLT_KIND, VLT_DEEP, VLT_SAME_SLOT, VLT_LIBRARY or VLT_ERROR_MAP_KEY_NULLABLE. */
VLT_MUST_USE vlt_result vlt_dtype_map(
        const vlt_dtype *one, const vlt_dtype *other, bool keys_sorted, bool nullable, vlt_dtype *out,
        vlt_error *error);

/* Stores in `out` the extension type with this id, this metadata and this storage type. It is nullable if the storage
 * type is. Returns VLT_UTF8 if the id isn't UTF-8, and VLT_DEEP if the storage type has 128 levels.
 *
 * Results: VLT_DONE, VLT_KIND, VLT_UTF8, VLT_DEEP, VLT_SAME_SLOT, VLT_RANGE or VLT_LIBRARY. */
VLT_MUST_USE vlt_result vlt_dtype_extension(
        const uint8_t *id, size_t id_len, const uint8_t *metadata, size_t metadata_len, const vlt_dtype *storage,
        vlt_dtype *out);


/* == Structs (of another type the calls return VLT_CONDITION) == */

/* Stores in `out` the struct with one more field at the end, which has this name and the type in `part`. It is
 * nullable if the struct in `dtype` is. A field of this name that is there already stays, so the name may repeat. For
 * example, it is `{a=i32, b=utf8}` for `{a=i32}`, the name `b` and `utf8`. Returns VLT_UTF8 if the name isn't UTF-8,
 * VLT_CONDITION if the type in `dtype` isn't a struct, and VLT_DEEP if the type in `part` has 128 levels.
 *
 * Results: VLT_DONE, VLT_KIND, VLT_UTF8, VLT_CONDITION, VLT_DEEP, VLT_SAME_SLOT, VLT_RANGE or VLT_LIBRARY. */
VLT_MUST_USE vlt_result vlt_struct_push_field(
        const vlt_dtype *dtype, const uint8_t *name, size_t name_len, const vlt_dtype *part, vlt_dtype *out);

/* Stores in `out` the struct with a field that has this name and the type in `part`. If a field has the name, the type
 * of the first such field is replaced, and the field stays where it is. Otherwise the new field is the last. The
 * struct is nullable if the struct in `dtype` is. For example, for `{a=i32}` and `utf8` it is `{a=utf8}` with the name
 * `a`, and `{a=i32, b=utf8}` with the name `b`. Returns VLT_UTF8 if the name isn't UTF-8, VLT_CONDITION if the type in
 * `dtype` isn't a struct, and VLT_DEEP if the type in `part` has 128 levels.
 *
 * Results: VLT_DONE, VLT_KIND, VLT_UTF8, VLT_CONDITION, VLT_DEEP, VLT_SAME_SLOT, VLT_RANGE or VLT_LIBRARY. */
VLT_MUST_USE vlt_result vlt_struct_with_field(
        const vlt_dtype *dtype, const uint8_t *name, size_t name_len, const vlt_dtype *part, vlt_dtype *out);

/* Stores in `out` the struct with one more field at this index, which is counted from 0. The field has this name and
 * the type in `part`. The fields from that index on come after it, and if the index is the number of fields, it is the
 * last. A field of this name that is there already stays, so the name may repeat. The struct is nullable if the struct
 * in `dtype` is. Returns VLT_UTF8 if the name isn't UTF-8, VLT_CONDITION if the type in `dtype` isn't a struct,
 * VLT_DEEP if the type in `part` has 128 levels, and VLT_ERROR_INDEX_OUT_OF_BOUNDS if the index is above the number of
 * fields. Then `error` contains the error with the index and the number of fields.
 *
 * Results: VLT_DONE, VLT_KIND, VLT_UTF8, VLT_CONDITION, VLT_DEEP, VLT_SAME_SLOT, VLT_RANGE, VLT_LIBRARY or
 * VLT_ERROR_INDEX_OUT_OF_BOUNDS. */
VLT_MUST_USE vlt_result vlt_struct_with_field_at(
        const vlt_dtype *dtype, size_t index, const uint8_t *name, size_t name_len, const vlt_dtype *part,
        vlt_dtype *out, vlt_error *error);

/* Writes the names of all fields of the struct. The bytes of the names go to the front of `buffer`, one name directly
 * after the other, and the number of bytes of each name goes to the front of `name_lengths`. The numbers of both go to
 * `length` and `count`. For example, for `{id=u64, city=utf8}` the call writes `idcity` and 6, and the lengths 2 and 4
 * and their number 2. If one of the two buffers is too small, the call returns VLT_SMALL and writes only the two
 * numbers. Returns VLT_CONDITION if the type isn't a struct.
 *
 * Results: VLT_DONE, VLT_KIND, VLT_CONDITION, VLT_SMALL, VLT_RANGE or VLT_LIBRARY. */
VLT_MUST_USE vlt_result vlt_struct_names(
        const vlt_dtype *dtype, uint8_t *buffer, size_t buffer_len, size_t *length, size_t *name_lengths,
        size_t name_lengths_len, size_t *count);

/* Stores the types of all fields of the struct in the first slots of `types`, in order, and writes their number to
 * `count`. The other slots keep their objects. If there are fewer slots than fields, the call returns VLT_SMALL and
 * writes only the number. If the call returns another number than VLT_DONE, each slot is as it was before. Returns
 * VLT_KIND if `dtype` contains no type, and VLT_CONDITION if the type isn't a struct.
 *
 * Results: VLT_DONE, VLT_KIND, VLT_CONDITION, VLT_SMALL, VLT_SAME_SLOT, VLT_RANGE or VLT_LIBRARY. */
VLT_MUST_USE vlt_result vlt_struct_types(const vlt_dtype *dtype, vlt_dtype *types, size_t types_len, size_t *count);

/* Stores in `out` the struct without the field with this index, which is counted from 0. It is nullable if the struct
 * in `dtype` is. Returns VLT_CONDITION if the type isn't a struct, and VLT_ERROR_INDEX_OUT_OF_BOUNDS if the index
 * isn't below the number of fields. Then `error` contains the error with the index and the number of fields.
 *
 * Results: VLT_DONE, VLT_KIND, VLT_CONDITION, VLT_SAME_SLOT, VLT_LIBRARY or VLT_ERROR_INDEX_OUT_OF_BOUNDS. */
VLT_MUST_USE vlt_result vlt_struct_without_field(
        const vlt_dtype *dtype, size_t index, vlt_dtype *out, vlt_error *error);

/* Stores in `out` the struct that has the fields of the first struct followed by those of the other. It has the outer
 * nullability of the first. Returns VLT_CONDITION if one of the types isn't a struct, and VLT_ERROR_DUPLICATE_NAMES,
 * with the error in `error`, if a name occurs in both structs, or twice in one of them.
 *
 * Results: VLT_DONE, VLT_KIND, VLT_CONDITION, VLT_SAME_SLOT, VLT_LIBRARY or VLT_ERROR_DUPLICATE_NAMES. */
VLT_MUST_USE vlt_result vlt_struct_disjoint_merge(
        const vlt_dtype *one, const vlt_dtype *other, vlt_dtype *out, vlt_error *error);

/* Stores in `out` the struct that has the fields with these names, in the order of the names. If several fields have
 * the same name, the first of them is selected. The struct has the outer nullability of the original struct.
 *
 * `names` contains the bytes of all names, one name directly after the other, and `name_lengths` contains the number
 * of bytes of each name. For example, the names `id` and `city` are the bytes `idcity` with the lengths 2 and 4.
 *
 * Returns VLT_UTF8 if a name isn't UTF-8, VLT_CONDITION if the type isn't a struct, VLT_RANGE if the lengths don't add
 * up to the number of bytes, and VLT_ERROR_FIELD_NOT_FOUND if one of the names isn't the name of any field. Then
 * `error` contains the error with the index of the first such name among the names, counted from 0.
 *
 * Results: VLT_DONE, VLT_KIND, VLT_UTF8, VLT_CONDITION, VLT_SAME_SLOT, VLT_RANGE, VLT_LIBRARY or
 * VLT_ERROR_FIELD_NOT_FOUND. */
VLT_MUST_USE vlt_result vlt_struct_project(
        const vlt_dtype *dtype, const uint8_t *names, size_t names_len, const size_t *name_lengths,
        size_t name_lengths_len, vlt_dtype *out, vlt_error *error);

/* Stores in `out` the struct with other names of its fields, whose types stay in the same order. It is nullable if the
 * struct in `dtype` is. Each field whose name is an old name gets the new name. All other fields keep their names, and
 * an old name that no field has changes nothing. If an old name is there twice, the first pair counts. Names can be
 * swapped. A name may occur several times afterwards.
 *
 * `names` contains the bytes of an old name, of its new name, of the next old name, of its new name and so on, one name
 * directly after the other, and `name_lengths` contains the number of bytes of each name. For example, the bytes
 * `idskuatday` with the lengths 2, 3, 2 and 3 rename `id` to `sku` and `at` to `day`.
 *
 * Returns VLT_UTF8 if a name isn't UTF-8, VLT_CONDITION if the type isn't a struct, and VLT_RANGE if the lengths don't
 * add up to the number of bytes, or if the last old name has no new name.
 *
 * Results: VLT_DONE, VLT_KIND, VLT_UTF8, VLT_CONDITION, VLT_SAME_SLOT, VLT_RANGE or VLT_LIBRARY. */
VLT_MUST_USE vlt_result vlt_struct_with_fields_renamed_allowing_repeats(
        const vlt_dtype *dtype, const uint8_t *names, size_t names_len, const size_t *name_lengths,
        size_t name_lengths_len, vlt_dtype *out);

/* Writes the number of fields of the struct to `count`. Returns VLT_CONDITION if the type isn't a struct.
 *
 * Results: VLT_DONE, VLT_KIND or VLT_CONDITION. */
VLT_MUST_USE vlt_result vlt_struct_nfields(const vlt_dtype *dtype, size_t *count);

/* Stores in `out` the type of the field with this index, which is counted from 0. Returns VLT_NONE if the index isn't
 * below the number of fields, and VLT_CONDITION if the type isn't a struct.
 *
 * Results: VLT_DONE, VLT_NONE, VLT_KIND, VLT_CONDITION, VLT_SAME_SLOT or VLT_LIBRARY. */
VLT_MUST_USE vlt_result vlt_struct_field_by_index(const vlt_dtype *dtype, size_t index, vlt_dtype *out);

/* Writes the index of the first field with this name, counted from 0, to `index`. Returns VLT_NONE if no field has the
 * name, VLT_UTF8 if the name isn't UTF-8, and VLT_CONDITION if the type isn't a struct.
 *
 * Results: VLT_DONE, VLT_NONE, VLT_KIND, VLT_UTF8, VLT_CONDITION or VLT_RANGE. */
VLT_MUST_USE vlt_result vlt_struct_find(const vlt_dtype *dtype, const uint8_t *name, size_t name_len, size_t *index);

/* Stores in `out` the type of the first field with this name. Returns VLT_NONE if no field has the name, VLT_UTF8 if
 * the name isn't UTF-8, and VLT_CONDITION if the type isn't a struct.
 *
 * Results: VLT_DONE, VLT_NONE, VLT_KIND, VLT_UTF8, VLT_CONDITION, VLT_SAME_SLOT, VLT_RANGE or VLT_LIBRARY. */
VLT_MUST_USE vlt_result vlt_struct_field(const vlt_dtype *dtype, const uint8_t *name, size_t name_len, vlt_dtype *out);

/* Writes the name of the field with this index, which is counted from 0, to `buffer`. Returns VLT_NONE if the index
 * isn't below the number of fields, and VLT_CONDITION if the type isn't a struct.
 *
 * Results: VLT_DONE, VLT_NONE, VLT_KIND, VLT_CONDITION, VLT_SMALL or VLT_RANGE. */
VLT_MUST_USE vlt_result vlt_struct_field_name(
        const vlt_dtype *dtype, size_t index, uint8_t *buffer, size_t buffer_len, size_t *length);

/* Writes the fields of a struct to `buffer` as text over several lines. The first line is an opening brace, then each
 * field has a line that begins with two spaces, and the last line is a closing brace. For example, the text of
 * `{a=i32, b=utf8}` has the four lines `{`, `  a=i32,`, `  b=utf8` and `}`. A struct that is the type of a field, or
 * the element type of a list, is written over several lines too, with two more spaces. Returns VLT_CONDITION if the
 * type isn't a struct.
 *
 * Results: VLT_DONE, VLT_KIND, VLT_CONDITION, VLT_SMALL, VLT_RANGE or VLT_LIBRARY. */
VLT_MUST_USE vlt_result vlt_struct_indented(const vlt_dtype *dtype, uint8_t *buffer, size_t buffer_len, size_t *length);


/* == Unions (of another type the calls return VLT_CONDITION) == */

/* Writes the names of all variants of the union. The bytes of the names go to the front of `buffer`, one name directly
 * after the other, and the number of bytes of each name goes to the front of `name_lengths`. The numbers of both go to
 * `length` and `count`. If one of the two buffers is too small, the call returns VLT_SMALL and writes only the two
 * numbers. Returns VLT_CONDITION if the type isn't a union.
 *
 * Results: VLT_DONE, VLT_KIND, VLT_CONDITION, VLT_SMALL, VLT_RANGE or VLT_LIBRARY. */
VLT_MUST_USE vlt_result vlt_union_names(
        const vlt_dtype *dtype, uint8_t *buffer, size_t buffer_len, size_t *length, size_t *name_lengths,
        size_t name_lengths_len, size_t *count);

/* Stores the types of all variants of the union in the first slots of `types`, in order, and writes their number to
 * `count`. The other slots keep their objects. If there are fewer slots than variants, the call returns VLT_SMALL and
 * writes only the number. If the call returns another number than VLT_DONE, each slot is as it was before. Returns
 * VLT_KIND if `dtype` contains no type, and VLT_CONDITION if the type isn't a union.
 *
 * Results: VLT_DONE, VLT_KIND, VLT_CONDITION, VLT_SMALL, VLT_SAME_SLOT, VLT_RANGE or VLT_LIBRARY. */
VLT_MUST_USE vlt_result vlt_union_types(const vlt_dtype *dtype, vlt_dtype *types, size_t types_len, size_t *count);

/* Writes the number of variants of the union, which is from 1 to 256, to `count`. Returns VLT_CONDITION if the type
 * isn't a union.
 *
 * Results: VLT_DONE, VLT_KIND or VLT_CONDITION. */
VLT_MUST_USE vlt_result vlt_union_len(const vlt_dtype *dtype, size_t *count);

/* Stores in `out` the type of the variant with this index, which is counted from 0. Returns VLT_NONE if the index
 * isn't below the number of variants, and VLT_CONDITION if the type isn't a union.
 *
 * Results: VLT_DONE, VLT_NONE, VLT_KIND, VLT_CONDITION, VLT_SAME_SLOT or VLT_LIBRARY. */
VLT_MUST_USE vlt_result vlt_union_variant_by_index(const vlt_dtype *dtype, size_t index, vlt_dtype *out);

/* Writes the index of the variant with this name, counted from 0, to `index`. Returns VLT_NONE if no variant has the
 * name, VLT_UTF8 if the name isn't UTF-8, and VLT_CONDITION if the type isn't a union.
 *
 * Results: VLT_DONE, VLT_NONE, VLT_KIND, VLT_UTF8, VLT_CONDITION or VLT_RANGE. */
VLT_MUST_USE vlt_result vlt_union_find(const vlt_dtype *dtype, const uint8_t *name, size_t name_len, size_t *index);

/* Stores in `out` the type of the variant with this name. Returns VLT_NONE if no variant has the name, VLT_UTF8 if the
 * name isn't UTF-8, and VLT_CONDITION if the type isn't a union.
 *
 * Results: VLT_DONE, VLT_NONE, VLT_KIND, VLT_UTF8, VLT_CONDITION, VLT_SAME_SLOT, VLT_RANGE or VLT_LIBRARY. */
VLT_MUST_USE vlt_result vlt_union_variant(const vlt_dtype *dtype, const uint8_t *name, size_t name_len, vlt_dtype *out);

/* Writes the index of the variant with this tag, counted from 0, to `index`. Returns VLT_NONE if no variant has the
 * tag, and VLT_CONDITION if the type isn't a union.
 *
 * Results: VLT_DONE, VLT_NONE, VLT_KIND or VLT_CONDITION. */
VLT_MUST_USE vlt_result vlt_union_tag_to_child_index(const vlt_dtype *dtype, uint8_t tag, size_t *index);

/* Writes the tag of the variant with this index, which is counted from 0, to `tag`. Returns VLT_NONE if the index
 * isn't below the number of variants, and VLT_CONDITION if the type isn't a union.
 *
 * Results: VLT_DONE, VLT_NONE, VLT_KIND or VLT_CONDITION. */
VLT_MUST_USE vlt_result vlt_union_child_index_to_tag(const vlt_dtype *dtype, size_t index, uint8_t *tag);

/* Writes the name of the variant with this index, which is counted from 0, to `buffer`. Returns VLT_NONE if the index
 * isn't below the number of variants, and VLT_CONDITION if the type isn't a union.
 *
 * Results: VLT_DONE, VLT_NONE, VLT_KIND, VLT_CONDITION, VLT_SMALL or VLT_RANGE. */
VLT_MUST_USE vlt_result vlt_union_variant_name(
        const vlt_dtype *dtype, size_t index, uint8_t *buffer, size_t buffer_len, size_t *length);

/* Writes to `answer` whether the tags are 0, 1, 2 and so on in the order of the variants. Returns VLT_CONDITION if the
 * type isn't a union.
 *
 * Results: VLT_DONE, VLT_KIND or VLT_CONDITION. */
VLT_MUST_USE vlt_result vlt_union_is_consecutive(const vlt_dtype *dtype, bool *answer);


/* == Fields == */

/* Stores in `out` an empty list of fields. A field is a name with a type. Structs and unions are made of such a list.
 * For example, the list of `id` with u64 and `city` with utf8 is made by this call and two calls of `vlt_fields_push`,
 * and `vlt_dtype_struct` makes the struct `{id=u64, city=utf8}` of it.
 *
 * Results: VLT_DONE or VLT_LIBRARY. */
VLT_MUST_USE vlt_result vlt_fields_new(vlt_fields *out);

/* Adds a field with this name and a copy of this type to the end of the list. A list may contain a name several times.
 * If the call doesn't return VLT_DONE, the list is unchanged. Returns VLT_UTF8 if the name isn't UTF-8.
 *
 * Results: VLT_DONE, VLT_KIND, VLT_UTF8, VLT_SAME_SLOT, VLT_RANGE or VLT_LIBRARY. */
VLT_MUST_USE vlt_result vlt_fields_push(
        vlt_fields *fields, const uint8_t *name, size_t name_len, const vlt_dtype *dtype);


/* == Paths == */

/* Stores in `out` the path that the message of a path describes. The names of the parts of the message are passed in
 * the same way as to `vlt_path_from_steps`. The length 2^64 - 1 (`VLT_ELEMENT` in C) stands for a part without a kind.
 * Returns the number for the first fault of the names, in their order: VLT_RANGE if fewer bytes are left than a length
 * says, VLT_UTF8 if the name of a length isn't UTF-8, and VLT_RANGE if bytes are left after the last name. If the
 * names have no fault, a message that has a part without a kind describes no path, and the call returns
 * VLT_ERROR_MESSAGE_PATH_PART_MISSING, with the error in `error`.
 *
 * Results: VLT_DONE, VLT_UTF8, VLT_SAME_SLOT, VLT_RANGE, VLT_LIBRARY or VLT_ERROR_MESSAGE_PATH_PART_MISSING. */
VLT_MUST_USE vlt_result vlt_path_from_message(
        const uint8_t *names, size_t names_len, const size_t *name_lengths, size_t name_lengths_len, vlt_path *out,
        vlt_error *error);

/* Reads a path from its text and stores it in `out`. For example, `a.[].b` is a path of three steps, and `.` is the
 * root. The text is written in the form of `vlt_path_to_text`, and blanks and comments may stand around it.
 *
 * Returns VLT_UTF8 if the text isn't UTF-8, and VLT_UNREADABLE if it isn't spelled like a path. Then `error` contains
 * an error: `vlt_error_position` returns at which byte, counted from 1, something else was expected, and
 * `vlt_error_message` what. For example, the message for `a[0]` ends with `[] is a step of its own, for example in
 * a.[].b`.
 *
 * Results: VLT_DONE, VLT_UTF8, VLT_UNREADABLE, VLT_SAME_SLOT, VLT_RANGE or VLT_LIBRARY. */
VLT_MUST_USE vlt_result vlt_path_from_text(const uint8_t *text, size_t text_len, vlt_path *out, vlt_error *error);

/* Writes the path to `buffer` in the form from which `vlt_path_from_text` reads the same path back, for example
 * `a.[].b`. A name stands in double quotes unless it consists of ASCII letters and digits, `_` and visible characters
 * beyond ASCII.
 *
 * Results: VLT_DONE, VLT_KIND, VLT_SMALL, VLT_RANGE or VLT_LIBRARY. */
VLT_MUST_USE vlt_result vlt_path_to_text(const vlt_path *path, uint8_t *buffer, size_t buffer_len, size_t *length);

/* Stores in `out` the root, which is the path without steps.
 *
 * Results: VLT_DONE or VLT_LIBRARY. */
VLT_MUST_USE vlt_result vlt_path_root(vlt_path *out);

/* Writes the number of steps of the path to `count`.
 *
 * Results: VLT_DONE or VLT_KIND. */
VLT_MUST_USE vlt_result vlt_path_len(const vlt_path *path, size_t *count);

/* Writes the step with this index, which is counted from 0. For a step to a field, it writes the bytes of the name to
 * `buffer` and their number to `length`. For the step to the element, it writes only a length, which is 2^64 - 1
 * (`VLT_ELEMENT` in C). Returns VLT_NONE if the index isn't below the number of steps.
 *
 * Results: VLT_DONE, VLT_NONE, VLT_KIND, VLT_SMALL or VLT_RANGE. */
VLT_MUST_USE vlt_result vlt_path_step(
        const vlt_path *path, size_t index, uint8_t *buffer, size_t buffer_len, size_t *length);

/* Stores in `out` the path with one more step at its end: the step to the field with this name. Returns VLT_UTF8 if
 * the name isn't UTF-8.
 *
 * Results: VLT_DONE, VLT_KIND, VLT_UTF8, VLT_SAME_SLOT, VLT_RANGE or VLT_LIBRARY. */
VLT_MUST_USE vlt_result vlt_path_push_name(const vlt_path *path, const uint8_t *name, size_t name_len, vlt_path *out);

/* Stores in `out` the path with one more step at its end: the step to the element of a list.
 *
 * Results: VLT_DONE, VLT_KIND, VLT_SAME_SLOT or VLT_LIBRARY. */
VLT_MUST_USE vlt_result vlt_path_push_element(const vlt_path *path, vlt_path *out);

/* Stores in `out` the path without its first step. Returns VLT_NONE if the path is the root, which has no steps.
 *
 * Results: VLT_DONE, VLT_NONE, VLT_KIND, VLT_SAME_SLOT or VLT_LIBRARY. */
VLT_MUST_USE vlt_result vlt_path_step_into(const vlt_path *path, vlt_path *out);

/* Stores in `out` a copy of the path.
 *
 * Results: VLT_DONE, VLT_KIND, VLT_SAME_SLOT or VLT_LIBRARY. */
VLT_MUST_USE vlt_result vlt_path_copy(const vlt_path *path, vlt_path *out);

/* Writes to `answer` whether the two paths are equal.
 *
 * Results: VLT_DONE, VLT_KIND or VLT_LIBRARY. */
VLT_MUST_USE vlt_result vlt_path_eq(const vlt_path *one, const vlt_path *other, bool *answer);

/* Writes to `answer` whether one of the two paths is a prefix of the other. For example, it is true for `a` and `a.b`,
 * and for equal paths.
 *
 * Results: VLT_DONE, VLT_KIND or VLT_LIBRARY. */
VLT_MUST_USE vlt_result vlt_path_overlap(const vlt_path *one, const vlt_path *other, bool *answer);

/* Stores in `out` the type at the path in the type `dtype`. The root leads to the whole type, a name to the first
 * field with this name in a struct, and the element to the element type of a list or of a fixed-size list. No step
 * leads into a type of another kind. The nullability of the types on the way doesn't matter. For example, the type at
 * `a.[]` in `{a=list(i32)?}` is `i32`. Returns VLT_NONE if there is no type at the path.
 *
 * Results: VLT_DONE, VLT_NONE, VLT_KIND, VLT_SAME_SLOT or VLT_LIBRARY. */
VLT_MUST_USE vlt_result vlt_path_resolve(const vlt_dtype *dtype, const vlt_path *path, vlt_dtype *out);

/* Writes to `answer` whether there is a type at the path in the type `dtype`. The comment of `vlt_path_resolve`
 * explains where a path leads.
 *
 * Results: VLT_DONE or VLT_KIND. */
VLT_MUST_USE vlt_result vlt_path_exists_in(const vlt_dtype *dtype, const vlt_path *path, bool *answer);

/* Writes the path to `buffer` as the library displays it, for example `$a.[].$b`. The text of the root is empty. This
 * isn't the form that `vlt_path_from_text` reads, which `vlt_path_to_text` writes.
 *
 * Results: VLT_DONE, VLT_KIND, VLT_SMALL, VLT_RANGE or VLT_LIBRARY. */
VLT_MUST_USE vlt_result vlt_path_display(const vlt_path *path, uint8_t *buffer, size_t buffer_len, size_t *length);

/* Writes to `answer` whether the first step of the path is the step to the field with this name. It isn't if it is the
 * step to another field, or if the path is the root. Returns VLT_CONDITION if it is the step to the element. The call
 * doesn't test whether the name is UTF-8, and no field has a name that isn't.
 *
 * Results: VLT_DONE, VLT_KIND, VLT_CONDITION or VLT_RANGE. */
VLT_MUST_USE vlt_result vlt_path_starts_with_name(
        const vlt_path *path, const uint8_t *name, size_t name_len, bool *answer);

/* Writes a hash of the path to `hash`. Equal paths have the same hash. The hash of a path may differ between versions
 * of the library.
 *
 * Results: VLT_DONE or VLT_KIND. */
VLT_MUST_USE vlt_result vlt_path_hash(const vlt_path *path, uint64_t *hash);

/* Stores in `out` the path of these steps. `names` contains the bytes of all names, one name directly after the other,
 * and `name_lengths` contains the number of bytes of the name of each step. The length 2^64 - 1 (`VLT_ELEMENT` in C)
 * stands for the step to the element, which has no bytes in `names`. Returns the number for the first fault of the
 * names, in their order: VLT_RANGE if fewer bytes are left than a length says, VLT_UTF8 if the name of a length isn't
 * UTF-8, and VLT_RANGE if bytes are left after the last name.
 *
 * Results: VLT_DONE, VLT_UTF8, VLT_RANGE or VLT_LIBRARY. */
VLT_MUST_USE vlt_result vlt_path_from_steps(
        const uint8_t *names, size_t names_len, const size_t *name_lengths, size_t name_lengths_len, vlt_path *out);


/* == Sets of paths == */

/* Writes how paths of the set continue after the path `path`. `is_end` is true if the path itself is in the set.
 * `has_element` is true if some path of the set continues with the step to the element. `name_count` is the number of
 * different names with which paths of the set continue. For example, for the set of `a`, `a.b` and `a.c` and the path
 * `a` the call writes true, false and 2. Returns VLT_NONE if no path of the set begins with the path.
 *
 * Results: VLT_DONE, VLT_NONE or VLT_KIND. */
VLT_MUST_USE vlt_result vlt_set_below(
        const vlt_path_set *paths, const vlt_path *path, bool *is_end, bool *has_element, size_t *name_count);

/* Stores in `out` the list of the names with which paths of the set continue after the path `path`. The list contains
 * a path of one step for each name. Each name is in it once, in no particular order. For example, for the set of `a.b`
 * and `a.c` and the path `a` the list contains the paths `b` and `c`. Returns VLT_NONE if no path of the set begins
 * with the path.
 *
 * Results: VLT_DONE, VLT_NONE, VLT_KIND, VLT_SAME_SLOT or VLT_LIBRARY. */
VLT_MUST_USE vlt_result vlt_set_names_below(const vlt_path_set *paths, const vlt_path *path, vlt_path_list *out);

/* Writes to `answer` whether the two sets contain the same paths.
 *
 * Results: VLT_DONE, VLT_KIND or VLT_LIBRARY. */
VLT_MUST_USE vlt_result vlt_set_eq(const vlt_path_set *one, const vlt_path_set *other, bool *answer);

/* Writes to `answer` whether each path of the first set is in the other one too. The paths themselves are compared,
 * and not what they select. For example, the set of `a.b` isn't a subset of the set of `a`.
 *
 * Results: VLT_DONE, VLT_KIND or VLT_LIBRARY. */
VLT_MUST_USE vlt_result vlt_set_is_subset(const vlt_path_set *one, const vlt_path_set *other, bool *answer);

/* Writes to `answer` whether no path is in both sets. The paths themselves are compared, and not what they select. For
 * example, the sets of `a` and of `a.b` are disjoint.
 *
 * Results: VLT_DONE, VLT_KIND or VLT_LIBRARY. */
VLT_MUST_USE vlt_result vlt_set_is_disjoint(const vlt_path_set *one, const vlt_path_set *other, bool *answer);

/* Stores in `out` the set of the paths that are in one of the two sets or in both.
 *
 * Results: VLT_DONE, VLT_KIND, VLT_SAME_SLOT or VLT_LIBRARY. */
VLT_MUST_USE vlt_result vlt_set_union(const vlt_path_set *one, const vlt_path_set *other, vlt_path_set *out);

/* Stores in `out` the empty set.
 *
 * Results: VLT_DONE or VLT_LIBRARY. */
VLT_MUST_USE vlt_result vlt_set_new(vlt_path_set *out);

/* Inserts a copy of the path into the set. If the set contains the path already, nothing changes, and the call returns
 * VLT_DONE. If it doesn't return VLT_DONE, the set is unchanged.
 *
 * Results: VLT_DONE, VLT_KIND, VLT_SAME_SLOT or VLT_LIBRARY. */
VLT_MUST_USE vlt_result vlt_set_insert(vlt_path_set *paths, const vlt_path *path);

/* Writes to `answer` whether the path is in the set.
 *
 * Results: VLT_DONE or VLT_KIND. */
VLT_MUST_USE vlt_result vlt_set_contains(const vlt_path_set *paths, const vlt_path *path, bool *answer);

/* Stores in `out` a copy of the set.
 *
 * Results: VLT_DONE, VLT_KIND, VLT_SAME_SLOT or VLT_LIBRARY. */
VLT_MUST_USE vlt_result vlt_set_copy(const vlt_path_set *paths, vlt_path_set *out);

/* Stores in `out` the cover of the set, as a list. The cover contains those paths of the set of which no other path
 * of the set is a prefix. For example, the cover of `a.b`, `x` and `a` contains `a` and `x`. Each path is in the list
 * once, in no particular order.
 *
 * Results: VLT_DONE, VLT_KIND, VLT_SAME_SLOT or VLT_LIBRARY. */
VLT_MUST_USE vlt_result vlt_set_cover(const vlt_path_set *paths, vlt_path_list *out);

/* Stores in `out` the list of the paths of the set. Each path is in the list once, in no particular order.
 *
 * Results: VLT_DONE, VLT_KIND, VLT_SAME_SLOT or VLT_LIBRARY. */
VLT_MUST_USE vlt_result vlt_set_members(const vlt_path_set *paths, vlt_path_list *out);

/* Stores in `out` the list of those paths of the set that don't exist in the type `dtype`. Each path is in the list
 * once, in no particular order.
 *
 * Results: VLT_DONE, VLT_KIND, VLT_SAME_SLOT or VLT_LIBRARY. */
VLT_MUST_USE vlt_result vlt_set_unresolved(const vlt_path_set *paths, const vlt_dtype *dtype, vlt_path_list *out);

/* Writes the number of paths of the set to `count`.
 *
 * Results: VLT_DONE or VLT_KIND. */
VLT_MUST_USE vlt_result vlt_set_len(const vlt_path_set *paths, size_t *count);

/* Inserts copies of the paths in these slots into the set, in order, and writes to `inserted` how many were inserted.
 * A path that the set contains already is counted too. If a slot contains no path, the call stops there and returns
 * VLT_KIND. If memory runs out, it stops there and returns VLT_LIBRARY. In both cases the paths before it stay
 * inserted, and `inserted` is their number. If `set` contains no set, the call returns VLT_KIND and writes nothing.
 *
 * Results: VLT_DONE, VLT_KIND, VLT_SAME_SLOT, VLT_RANGE or VLT_LIBRARY. */
VLT_MUST_USE vlt_result vlt_set_extend(vlt_path_set *set, const vlt_path *paths, size_t paths_len, size_t *inserted);

/* Inserts copies of the paths of the list into the set, in order. If memory runs out, the call stops there and returns
 * VLT_LIBRARY. In this case the paths that it inserted before stay in the set.
 *
 * Results: VLT_DONE, VLT_KIND, VLT_SAME_SLOT or VLT_LIBRARY. */
VLT_MUST_USE vlt_result vlt_set_extend_from_list(vlt_path_set *paths, const vlt_path_list *list);


/* == Lists of paths == */

/* Takes the path with this index, which is counted from 0, out of the list, and stores it in `out`. The list has the
 * root in its place afterwards. So a program that goes through a list can own each path without copying it. Returns
 * VLT_NONE if the index isn't below the length of the list. If the call doesn't return VLT_DONE, the list is
 * unchanged.
 *
 * Results: VLT_DONE, VLT_NONE, VLT_KIND, VLT_SAME_SLOT or VLT_LIBRARY. */
VLT_MUST_USE vlt_result vlt_paths_take(vlt_path_list *paths, size_t index, vlt_path *out);

/* Writes the number of paths of the list to `count`.
 *
 * Results: VLT_DONE or VLT_KIND. */
VLT_MUST_USE vlt_result vlt_paths_len(const vlt_path_list *paths, size_t *count);

/* Stores in `out` a copy of the path with this index in the list, counted from 0. Returns VLT_NONE if the index isn't
 * below the length of the list.
 *
 * Results: VLT_DONE, VLT_NONE, VLT_KIND, VLT_SAME_SLOT or VLT_LIBRARY. */
VLT_MUST_USE vlt_result vlt_paths_get(const vlt_path_list *paths, size_t index, vlt_path *out);


/* == The parts of a type that paths lead to == */

/* Stores in `out` the set of the paths to the parts of the type into which no step leads further. They are the columns
 * of the type: a step leads into a list, and none leads into a struct without fields, a map, a union or an extension.
 * If several fields of a struct have the same name, a path leads to the first of them, so the others have no paths.
 * For example, the paths of `{a=list(i32), b={}}` are `a.[]` and `b`.
 *
 * Results: VLT_DONE, VLT_KIND, VLT_SAME_SLOT or VLT_LIBRARY. */
VLT_MUST_USE vlt_result vlt_leaf_paths(const vlt_dtype *dtype, vlt_path_set *out);

/* Stores in `out` the type without the parts to which the paths of the set lead. A path that doesn't exist in the type
 * changes nothing. A struct that loses all its fields stays, without fields, and a list is left out with its element.
 * If several fields of a struct have the same name, each of them is treated in the same way. For example, `{a=i32,
 * b={c=u8, d=u8}}` without `a` and `b.c` is `{b={d=u8}}`. Returns VLT_NONE if nothing is left.
 *
 * Results: VLT_DONE, VLT_NONE, VLT_KIND, VLT_SAME_SLOT or VLT_LIBRARY. */
VLT_MUST_USE vlt_result vlt_without_paths(const vlt_dtype *dtype, const vlt_path_set *set, vlt_dtype *out);

/* Stores in `out` the type with the part at the path replaced by the type in `part`. Every other part stays as it is,
 * with its nullability. If several fields of a struct have the same name, a path leads to the first of them. For
 * example, it is `{a=list(utf8)?}` for `{a=list(i32)?}`, the path `a.[]` and `utf8`. Returns VLT_NONE if the path
 * doesn't exist in the type, and VLT_DEEP if the result would have more than 128 levels.
 *
 * Results: VLT_DONE, VLT_NONE, VLT_KIND, VLT_DEEP, VLT_SAME_SLOT or VLT_LIBRARY. */
VLT_MUST_USE vlt_result vlt_with_type_at(
        const vlt_dtype *dtype, const vlt_path *path, const vlt_dtype *part, vlt_dtype *out);

/* Stores in `out` the part of the type to which the paths of the set lead. It is the schema of the columns that a
 * reader of these paths has to open. The type at the end of a path is kept whole. A struct on the way keeps only the
 * fields to which a path leads, in its own order. For example, the part of `{a=i32, b={c=u8, d=u8}}` for the path
 * `b.c` is `{b={c=u8}}`. Returns VLT_NONE if no path of the set exists in the type.
 *
 * Results: VLT_DONE, VLT_NONE, VLT_KIND, VLT_SAME_SLOT or VLT_LIBRARY. */
VLT_MUST_USE vlt_result vlt_project_paths(const vlt_dtype *dtype, const vlt_path_set *set, vlt_dtype *out);


/* == Masks == */

/* Stores in `out` the mask that selects every path.
 *
 * Results: VLT_DONE or VLT_LIBRARY. */
VLT_MUST_USE vlt_result vlt_mask_all(vlt_mask *out);

/* Stores in `out` the mask that selects the path and every path that begins with it.
 *
 * Results: VLT_DONE, VLT_KIND, VLT_SAME_SLOT or VLT_LIBRARY. */
VLT_MUST_USE vlt_result vlt_mask_prefix(const vlt_path *path, vlt_mask *out);

/* Stores in `out` the mask that selects only the path.
 *
 * Results: VLT_DONE, VLT_KIND, VLT_SAME_SLOT or VLT_LIBRARY. */
VLT_MUST_USE vlt_result vlt_mask_exact(const vlt_path *path, vlt_mask *out);

/* Writes the kind of the mask to `kind`: 0 for the mask of `vlt_mask_all`, which selects every path; 1 for a mask of
 * `vlt_mask_prefix`, which selects a path and every path that begins with it; and 2 for a mask of `vlt_mask_exact`,
 * which selects only one path.
 *
 * Results: VLT_DONE or VLT_KIND. */
VLT_MUST_USE vlt_result vlt_mask_kind(const vlt_mask *mask, uint32_t *kind);

/* Stores in `out` the path of the mask. Returns VLT_NONE if the mask is the one of `vlt_mask_all`, which has no path.
 * The path of the mask that `vlt_mask_prefix` makes of the root is the root, although this mask also selects every
 * path.
 *
 * Results: VLT_DONE, VLT_NONE, VLT_KIND, VLT_SAME_SLOT or VLT_LIBRARY. */
VLT_MUST_USE vlt_result vlt_mask_path(const vlt_mask *mask, vlt_path *out);

/* Stores in `out` a copy of the mask.
 *
 * Results: VLT_DONE, VLT_KIND, VLT_SAME_SLOT or VLT_LIBRARY. */
VLT_MUST_USE vlt_result vlt_mask_copy(const vlt_mask *mask, vlt_mask *out);

/* Stores in `out` the mask of what this mask selects below the first step of its path:
 *
 * - For the mask of `vlt_mask_all`, it is the mask of `vlt_mask_all`.
 * - For a mask of `vlt_mask_prefix`, it is the mask that `vlt_mask_prefix` makes of the path without its first step.
 *   If the path has at most one step, it is the mask of `vlt_mask_all`.
 * - For a mask of `vlt_mask_exact`, it is the mask that `vlt_mask_exact` makes of the path without its first step.
 *
 * For example, for the mask that `vlt_mask_prefix` makes of `a.b`, it is the mask that `vlt_mask_prefix` makes of `b`.
 * Returns VLT_ERROR_EXACT_ROOT, with the error in `error`, if the mask selects only the root.
 *
 * Results: VLT_DONE, VLT_KIND, VLT_SAME_SLOT, VLT_LIBRARY or VLT_ERROR_EXACT_ROOT. */
VLT_MUST_USE vlt_result vlt_mask_step_into(const vlt_mask *mask, vlt_mask *out, vlt_error *error);

/* Writes the first step of the path of the mask, in the same way as `vlt_path_step` writes a step. Returns VLT_NONE if
 * the path is the root, and VLT_ERROR_ALL_MASK, with the error in `error`, if the mask is the one of `vlt_mask_all`,
 * which has no path.
 *
 * Results: VLT_DONE, VLT_NONE, VLT_KIND, VLT_SMALL, VLT_SAME_SLOT, VLT_RANGE, VLT_LIBRARY or VLT_ERROR_ALL_MASK. */
VLT_MUST_USE vlt_result vlt_mask_starting_field(
        const vlt_mask *mask, uint8_t *buffer, size_t buffer_len, size_t *length, vlt_error *error);

/* Writes to `answer` whether the mask selects every path. The mask of `vlt_mask_all` and the mask that
 * `vlt_mask_prefix` makes of the root select every path.
 *
 * Results: VLT_DONE or VLT_KIND. */
VLT_MUST_USE vlt_result vlt_mask_matches_all(const vlt_mask *mask, bool *answer);

/* Writes to `answer` whether the mask selects the root. The mask of `vlt_mask_all` and the masks whose path is the
 * root select the root.
 *
 * Results: VLT_DONE or VLT_KIND. */
VLT_MUST_USE vlt_result vlt_mask_matches_root(const vlt_mask *mask, bool *answer);

/* Writes to `answer` whether the two masks are equal. They are equal if they have the same kind and the same path. So
 * the mask of `vlt_mask_all` isn't equal to the mask that `vlt_mask_prefix` makes of the root, although both select
 * every path.
 *
 * Results: VLT_DONE, VLT_KIND or VLT_LIBRARY. */
VLT_MUST_USE vlt_result vlt_mask_eq(const vlt_mask *one, const vlt_mask *other, bool *answer);


/* == Messages of types == */

/* Stores in `out` a copy of the message.
 *
 * Results: VLT_DONE, VLT_KIND, VLT_SAME_SLOT or VLT_LIBRARY. */
VLT_MUST_USE vlt_result vlt_message_copy(const vlt_message *message, vlt_message *out);

/* Writes to `answer` whether the two messages are equal.
 *
 * Results: VLT_DONE, VLT_KIND or VLT_LIBRARY. */
VLT_MUST_USE vlt_result vlt_message_eq(const vlt_message *one, const vlt_message *other, bool *answer);

/* Stores in `out` the type that the message describes. No plugin is registered, so no id of an extension is known. If
 * `allow_unknown` is true, an extension keeps its metadata. If it is false, the call returns
 * VLT_ERROR_MESSAGE_EXTENSION_UNREGISTERED for an extension. If the message describes no type, the call returns the
 * number of its first fault, and `error` contains the error. This is a number from VLT_ERROR_MESSAGE_TYPE_MISSING to
 * VLT_ERROR_MESSAGE_STORAGE_MISSING, or VLT_ERROR_PRECISION_ZERO to VLT_ERROR_SCALE_ABOVE_PRECISION for a decimal,
 * VLT_ERROR_MAP_KEY_NULLABLE for a map, and VLT_ERROR_UNION_TYPES_LENGTH to VLT_ERROR_UNION_TAGS_REPEAT or
 * VLT_ERROR_UNION_NAMES_REPEAT for a union. For example, it returns VLT_ERROR_MESSAGE_TYPE_MISSING for a message
 * without a kind.
 *
 * Results: VLT_DONE, VLT_KIND, VLT_SAME_SLOT, VLT_LIBRARY, VLT_ERROR_PRECISION_ZERO, VLT_ERROR_PRECISION_TOO_LARGE,
 * VLT_ERROR_SCALE_TOO_LARGE, VLT_ERROR_SCALE_ABOVE_PRECISION, VLT_ERROR_MAP_KEY_NULLABLE,
 * VLT_ERROR_UNION_TYPES_LENGTH, VLT_ERROR_UNION_TAGS_LENGTH, VLT_ERROR_UNION_EMPTY, VLT_ERROR_UNION_TAGS_REPEAT,
 * VLT_ERROR_UNION_NAMES_REPEAT, VLT_ERROR_MESSAGE_TYPE_MISSING, VLT_ERROR_MESSAGE_PRIMITIVE_NUMBER,
 * VLT_ERROR_MESSAGE_PRECISION_RANGE, VLT_ERROR_MESSAGE_SCALE_RANGE, VLT_ERROR_MESSAGE_LIST_ELEMENT_MISSING,
 * VLT_ERROR_MESSAGE_FIXED_ELEMENT_MISSING, VLT_ERROR_MESSAGE_MAP_KEY_MISSING, VLT_ERROR_MESSAGE_MAP_VALUE_MISSING,
 * VLT_ERROR_MESSAGE_STRUCT_LENGTHS, VLT_ERROR_MESSAGE_TYPE_ID_RANGE, VLT_ERROR_MESSAGE_STORAGE_MISSING or
 * VLT_ERROR_MESSAGE_EXTENSION_UNREGISTERED. */
VLT_MUST_USE vlt_result vlt_message_to_dtype(
        const vlt_message *message, bool allow_unknown, vlt_dtype *out, vlt_error *error);

/* Stores in `out` the normal form of the message. If a message describes a type, its normal form is the message that
 * `vlt_dtype_to_message` makes of this type. It has every child, flag and number, and the metadata of each extension,
 * even if the metadata is empty. `allow_unknown` and the errors are those of `vlt_message_to_dtype`.
 *
 * Results: VLT_DONE, VLT_KIND, VLT_SAME_SLOT, VLT_LIBRARY, VLT_ERROR_PRECISION_ZERO, VLT_ERROR_PRECISION_TOO_LARGE,
 * VLT_ERROR_SCALE_TOO_LARGE, VLT_ERROR_SCALE_ABOVE_PRECISION, VLT_ERROR_MAP_KEY_NULLABLE,
 * VLT_ERROR_UNION_TYPES_LENGTH, VLT_ERROR_UNION_TAGS_LENGTH, VLT_ERROR_UNION_EMPTY, VLT_ERROR_UNION_TAGS_REPEAT,
 * VLT_ERROR_UNION_NAMES_REPEAT, VLT_ERROR_MESSAGE_TYPE_MISSING, VLT_ERROR_MESSAGE_PRIMITIVE_NUMBER,
 * VLT_ERROR_MESSAGE_PRECISION_RANGE, VLT_ERROR_MESSAGE_SCALE_RANGE, VLT_ERROR_MESSAGE_LIST_ELEMENT_MISSING,
 * VLT_ERROR_MESSAGE_FIXED_ELEMENT_MISSING, VLT_ERROR_MESSAGE_MAP_KEY_MISSING, VLT_ERROR_MESSAGE_MAP_VALUE_MISSING,
 * VLT_ERROR_MESSAGE_STRUCT_LENGTHS, VLT_ERROR_MESSAGE_TYPE_ID_RANGE, VLT_ERROR_MESSAGE_STORAGE_MISSING or
 * VLT_ERROR_MESSAGE_EXTENSION_UNREGISTERED. */
VLT_MUST_USE vlt_result vlt_message_normal(
        const vlt_message *message, bool allow_unknown, vlt_message *out, vlt_error *error);

/* Stores in `out` the message that the nodes and the bytes of the texts describe. If they don't describe one, the
 * first fault that is met in the order of the nodes is returned: VLT_UTF8 if a name or an id isn't UTF-8, VLT_DEEP if
 * a message is nested in more than 128 others, and VLT_RANGE if a node isn't one that a message has at its place, if
 * nodes or bytes end too early, or if some are left.
 *
 * Results: VLT_DONE, VLT_UTF8, VLT_DEEP, VLT_RANGE or VLT_LIBRARY. */
VLT_MUST_USE vlt_result vlt_message_from_nodes(
        const vlt_node *nodes, size_t nodes_len, const uint8_t *texts, size_t texts_len, vlt_message *out);

/* Writes the nodes of the message to the front of `nodes`, the bytes of its texts to the front of `texts`, and the
 * numbers of both to `node_count` and `text_length`. If one of the two buffers is too small, the call returns
 * VLT_SMALL and writes only the two numbers. It returns VLT_DEEP if a message is nested in more than 128 others, and
 * otherwise VLT_RANGE if a number of names, tags, types or bytes of a text is above 2^32 - 1.
 *
 * Nodes and texts are plain bytes, so another thread can read them.
 *
 * Results: VLT_DONE, VLT_KIND, VLT_DEEP, VLT_SMALL, VLT_RANGE or VLT_LIBRARY. */
VLT_MUST_USE vlt_result vlt_message_to_nodes(
        const vlt_message *message, vlt_node *nodes, size_t nodes_len, size_t *node_count, uint8_t *texts,
        size_t texts_len, size_t *text_length);


/* == Errors == */

/* Writes a text for the result `code` to `buffer`. For a result from 0 to 10 the text is what the result means, for
 * example `a text is not UTF-8` for 3. For a result from VLT_LIBRARY to VLT_ERROR_MESSAGE_PATH_PART_MISSING it is the
 * name of the library's error, for example `FieldNotFound` for VLT_ERROR_FIELD_NOT_FOUND. Returns VLT_RANGE if `code`
 * is another number.
 *
 * Results: VLT_DONE, VLT_SMALL or VLT_RANGE. */
VLT_MUST_USE vlt_result vlt_error_text(uint32_t code, uint8_t *buffer, size_t buffer_len, size_t *length);

/* Writes the number of the library's error to `number`. It is from 0 to 36, and 100 less than the result of the call
 * that stored the error. For example, it is 9 if the key type of a map is nullable. Returns VLT_NONE if the error is
 * that a text can't be read, that a type is nested too deeply, or that a type isn't one of Arrow's or the reverse,
 * which are no errors of the library, and VLT_KIND if the slot contains no error.
 *
 * Results: VLT_DONE, VLT_NONE or VLT_KIND. */
VLT_MUST_USE vlt_result vlt_error_number(const vlt_error *error, uint32_t *number);

/* Writes to `position` at which byte of a text the error is, counted from 1. The position is one more than the length
 * of the text if the text ends too early. Returns VLT_NONE if the error isn't about a place in a text, because it is
 * one of the library or is about a schema of Arrow, and VLT_KIND if the slot contains no error.
 *
 * Results: VLT_DONE, VLT_NONE or VLT_KIND. */
VLT_MUST_USE vlt_result vlt_error_position(const vlt_error *error, size_t *position);

/* Writes the message of the error to `buffer`. For an error of the library it is the library's own text, for example
 * `index 9 out of bounds for struct with 2 fields`. If a text can't be read, it states what was expected at the
 * position of the error, for example `expected a type, not "int32"; nearest: i32`. For a schema of Arrow it names the
 * field, for example `column "a": the Arrow format "tdX" has no type here`, and if the library refuses the type of the
 * field, the library's own text follows. Returns VLT_KIND if the slot contains no error.
 *
 * Results: VLT_DONE, VLT_KIND, VLT_SMALL, VLT_RANGE or VLT_LIBRARY. */
VLT_MUST_USE vlt_result vlt_error_message(const vlt_error *error, uint8_t *buffer, size_t buffer_len, size_t *length);
/* end of what tools/bindings writes */

/* Returns the name of the argument that was wrong in the last call that returned VLT_KIND, VLT_UTF8, VLT_CONDITION,
 * VLT_SAME_SLOT or VLT_RANGE, as it is declared here: for example "element" if vlt_dtype_list returned VLT_KIND. Of two
 * slots that are the same, or have the same object, it is the second. If no call has returned such a result, it returns
 * null. The string isn't freed. */
const char *vlt_wrong_argument(void);


/* == Types from and to Arrow == */

/* Arrow's C data interface: structs in which libraries pass types and data to one another. Libraries that use them declare
 * them in the same way behind the same guard. If another header declares them without it, as that of GDAL 3.6 does, then
 * include that one first, and define ARROW_C_DATA_INTERFACE before this header. This library uses only the first struct. */
#ifndef ARROW_C_DATA_INTERFACE
#define ARROW_C_DATA_INTERFACE

#define ARROW_FLAG_DICTIONARY_ORDERED 1
#define ARROW_FLAG_NULLABLE 2
#define ARROW_FLAG_MAP_KEYS_SORTED 4

struct ArrowSchema {
    const char *format;
    const char *name;
    const char *metadata;
    int64_t flags;
    int64_t n_children;
    struct ArrowSchema **children;
    struct ArrowSchema *dictionary;
    void (*release)(struct ArrowSchema *);
    void *private_data;
};

struct ArrowArray {
    int64_t length;
    int64_t null_count;
    int64_t offset;
    int64_t n_buffers;
    int64_t n_children;
    const void **buffers;
    struct ArrowArray **children;
    struct ArrowArray *dictionary;
    void (*release)(struct ArrowArray *);
    void *private_data;
};

#endif

/* Stores in `out` the type of an Arrow field, whose name is ignored. The type of a table is the one of its schema, which is
 * a struct of the columns. A type is nullable if its field has the flag for that, which most fields have. For example, the
 * format `i` with the flag is `i32?`.
 *
 * The call only reads the struct, whose owner releases it, then or later. It reads nothing but the struct, its strings,
 * as many numbers and texts of its metadata as the metadata counts, and as many children as it counts. It can't test that
 * these are there.
 *
 * Returns VLT_ARROW if the field isn't one, if it has no type here, or if its type can't be one of this library for a reason
 * that has no number of its own. Returns VLT_DEEP if the type has more than 128 levels, VLT_ERROR_PRECISION_ZERO to
 * VLT_ERROR_SCALE_ABOVE_PRECISION for a decimal that the library refuses, VLT_ERROR_MAP_KEY_NULLABLE for a map whose key is
 * nullable, and one of the VLT_ERROR_UNION_.. below for a union that the library refuses. In all these cases `error` has a
 * message that begins with the path of the field, for example `column "a.item": the Arrow format "tdX" has no type here`, or
 * `column "m": map key dtype must be non-nullable`. Returns VLT_RANGE if `schema` is null.
 *
 * Results: VLT_DONE, VLT_DEEP, VLT_SAME_SLOT, VLT_RANGE, VLT_ARROW, VLT_LIBRARY, VLT_ERROR_PRECISION_ZERO,
 * VLT_ERROR_PRECISION_TOO_LARGE, VLT_ERROR_SCALE_TOO_LARGE, VLT_ERROR_SCALE_ABOVE_PRECISION,
 * VLT_ERROR_MAP_KEY_NULLABLE, VLT_ERROR_UNION_TAGS_LENGTH, VLT_ERROR_UNION_EMPTY, VLT_ERROR_UNION_TAGS_REPEAT or
 * VLT_ERROR_UNION_NAMES_REPEAT. */
VLT_MUST_USE vlt_result vlt_dtype_from_arrow(const struct ArrowSchema *schema, vlt_dtype *out, vlt_error *error);

/* Writes the type as an Arrow field with an empty name to `out`. Its `release` has to be called once, on any thread, also
 * while another thread is in a call of the library. If the call doesn't return VLT_DONE, `out` is unchanged. What `out`
 * contained before isn't released, so it may be uninitialised.
 *
 * Each struct in the field owns its own strings, so a child may be moved out and released after its parent.
 * `vlt_dtype_from_arrow` makes the same type of it.
 *
 * Returns VLT_ARROW if a part of the type can't be written: `variant`, an extension whose storage type is another extension
 * (unless that one is a date, a time, a timestamp, a duration or an interval), a union with a tag above 127, a fixed-size list
 * longer than 2^31 - 1, metadata that is longer, and a name, an id or a time zone with a zero byte. Returns VLT_DEEP if the type
 * has more than 128 levels. In both cases `error` has a message that begins with the path of the part. Returns VLT_KIND if the
 * slot has no type, and VLT_RANGE if `out` is null.
 *
 * Results: VLT_DONE, VLT_KIND, VLT_DEEP, VLT_SAME_SLOT, VLT_RANGE, VLT_ARROW or VLT_LIBRARY. */
VLT_MUST_USE vlt_result vlt_dtype_to_arrow(const vlt_dtype *dtype, struct ArrowSchema *out, vlt_error *error);

/* Moves the Arrow field to a new capsule of Python with the name `arrow_schema`, and returns the capsule as a new reference
 * (a `PyObject *`). When Python drops the capsule, a function of this library releases the field, unless a consumer has moved
 * it out. The caller must hold the interpreter's lock. Returns null, and leaves the field as it is, if memory ran out, or
 * if the process has no functions of Python. */
void *vlt_arrow_capsule(struct ArrowSchema *schema);

#ifdef __cplusplus
}
#endif

#endif
