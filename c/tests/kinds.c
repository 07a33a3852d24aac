// SPDX-License-Identifier: Apache-2.0
// SPDX-FileCopyrightText: Copyright the Vortex contributors

/* A program that can be compiled, and in which each number of MIXED makes one mistake that a compiler has to refuse:
 *
 *     cc -DMIXED=3 -Wall -Werror -fsyntax-only kinds.c */
#include "../vortex_logical_types.h"

#ifndef MIXED
#define MIXED 0
#endif

int main(void) {
    vlt_dtype dtype = VLT_EMPTY, found = VLT_EMPTY, several[2] = {VLT_EMPTY, VLT_EMPTY};
    vlt_path path = VLT_EMPTY;
    vlt_path_set set = VLT_EMPTY;
    vlt_result result = vlt_path_resolve(&dtype, &path, &found);
    const vlt_dtype *read = &dtype;
    bool answer = false;
    (void)several, (void)set, (void)read, (void)answer;
#if MIXED == 1 /* two objects in the wrong order */
    result = vlt_path_resolve(&path, &dtype, &found);
#elif MIXED == 2 /* a result in a slot of another kind */
    result = vlt_path_resolve(&dtype, &path, &path);
#elif MIXED == 3 /* a set in place of a path */
    result = vlt_set_contains(&set, &set, &answer);
#elif MIXED == 4 /* types in place of paths */
    size_t count = 0;
    result = vlt_set_extend(&set, several, 2, &count);
#elif MIXED == 5 /* an object of one kind that is dropped as one of another */
    vlt_dtype_free(&path);
#elif MIXED == 6 /* a slot without its kind */
    result = vlt_dtype_copy(&dtype.slot, &found);
#elif MIXED == 7 /* a result in a slot that is only read */
    result = vlt_dtype_null(read);
#elif MIXED == 8 /* a result that isn't looked at */
    vlt_dtype_copy(&dtype, &found);
#elif MIXED == 9 /* a type in place of the fields of which it is to be made */
    result = vlt_dtype_struct(&dtype, false, &found);
#elif MIXED > 9
#error there are nine mistakes
#endif
    return result == VLT_KIND ? 0 : 1;
}
