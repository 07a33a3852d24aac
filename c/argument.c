// SPDX-License-Identifier: Apache-2.0
// SPDX-FileCopyrightText: Copyright the Vortex contributors

/* Which argument of a call was wrong. The other files of the layer keep its name here. */
#include "vortex_logical_types.h"

static const char *wrong_argument;

/* Keeps the name of an argument that is wrong, and returns the result that says so. */
__attribute__((visibility("hidden"))) vlt_result vlt_is_wrong(const char *name, vlt_result result);

vlt_result vlt_is_wrong(const char *name, vlt_result result) {
    wrong_argument = name;
    return result;
}

const char *vlt_wrong_argument(void) {
    return wrong_argument;
}
