#!/bin/sh
# SPDX-License-Identifier: Apache-2.0
# SPDX-FileCopyrightText: Copyright the Vortex contributors

# Runs the tests of the counted pointer, and of allocations that fail, under valgrind. Memcheck sees what is used after it
# was freed, what is freed twice and what is never freed, and helgrind sees races of threads. The arguments are options of
# cargo, for example `--offline`. Without valgrind nothing is run, and a line says so.
set -eu
cd "$(dirname "$0")/.."

if ! command -v valgrind >/dev/null; then
    echo 'valgrind.sh: skipped, because valgrind is missing'
    exit 0
fi

# Builds a test, and prints the path of its program.
program() {
    name=$1
    shift
    cargo "$@" test --quiet --no-run --test "$name" --message-format=json |
        sed -n '/"kind":\["test"\]/s/.*"executable":"\([^"]*\)".*/\1/p'
}

# Runs a program under a tool of valgrind. An error of either is one of this script.
check() {
    tool=$1
    shift
    valgrind --quiet --error-exitcode=9 --tool="$tool" "$@"
    echo "valgrind.sh: $tool has no error"
}

threads=$(program threads "$@")
rattle_std=$(program rattle_std "$@")
leaks='--leak-check=full --show-leak-kinds=definite,indirect --errors-for-leak-kinds=definite,indirect'
# shellcheck disable=SC2086
check memcheck $leaks "$threads"
check helgrind --suppressions=tests/helgrind.supp "$threads"
# shellcheck disable=SC2086
check memcheck $leaks "$rattle_std" --quiet --test-threads=1
