#!/bin/sh
# Builds the library and the C example, and judges the board image in a file: examples/judge.sh FILE [BUDGET [NODES [partial]]]
# The library is the one that `make` has built, proved only if it is not there or its sources are newer; CORBELNIB_ARCHIVE, if set, is a folder
# with a libcorbelnib.a that is taken as it is. CFLAGS are more words for the compiler.
set -eu
root=$(cd "$(dirname "$0")/.." && pwd)
folder=$(sh "$root/tools/library.sh")
mkdir -p "$root/target"
# shellcheck disable=SC2086 # words of the compiler
${CC:-cc} -std=c11 -O2 -Wall -Wextra -pedantic ${CFLAGS:-} -I "$root/include" "$root/examples/judge.c" "$folder/libcorbelnib.a" \
    -o "$root/target/judge"
exec "$root/target/judge" "$@"
