#!/bin/sh
# Prints what each C call takes of the stack, in bytes (bench/stack.c). Needs a C compiler, and rt unless CORBELNIB_ARCHIVE names a folder
# with a libcorbelnib.a, which is then taken as it is.
set -eu
here=$(cd "$(dirname "$0")" && pwd)
CORBELNIB_ARCHIVE=$(sh "$here/../tools/library.sh")
program=$(mktemp)
trap 'rm -f "$program"' EXIT
# bound at once, so that no call pays for the linker's work
${CC:-cc} -O1 -Wl,-z,now -Wall -Wextra -I "$here/../include" "$here/stack.c" "$CORBELNIB_ARCHIVE/libcorbelnib.a" -o "$program"
"$program"
