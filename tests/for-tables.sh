#!/bin/sh
# The programs of docs/FOR-TABLES.md: each block of C is compiled and run, and has to print the block of text after it.
# CORBELNIB_ARCHIVE is the folder with libcorbelnib.a (target/command unless it is set), CC the compiler.
set -eu
root=$(cd "$(dirname "$0")/.." && pwd)
archive=${CORBELNIB_ARCHIVE:-$root/target/command}
folder=$(mktemp -d)
trap 'rm -rf "$folder"' EXIT
awk -v folder="$folder" '
    /^```c$/ { n++; to = folder "/" n ".c"; next }
    /^```text$/ { to = folder "/" n ".wanted"; next }
    /^```$/ { to = ""; next }
    to != "" { print > to }' "$root/docs/FOR-TABLES.md"
count=0
for program in "$folder"/*.c; do
    name=${program%.c}
    # shellcheck disable=SC2086 # words of the compiler
    ${CC:-cc} -std=c11 -Wall -Wextra -Werror -pedantic ${CFLAGS:--O1} -I "$root/include" "$program" "$archive/libcorbelnib.a" -o "$name"
    "$name" > "$name.printed"
    if ! diff "$name.wanted" "$name.printed"; then
        echo "docs/FOR-TABLES.md: program ${name##*/} prints something else"
        exit 1
    fi
    count=$((count + 1))
done
echo "docs/FOR-TABLES.md: $count programs print what stands under them"
