#!/bin/sh
# The library's answers beside those of the original: tests/oracles.sh FOLDER, where the oracle_ programs are built. Each reads NAME.in of
# tests/oracles and has to write NAME.out.
set -u
folder=$1
here=$(cd "$(dirname "$0")" && pwd)
came=$(mktemp)
trap 'rm -f "$came"' EXIT
status=0
for expected in "$here"/oracles/*.out; do
    name=$(basename "$expected" .out)
    if ! "$folder/$name" < "$here/oracles/$name.in" > "$came"; then
        echo "$name failed after line $(wc -l < "$came")"
        status=1
    elif ! cmp -s "$expected" "$came"; then
        echo "$name: lines differ (expected <, came >):"
        diff -a "$expected" "$came" | head -n 6
        status=1
    else
        echo "$name: $(wc -l < "$came") lines as expected"
    fi
done
exit $status
