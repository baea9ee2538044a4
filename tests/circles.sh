#!/bin/sh
# No two modules of compare/ or bench/ stand on each other, whatever way round: tests/circles.sh (tsort names a circle).
set -eu
cd "$(dirname "$0")/.."

# `MODULE USED` for each use of a module by another, from the text without comments: crate::name, or names in crate::{..}. What is meant is
# found among the files; a line without either says itself twice, so that it is known.
uses() { # FOLDER
    for file in "$1"/*.rs; do
        name=${file##*/}
        name=${name%.rs}
        echo "$name $name"
        sed 's|//.*||' "$file" | tr '\n' ' ' | grep -o 'crate::[a-z_]*\|crate::{[^;]*' | tr -c 'a-z_\n' ' ' | tr ' ' '\n' |
            while IFS= read -r used; do
                [ "$used" = "$name" ] || [ -z "$used" ] || [ ! -f "$1/$used.rs" ] || echo "$name $used"
            done
    done
}

for folder in compare/src bench/src; do
    if ! told=$(uses "$folder" | tsort 2>&1 > /dev/null) || [ -n "$told" ]; then
        printf '%s has circles:\n%s\n' "$folder" "$told"
        exit 1
    fi
done
echo "circles: none among the modules of compare/ and bench/"
