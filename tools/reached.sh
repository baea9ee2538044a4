#!/bin/sh
# Prints the crates that a crate stands on, by crates.txt, one to a line: tools/reached.sh CRATE
set -eu
cd "$(dirname "$0")/.."
awk -v crate="$1" '
    { sub(/#.*/, "") }
    /:/ { name = $1; sub(/:.*/, "", name); below = $0; sub(/^[^:]*:/, "", below); uses[name] = below }
    END {
        todo[count = 1] = crate
        for (k = 1; k <= count; k++) {
            n = split(uses[todo[k]], names, " ")
            for (i = 1; i <= n; i++)
                if (!(names[i] in seen)) {
                    seen[names[i]] = 1
                    todo[++count] = names[i]
                    print names[i]
                }
        }
    }' crates.txt
