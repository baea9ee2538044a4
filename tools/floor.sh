#!/bin/sh
# Holds crates.txt to the crates: each dependency that a line lists is one that the crate itself names, in code (`NAME::`) or in
# specs and proofs (`Rattle.NAME`).
set -eu
cd "$(dirname "$0")/.."
status=0
while read -r line; do
    case $line in ''|'#'*) continue ;; esac
    crate=${line%%:*}
    crate=${crate%% *}
    for dep in ${line#*:}; do
        if ! find "crates/$crate" -name out -prune -o \( -name '*.rt' -o -name '*.antt' \) \
            -exec grep -qE "Rattle\.$dep\.|(^|[^a-z_:])$dep::" {} +; then
            echo "crates.txt: $crate lists $dep and does not use it" >&2
            status=1
        fi
    done
done < crates.txt
exit $status
