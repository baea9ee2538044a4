#!/bin/sh
# Solutions of another program: compare/fc-solve.sh SOURCES [NAME=NUMBER..], with words as in compare/run.sh. Hands 1 to 150 (players=300 goes
# on to 300) are solved by fc-solve, of Debian's package freecell-solver-bin; each text, its counts as we write them
# (compare/src/players.rs), is read, replayed to a won board and written back.
set -eu
for program in make-microsoft-freecell-board fc-solve; do
    if ! command -v "$program" > /dev/null; then
        echo "$program is not here; Debian's package freecell-solver-bin has it" >&2
        exit 2
    fi
done
sources=${1:?the folder solver-core-rs/src}
shift
exec sh "$(dirname "$0")/run.sh" "$sources" players "$@"
