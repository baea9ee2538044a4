#!/bin/sh
# Holds the C example to the header and to what it has to print. The compiler is ${CC:-cc}, and no warning is let through.
# tools/example.sh --compile: it is compiled against include/corbelnib.h; no library is needed.
# tools/example.sh: it is linked with the library (tools/library.sh) and run
# on board S (docs/SCOPE.md) and on refusals.
set -eu
cd "$(dirname "$0")/.."
CFLAGS="-Werror ${CFLAGS:-}"
export CFLAGS
if [ "${1:-}" = --compile ]; then
    # shellcheck disable=SC2086 # words of the compiler
    ${CC:-cc} -std=c11 -Wall -Wextra -pedantic $CFLAGS -I include -fsyntax-only examples/judge.c
    exit
fi

CORBELNIB_ARCHIVE=$(sh tools/library.sh)
export CORBELNIB_ARCHIVE
short=$(mktemp)
trap 'rm -f "$short"' EXIT
head -c 19 crates/oneboard/stdin > "$short"
status=0

prints() { # EXPECTED WORDS..
    expected=$1
    shift
    printed=$(sh examples/judge.sh "$@") || printed="$printed
and ended with status $?"
    if [ "$printed" != "$expected" ]; then
        printf 'examples/judge.c, asked for %s, printed\n%s\nand not\n%s\n' "$*" "$printed" "$expected" >&2
        status=1
    fi
}

s=crates/oneboard/stdin
# won after 2 pops, by the spade king's move home; the budget of one pop with and without a partial list
prints '0 2 1
2 0 3 1 211' "$s"
prints '3 1 0' "$s" 1
prints '5 1 1
2 0 3 1 211' "$s" 1 10 partial
# an image cut short, a budget over 1,000,000, scratch that holds no node
prints 10 "$short"
prints 20 "$s" 1000001
prints 22 "$s" 100 0
exit $status
