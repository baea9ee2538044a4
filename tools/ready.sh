#!/bin/sh
# Looks for what the library's build needs, before anything is proved, and says in one sentence what is missing: a C compiler, and
# rt of the kit that the proofs were written for. tools/ready.sh compiler: the compiler alone, where a library is at hand.
# CORBELNIB_KIT, if set, is the kit to take instead, as `rt version` prints it; nothing that the papers say holds for another.
set -eu
kit=${CORBELNIB_KIT:-rattle-kit-13f logic dac8208d650f15bf}

missing() {
    echo "corbelnib cannot be built: $1" >&2
    exit 69
}

compiler=${CC:-cc}
command -v "${compiler%% *}" > /dev/null || missing "the C compiler \`${compiler%% *}\` is not found; CC names another."
[ "${1:-}" != compiler ] || exit 0
[ "$(uname -m)" = x86_64 ] || missing "the kit proves and compiles on x86-64 alone, and this machine is $(uname -m)."
command -v rt > /dev/null ||
    missing "\`rt\`, which proves and compiles the library, is not in PATH; it comes with the kit '$kit'."
found=$(rt version 2>&1) || missing "\`rt version\` fails: $found"
[ "$found" = "$kit" ] || missing "\`rt\` is of the kit '$found', and the proofs are for '$kit'."
