#!/bin/sh
# Prints the folder with the libcorbelnib.a to link: CORBELNIB_ARCHIVE if it is set, which is taken as it is, else target/command, where `make`
# has put it. It is proved and built there if it is missing or its sources are newer, and not otherwise.
set -eu
if [ -n "${CORBELNIB_ARCHIVE:-}" ]; then
    cd "$CORBELNIB_ARCHIVE"
    pwd
    exit
fi
cd "$(dirname "$0")/.."
make -s target/command/libcorbelnib.a >&2
echo "$(pwd)/target/command"
