#!/bin/sh
# Proves and builds the program `oneboard` and judges the board image in a file with it: tools/oneboard.sh FILE
set -eu
if [ $# -ne 1 ]; then
    echo "usage: $0 FILE" >&2
    exit 2
fi
image=$(realpath "$1")
cd "$(dirname "$0")/../crates/oneboard"
exec rt run < "$image"
