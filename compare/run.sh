#!/bin/sh
# Compares our library with the original Rust: compare/run.sh SOURCES [WORK..] [NAME=NUMBER..]; --help tells more (usage.txt).
set -eu
here=$(cd "$(dirname "$0")" && pwd)
# shellcheck source=../tools/beside.sh
. "$here/../tools/beside.sh"
exec cargo run --release --quiet --manifest-path "$here/Cargo.toml" -- "$@"
