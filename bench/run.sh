#!/bin/sh
# Measures our search beside the original Rust's: bench/run.sh SOURCES [NAME=NUMBER..]; --help tells more (usage.txt).
set -eu
here=$(cd "$(dirname "$0")" && pwd)
# shellcheck source=../tools/beside.sh
. "$here/../tools/beside.sh"
cargo=${CARGO_TARGET_DIR:-$here/target}
built() { # FOLDER OPTION..
    folder=$1
    shift
    cargo build --release --quiet --manifest-path "$here/Cargo.toml" --target-dir "$cargo/$folder" "$@"
}
built time
built memory --features memory
if [ "${1:-}" = build ]; then
    exit
fi
"$cargo/time/release/bench" "$@"
"$cargo/memory/release/bench" "$@"
# instructions of one search of each, which do not depend on what else runs
if [ $# -eq 0 ] && command -v valgrind > /dev/null; then
    for side in bench_ours bench_theirs; do
        valgrind --tool=callgrind --callgrind-out-file=/dev/null "--toggle-collect=$side" \
            "$cargo/time/release/bench" first=4 budget=10000 once=1 2>&1 | sed -n "s/.*Collected : /$side, instructions: /p"
    done
fi
