#!/bin/sh
# Fuzzes the command's readers with AFL++ for some seconds: tests/fuzz.sh SECONDS
# Needs afl-clang-fast and afl-fuzz, and CORBELNIB_ARCHIVE, a folder with libcorbelnib.a (tools/archive.sh prints one). What is found lies in
# target/fuzz. Prints how many inputs were tried; a crash or a hang fails.
set -eu
root=$(cd "$(dirname "$0")/.." && pwd)
seconds=${1:?how many seconds}
archive=${CORBELNIB_ARCHIVE:?a folder with libcorbelnib.a}/libcorbelnib.a
folder=$root/target/fuzz
rm -rf "$folder"
mkdir -p "$folder"
cd "$root"
sources=$(find command -name '*.c' ! -name main.c)
# shellcheck disable=SC2086 # names of files of ours
AFL_QUIET=1 AFL_USE_ASAN=1 AFL_USE_UBSAN=1 afl-clang-fast -std=gnu11 -g -O2 -I include tests/fuzz_read.c tests/read_all.c $sources \
    "$archive" -o "$folder/fuzz_read"
export AFL_SKIP_CPUFREQ=1 AFL_NO_AFFINITY=1 AFL_I_DONT_CARE_ABOUT_MISSING_CRASHES=1 AFL_NO_UI=1 AFL_QUIET=1
afl-fuzz -V "$seconds" -t 1000 -m none -x tests/fuzz.dict -i tests/seeds -o "$folder/found" -- "$folder/fuzz_read" > "$folder/said" 2>&1 || {
    tail -n 20 "$folder/said" >&2
    exit 1
}
stats=$folder/found/default/fuzzer_stats
value() { sed -n "s/^$1  *: //p" "$stats"; }
crashes=$(value saved_crashes)
hangs=$(value saved_hangs)
echo "$(value execs_done) inputs in $(value run_time) seconds, $(value corpus_count) kept, $(value edges_found) edges of $(value total_edges); $crashes crashes, $hangs hangs"
[ "$crashes" -eq 0 ] && [ "$hangs" -eq 0 ]
