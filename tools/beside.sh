# What bench/run.sh and compare/run.sh share; each reads it with its own folder in `here` and its own words:
# --help prints usage.txt; else the first word is the original's folder, and both folders that build.rs reads are told to it.
# shellcheck shell=sh disable=SC2154 # here is the reader's
case ${1:-} in
--help)
    cat "$here/usage.txt"
    exit
    ;;
'')
    head -n 1 "$here/usage.txt" >&2
    exit 2
    ;;
esac
CORBELNIB_RUST=$(cd "$1" && pwd)
shift
CORBELNIB_ARCHIVE=$(sh "$here/../tools/library.sh")
export CORBELNIB_RUST CORBELNIB_ARCHIVE
