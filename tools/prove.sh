#!/bin/sh
# Proves and builds the library as tools/archive.sh does, and prints the same folder; how far it has come is told on standard error, a line
# for each crate that had to be proved, with its seconds. What rt says goes to target/proving.log, and its end is shown if it fails.
set -eu
cd "$(dirname "$0")/.."
crates=$(sh tools/reached.sh corbelnib_c | wc -l)
total=$((crates + 1))
mkdir -p target
log=target/proving.log
failed=target/proving.failed
rm -f "$failed"
: > "$log"
echo "$total crates are proved before the library is built: that takes long the first time, later only what has changed." >&2

# A line for each crate, from what rt says: that it takes a crate up, and at its end the verdict.
told() {
    began=$(date +%s)
    number=0 crate='' since=$began
    while IFS= read -r line; do
        printf '%s\n' "$line" >> "$log"
        case $line in
        'rt: chose --jobs '*' for '*) crate=${line##* } since=$(date +%s) ;;
        'logic=proved '*)
            [ -n "$crate" ] || continue
            number=$((number + 1))
            echo "$crate is proved, $(($(date +%s) - since)) s; it is number $number of at most $total"
            crate=''
            ;;
        'logic='*) echo "${crate:-corbelnib_c} NOT PROVED" ;;
        'tools/archive.sh: target/staticlib/'*) echo "corbelnib_c is proved, and the library is built; all took $(($(date +%s) - began)) s" ;;
        esac
    done
}

{ { PYTHONUNBUFFERED=1 sh tools/archive.sh 2>&1 >&3 3>&- || echo "status $?" > "$failed"; } | told >&2; } 3>&1
if [ -e "$failed" ]; then
    tail -n 30 "$log" >&2
    echo "the library was not built ($log has all that rt said)" >&2
    exit 1
fi
