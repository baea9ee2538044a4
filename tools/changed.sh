#!/bin/sh
# Proves the crates that changed and what stands on them, tries the must-fail edits of just those that changed, and tells the seconds of each:
#     sh tools/changed.sh           changed since the branch left main; what is not committed counts
#     sh tools/changed.sh COMMIT    changed since that commit
# What is proved already as it stands is not proved again. For work between two gates; the verdict is that of `bash .ci/run`.
set -eu
cd "$(dirname "$0")/.."
base=$(git merge-base "${1:-main}" HEAD)
room=$(mktemp -d)
trap 'rm -rf "$room"' EXIT

# What a crate stands on, as a crates.txt has it.
line_of() { # CRATE < crates.txt
    sed -n "s/^$1\( [^:]*\)\{0,1\}: *//p"
}

git show "$base:crates.txt" > "$room/crates.then"
{ git diff --no-renames --name-only "$base" -- crates; git ls-files --others --exclude-standard -- crates; } > "$room/files"
changed=
edited=
for crate in $(sed -n 's/^\([a-z_]*\)[^#:]*:.*/\1/p' crates.txt); do
    if grep "^crates/$crate/" "$room/files" | grep -qv "^crates/$crate/must-fail/" ||
        ! grep -q "^${crate}[ :]" "$room/crates.then" || [ "$(line_of "$crate" < crates.txt)" != "$(line_of "$crate" < "$room/crates.then")" ]; then
        changed="$changed $crate"
        edited="$edited $crate"
    elif grep -q "^crates/$crate/must-fail/" "$room/files"; then
        edited="$edited $crate"
    fi
done

# These crates and all that stand on them.
with_those_above() { # CRATE..
    awk -v those="$*" '
        BEGIN { n = split(those, a, " "); for (i = 1; i <= n; i++) in_it[a[i]] = 1 }
        /^[a-z_]+[^#:]*:/ { name = $1; sub(/:.*/, "", name); order[++count] = name; sub(/^[^:]*: */, ""); deps[name] = $0 }
        END {
            do {
                more = 0
                for (i = 1; i <= count; i++) {
                    n = split(deps[order[i]], a, " ")
                    for (k = 1; k <= n && !(order[i] in in_it); k++) if (a[k] in in_it) { in_it[order[i]] = 1; more = 1 }
                }
            } while (more)
            for (i = 1; i <= count; i++) if (order[i] in in_it) print order[i]
        }' crates.txt
}

# Runs rt in a folder, keeps what it says, shows what it says of errors, and tells the seconds.
seconds() { # FOLDER WHAT COMMAND..
    folder=$1 what=$2 began=$(date +%s)
    shift 2
    ended=0
    (cd "$folder" && rt "$@") > "$room/said" 2>&1 || ended=$?
    grep -E '^rt: .*(did not|FAILED|passed|BAD EDIT|NOT REFUSED|NOT TRIED)|error|not proved|no proof|could not tell' "$room/said" || true
    echo "$what: status $ended, $(($(date +%s) - began)) s"
    return "$ended"
}

if [ -z "$edited" ]; then
    echo "no crate has changed since $base"
    exit
fi
# shellcheck disable=SC2046,SC2005,SC2086 # lines made one line of words
above=$(echo $(with_those_above $changed))
echo "changed:${changed:- none}"
echo "proved anew where need be: ${above:-none}"
status=0
for crate in $above; do
    seconds "crates/$crate" "proof of $crate" check || status=1
done
echo "edits of:$edited"
tried=
for crate in $edited; do
    [ ! -d "crates/$crate/must-fail" ] || tried="$tried $crate"
done
# shellcheck disable=SC2086 # names of crates
[ -z "$tried" ] || seconds . edits must-fail $tried || status=1
exit "$status"
