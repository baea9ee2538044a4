#!/bin/sh
# The command's tests: tests/run.sh [--update] [NAME..], where NAME.case is a file of tests/cases; all of them if none is named.
# A case begins with a line `$ ..`, which a shell runs in tests/data with the command at hand as `corbelnib`. What has to come back
# follows: standard output with two spaces before each line, standard error with `! `, and the status in a line `= N`. Blank lines and
# lines that begin with # belong to no case. --update writes what came back into the files.
# The command's version stands there as VERSION.
# COMMAND is the command to test, target/command/corbelnib if it is not set. Cases of files named plain-.. are left out where SANITIZED is set,
# those named terminal.. where TERMINAL is not: the program of tests/terminal.c, which is at hand as `terminal`.
set -u
here=$(cd "$(dirname "$0")" && pwd)
command=${COMMAND:-$here/../target/command/corbelnib}
update=false
if [ "${1:-}" = --update ]; then
    update=true
    shift
fi
if [ $# -eq 0 ]; then
    for name in "$here"/cases/*.case; do
        name=${name##*/}
        set -- "$@" "${name%.case}"
    done
fi

scratch=$(mktemp -d)
trap 'rm -rf "$scratch"' EXIT
mkdir "$scratch/bin" "$scratch/tmp"
ln -s "$(cd "$(dirname "$command")" && pwd)/$(basename "$command")" "$scratch/bin/corbelnib"
if [ -n "${TERMINAL:-}" ]; then
    ln -s "$TERMINAL" "$scratch/bin/terminal"
fi
export PATH="$scratch/bin:$PATH" T="$scratch/tmp" LC_ALL=C TERM=dumb
unset NO_COLOR
cd "$here/data" || exit 1
version=$(corbelnib --version | sed -n 's/[.]/[.]/g; s/^corbelnib //p')

# Runs one line and prints it with what came back. A missing newline at the end of a stream is told.
came_back() { # LINE
    sh -c "$1" > "$scratch/out" 2> "$scratch/err" < /dev/null
    status=$?
    printf '$ %s\n' "$1"
    sed "s/$version/VERSION/; s/^/  /" "$scratch/out"
    [ -z "$(tail -c 1 "$scratch/out")" ] || printf '\n  (no newline at the end)\n'
    sed 's/^/! /' "$scratch/err"
    printf '= %s\n' "$status"
}

# All cases of a file, run: the file as it should be.
rerun() { # FILE
    while IFS= read -r line; do
        case $line in
        '$ '*) came_back "${line#'$ '}" ;;
        '  '* | '!'* | '= '*) ;;
        *) printf '%s\n' "$line" ;;
        esac
    done < "$1"
}

# Cases of a file that differ, by their number.
differing() { # EXPECTED CAME
    for file in "$1" "$2"; do
        awk -v folder="$file.split" 'BEGIN { system("mkdir -p \"" folder "\"") }
            /^\$ / { n++; f = folder "/" n }
            f != "" && !/^#/ && length($0) { print > f }' "$file"
    done
    for case in "$1.split"/*; do
        cmp -s "$case" "$2.split/${case##*/}" || printf '%s\n' "${case##*/}"
    done
}

passed=0
failed=0
for name; do
    file=$here/cases/$name.case
    case ${SANITIZED:+sanitized}$name in sanitizedplain-*) continue ;; esac
    case ${TERMINAL:-none}$name in noneterminal*) continue ;; esac
    rerun "$file" > "$scratch/came"
    if $update; then
        cat "$scratch/came" > "$file"
    fi
    cp "$file" "$scratch/expected"
    rm -rf "$scratch/expected.split" "$scratch/came.split"
    total=$(grep -c '^\$ ' "$file")
    bad=0
    for number in $(differing "$scratch/expected" "$scratch/came"); do
        bad=$((bad + 1))
        echo "$name, case $number:"
        diff "$scratch/expected.split/$number" "$scratch/came.split/$number"
    done
    passed=$((passed + total - bad))
    failed=$((failed + bad))
done
echo "$passed passed, $failed failed"
[ "$failed" -eq 0 ] && [ "$passed" -gt 0 ]
