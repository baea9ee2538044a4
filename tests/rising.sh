#!/bin/sh
# What `judge` says where it rises to its settings is what it says where it begins with them: tests/rising.sh FIRST LAST SETTINGS..
# COMMAND is the command, STRAIGHT the one that was linked with tests/straight.c in place of command/rise.c. SETTINGS are options of judge in
# one word, as '--budget 3000 --memory 8M'. JSON and text of the hands FIRST to LAST are compared byte for byte, and the status; where FORMS is
# set to json that alone, which takes half the time. Prints for each SETTINGS how often each answer came, and the seconds of both.
set -u
: "${COMMAND:?the command}" "${STRAIGHT:?the command that does not rise}"
first=${1:?the first hand} last=${2:?the last hand}
shift 2
forms=${FORMS:-json text}
scratch=$(mktemp -d)
trap 'rm -rf "$scratch"' EXIT
failed=0

# All hands by one command, into a file.
all() { # COMMAND SETTINGS FORM
    hand=$first
    while [ "$hand" -le "$last" ]; do
        # shellcheck disable=SC2086 # the settings are several words
        case $3 in
        json) "$1" judge "$hand" $2 --json ;;
        *) "$1" judge "$hand" $2 ;;
        esac
        echo "= $?"
        hand=$((hand + 1))
    done
}

for settings; do
    rose=0
    began=0
    for form in $forms; do
        begun=$(date +%s)
        all "$COMMAND" "$settings" "$form" > "$scratch/rising.$form" 2>&1
        between=$(date +%s)
        # shellcheck disable=SC2153 # from outside
        all "$STRAIGHT" "$settings" "$form" > "$scratch/straight.$form" 2>&1
        rose=$((rose + between - begun))
        began=$((began + $(date +%s) - between))
        if ! cmp "$scratch/rising.$form" "$scratch/straight.$form"; then
            failed=1
            diff "$scratch/rising.$form" "$scratch/straight.$form" | head -n 20
        fi
    done
    answers=$(sed -n 's/^  "answer": \([0-9]*\),/\1/p' "$scratch/straight.json" | sort -n | uniq -c |
        awk '{ printf "%s%s times %s", sep, $1, $2; sep = ", " }')
    if [ "$(grep -c '^  "answer": ' "$scratch/straight.json")" -ne $((last - first + 1)) ]; then
        echo "not every hand was answered"
        failed=1
    fi
    echo "hands $first to $last, ${settings:-as it is}: $answers; rising $rose s, straight $began s"
done
exit "$failed"
