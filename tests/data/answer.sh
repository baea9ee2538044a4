# shellcheck shell=sh
# Prints an answer in JSON with what it needs: answer.sh BOARD BUDGET CAPACITY PARTIAL ANSWER POPS [RECORD..]
# BOARD is an image, a record 2,0,3,1,211; HAND is the hand's number, or null; other members come from MORE.
board=$(corbelnib judge "$1" --memory 38 --budget 0 --json | sed -n 's/.*"board": \("[0-9a-f]*"\).*/\1/p')
version=$(corbelnib --version | sed -n 's/^corbelnib //p')
printf '{"version": "%s", "hand": %s, "board": %s, "budget": %s, "capacity": %s, "partial": %s,\n "answer": %s, "pops": %s, %s"list": [' \
    "$version" "${HAND:-null}" "$board" "$2" "$3" "$4" "$5" "$6" "${MORE:+$MORE, }"
shift 6
comma=
for record; do
    printf '%s{"record": [%s]}' "$comma" "$record"
    comma=', '
done
printf ']}\n'
