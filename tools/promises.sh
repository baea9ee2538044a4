#!/bin/sh
# Holds docs/PROMISES.md to the code: each public function of the library is named in one of its tables of functions, and no other
# is. A function is CRATE::NAME, CRATE::MODULE::NAME or CRATE::TYPE::NAME, one for C its name alone, which is that of the library's function below it
# too (tools/boundary.sh); a name without a path that follows another in its cell has that one's path. And holds its laws to the proofs: each name in the column 'one result by', in the first column of
# the other tables (the second too for demands and requests) is declared in some crate's proofs/ or specs/ (`old_..` stands for all that begin so),
# and so is each name of several words anywhere that is no name of the code; each file of proofs or definitions that it names by a path is there.
# tools/promises.sh prints what differs and fails if anything does.
set -eu
cd "$(dirname "$0")/.."

# The functions of a file that others can call, with a path before each.
functions() { # PATH FILE
    awk -v path="$1" '
        /^impl / { type = $2 "::" }
        /^}/ { type = "" }
        /^pub extern "C" fn / { sub(/^pub extern "C" fn /, ""); sub(/[^a-z0-9_].*/, ""); print; next }
        /^ *pub fn / { sub(/^ *pub fn /, ""); sub(/[^a-z0-9_].*/, ""); print path type $0 }' "$2"
}

in_code() {
    for crate in $(sed -n '/^# Programs/q;s/^\([a-z_]*\)[a-z ]*:.*/\1/p' crates.txt) framed; do
        [ -f "crates/$crate/src/lib.rt" ] || continue
        path=$crate::
        [ "$crate" != corbelnib ] || path=
        functions "$path" "crates/$crate/src/lib.rt"
        for module in $(sed -n 's/^pub mod \([a-z_]*\);/\1/p' "crates/$crate/src/lib.rt"); do
            functions "$crate::$module::" "crates/$crate/src/$module.rt"
        done
    done
}

# The words in backquotes in the first column of the tables that are headed 'function'.
in_paper() {
    awk -F '|' '
        !/^\|/ { table = 0; next }
        $2 == " function " { table = 1; next }
        table {
            count = split($2, words, "`")
            path = ""
            for (i = 2; i <= count; i += 2) {
                print words[i] ~ /::/ ? words[i] : path words[i]
                if (match(words[i], /.*::/)) path = substr(words[i], 1, RLENGTH)
            }
        }' docs/PROMISES.md
}

# The names of laws.
laws() {
    awk -F '|' '
        function words(text, every,    count, list, i) {
            count = split(text, list, "`")
            for (i = 2; i <= count; i += 2)
                if (list[i] ~ (every ? "^[A-Za-z0-9._-]+$" : "^[A-Za-z0-9]+[_-][A-Za-z0-9._-]+$")) print (every ? "law " : "name ") list[i]
        }
        { words($0, 0) }
        !/^\|/ { head = ""; next }
        head == "" { head = $2; next }
        head == " function " { words($(NF - 1), 1); next }
        { words($2, 1) }
        head ~ /demand|request/ { words($3, 1) }' docs/PROMISES.md | LC_ALL=C sort -u
}

# What is declared in proofs and definitions: laws, definitions, records and their fields.
declared() {
    cat crates/*/proofs/*.antt crates/*/specs/*.antt |
        sed -n -E 's/^ *((unfoldable|abbrev|pub|record|data) )*([^ :({]+) ([:({].*|where)$/\3/p' | LC_ALL=C sort -u
}

# The files of proofs and definitions that are named by a path, which begins with their crate or above it.
files() {
    tr -c 'A-Za-z0-9_/.' '\n' <docs/PROMISES.md | sed -n -E 's/^(crates\/)?([a-z_]+\/(proofs|specs)\/[A-Za-z0-9_\/]+\.antt)\.?$/crates\/\2/p' | sort -u
}

# The words of the code: functions, fields and parameters, and crates.
coded() {
    cat crates/*/src/*.rt crates.txt | tr -c 'A-Za-z0-9_' '\n' | LC_ALL=C sort -u
}

status=0
all=$(declared)
code=$(coded)
laws | (
    while read -r kind name; do
        case $name in
        *_..) echo "$all" | grep -q "^${name%..}" && continue ;;
        *) echo "$all" | grep -qFx -e "$name" && continue ;;
        esac
        if [ "$kind" = name ] && echo "$code" | grep -qFx -e "$name"; then continue; fi
        echo "docs/PROMISES.md names $name, which no proof or definition declares" >&2
        status=1
    done
    exit $status
) || status=1
for file in $(files); do
    [ -f "$file" ] && continue
    echo "docs/PROMISES.md names $file, which is no file" >&2
    status=1
done
code=$(in_code | sort)
paper=$(in_paper | sort)
differing() { # THESE OTHERS
    { echo "$1" | sort -u; echo "$2"; echo "$2"; } | sort | uniq -u
}
for name in $(differing "$code" "$paper"); do
    echo "docs/PROMISES.md does not name $name" >&2
    status=1
done
for name in $(differing "$paper" "$code"); do
    echo "docs/PROMISES.md names $name, which is no public function" >&2
    status=1
done
for name in $(echo "$paper" | uniq -d); do
    echo "docs/PROMISES.md has $name twice" >&2
    status=1
done
exit $status
