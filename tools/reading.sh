#!/bin/sh
# Lists the files that have to be believed, each with its head line: those that say the demands and the requests, then what they and the
# contracts of the C functions import, in reading order, then the types of the code that they name.
# tools/reading.sh prints the list; tools/reading.sh --check fails if docs/READING.md does not hold it.
set -eu
cd "$(dirname "$0")/.."

# the modules of specs/ that a file names, as CRATE/MODULE (CRATE/declared.TYPE for a type of the code), but for those of the kit's libraries
imports() { # FILE
    sed -n 's/^\(ghost \)\{0,1\}use Rattle\.\([a-z_]*\)\.specs\.\(declared\.[A-Za-z0-9]*\).*/\2\/\3/p
        s/^\(ghost \)\{0,1\}use Rattle\.\([a-z_]*\)\.specs\.\([A-Z][A-Za-z0-9]*\).*/\2\/\3/p' "$1" |
        while IFS= read -r module; do
            [ ! -d "crates/${module%%/*}" ] || echo "$module"
        done
}

seen=" "
todo=$(imports crates/corbelnib/src/lib.rt
    for file in crates/demands/specs/*.antt; do
        name=${file##*/}
        [ "$name" = Lib.antt ] || echo "demands/${name%.antt}"
    done)
while [ -n "$todo" ]; do
    next=
    for module in $todo; do
        case $seen in *" $module "*) continue ;; esac
        seen="$seen$module "
        case $module in
        */declared.*) ;;
        *) next="$next $(imports "crates/${module%/*}/specs/${module#*/}.antt")" ;;
        esac
    done
    # shellcheck disable=SC2086,SC2116 # blanks around the names are dropped
    todo=$(echo $next)
done

# the files of a crate that were found, each with its head line
files() { # CRATE
    for name in $(sed -n 's/^pub mod //p' "crates/$1/specs/Lib.antt" 2>/dev/null); do
        case $seen in
        *" $1/$name "*) echo "- crates/$1/specs/$name.antt: $(sed -n '1s/^-- //p' "crates/$1/specs/$name.antt")" ;;
        esac
    done
}

crates=$(sed -n 's/^\([a-z_]*\)[a-z ]*:.*/\1/p' crates.txt)

# first what says the demands and the requests, over calls through C; then the words that these are written in; then types of the code
list() {
    echo "### The demands, the requests, and the calls that they speak of"
    echo
    files corbelnib | grep '/Calls\.antt:'
    files demands
    echo
    echo "### Their glossary, in reading order"
    echo
    for crate in $crates; do
        [ "$crate" = demands ] || files "$crate" | grep -v '^- crates/corbelnib/specs/Calls\.antt:'
    done
    echo
    echo "### Types of the code that they name"
    echo
    for crate in $crates; do
        types=$(for module in $seen; do echo "$module"; done | sed -n "s/^$crate\/declared\.//p" | sort | tr '\n' ' ')
        [ -z "$types" ] || echo "- crates/$crate/src: ${types% }"
    done
}

if [ "${1:-}" != --check ]; then
    list
    exit
fi
paper=$(sed -n '/^<!-- tools\/reading.sh -->$/,/^<!-- end -->$/p' docs/READING.md | sed '1d;$d')
if [ "$paper" != "$(list)" ]; then
    echo "docs/READING.md does not hold what tools/reading.sh lists" >&2
    exit 1
fi
