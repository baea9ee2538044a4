#!/bin/sh
# What is said in several places is the same: tests/papers.sh
#   every number of `enum corbelnib_told` and of docs/SCOPE.md has its words in include/corbelnib_says.h, the same as elsewhere;
#   the version is that of the header (or command/version.h), in --version and in what is installed;
#   every command of the table is in the man page and in the tests;
#   what C cannot have checked, and what a table has to know, stands where it is read.
set -u
root=$(cd "$(dirname "$0")/.." && pwd)
command=${COMMAND:-$root/target/command/corbelnib}
cd "$root" || exit 1
failed=0
wrong() {
    echo "$1"
    failed=$((failed + 1))
}

# name and number: of the header, and of the list
in_header=$(sed -n '/^enum corbelnib_told {/,/^};/s/^ *CORBELNIB_\([A-Z_]*\) = \([0-9]*\).*/\1 \2/p' include/corbelnib.h | grep -v '^DONE 0$' | sort)
in_list=$(sed -n 's/^    X(\([A-Z_]*\), \([0-9]*\), ".*").*/\1 \2/p' include/corbelnib_says.h | sort)
[ "$in_header" = "$in_list" ] || wrong "include/corbelnib_says.h has not the numbers of enum corbelnib_told"
in_scope=$(sed -n '/^## The numbers handed back/,/^## [^T]/s/^| \([0-9]*\) |.*/\1/p' docs/SCOPE.md | sort)
[ "$in_scope" = "$(printf '%s\n' "$in_list" | sed 's/.* //' | sort)" ] || wrong "include/corbelnib_says.h has not the numbers of docs/SCOPE.md"

# sentences that the header has too are the same there, and no sentence is written a second time in the command
while read -r name number; do
    sentence=$(sed -n "s/^    X($name, $number, \"\([^\"]*\)\").*/\1/p" include/corbelnib_says.h)
    quoted=$(sed -n "s/^ *CORBELNIB_$name = $number,* *\/\* \"\([^\"]*\)\".*/\1/p" include/corbelnib.h)
    [ -z "$quoted" ] || [ "$quoted" = "$sentence" ] || wrong "include/corbelnib.h: $name says something else than include/corbelnib_says.h"
    [ -z "$sentence" ] || ! grep -qF "\"$sentence\"" command/*.c || wrong "command/: '$sentence' is written a second time"
done << END
$in_list
END

version=$(sed -n 's/^#define CORBELNIB_VERSION "\(.*\)"/\1/p' include/corbelnib.h command/version.h | head -n 1)
[ "$("$command" --version | head -n 1)" = "corbelnib $version" ] || wrong "--version is not $version"

for name in $("$command" --help | sed -n 's/^  \([a-z]*\) .*/\1/p'); do
    grep -q "^.SS $name\$" command/corbelnib.1 || wrong "command/corbelnib.1: no section for $name"
    grep -q "^\\$ corbelnib $name --help\$" tests/cases/usage.case || wrong "tests/cases/usage.case: no help of $name"
    for option in $("$command" "$name" --help | sed -n 's/^  \(--[a-z]*\) .*/\1/p'); do
        grep -q "$(printf '%s' "$option" | sed 's/-/\\\\-/g')" command/corbelnib.1 || wrong "command/corbelnib.1: $name has $option"
    done
done
while read -r words; do
    grep -qF "$words" include/corbelnib.h || wrong "include/corbelnib.h does not say: $words"
done << 'END'
is written to other memory than the board's own
one sheet is not both of corbelnib_add
keep 0, 2 and 4 as they were, for one value of `partial`
A table that judges after each touch lends 1 MB
END
grep -qF '(cd crates/oneboard && rt try < stdin)' README.md || wrong "README.md does not show what oneboard prints"

[ "$failed" -eq 0 ] && echo "papers: the same everywhere"
[ "$failed" -eq 0 ]
