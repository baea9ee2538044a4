#!/bin/sh
# Holds the functions that C can call against each other: the exports (crates/corbelnib_c/src/lib.rt), the library's functions of the same names
# (crates/corbelnib/src/lib.rt), the header's prototypes, and the list of which demand 1 speaks (crates/demands/specs/Demand1.antt). Each export
# calls the library's function with its own parameters and has its contract, word for word. Each contract is the promise of its own entry
# (crates/corbelnib/specs/Calls.antt), of its own parameters in their order. No function may ask anything of its caller. And the numbers that the
# header names: each is that of the answer or refusal of the same name in the code; and the version.
set -eu
cd "$(dirname "$0")/.."
code=crates/corbelnib_c/src/lib.rt
library=crates/corbelnib/src/lib.rt

# The heads of a file's functions, from `fn` to the result's type, one to a line.
heads() { # FILE
    awk '/^pub (extern "C" )?fn / { head = 1; text = ""; sub(/^pub (extern "C" )?fn /, "") }
        head { text = text " " $0 }
        head && /-> [a-z0-9]+/ { print text; head = 0 }' "$1" |
        sed 's/^ //
            s/( */(/
            s/, *)/)/
            s/  */ /g'
}

# Prototypes without the names of parameters, as C has them: from the code, where a slice is a pointer and a length ..
in_code() {
    heads "$code" |
        sed 's/^\([a-z_]*\)(\(.*\)) -> \([a-z0-9]*\).*/\3 \1(\2)/
            s/[a-z_]*: //g
            s/&mut \[\([a-z0-9]*\)\]/\1 *, usize/g
            s/&\[\([a-z0-9]*\)\]/const \1 *, usize/g
            s/&mut \([a-z0-9]*\)/\1 */g
            s/usize/size_t/g
            s/u8/uint8_t/g
            s/u32/uint32_t/g
            s/u64/uint64_t/g
            s/i64/int64_t/g' | sort
}

# .. and from the header.
in_header() {
    awk 'BEGIN { RS = ";" }
        {
            gsub(/[ \n]+/, " ")
            if (!match($0, /[a-z0-9_]+ corbelnib_[a-z_]+\([^()]*\)$/)) next
            text = substr($0, RSTART, RLENGTH - 1)
            open = index(text, "(")
            count = split(substr(text, open + 1), types, /, */)
            line = substr(text, 1, open)
            for (i = 1; i <= count; i++) {
                sub(/[a-z_]+$/, "", types[i])
                sub(/ +$/, "", types[i])
                line = line (i > 1 ? ", " : "") types[i]
            }
            print line ")"
        }' include/corbelnib.h | sort
}

# The exports as they stand, in one line each, and as they have to be, made from the library's heads and contracts: the same head and the
# same clauses, and a body that is one call.
exports() {
    awk '/^#\[unsafe\(no_mangle\)\]$/ { export = 1; text = "" }
        export { text = text " " $0 }
        export && /^}/ { print text; export = 0 }' "$code" |
        sed 's/  */ /g; s/^ //; s/( /(/g; s/, *)/)/g'
}
thin() {
    awk '/^pub fn / { head = 1; text = ""; sub(/^pub fn /, "") }
        head && /^{/ { print text; head = 0 }
        head { text = text " " $0 }' "$library" |
        sed 's/  */ /g; s/^ //; s/( /(/g; s/, *)/)/g' |
        awk '{
            name = $0; sub(/\(.*/, "", name)
            list = $0; sub(/^[^(]*\(/, "", list); sub(/\) -> .*/, "", list)
            gsub(/: [^,]*/, "", list)
            print "#[unsafe(no_mangle)] pub extern \"C\" fn " $0 " { corbelnib::" name "(" list ") }"
        }'
}

# The contracts, word for word without brackets: what is lent as it is left, the promise of the entry, what goes in, what is lent as it lay ..
contracts() { # FILE
    awk '/^pub (extern "C" )?fn corbelnib_/ { name = $0; sub(/.* fn /, "", name); sub(/^pub fn /, "", name); sub(/\(.*/, "", name) }
        /^fn / { name = "" }
        name != "" && /^    ensures / { print name, $0 }' "$1" |
        sed 's/ *ensures { / /
            s/ }$//
            s/[(),]/ /g
            s/ \(lends\|lent_of\|asks\|runs\)\( \|$\)/ /g
            s/ \(lends\|lent_of\|asks\|runs\)\( \|$\)/ /g
            s/  */ /g
            s/ $//'
}

# .. and as they have to be, made from the parameters.
promises() { # FILE
    heads "$1" |
        awk '{
            name = $0
            sub(/\(.*/, "", name)
            entry = substr(name, 11)
            list = $0
            sub(/^[^(]*\(/, "", list); sub(/\)[^)]*$/, "", list)
            count = split(list, one, ",")
            goes = ""; lay = ""; left = ""
            for (i = 1; i <= count; i++) {
                if (one[i] !~ /:/) continue
                split(one[i], part, ":")
                gsub(/ /, "", part[1])
                if (part[2] ~ /&mut/) { lay = lay " " part[1] ".old"; left = left " " part[1] ".new" }
                else if (part[2] ~ /&/) goes = goes " " part[1] ".now"
                else goes = goes " " part[1]
            }
            if (goes == "") goes = " tt"
            if (left == "") print name " result ≡ promise call." entry goes " tt .number"
            else print name " left result" left " ≡ promise call." entry goes lay
        }'
}

# The numbers of answers and refusals as the header would name them: NoCard = 13 in an enum is NO_CARD 13.
numbers_in_code() {
    sed -n 's/^ *\([A-Z][A-Za-z]*\) = \([0-9]*\),$/\1 \2/p' crates/board/src/lib.rt crates/finish/src/lib.rt |
        sed 's/\([a-z]\)\([A-Z]\)/\1_\2/g' | tr '[:lower:]' '[:upper:]'
}

numbers_in_header() {
    sed -n '/^enum corbelnib_told/,/^}/s/^ *CORBELNIB_\([A-Z_]*\) = \([0-9]*\).*/\1 \2/p' include/corbelnib.h | grep -v '^DONE 0$'
}

names=$(sed -n 's/^pub extern "C" fn corbelnib_\([a-z_]*\)(.*/\1/p' "$code" | sort)
demand=$(sed -n '/^boundary =/,/^$/p' crates/demands/specs/Demand1.antt | tail -n +2 | tr '∷' '\n' | sed 's/[^a-z_]//g' | grep -v '^$' | sort)
status=0
apart=$( (in_code; in_header) | sort | uniq -u)
if [ -n "$apart" ]; then
    echo "include/corbelnib.h and $code differ in these prototypes:" >&2
    echo "$apart" >&2
    status=1
fi
if [ -z "$names" ] || [ "$names" != "$demand" ]; then
    echo "demand 1 (crates/demands/specs/Demand1.antt) does not speak of the functions of $code" >&2
    status=1
fi
apart=$( (exports; thin) | sort | uniq -u)
if [ -n "$apart" ]; then
    echo "these functions of $code and $library differ, or are more than a call (as it stands, and as it should):" >&2
    echo "$apart" >&2
    status=1
fi
for file in "$code" "$library"; do
    astray=$( (contracts "$file"; promises "$file") | sort | uniq -u)
    if [ -n "$astray" ]; then
        echo "$file: these contracts are not the promise of their own entry, of their own parameters (as it stands, and as it should):" >&2
        echo "$astray" >&2
        status=1
    fi
    if grep -q '^ *requires' "$file"; then
        echo "$file: a function for C asks something of its caller" >&2
        status=1
    fi
done
unknown=$( (numbers_in_code; numbers_in_code; numbers_in_header) | sort | uniq -u)
if [ -n "$unknown" ]; then
    echo "include/corbelnib.h names numbers that the code does not give:" >&2
    echo "$unknown" >&2
    status=1
fi
version=$(sed -n 's/^#define CORBELNIB_VERSION "\([0-9]*\)\.\([0-9]*\)\.\([0-9]*\)"$/\1 \2 \3/p' include/corbelnib.h | awk '{ print $1 * 10000 + $2 * 100 + $3 }')
told=$(sed -n 's/^#define CORBELNIB_VERSION_NUMBER \([0-9]*\)$/\1/p' include/corbelnib.h)
defined=$(sed -n 's/^version_number = \([0-9]*\)$/\1/p' crates/corbelnib/specs/Calls.antt)
if [ "$version" != "$told" ] || [ "$told" != "$defined" ]; then
    echo "the version is $version in the header's text, $told in its number, $defined in crates/corbelnib/specs/Calls.antt" >&2
    status=1
fi
exit $status
