#!/bin/sh
# What the scripts and the Makefile say and do where something is missing, stops or is not proved: tests/house.sh
# CORBELNIB_ARCHIVE is the folder with the proved libcorbelnib.a (target/command unless it is set). What needs rt (make unproved, which proves
# nothing) is left out where there is none, and so is shellcheck.
set -u
root=$(cd "$(dirname "$0")/.." && pwd)
archive=${CORBELNIB_ARCHIVE:-$root/target/command}
cd "$root" || exit 1
scratch=$(mktemp -d)
trap 'rm -rf "$scratch"' EXIT
unset MAKEFLAGS MAKELEVEL MFLAGS
failed=0
wrong() { # WHAT..
    printf 'house: %s\n' "$@"
    failed=$((failed + 1))
}

# A PATH with the usual tools alone, and what else is put there.
bare=$scratch/bare
mkdir "$bare"
for tool in sh make cc sed awk find head tail mkdir cp rm ln grep sort cat date wc dirname basename readlink uname mktemp; do
    ln -s "$(command -v "$tool")" "$bare/$tool"
done

# One sentence before anything is proved, and nothing is made: NAME SENTENCE MAKE'S WORDS..
missing() {
    name=$1 sentence=$2
    shift 2
    said=$(env -u CORBELNIB_ARCHIVE PATH="$bare" make -s build="$scratch/$name" "$@" 2>&1 > /dev/null) && wrong "make with $name is not refused"
    [ "$(printf '%s\n' "$said" | grep -cv '^make')" = 1 ] || wrong "make with $name says more or less than one line:" "$said"
    case $said in *"$sentence"*) ;; *) wrong "make with $name says:" "$said" ;; esac
    [ ! -e "$scratch/$name" ] || wrong "make with $name has begun"
}
missing no-rt "\`rt\`, which proves and compiles the library, is not in PATH"
missing no-compiler "the C compiler \`no-such-cc\` is not found" CC=no-such-cc
missing unproved "\`rt\`, which proves and compiles the library, is not in PATH" unproved unproved="$scratch/no-proofs"
printf '#!/bin/sh\necho another-kit logic 0\n' > "$bare/rt"
chmod +x "$bare/rt"
missing other-kit "\`rt\` is of the kit 'another-kit logic 0', and the proofs are for 'rattle-kit-"
pinned=$(sed -n 's/^kit=.*:-\(.*\)}$/\1/p' tools/ready.sh)
grep -q "\`$pinned\`" README.md || wrong "README.md does not name the kit of tools/ready.sh, $pinned"

# Crates are counted while they are proved: with an rt that says what rt says, in a copy of what the build reads.
copy=$scratch/copy
mkdir -p "$copy/tools"
cp crates.txt "$copy"
cp tools/prove.sh tools/reached.sh "$copy/tools"
cat > "$copy/tools/archive.sh" << 'END'
{ echo 'rt: chose --jobs 2 for base'; echo 'fn base::x: proved'; echo 'logic=proved functions=1'; } >&2
{ echo 'rt: chose --jobs 2 for card'; echo 'fn card::x: proved'; echo 'logic=proved functions=2'; } >&2
if [ -n "${FAILS:-}" ]; then { echo 'rt: chose --jobs 2 for runs'; echo 'logic=not-proved'; } >&2; exit 1; fi
echo 'logic=proved functions=27' >&2
echo 'tools/archive.sh: target/staticlib/libcorbelnib.a has the functions of crates/corbelnib_c' >&2
echo a-folder
END
total=$(($(sh tools/reached.sh corbelnib_c | wc -l) + 1))
[ "$(sh "$copy/tools/prove.sh" 2> "$scratch/said")" = a-folder ] || wrong 'tools/prove.sh does not print the folder'
grep -q "^card is proved, [0-9]* s; it is number 2 of at most $total\$" "$scratch/said" || wrong 'tools/prove.sh does not count the crates:' "$(cat "$scratch/said")"
grep -q '^corbelnib_c is proved, and the library is built; all took ' "$scratch/said" || wrong 'tools/prove.sh does not tell the end'
[ "$(wc -l < "$scratch/said")" = 4 ] || wrong 'tools/prove.sh tells more than that' "$(cat "$scratch/said")"
FAILS=yes sh "$copy/tools/prove.sh" > "$scratch/out" 2> "$scratch/said" && wrong 'tools/prove.sh ends well where a crate is not proved'
grep -q '^runs NOT PROVED' "$scratch/said" || wrong 'tools/prove.sh does not say which crate is not proved'

# A library that is current is taken, and one that is not would be proved: that rt, which is of another kit, can prove nothing.
mkdir -p "$copy/target/command" "$copy/crates/oneboard/src"
cp -R Makefile command include examples tools "$copy"
cp crates/oneboard/stdin "$copy/crates/oneboard"
cp "$archive/libcorbelnib.a" "$copy/target/command"
judged() { env -u CORBELNIB_ARCHIVE PATH="$bare:$PATH" sh "$copy/examples/judge.sh" crates/oneboard/stdin 2>&1; }
said=$(judged) || wrong 'examples/judge.sh does not take the library that is there:' "$said"
[ "$said" = "$(printf '0 2 1\n2 0 3 1 211')" ] || wrong 'examples/judge.sh prints with the library that is there:' "$said"
touch -t 200001010000 "$copy/target/command/libcorbelnib.a"
touch "$copy/crates/oneboard/src/newer.rt"
said=$(judged) && wrong 'examples/judge.sh takes a library that is older than its sources'
case $said in *'the proofs are for'*) ;; *) wrong 'examples/judge.sh says of a library that is older than its sources:' "$said" ;; esac
for script in bench/run.sh compare/run.sh bench/stack.sh tools/example.sh; do
    grep -q 'tools/archive.sh' "$script" && wrong "$script proves the library again (tools/library.sh is to be asked)"
done

# A TERM is handed on by season.sh to what it has started, which here says when it gets it and does not end by itself.
mkdir "$scratch/stand-in"
cat > "$scratch/stand-in/parallel" << 'END'
#!/bin/sh
case $1 in --version) echo 'GNU parallel'; exit ;; esac
trap 'echo ended > "$STAND_IN/ended"; exit 0' TERM
echo $$ > "$STAND_IN/started"
n=0
while [ $n -lt 300 ]; do sleep 0.1; n=$((n + 1)); done
END
chmod +x "$scratch/stand-in/parallel"
STAND_IN=$scratch/stand-in CORBELNIB_ARCHIVE=$archive PATH="$scratch/stand-in:$PATH" \
    sh tools/season.sh "$scratch/season" 1 10 10 10 > "$scratch/season.said" 2>&1 &
season=$!
n=0
while [ ! -s "$scratch/stand-in/started" ] && [ $n -lt 600 ]; do
    sleep 0.1
    n=$((n + 1))
done
kill -s TERM "$season"
wait "$season"
status=$?
[ "$status" = 143 ] || wrong "tools/season.sh ends with $status after a TERM, and not with 143:" "$(cat "$scratch/season.said")"
[ -s "$scratch/stand-in/ended" ] || wrong 'tools/season.sh does not hand a TERM on to parallel'
if [ -s "$scratch/stand-in/started" ] && kill -0 "$(cat "$scratch/stand-in/started")" 2> /dev/null; then
    wrong 'parallel goes on after a TERM to tools/season.sh'
    kill -s KILL "$(cat "$scratch/stand-in/started")"
fi

# The command without proofs says so wherever it says anything, answers the same, and is not installed.
if command -v rt > /dev/null && [ "$(uname -m)" = x86_64 ]; then
    # with whatever kit is here: that another than the pinned one is refused is tried above
    CORBELNIB_KIT=$(rt version) make -s unproved > "$scratch/said" 2>&1 || wrong 'make unproved fails:' "$(cat "$scratch/said")"
    unproved=$root/target/command-unproved
    "$unproved/corbelnib" judge 8 --json > "$scratch/answer" 2> /dev/null
    "$unproved/corbelnib" season run 8 8 --budget 100 --nodes 1000 > "$scratch/sheet" 2> "$scratch/said"
    grep -q 'NOT PROVED' "$scratch/said" || wrong 'corbelnib-unproved season run does not say NOT PROVED'
    for words in --version 'judge 8' 'judge 8 --json' 'play 8 6a' "season show $scratch/sheet" "agree $scratch/answer" "agree --json $scratch/answer" \
        'judge --json 32001'; do
        # shellcheck disable=SC2086 # words of the command
        "$unproved/corbelnib" $words 2> /dev/null | grep -q 'NOT PROVED' || wrong "corbelnib-unproved $words does not say NOT PROVED"
    done
    for words in 'judge 8' 'judge 8 --json --moves' 'judge 11982 --budget 300' 'play 8 6a'; do
        # shellcheck disable=SC2086 # words of the command
        "$unproved/corbelnib" $words 2> /dev/null | sed 's/ (NOT PROVED)//; s/ NOT PROVED//' > "$scratch/unproved"
        # shellcheck disable=SC2086 # words of the command
        target/command/corbelnib $words > "$scratch/proved" 2> /dev/null
        cmp -s "$scratch/unproved" "$scratch/proved" || wrong "corbelnib-unproved $words says something else than corbelnib"
    done
    target/command/corbelnib agree "$scratch/answer" > /dev/null 2>&1 && wrong 'agree takes an answer that is not proved for one that is'
    said=$(CORBELNIB_ARCHIVE=$unproved make -s install build="$scratch/not-proved" DESTDIR="$scratch/installed" 2>&1) &&
        wrong 'make install takes a library that is not proved'
    case $said in *'corbelnib is not installed: its library is NOT PROVED'*) ;; *) wrong 'make install says of a library that is not proved:' "$said" ;; esac
    [ ! -e "$scratch/installed" ] || wrong 'make install has installed what is not proved'
else
    echo 'house: no rt, or no x86-64, so make unproved is not tried'
fi
[ "$(target/command/corbelnib --version | grep -c 'NOT PROVED')" = 0 ] || wrong 'corbelnib says that it is NOT PROVED'

sh tests/circles.sh || failed=$((failed + 1))
grep -q '^END OF TERMS AND CONDITIONS$' LICENSE || wrong 'LICENSE is not the whole licence'
[ "$(wc -w < README.md)" -le 1500 ] || wrong 'README.md has more than 1,500 words'
if command -v shellcheck > /dev/null; then
    # shellcheck disable=SC2046 # names of files of ours
    shellcheck $(find bench compare examples tests tools -name '*.sh' ! -path '*/target/*') .ci/run || wrong 'shellcheck has something to say'
else
    echo 'house: no shellcheck, so the scripts are not read by it'
fi
[ "$failed" -eq 0 ] && echo 'house: all as it has to be'
[ "$failed" -eq 0 ]
