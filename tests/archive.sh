#!/bin/sh
# tools/archive.sh and tools/identity.sh with a stand-in for rt and its kit: the module is kept beside the library, a stale one is not, nothing
# hangs on it, and what is not proved is no library. Nothing is proved here.
set -u
root=$(cd "$(dirname "$0")/.." && pwd)
folder=$(mktemp -d)
trap 'rm -rf "$folder"' EXIT
failed=0
wrong() {
    echo "tests/archive.sh: $1"
    failed=1
}

# A kit whose rattle compiles a module of two words with the clang of the toolchain that it is told to take; TROUBLE is what goes wrong.
mkdir -p "$folder/kit/bin" "$folder/kit/toolchain/bin" "$folder/kit/toolchain/lib" "$folder/clone/tools"
mkdir -p "$folder/clone/crates/corbelnib" "$folder/clone/crates/corbelnib_c"
cp "$root/tools/archive.sh" "$root/tools/reached.sh" "$folder/clone/tools/"
printf 'low:\ncorbelnib: low\ncorbelnib_c staticlib: corbelnib low\n' > "$folder/clone/crates.txt"
echo 'stand-in kit "1" 0123abc' > "$folder/kit/KIT-ID"
cat > "$folder/kit/bin/rt" << 'END'
#!/bin/sh
self=$(readlink -f "$0")
case "$1" in
version) cat "${self%/bin/rt}/KIT-ID" ;;
lib)
    [ "${TROUBLE:-}" != unproved ] || exit 1
    basename "$(pwd)" > ../../libraries
    ;;
esac
END
cat > "$folder/kit/bin/rattle" << 'END'
#!/bin/sh
[ "$*" != "${*#build --crate-name corbelnib_c src/lib.rt }" ] || exit 9
below=
while [ $# -gt 0 ]; do
    case $1 in
    --toolchain) toolchain=$2 ;;
    --extern) below="$below ${2%%=*}" ;;
    -o) made=$2 ;;
    esac
    shift
done
[ "$below" = ' std corbelnib low' ] || exit 9
[ "${TROUBLE:-}" != unproved-export ] || exit 1
case ${TROUBLE:-}$toolchain in strict*/kit/toolchain) ;; strict*) exit 2 ;; esac
cd "$(dirname "$made")" || exit 9
echo 'the module' > m.bc
[ "${TROUBLE:-}" != other ] || mv m.bc m.ll
"$toolchain/bin/clang" -c m.* -o "$made" && rm m.* && echo proved
END
# shellcheck disable=SC2016 # these are expanded where the script is run
printf '#!/bin/sh\nfor word; do last=$word; done\necho compiled > "$last"\n' > "$folder/kit/toolchain/bin/clang"
chmod +x "$folder/kit/bin/rt" "$folder/kit/bin/rattle" "$folder/kit/toolchain/bin/clang"
PATH=$folder/kit/bin:$PATH
export PATH
unset LIBRARIES

build() { # TROUBLE
    rm -rf "$folder/clone/target" "$folder/clone/libraries"
    TROUBLE=$1 sh "$folder/clone/tools/archive.sh" 2> "$folder/said"
}
sum=$(echo 'the module' | sha256sum | cut -d ' ' -f 1)

made=$(build none) || wrong "it fails where nothing is wrong: $(cat "$folder/said")"
[ -s "$made/libcorbelnib.a" ] || wrong "no library in '$made'"
[ "$(cat "$made/module.bc" 2>&1)" = 'the module' ] || wrong "the module is not beside the library"
[ "$(cat "$folder/clone/libraries" 2>&1)" = corbelnib ] || wrong "what the library stands on is not proved first"
[ -z "$(find "$folder/clone" -type l)" ] || wrong "links are left in the checkout, which rt ci refuses"
told=$(sh "$root/tools/identity.sh" "$made")
[ "$told" = "#define IDENTITY_MODULE \"$sum\"
#define IDENTITY_KIT \"stand-in kit 1 0123abc\"" ] || wrong "the identity is $told"

for trouble in strict other; do
    made=$(build "$trouble") || wrong "$trouble: it fails, and the library could be built"
    [ -s "$made/libcorbelnib.a" ] || wrong "$trouble: no library"
    [ ! -e "$made/module.bc" ] || wrong "$trouble: there is a module, and none was kept"
    told=$(sh "$root/tools/identity.sh" "$made")
    [ "$told" = '#define IDENTITY_MODULE "not known"
#define IDENTITY_KIT "not known"' ] || wrong "$trouble: the identity is $told"
done
for trouble in unproved unproved-export; do
    if build "$trouble" > "$folder/printed"; then
        wrong "what is not proved is a library: $(cat "$folder/printed")"
    fi
done
LIBRARIES=built
export LIBRARIES
build none > /dev/null || wrong "it fails where a library is to be built: $(cat "$folder/said")"
[ -e "$folder/clone/libraries" ] || wrong "a library that is not built is not proved"
mkdir -p "$folder/clone/crates/low/out/rlib/low.rlib" "$folder/clone/crates/corbelnib/out/rlib/corbelnib.rlib"
made=$(build none) || wrong "it fails over libraries that are built: $(cat "$folder/said")"
[ -s "$made/libcorbelnib.a" ] || wrong "no library over libraries that are built"
[ ! -e "$folder/clone/libraries" ] || wrong "libraries that are built are proved again"
[ "$failed" -eq 0 ] && echo "tools/archive.sh: the module is kept, and nothing hangs on it"
exit "$failed"
