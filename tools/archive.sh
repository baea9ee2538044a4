#!/bin/sh
# Builds libcorbelnib.a and prints the folder that it is in, target/staticlib. Beside it lies the proved module of which it was compiled, module.bc:
# `rattle build`, which builds what it has proved and nothing else, is given a toolchain that is links to the kit's but for its `clang`, a script that
# keeps the module that it is given and then does what it was asked. Nothing hangs on the module: where none was kept, the library is there without it.
# What crates/corbelnib_c stands on is proved and built by `rt lib` first, and what is proved already as it stands is not proved again.
# LIBRARIES=built: the libraries in the crates' out/ are taken as they are, if none is missing. That is for .ci/run, where rt ci has just made each.
set -eu
cd "$(dirname "$0")/.."
root=$(pwd)
kit=$(dirname "$(dirname "$(readlink -f "$(command -v rt)")")")
made=$root/target/staticlib
# links stand outside of the checkout: rt ci refuses a checkout that has them
room=$(mktemp -d)
trap 'rm -rf "$room"' EXIT

# The toolchain with a clang that keeps the module.
keeping() {
    mkdir -p "$room/bin" && ln -s "$kit/toolchain/lib" "$room/lib" && for tool in "$kit/toolchain/bin"/*; do
        [ "${tool##*/}" = clang ] || ln -s "$tool" "$room/bin/" || return 1
    done && cat > "$room/bin/clang" << END && chmod +x "$room/bin/clang"
#!/bin/sh
for word in "\$@"; do
    case \$word in *.bc) cat "\$word" > '$room/module.bc' ;; esac
done
exec '$kit/toolchain/bin/clang' "\$@"
END
}

# Proves crates/corbelnib_c over the libraries that are built, and builds it, as rt lib does.
library() { # TOOLCHAIN
    set -- --toolchain "$1" --extern "std=$kit/rlibs/std.rlib" -L "dependency=$kit/rlibs"
    for crate in $(sed -n 's/^corbelnib_c staticlib: *//p' crates.txt); do
        set -- "$@" --extern "$crate=$root/crates/$crate/out/rlib/$crate.rlib"
    done
    for crate in $(sh tools/reached.sh corbelnib_c); do
        set -- "$@" -L "dependency=$root/crates/$crate/out/rlib"
    done
    (cd crates/corbelnib_c && "$kit/bin/rattle" build --crate-name corbelnib_c src/lib.rt "$@" --antt-project "$kit/rattle/logic/antt-project.json" \
        --logic-built "$kit/logic_built" --links corbelnib_c= --crate-type staticlib --backend llvm -o "$made/libcorbelnib.a") >&2
}

rm -rf "$made"
mkdir -p "$made"
for crate in $(sh tools/reached.sh corbelnib_c); do
    [ -d "crates/$crate/out/rlib/$crate.rlib" ] || LIBRARIES=
done
if [ "${LIBRARIES:-}" != built ]; then
    (cd crates/corbelnib && rt lib) >&2
fi
# with the kit's own toolchain, if the other is not to be had or is not taken (2: the toolchain failed)
status=2
if keeping; then
    status=0
    library "$room" || status=$?
fi
if [ "$status" -eq 2 ]; then
    rm -f "$room/module.bc"
    status=0
    library "$kit/toolchain" || status=$?
fi
[ "$status" -eq 0 ] || exit "$status"
if [ -s "$room/module.bc" ]; then
    cp "$room/module.bc" "$made/module.bc" || rm -f "$made/module.bc"
fi
echo "tools/archive.sh: target/staticlib/libcorbelnib.a has the functions of crates/corbelnib_c" >&2
echo "$made"
