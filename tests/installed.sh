#!/bin/sh
# What `make install` puts in place, and where: LIBDIR and INCLUDEDIR are those of the pkg-config file too, and what it names is there.
set -u
root=$(cd "$(dirname "$0")/.." && pwd)
folder=$(mktemp -d)
trap 'rm -rf "$folder"' EXIT
failed=0
wrong() {
    echo "tests/installed.sh: $1"
    failed=1
}
cd "$root" || exit 1

${MAKE:-make} -s install DESTDIR="$folder" PREFIX=/opt/here LIBDIR=/opt/here/lib/of-this-machine INCLUDEDIR=/opt/headers > "$folder/said" 2>&1 ||
    wrong "make install fails: $(cat "$folder/said")"
for file in here/bin/corbelnib here/lib/of-this-machine/libcorbelnib.a headers/corbelnib.h headers/corbelnib_says.h here/share/man/man1/corbelnib.1; do
    [ -s "$folder/opt/$file" ] || wrong "/opt/$file is not there"
done
pc=$folder/opt/here/lib/of-this-machine/pkgconfig/corbelnib.pc
grep -q '^libdir=/opt/here/lib/of-this-machine$' "$pc" || wrong "corbelnib.pc has another libdir: $(grep libdir= "$pc")"
grep -q '^includedir=/opt/headers$' "$pc" || wrong "corbelnib.pc has another includedir: $(grep includedir= "$pc")"
! grep -q @ "$pc" || wrong "corbelnib.pc is not filled in"
${MAKE:-make} -s uninstall DESTDIR="$folder" PREFIX=/opt/here LIBDIR=/opt/here/lib/of-this-machine INCLUDEDIR=/opt/headers
left=$(find "$folder/opt" -type f)
[ -z "$left" ] || wrong "make uninstall leaves $left"
[ "$failed" -eq 0 ] && echo "make install: everything where it was asked for"
exit "$failed"
