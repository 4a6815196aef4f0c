#!/bin/sh
# Builds target/staticlib/libNAME.a, by default the C form's (NAME is tag_c), unless it is there and newer than every source. From any folder; what was printed
# is in target/host/NAME.log.
set -eu
cd "$(dirname "$0")/.."
name=${1:-tag_c}
# the crate whose exports the library has: the calls of tag_c are exported by kazdumera
crate=$name
[ "$name" != tag_c ] || crate=kazdumera
library=target/staticlib/lib$name.a
mkdir -p target/host target/staticlib
# one at a time: two tests may ask at once
exec 9>target/host/build.lock
flock 9
if [ -e "$library" ] && [ -z "$(find crates crates.txt -name out -prune -o -type f -newer "$library" -print -quit)" ]; then
    exit 0
fi
(cd "crates/$crate" && rt lib) >"target/host/$name.log" 2>&1 || { cat "target/host/$name.log"; exit 1; }
cp "crates/$crate/out/lib$crate.a" "$library"
