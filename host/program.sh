#!/bin/sh
# Proves and builds the program target/bin/NAME, by default the bench program, unless it is there and newer than every source. From any folder; what was
# printed is in target/host/NAME.log.
set -eu
cd "$(dirname "$0")/.."
name=${1:-bench}
program=target/bin/$name
mkdir -p target/host target/bin
# one at a time: two tests may ask at once
exec 9>target/host/build.lock
flock 9
if [ -x "$program" ] && [ -z "$(find crates crates.txt -name out -prune -o -type f -newer "$program" -print -quit)" ]; then
    exit 0
fi
# rt runs what it builds; with no image and no input the program ends at once
(cd "crates/$name" && rt run) >"target/host/$name.log" 2>&1 </dev/null || { cat "target/host/$name.log"; exit 1; }
cp "crates/$name/out/$name" "$program"
