#!/bin/sh
# Compares the proved tag with the plain Rust tag, from any folder: the library's calls, then the bench program's scripts. The last line is
# 'N passed, M failed'. Words are passed on: 'calls' or 'scripts' for one half, with a seed behind it for one episode or script; 'calls of 100000000' for more
# calls than the gate's. For trials
# the variable TAG_LIBRARY names another library with the same C calls, such as host/rust_tag/target/librust_tag_c.so; the gate does not set it.
set -eu
cd "$(dirname "$0")/../.."
out=target/host
mkdir -p "$out"
if [ -n "${TAG_LIBRARY:-}" ]; then
    library="-C link-arg=$(realpath "$TAG_LIBRARY")"
else
    host/library.sh || { echo '0 passed, 1 failed'; exit 1; }
    library='-L native=target/staticlib -l static=tag_c'
fi
host/program.sh bench || { echo '0 passed, 1 failed'; exit 1; }
rustc -O --edition 2021 -D warnings --crate-type rlib --crate-name rust_tag host/rust_tag/src/lib.rs -o "$out/librust_tag.rlib"
# the words of $library are arguments of their own
rustc -O --edition 2021 -D warnings --extern rust_tag="$out/librust_tag.rlib" $library -o "$out/compare" host/compare/main.rs
status=0
"$out/compare" "$out" target/bin/bench "$@" || status=$?
# a signal ends the program without its closing line
if [ "$status" -gt 128 ]; then
    echo "ended by signal $((status - 128)) in the episode of seed $(tr -d ' ' <"$out/compare.seed")"
    echo '0 passed, 1 failed'
fi
exit "$status"
