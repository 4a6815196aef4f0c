#!/bin/sh
# Times the proved tag's C calls beside the plain Rust tag's, from any folder; the gate does not run it. For trials the variable TAG_LIBRARY
# names another library with the same C calls.
set -eu
cd "$(dirname "$0")/../.."
out=target/host
mkdir -p "$out"
if [ -n "${TAG_LIBRARY:-}" ]; then
    library="-C link-arg=$(realpath "$TAG_LIBRARY")"
else
    host/library.sh
    library='-L native=target/staticlib -l static=tag_c'
fi
rustc -C opt-level=3 --edition 2021 -D warnings --crate-type rlib --crate-name rust_tag host/rust_tag/src/lib.rs -o "$out/librust_tag.rlib"
# the words of $library are arguments of their own
rustc -C opt-level=3 --edition 2021 -D warnings --extern rust_tag="$out/librust_tag.rlib" $library -o "$out/benchmark" host/benchmark/main.rs
"$out/benchmark"
