#!/bin/sh
# Builds the program, the library, its C form and the unit tests with plain rustc into target/.
set -e
cd "$(dirname "$0")"
mkdir -p target
rustc -O --edition 2021 -D warnings --crate-name rust_tag src/main.rs -o target/rust_tag
rustc -O --edition 2021 -D warnings --crate-type rlib --crate-name rust_tag src/lib.rs -o target/librust_tag.rlib
rustc -O --edition 2021 -D warnings --test --crate-name tests src/tests.rs -o target/tests
# The C form twice: the archive is one piece without unwinding, so that C needs no library of Rust's beside it; a Rust program, which has
# these parts itself, takes the shared library.
rustc -O --edition 2021 -D warnings -C panic=abort -C lto=fat --crate-type staticlib,cdylib --crate-name rust_tag_c --out-dir target src/export.rs
