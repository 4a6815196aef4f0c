#!/bin/sh
# Compares the proved AES-128 with plain Rust and times both, from any folder. Its last line counts the comparisons.
set -eu
cd "$(dirname "$0")/../.."
host/library.sh aes_c
rustc --edition 2021 -O -D warnings -L native=target/staticlib -l static=aes_c -o target/host/aes_timing host/aes_timing/main.rs
target/host/aes_timing
