#!/bin/sh
# Compares the proved CRC_A with plain Rust and times both, from any folder. Its last line counts the comparisons.
set -eu
cd "$(dirname "$0")/../.."
host/library.sh crc_c
rustc --edition 2021 -O -D warnings --check-cfg "cfg(before)" -L native=target/staticlib -l static=crc_c -o target/host/crc_timing host/crc_timing/main.rs
target/host/crc_timing
