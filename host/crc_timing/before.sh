#!/bin/sh
# Times the proved CRC_A beside that of an earlier commit, in one run, from any folder: before.sh COMMIT, one that this Rattle proves. The gate does not run it.
set -eu
cd "$(dirname "$0")/../.."
old=target/host/crc_before
mkdir -p target/host
rm -rf "$old"
git worktree prune
git worktree add --detach "$old" "$1" >/dev/null 2>&1
trap 'git worktree remove --force "$old"' EXIT
(cd "$old/crates/crc_c" && rt lib) >target/host/crc_before.log 2>&1 || { cat target/host/crc_before.log; exit 1; }
objcopy --redefine-sym kz_crc_a=kz_crc_a_before "$old/crates/crc_c/out/libcrc_c.a" target/host/libcrc_before.a
host/library.sh crc_c
rustc --edition 2021 -O -D warnings --check-cfg "cfg(before)" --cfg before -L native=target/staticlib -L native=target/host -l static=crc_c -l static=crc_before -o target/host/crc_before_timing host/crc_timing/main.rs
target/host/crc_before_timing
