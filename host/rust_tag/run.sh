#!/bin/sh
# Builds the plain Rust tag's unit tests and runs them, from any folder; build.sh builds its program and libraries. The last line is 'N passed, M failed'.
set -eu
cd "$(dirname "$0")"
mkdir -p target
# the roots that nothing else of the gate compiles
rustc --edition 2021 -D warnings --emit=metadata -o target/main.rmeta src/main.rs
rustc --edition 2021 -D warnings --emit=metadata --crate-type staticlib --crate-name export -o target/export.rmeta src/export.rs
rustc -O --edition 2021 -D warnings --test --crate-name tests src/tests.rs -o target/tests
status=0
target/tests >target/tests.txt 2>&1 || status=$?
[ "$status" -eq 0 ] || cat target/tests.txt
counts=$(sed -n 's/^test result: [a-zA-Z]*\. \([0-9]*\) passed; \([0-9]*\) failed;.*/\1 passed, \2 failed/p' target/tests.txt)
echo "${counts:-0 passed, 1 failed}"
exit "$status"
