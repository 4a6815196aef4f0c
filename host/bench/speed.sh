#!/usr/bin/env bash
# Lines a second of the bench program on 1,000,000 READ lines behind a selection, and of cat on the same file. A measurement: nothing passes or fails.
# BENCH names another program, COUNT another number of lines.
set -euo pipefail
cd "$(dirname "$0")/../.."
count=${COUNT:-1000000}
folder=$(mktemp -d)
trap 'rm -rf "$folder"' EXIT
{
    echo S
    yes 'F 3004' | head -n "$count" || true
} > "$folder/script"

# Runs a command on the script, and prints its time and lines a second.
timed() {
    local name=$1 begun ended
    shift
    begun=$(date +%s%N)
    "$@" < "$folder/script" > "$folder/output"
    ended=$(date +%s%N)
    awk -v name="$name" -v ns=$((ended - begun)) -v lines="$(wc -l < "$folder/output")" \
        'BEGIN { printf "%-6s %d lines printed in %.2f s: %d lines a second\n", name, lines, ns / 1e9, lines * 1e9 / ns }'
}

read -r -a program <<< "${BENCH:-target/bin/bench}"
timed bench "${program[@]}" samples/ten_rides/tag.image
timed cat cat
