#!/usr/bin/env bash
# Holds the bench program, the samples and the scripts around them against document 01 and oracle.py, from any folder. The last line is 'N passed, M failed',
# and the exit status 0 only if nothing failed. target/bin/bench is built here; the variable BENCH names another program, and the words
# '--inputs N' another number of random inputs than 10,000. The gate uses neither.
set -u
cd "$(dirname "$0")/../.." || exit 1
export PYTHONDONTWRITEBYTECODE=1
if [ -z "${BENCH:-}" ] && ! host/program.sh bench; then
    echo "0 passed, 1 failed"
    exit 1
fi
exec python3 host/bench/check.py "$@"
