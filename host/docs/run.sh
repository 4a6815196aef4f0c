#!/usr/bin/env bash
# Whether the tables of docs/CLAIMS.md and docs/ARCHITECTURE.md name what is in the tree, and whether the exports for C have the clauses
# of the calls that they export, from any folder. The last line is 'N passed, M failed'.
set -u
cd "$(dirname "$0")/../.." || exit 1
export PYTHONDONTWRITEBYTECODE=1
exec python3 host/docs/check.py
