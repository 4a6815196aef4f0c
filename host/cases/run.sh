#!/bin/sh
# Whether the rows of the bench cases and the logins of crates/logins are those that tools/cases.py and tools/logins.py work out, from any folder.
set -eu
cd "$(dirname "$0")/../.."
if python3 tools/cases.py --check && python3 tools/logins.py --check; then
    echo "1 passed, 0 failed"
else
    echo "0 passed, 1 failed"
    exit 1
fi
