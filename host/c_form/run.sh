#!/bin/sh
# Tests the C form: the library against include/kazdumera.h and docs/C-FORM.md, and the examples, from any folder. The last line is 'N passed, M failed',
# and the exit status 0 only if nothing failed. The library is built here; KZ_LIB names another one, and KZ_LIBS what is linked with it. The gate uses neither.
set -u
# a name is meant as seen from where it was given
case ${KZ_LIB:-/} in
/*) ;;
*) KZ_LIB=$PWD/$KZ_LIB ;;
esac
cd "$(dirname "$0")/../.." || exit 1
mkdir -p target/host/c_form
if [ -z "${KZ_LIB:-}" ] && ! host/library.sh; then
    echo "0 passed, 1 failed"
    exit 1
fi
export KZ_LIB="${KZ_LIB:-}" KZ_LIBS="${KZ_LIBS:-}" PYTHONDONTWRITEBYTECODE=1
exec python3 host/c_form/check.py
