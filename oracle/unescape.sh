#!/usr/bin/env bash
# Compares levzhada_unescape of target/staticlib/liblevzhada.a (bash .ci/archive) with the reference oracle/unescape.py, on all short
# texts of some alphabets, damaged names and texts by chance; then asks whether the vectors tell the wrong readings of change request 5
# from the right one.
# Use: oracle/unescape.sh [TEXTS [SEED]]      (100000, 1)
set -eu
cd "$(dirname "$0")/.."
made=target/oracle
if [ ! -f target/staticlib/liblevzhada.a ]; then
    echo "no target/staticlib/liblevzhada.a: bash .ci/archive" >&2
    exit 1
fi
mkdir -p "$made"
cc -shared -o "$made/liblevzhada.so" -Wl,--whole-archive target/staticlib/liblevzhada.a -Wl,--no-whole-archive
python3 oracle/unescape.py compare "$PWD/$made/liblevzhada.so" "${1:-100000}" "${2:-1}"
python3 oracle/wrong_readings.py unescape
