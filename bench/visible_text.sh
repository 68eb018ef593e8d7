#!/usr/bin/env bash
# The times of serialize.rs and of levzhada_visible_text on the same rows, in one table.
# Use: [ROOM=1] [PACKAGES="PACKAGE .."] bench/visible_text.sh FOLDER-OF-serialize.rs-AND-lexbor.rs [REAL-PAGES]
# REAL-PAGES: so many pages of Debian's documentation packages too (oracle/pages.py; Debian's own python3 has html5lib); with PACKAGES so
# many of each of these. ROOM=1: the output has half the sheet's length, not just the need.
set -eu
sources=$(realpath "$1")
cd "$(dirname "$0")/.."
oracle/serialize.sh "$sources"
made=$PWD/target/oracle
if [ -n "${2:-}" ]; then
    if [ -n "${PACKAGES:-}" ]; then
        /usr/bin/python3 oracle/pages.py packages "$2" $PACKAGES 2>/dev/null
    else
        /usr/bin/python3 oracle/pages.py real "$2" 2>/dev/null
    fi | python3 oracle/visible_text.py once > "$made/bench_pages"
fi
mkdir -p "$made/serialize/src/bin"
cp bench/visible_text.rs "$made/serialize/src/bin/bench.rs"
cd "$made/serialize"
cargo rustc --quiet --release --offline --target-dir plain --bin bench -- -C link-arg="$OLDPWD/target/staticlib/liblevzhada.a"
exec plain/release/bench ${2:+"$made/bench_pages"}
