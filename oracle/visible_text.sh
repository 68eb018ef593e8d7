#!/usr/bin/env bash
# Compares levzhada_visible_text of target/staticlib/liblevzhada.a (bash .ci/archive) with
# - the unchanged serialize.rs over the tree of a sheet (oracle/serialize.sh): every row of generated pages, text and need, with out too
#   short, just long enough and longer, and the bytes around it;
# - the reference oracle/visible_text.py, on sheets that it makes, sound and damaged ones, and rows that are not there.
# Then asks whether the vectors tell the wrong readings of change request 6 from the right one.
# Use: oracle/visible_text.sh FOLDER-OF-serialize.rs-AND-lexbor.rs [PAGES [SHEETS [SEED]]]      (60000, 20000, 1)
# SMALL=1: every row of all small pages of oracle/serialize/src/pages.rs, and no more.
# REAL=N: rows of N pages of Debian's documentation packages (oracle/pages.py; Debian's own python3 has html5lib), and no more.
# CASES=FILE: those of the cases in a file (oracle/rust/src/cases.rs has their form), and no more.
set -euo pipefail
here=$PWD
sources=$(realpath "$1")
pages=${2:-60000} sheets=${3:-20000} seed=${4:-1}
cd "$(dirname "$0")/.."
oracle/serialize.sh "$sources"
made=target/oracle
rust=$made/serialize/needs/release/serialize
if [ -n "${SMALL:-}" ]; then
    exec "$rust" small 0 100000000
elif [ -n "${CASES:-}" ]; then
    exec "$rust" cases < "$(cd "$here" && realpath "$CASES")"
elif [ -n "${REAL:-}" ]; then
    # a page is there under five option lines, which have no say in this text
    /usr/bin/python3 oracle/pages.py real "$REAL" 2>/dev/null | python3 oracle/visible_text.py once | "$rust" cases
    exit
fi
"$rust" generated "$seed" 0 "$pages"
# the build that tells the needs and the one whose strings are Rust's own give the same texts
some=$((pages < 5000 ? pages : 5000))
cmp <("$rust" sums "$seed" 0 "$some") <("$made/serialize/plain/release/serialize" sums "$seed" 0 "$some")
cc -shared -o "$made/liblevzhada.so" -Wl,--whole-archive target/staticlib/liblevzhada.a -Wl,--no-whole-archive
python3 oracle/visible_text.py compare "$PWD/$made/liblevzhada.so" "$sheets" "$seed"
python3 oracle/wrong_readings.py visible_text
