#!/usr/bin/env bash
# Compares the marker, levzhada_mark of target/staticlib/liblevzhada.a (bash .ci/archive), with
# - the reference oracle/marks.py on calls that it makes, sound and damaged ones and boundaries: each number, and every byte of the
#   sheet afterwards;
# - the Rust's own query: html2text.rs, unchanged, is asked for the text of a page, and its list of selectors answered by name. The
#   rows found and the text without them, against the marked sheet and its text. Each page with noscript off and on.
# Use: oracle/marks.sh FOLDER-OF-html2text.rs-AND-filters.rs [CALLS [PAGES [SEED]]]      (60000, 60000, 1)
# REAL=N: N pages of Debian's documentation packages too, each under five option lines (oracle/pages.py).
set -eu
sources=$(realpath "$1")
calls=${2:-60000} pages=${3:-60000} seed=${4:-1}
cd "$(dirname "$0")/.."
made=target/oracle
if [ ! -f target/staticlib/liblevzhada.a ]; then
    echo "no target/staticlib/liblevzhada.a: bash .ci/archive" >&2
    exit 1
fi
mkdir -p "$made"
cc -O2 -Wall -o "$made/marks" oracle/marks.c target/staticlib/liblevzhada.a
oracle/build.sh "$sources"
rust="$made/rust/target/release/oracle"
kept=$(mktemp -d "$made/marks.XXXXXX")
trap 'rm -rf "$kept"' EXIT

so_far=0
: > "$kept/all"
while [ "$so_far" -lt "$calls" ]; do
    part=$((calls - so_far < 10000 ? calls - so_far : 10000))
    python3 oracle/marks.py calls "$seed" "$so_far" "$part" > "$kept/calls"
    python3 oracle/marks.py answers < "$kept/calls" > "$kept/wanted"
    "$made/marks" < "$kept/calls" > "$kept/got"
    if ! cmp "$kept/wanted" "$kept/got"; then
        echo "in the calls from $so_far on, seed $seed: < the reference, > the marker"
        diff "$kept/wanted" "$kept/got" | cut -c 1-200 | head -4
        exit 1
    fi
    cut -d ' ' -f 1,4 "$kept/got" >> "$kept/all"
    so_far=$((so_far + part))
done
awk '{ by[$1]++; marks += $2 } $2 { some++ } END { for (k in by) said = said " " k ":" by[k]; print NR " calls as the reference has them," \
    " by their numbers" said "; " some " with new marks, " marks " marks" }' "$kept/all"

compared() { # CASES
    "$rust" marks < "$1" > "$kept/by_rust"
    "$made/marks" --cases < "$1" > "$kept/by_marker"
    python3 oracle/marks.py compare "$kept/by_rust" "$kept/by_marker"
}
"$rust" listed "$seed" 0 "$pages" > "$kept/cases"
compared "$kept/cases"
if [ -n "${REAL:-}" ]; then
    /usr/bin/python3 oracle/pages.py real "$REAL" 2>"$kept/said" | python3 oracle/marks.py unmarked > "$kept/cases"
    compared "$kept/cases"
fi
