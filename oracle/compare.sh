#!/usr/bin/env bash
# Runs the Rust and the reader on the same cases and compares text and visits; the first difference is told with its input, made
# as small as it will go. Document 01's pages come first, with the texts that stand there.
# Use: oracle/compare.sh FOLDER-OF-html2text.rs-AND-filters.rs [COUNT [SEED [FROM]]]      (200000, 1, 0)
# The reader is target/staticlib/liblevzhada.a (bash .ci/archive). READER=reference takes oracle/reference.py in its place,
# READER=stand-in the Rust behind the C function that oracle/driver.c calls.
# SMALL=1: all small pages in the place of generated ones, COUNT of them from FROM on (there are 112,723).
# REAL=N: N pages of Debian's documentation packages, each under five option lines (oracle/pages.py; Debian's own python3 has html5lib).
# CASES=FILE: those cases, and no others.
# ICONS=1: option lines with icons 1, against the Rust with that one rule replaced (oracle/rust/icons.diff); no worked or real pages.
# MISSING=1: missing_alt 1, where an img or area without alt is to be as one with alt="[picture]": the reader's answers, against the Rust's
# to the same sheets with that alt written in, and against the reader's own to these with missing_alt 0 and 1. Small and generated pages
# get more pictures first (oracle/missing_alt.py). How many answers differ between missing_alt 0 and 1 is told.
# MIXED=1: icons and missing_alt 0 or 1, some lines wrong, every third sheet damaged, against oracle/reference.py in the place of the Rust.
# NEEDS=1: the numbers of 31 and 32 are compared too, with oracle/reference.py's; with MISSING=1 also those of the sheets with that alt.
set -euo pipefail
sources=$(realpath "$1")
count=${2:-200000} seed=${3:-1} from=${4:-0}
here=$PWD
cd "$(dirname "$0")/.."
oracle/build.sh "$sources"
made=target/oracle
kind=rust
[ -z "${ICONS:-}" ] || kind=icons
rust="$made/$kind/target/release/oracle"
pictures="python3 oracle/missing_alt.py"
by="$rust run" needs="python3 oracle/reference.py --needs"
[ -z "${MISSING:-}" ] || by="$pictures by $by"
[ -z "${MIXED:-}" ] || by="$pictures answers" needs="$pictures answers --needs"
case ${READER:-reader} in
reference) reader="python3 oracle/reference.py" ;;
stand-in)
    cc -O2 -Wall -DSTAND_IN -o "$made/stand_in" oracle/driver.c "$made/$kind/target/release/liboracle.a" -lpthread -ldl -lm
    reader=$made/stand_in
    ;;
reader)
    if [ ! -f target/staticlib/liblevzhada.a ]; then
        echo "no target/staticlib/liblevzhada.a: bash .ci/archive, or READER=stand-in or reference" >&2
        exit 1
    fi
    cc -O2 -Wall -o "$made/driver" oracle/driver.c target/staticlib/liblevzhada.a
    reader=$made/driver
    ;;
esac
kept=$(mktemp -d "$made/compare.XXXXXX")
trap 'rm -rf "$kept"' EXIT
so_far=0
# The cases of standard input under the option lines that are asked for; where these may have missing_alt 1, through a command before.
taken() { # COMMAND ..
    if [ -n "${MISSING:-}" ]; then
        "$@" | $pictures digit 1
    elif [ -n "${MIXED:-}" ]; then
        "$@" | $pictures mixed "$seed" $((from + so_far))
    else
        cat
    fi > "$kept/cases"
}
compared() {
    $by < "$kept/cases" > "$kept/by_rust"
    $reader < "$kept/cases" > "$kept/by_reader"
    cmp -s "$kept/by_rust" "$kept/by_reader" ||
        python3 oracle/difference.py "$kept/cases" "$kept/by_rust" "$kept/by_reader" "$by" "$reader" "$made/difference"
    if [ -n "${NEEDS:-}" ]; then
        $reader --needs < "$kept/cases" > "$kept/needs"
        $needs < "$kept/cases" | cmp - "$kept/needs"
    fi
    [ -z "${MISSING:-}" ] || compared_written
}
# The sheets with that alt, against what was just compared.
compared_written() {
    local digit
    for digit in 0 1; do
        $pictures written < "$kept/cases" | $pictures digit $digit > "$kept/written"
        $reader < "$kept/written" | cmp - "$kept/by_reader"
        [ -z "${NEEDS:-}" ] || $reader --needs < "$kept/written" | cmp - "$kept/needs"
    done
    $pictures digit 0 < "$kept/cases" | $reader > "$kept/without"
    $pictures count "$kept/cases" "$kept/by_reader" "$kept/without" >> "$kept/counts"
}
told() { # WHAT
    echo "$1no difference"
    [ -z "${MISSING:-}" ] || awk '{ for (k = 1; k < 7; k++) n[k] += $k }
        END { print n[2] " of " n[1] " answers differ between missing_alt 0 and 1; imgs and areas: " n[3] " without alt, " n[6] \
            " of them with ALT or the like, " n[4] " with an empty one, " n[5] " with a blank one" }' "$kept/counts"
}
if [ -z "${ICONS:-}" ]; then
    python3 oracle/pages.py worked > "$kept/cases"
    $by < "$kept/cases" | python3 oracle/pages.py check
    $reader < "$kept/cases" | python3 oracle/pages.py check
fi
if [ -n "${REAL:-}" ]; then
    /usr/bin/python3 oracle/pages.py real "$REAL" | taken cat
    compared
    told "$REAL real pages, "
    exit
fi
if [ -n "${CASES:-}" ]; then
    taken cat < "$(cd "$here" && realpath "$CASES")"
    compared
    told ""
    exit
fi
while [ "$so_far" -lt "$count" ]; do
    part=$((count - so_far < 10000 ? count - so_far : 10000))
    if [ -n "${SMALL:-}" ]; then
        "$rust" small $((from + so_far)) "$part" | taken $pictures bare
    else
        "$rust" generate "$seed" $((from + so_far)) "$part" | taken $pictures pictured "$seed" $((from + so_far))
    fi
    compared
    so_far=$((so_far + part))
done
told "$count cases, "
