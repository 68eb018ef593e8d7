#!/usr/bin/env bash
# The times of the Rust and of the reader on the same pages, in one table.
# Use: [BEFORE=ARCHIVE [TEN_DIGITS=1]] [PACKAGES="PACKAGE .."] bench/bench.sh FOLDER-OF-html2text.rs-AND-filters.rs [REAL-PAGES]
# REAL-PAGES: so many pages of Debian's documentation packages too (oracle/pages.py; Debian's own python3 has html5lib); with PACKAGES so
# many of each of these, and page N is line N of target/oracle/bench_pages.names.
# The reader is target/staticlib/liblevzhada.a (bash .ci/archive); READER=stand-in takes the Rust behind the same C function.
# BEFORE: an older liblevzhada.a, timed beside it; its answers and bytes must be the reader's. TEN_DIGITS=1: one before 0.4.0, whose option
# lines have no missing_alt.
set -eu
sources=$(realpath "$1")
[ -z "${BEFORE:-}" ] || BEFORE=$(realpath "$BEFORE")
cd "$(dirname "$0")/.."
oracle/build.sh "$sources"
made=$PWD/target/oracle
reader=$PWD/target/staticlib/liblevzhada.a
flags=-DNO_MAIN
if [ "${READER:-reader}" = stand-in ]; then
    flags="$flags -DSTAND_IN"
    reader=
fi
if [ -n "$reader" ] && [ ! -f "$reader" ]; then
    echo "no $reader: bash .ci/archive, or READER=stand-in" >&2
    exit 1
fi
cc -O2 -Wall $flags -c -o "$made/reader.o" oracle/driver.c
if [ -n "${BEFORE:-}" ]; then
    # the names that the older archive and its driver define are changed, those of libc stay
    nm --defined-only --extern-only --format=posix "$BEFORE" | awk 'NF > 1 { print $1, "before_" $1 }' > "$made/before.names"
    printf '%s\n' 'reader_answer before_answer' 'reader_check before_check' >> "$made/before.names"
    cc -O2 -Wall -DNO_MAIN ${TEN_DIGITS:+-DTEN_DIGITS} -c -o "$made/before.o" oracle/driver.c
    objcopy --redefine-syms="$made/before.names" "$made/before.o"
    # each function begins a cache line in both archives: without that the same code differs by up to a fifth
    objcopy --redefine-syms="$made/before.names" --set-section-alignment '.text.*=64' "$BEFORE" "$made/before.a"
    [ -z "$reader" ] || objcopy --set-section-alignment '.text.*=64' "$reader" "$made/reader.a"
    reader=${reader:+$made/reader.a}
else
    unset BEFORE
fi
mkdir -p "$made/rust/src/bin"
cp bench/bench.rs "$made/rust/src/bin/bench.rs"
if [ -n "${2:-}" ] && [ -n "${PACKAGES:-}" ]; then
    names=$made/bench_pages.names
    /usr/bin/python3 oracle/pages.py packages "$2" $PACKAGES > "$made/bench_pages" 2> "$names" || { tail -n 1 "$names" >&2; exit 1; }
elif [ -n "${2:-}" ]; then
    /usr/bin/python3 oracle/pages.py real "$2" > "$made/bench_pages" 2>/dev/null
fi
cd "$made/rust"
cargo rustc --quiet --release --offline --config 'source.crates-io.replace-with="debian"' \
    --config 'source.debian.directory="/usr/share/cargo/registry"' --bin bench -- \
    -C link-arg="$made/reader.o" ${reader:+-C link-arg="$reader"} ${BEFORE:+-C link-arg="$made/before.o" -C link-arg="$made/before.a"}
exec target/release/bench ${2:+"$made/bench_pages"}
