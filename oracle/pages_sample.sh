#!/usr/bin/env bash
# Writes tests/vectors/replay.in and replay.out anew: a sample of cases that meets every branch of html2text.rs and filters.rs that a
# sheet can reach, and the Rust's answers. A case is its length in 8 columns, LF, an option line and a sheet; an answer is what
# document 01's program prints, its out and work having 16,384 bytes.
# Use: oracle/pages_sample.sh FOLDER-OF-html2text.rs-AND-filters.rs [CANDIDATES]      (30000)
# The Rust has no icons 1, no missing_alt 1 and no 31 or 32: there the answer is oracle/reference.py's.
set -eu
sources=$(realpath "$1")
count=${2:-30000}
cd "$(dirname "$0")/.."
oracle/build.sh "$sources"
COVERAGE=1 oracle/build.sh "$sources"
made=target/oracle
rust=$made/rust/target/release/oracle
counted=$made/coverage/target/release/coverage
export LLVM_PROFILE_FILE=/dev/null
{
    python3 oracle/pages.py worked
    python3 oracle/pages.py long
    "$rust" generate 2026 0 "$count"
} > "$made/candidates"
"$counted" < "$made/candidates" > "$made/counts"
python3 oracle/pages_sample.py "$made/candidates" "$made/counts" "$counted" tests/vectors/replay.in
"$rust" run < tests/vectors/replay.in > "$made/by_rust"
python3 oracle/reference.py --program < tests/vectors/replay.in > tests/vectors/replay.out
python3 oracle/pages_sample.py --agreed tests/vectors/replay.in "$made/by_rust" tests/vectors/replay.out
# what the sample meets; oracle/unmet.txt says why the rest cannot be met
"$counted" < tests/vectors/replay.in > "$made/counts"
python3 oracle/coverage.py "$counted" "$made/counts" > "$made/covered"
diff <(grep '^not met' "$made/covered" | sort) <(sed 's/ -- .*//' oracle/unmet.txt | sort)
tail -1 "$made/covered"
# inputs with a wrong option line, and two as long as the program takes
python3 oracle/pages_sample.py --inputs tests/vectors/replay.in
python3 oracle/reference.py --program < tests/vectors/replay.in > tests/vectors/replay.out
ls -l tests/vectors/replay.in tests/vectors/replay.out
