#!/usr/bin/env bash
# Builds the Rust of html2text.rs and filters.rs, unchanged, over the tree of a sheet: target/oracle/rust/target/release/oracle.
# ICONS=1: with one rule replaced, that of icons 1 in the place of the three-byte test (oracle/rust/icons.diff), and for option lines
# with icons 1 alone: target/oracle/icons/target/release/oracle.
# COVERAGE=1: with counters, and the program that reads them: target/oracle/coverage/target/release/coverage.
# Use: oracle/build.sh FOLDER-OF-html2text.rs-AND-filters.rs
# Wants Debian's librust-regex+default-dev.
set -eu
sources=$(realpath "$1")
cd "$(dirname "$0")/.."
here=$PWD
kind=rust
[ -z "${ICONS:-}" ] || kind=icons
[ -z "${COVERAGE:-}" ] || kind=coverage
made=$here/target/oracle/$kind
mkdir -p "$made/src/extract" "$made/src/bin"
cp oracle/rust/Cargo.toml "$made/"
cp oracle/rust/src/*.rs "$made/src/"
cp "$sources/html2text.rs" "$sources/filters.rs" "$made/src/extract/"
[ "$kind" != icons ] || patch -s "$made/src/extract/filters.rs" oracle/rust/icons.diff
cp tests/vectors/patterns.in "$made/src/pattern_strings"
cd "$made"
built() {
    cargo build --quiet --release --offline --config 'source.crates-io.replace-with="debian"' \
        --config 'source.debian.directory="/usr/share/cargo/registry"' "$@"
}
if [ "$kind" = coverage ]; then
    cp "$here/oracle/rust/coverage/main.rs" src/bin/coverage.rs
    # -Z on a stable rustc
    RUSTC_BOOTSTRAP=1 RUSTC_WORKSPACE_WRAPPER=$here/oracle/rust/coverage/rustc.sh built --bin coverage
else
    built --lib --bin oracle
fi
