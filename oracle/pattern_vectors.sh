#!/usr/bin/env bash
# Writes tests/vectors/patterns.in and patterns.out anew: strings, and what the Rust's `matches` says of each, with the
# regexes of filters.rs unchanged and the regex crate of Debian's librust-regex-dev.
# Use: oracle/pattern_vectors.sh PATH-OF-filters.rs
set -eu
rust=$(realpath "$1")
cd "$(dirname "$0")/.."
made=$PWD/target/oracle/pattern_vectors
mkdir -p "$made/src"
cp oracle/pattern_vectors.rs "$made/src/main.rs"
{
    echo 'use regex::{Regex, RegexBuilder};'
    echo 'use std::sync::LazyLock;'
    # the statics and `matches`, to the letter
    awk '/^static [A-Z_]*: LazyLock<Regex>/ || /^fn matches\(/ { on = 1 } on { print } /^}/ { on = 0 }' "$rust"
    # in the order of the file, which numbers them
    echo 'pub static REGEXES: &[&LazyLock<Regex>] = &['
    sed -n 's/^static \([A-Z_]*\): LazyLock<Regex>.*/    \&\1,/p' "$rust"
    echo '];'
    echo 'pub fn is_yes(p: usize, s: &str) -> bool { matches(s, REGEXES[p]) }'
} > "$made/src/filters_regexes.rs"
cat > "$made/Cargo.toml" <<'T'
[package]
name = "pattern_vectors"
version = "0.0.0"
edition = "2021"
[dependencies]
regex = "1"
[workspace]
T
debian='source.debian.directory="/usr/share/cargo/registry"'
(cd "$made" && cargo build --quiet --release --offline --config 'source.crates-io.replace-with="debian"' --config "$debian")
"$made/target/release/pattern_vectors" tests/vectors/patterns.in tests/vectors/patterns.out
