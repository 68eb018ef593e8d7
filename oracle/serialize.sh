#!/usr/bin/env bash
# Builds the Rust of serialize.rs and lexbor.rs, unchanged, over the tree of a sheet, beside target/staticlib/liblevzhada.a (bash
# .ci/archive): target/oracle/serialize/needs/release/serialize, whose strings tell the greatest length that they had, and
# target/oracle/serialize/plain/release/serialize, whose strings are Rust's own.
# Use: oracle/serialize.sh FOLDER-OF-serialize.rs-AND-lexbor.rs
set -eu
sources=$(realpath "$1")
cd "$(dirname "$0")/.."
archive=$PWD/target/staticlib/liblevzhada.a
if [ ! -f "$archive" ]; then
    echo "no $archive: bash .ci/archive" >&2
    exit 1
fi
made=$PWD/target/oracle/serialize
mkdir -p "$made/src/parse/html"
cp oracle/serialize/Cargo.toml "$made/"
cp oracle/serialize/src/*.rs oracle/rust/src/sheet.rs oracle/rust/src/random.rs "$made/src/"
for file in serialize.rs lexbor.rs; do
    cp "$sources/$file" "$made/src/parse/html/"
    cmp "$sources/$file" "$made/src/parse/html/$file"
done
cd "$made"
built() { # TARGET FEATURES
    cargo rustc --quiet --release --offline --target-dir "$1" --features "$2" --bin serialize -- -C link-arg="$archive"
}
built needs needs
built plain ""
