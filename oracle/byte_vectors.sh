#!/usr/bin/env bash
# Writes crates/byte_vectors/stdout anew, from the Rust's own functions and the inputs in the program's source.
# Use: oracle/byte_vectors.sh PATH-OF-html2text.rs
set -eu
rust=$(realpath "$1")
cd "$(dirname "$0")/.."
mkdir -p target/oracle
export ORACLE=$PWD/target/oracle
# is_space, trim, rstrip, collapse and escape, to the letter
awk '/^(pub\(super\) )?fn (is_space|trim|rstrip|collapse|escape)\(/ { on = 1 } on { print } /^}/ { on = 0 }' "$rust" > "$ORACLE/html2text_bytes.rs"
{ echo '['; grep -o 'show(to, b".*")' crates/byte_vectors/src/main.rt | sed 's/^show(to, //; s/)$/ as \&[u8],/'; echo ']'; } > "$ORACLE/inputs.rs"
rustc -O -o "$ORACLE/byte_vectors" oracle/byte_vectors.rs
"$ORACLE/byte_vectors" > crates/byte_vectors/stdout
