#!/usr/bin/env bash
# The crate `regex` becomes `byte_regex`: today's library has one of that name. At the top of the repository, once, after snake_names.py.
set -eu
mv crates/regex crates/byte_regex
grep -rlE 'Rattle\.regex\.|\bregex::' crates --include='*.rt' --include='*.antt' | xargs sed -i -E 's/Rattle\.regex\./Rattle.byte_regex./g; s/\bregex::/byte_regex::/g'
sed -i -E '/^#/!s/\bregex\b/byte_regex/g' crates.txt
