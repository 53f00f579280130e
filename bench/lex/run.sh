#!/bin/sh
# Times the lexer on units of one megabyte: builds a program beside a copy of sml_lex, and prints a line for each unit, with the time
# of the same loop in plain Rust beside it.
set -e
here=$(cd "$(dirname "$0")" && pwd)
work=${1:-$(mktemp -d)}
mkdir -p "$work/crates/lex_bench/src"
cp "$here/../../HANDLES" "$work/"
rm -rf "$work/crates/sml_lex"
cp -r "$here/../../crates/sml_lex" "$work/crates/"
cp "$here/main.rt.in" "$work/crates/lex_bench/src/main.rt"
printf 'sml_lex:\nlex_bench: sml_lex\n' > "$work/crates.txt"
(cd "$work/crates/sml_lex" && rt lib > "$work/log" 2>&1)
(cd "$work/crates/lex_bench" && rt run < /dev/null >> "$work/log" 2>&1)
python3 "$here/generate.py" "$work/units"
rustc -O -o "$work/plain" "$here/plain.rs"

# the milliseconds that a program takes over a unit
time_of() {
    start=$(date +%s%N)
    "$1" < "$2" > "$work/answer"
    end=$(date +%s%N)
    echo $(((end - start) / 1000000))
}

for unit in "$work"/units/*; do
    plain=$(time_of "$work/plain" "$unit")
    ours=$(time_of "$work/crates/lex_bench/out/lex_bench" "$unit")
    echo "$(basename "$unit") $ours ms, in plain Rust $plain ms: $(cat "$work/answer")"
done
