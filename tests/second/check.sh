#!/bin/sh
# Builds the second program and its generator with plain rustc, runs their own
# tests, compares the examples, and feeds the debug build random and damaged
# lines. Run from anywhere; what it builds goes to a directory of its own.
set -eu
here=$(cd "$(dirname "$0")" && pwd)
out=$(mktemp -d)
trap 'rm -rf "$out"' EXIT
RUSTC=${RUSTC:-rustc}
checked="-C debug-assertions=on -C overflow-checks=on"

"$RUSTC" --edition 2021 -O "$here/src/main.rs" -o "$out/second"
"$RUSTC" --edition 2021 $checked "$here/src/main.rs" -o "$out/second-debug"
"$RUSTC" --edition 2021 --test $checked "$here/src/main.rs" -o "$out/second-tests"
"$RUSTC" --edition 2021 -O "$here/gen.rs" -o "$out/gen"
"$RUSTC" --edition 2021 --test -O $checked "$here/gen.rs" -o "$out/gen-tests"
"$RUSTC" --edition 2021 -O "$here/reached_elements.rs" -o "$out/reached_elements"
"$RUSTC" --edition 2021 -O "$here/reached_messages.rs" -o "$out/reached_messages"
"$RUSTC" --edition 2021 -O "$here/reached_weekdays.rs" -o "$out/reached_weekdays"

"$out/second-tests" --test-threads=1 -q
"$out/gen-tests" --test-threads=1 -q

"$out/second" < "$here/examples.txt" > "$out/replies"
cmp "$out/replies" "$here/examples.expected"
echo "examples: $(wc -l < "$here/examples.txt") lines, all as written by hand"

# The debug build stops on any overflow; both builds answer every line alike.
for kind in check places access calendar messages weekdays elements lines all; do
    "$out/gen" 2026 20000 "$kind" > "$out/requests"
    "$out/second-debug" < "$out/requests" > "$out/debug-replies"
    "$out/second" < "$out/requests" > "$out/replies"
    cmp "$out/replies" "$out/debug-replies"
    test "$(wc -l < "$out/replies")" -eq 20000
    echo "$kind: 20000 lines answered"
done
# reaches KIND COUNT: so many requests of the kind reach every case that is
# wanted.
reaches() {
    "$out/gen" 2026 "$2" "$1" > "$out/requests"
    "$out/second" < "$out/requests" > "$out/replies"
    LC_ALL=C paste -d '\t' "$out/requests" "$out/replies" | "$out/reached_$1"
}
reaches messages 100000
reaches weekdays 60000
reaches elements 200000
# Octets of every kind, line feeds among them: a program.
head -c 2000000 "$out/second-debug" > "$out/noise"
"$out/second-debug" < "$out/noise" > "$out/replies"
echo "noise: $(wc -l < "$out/replies") lines answered"
