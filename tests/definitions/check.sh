#!/usr/bin/env bash
# Holds the definitions of crates/meaning against the second program: of random requests, the prover computes each definition, and the value must be the second
# program's reply. check.sh [SEED [MOST]]: MOST requests of each kind, by default 150 from seed 1. Works in a folder of its own.
set -euo pipefail
cd "$(dirname "$0")/../.."
. tests/kit.sh
seed=${1:-1} most=${2:-150}
work=$(mktemp -d)
trap 'rm -rf "$work"' EXIT

build_second "$work"
rustc --edition 2021 -O tests/definitions/translate.rs -o "$work/translate"

copy_crate offsets "$work/repository"
copy_crate meaning "$work/repository"
printf 'offsets:\nmeaning: offsets\n' >"$work/repository/crates.txt"
proofs=$work/repository/crates/meaning/proofs
for kind in check places access calendar messages weekdays elements; do
    module=Random_$kind
    "$work/gen" "$seed" $((20 * most)) "$kind" >"$work/requests"
    "$work/second" <"$work/requests" >"$work/replies"
    printf 'definitions, %s: ' "$kind"
    LC_ALL=C paste -d '\t' "$work/requests" "$work/replies" | "$work/translate" "$most" 2>&1 >"$proofs/$module.antt"
    echo "pub mod $module" >>"$proofs/Lib.antt"
done
cd "$work/repository/crates/meaning"
if ! rt check >"$work/log" 2>&1; then
    grep -a 'error' "$work/log" | cut -c 1-600 | head -n 20
    echo 'definitions: a definition and the second program disagree'
    exit 1
fi
tail -n 1 "$work/log"
