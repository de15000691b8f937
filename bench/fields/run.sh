#!/usr/bin/env bash
# Times ten million reads and ten million writes of fields of bits, of every width from 1 to 64 and in both orders, by
# mdf_bits and by the same loop in C. Prints the best time of each in milliseconds, and their ratio.
#
# usage: bench/fields/run.sh [RUNS]
#
# It is run by hand and is no part of the gate. It needs rt and a C compiler, and works in a folder of its own. The
# two programs print the sum of the numbers that they read, which has to be the same.
set -euo pipefail

here="$(cd "$(dirname "$0")" && pwd)"
top="$(cd "$here/../.." && pwd)"
runs="${1:-15}"
work="$(mktemp -d)"
trap 'rm -rf "$work"' EXIT
. "$here/../cost.sh"

mkdir -p "$work/crates/bench_fields/src"
cp -r "$top/crates/mdf_format" "$top/crates/mdf_num" "$top/crates/mdf_bits" "$work/crates/"
cp "$here/program.rt.txt" "$work/crates/bench_fields/src/main.rt"
grep -E '^(mdf_format|mdf_num|mdf_bits):' "$top/crates.txt" > "$work/crates.txt"
echo 'bench_fields: mdf_bits' >> "$work/crates.txt"
build bench_fields
awk -v ours="$(best /dev/null "$ours")" -v twin="$(best /dev/null "$work/twin")" \
    'BEGIN { printf "mdf_bits %.0f ms, C %.0f ms, ratio %.2f\n", ours / 1000, twin / 1000, ours / twin }'
