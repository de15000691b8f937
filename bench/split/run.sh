#!/usr/bin/env bash
# Counts the instructions, or without valgrind the time, of splitting a stream of 100 MB in one part into 11,111,111
# records of 9 bytes, by mdf_data and by the same loop in C. Prints both numbers and their ratio, which is to be at most 3.
#
# usage: bench/split/run.sh [RUNS]
#
# It is run by hand and is no part of the gate. It needs rt and a C compiler, and works in a folder of its own. The two
# programs print a sum over the records, which has to be the same.
set -euo pipefail

here="$(cd "$(dirname "$0")" && pwd)"
top="$(cd "$here/../.." && pwd)"
runs="${1:-5}"
work="$(mktemp -d)"
trap 'rm -rf "$work"' EXIT
. "$here/../cost.sh"

program="$work/crates/bench_split"
mkdir -p "$program/src" "$program/proofs/sum_of"
for crate in mdf_format mdf_num mdf_block mdf_stream mdf_data; do
    cp -r "$top/crates/$crate" "$work/crates/"
done
cp "$here/program.rt.txt" "$program/src/main.rt"
cp "$here/invariants.antt.txt" "$program/proofs/sum_of/Invariants.antt"
grep -E '^(mdf_format|mdf_num|mdf_block|mdf_stream|mdf_data):' "$top/crates.txt" > "$work/crates.txt"
echo 'bench_split: mdf_num mdf_stream mdf_data' >> "$work/crates.txt"
build bench_split
awk -v ours="$(cost /dev/null "$ours")" -v twin="$(cost /dev/null "$work/twin")" \
    'BEGIN { printf "mdf_data %d, C %d, ratio %.2f\n", ours, twin, ours / twin }'
