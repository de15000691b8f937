#!/usr/bin/env bash
# Counts the instructions, or without valgrind the best time in microseconds, of `record` of a script of 100,000 samples of two
# channels of words, and of one of 60,000 samples with channels of all kinds; and of a twin in straight C that reads the script
# whole, keeps each sample and writes the same file with the same calls. Prints both numbers for each script and their ratio,
# which is to be at most 1.25 for words and 1.3 for all kinds. Then prints the most memory that `record` holds, which is to be at most what all samples cost, the
# script and 16 MiB.
#
# usage: bench/record/run.sh [RUNS]
#
# It is run by hand and is no part of the gate. It needs the built program (MDF4REC_PROVE=1 ./mdf4rec), python3 and a C compiler, and works in
# a folder of its own under out/, so that both write to the same disk. Both have to print the same lines and make the same
# file; the twin takes the start time from the recording that is made first.
set -euo pipefail

here="$(cd "$(dirname "$0")" && pwd)"
. "$here/../program.sh"

before() { rm -f "$work/made.mf4"; }

"${CC:-cc}" -O2 -o "$work/twin" "$here/twin.c"

# records the script of this name with both programs
compare() {
    local script="$work/$1.txt" ours twin most
    python3 "$here/$1.py" > "$script"
    "$program" record "$work/$1.mf4" < "$script" > "$work/ours"
    "$work/twin" "$work/$1.mf4" "$work/twin.mf4" < "$script" > "$work/twins" 2> "$work/costs"
    cmp "$work/ours" "$work/twins"
    cmp "$work/$1.mf4" "$work/twin.mf4"
    rm "$work/twin.mf4"
    ours="$(cost "$script" "$program" record "$work/made.mf4")"
    twin="$(cost "$script" "$work/twin" "$work/$1.mf4" "$work/made.mf4")"
    ratio "$1: record" "$ours" C "$twin"
    before
    ours="$(peak "$program" record "$work/made.mf4" < "$script")"
    most=$(($(cat "$work/costs") + $(stat -c %s "$script") + 16777216))
    awk -v ours="$ours" -v most="$most" 'BEGIN { printf "peak memory: record %d, at most %d\n", ours, most }'
}

compare words
compare mixed
