#!/usr/bin/env bash
# Counts the instructions, or without valgrind the best time in microseconds, of `gen` of a million samples, and of a twin in
# straight C (that of bench/record) that makes and keeps the same samples and writes the same file with the same calls. Prints both
# numbers and their ratio, which is to be at most 1.3, and how many bytes of memory each holds at most, beside what all samples cost
# and 16 MiB, which `gen` is to hold at most.
#
# usage: bench/gen/run.sh [RUNS]
#
# It is run by hand and is no part of the gate. It needs the built program (MDF4REC_PROVE=1 ./mdf4rec), python3 and a C compiler, and works in a
# folder of its own under out/, so that both write to the same disk. Both have to print the same lines and make the same head and
# the same records of each group, in order; since the program's four sources run at once, the order of records of different groups
# is any. The twin takes the start time from the recording that is made first, and has one source after another.
set -euo pipefail

here="$(cd "$(dirname "$0")" && pwd)"
. "$here/../program.sh"
count=1000000

before() { rm -f "$work/made.mf4"; }

"${CC:-cc}" -O2 -o "$work/twin" "$here/../record/twin.c"

"$program" gen "$count" "$work/first.mf4" > "$work/ours"
"$work/twin" "$work/first.mf4" "$work/made.mf4" "$count" > "$work/twins" 2> "$work/costs"
cmp "$work/ours" "$work/twins"
diff <(python3 "$here/streams.py" "$work/first.mf4") <(python3 "$here/streams.py" "$work/made.mf4")
before
ours="$(cost /dev/null "$program" gen "$count" "$work/made.mf4")"
twin="$(cost /dev/null "$work/twin" "$work/first.mf4" "$work/made.mf4" "$count")"
ratio gen "$ours" C "$twin"
before
held="$(peak "$program" gen "$count" "$work/made.mf4")"
before
twin_held="$(peak "$work/twin" "$work/first.mf4" "$work/made.mf4" "$count" 2> "$work/told")"
awk -v ours="$held" -v twin="$twin_held" \
    -v most="$(($(cat "$work/costs") + 16777216))" \
    'BEGIN { printf "peak memory: gen %d, at most %d, C %d\n", ours, most, twin }'
