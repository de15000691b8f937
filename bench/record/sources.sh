#!/usr/bin/env bash
# Times `record` of a script of 200,000 samples of one source, and of two of as many samples of four sources, each of which has a
# thread of its own: in the one the lines of the sources come in runs of 1,000, in the other they alternate. The three are run in turn,
# with the settings of the C library that ./mdf4rec makes. Prints of each the best time and the median in microseconds, and the ratio of the medians: four
# sources are to be no slower than one. Then records the last script once more, and prints how often a source met the turn of another and
# slept, for each thousand appends; only a flush wakes who sleeps, and how often that was is printed too.
#
# usage: bench/record/sources.sh [RUNS]
#
# It is run by hand, on a machine of four processors or more, and is no part of the gate. It needs the built program (MDF4REC_PROVE=1 ./mdf4rec),
# python3 and a C compiler, and works in a folder of its own under out/. The sleeps and wakes are counted in front of the C library
# (turns.c), so that the program is the same.
set -euo pipefail

here="$(cd "$(dirname "$0")" && pwd)"
runs=21
. "$here/../program.sh"
export GLIBC_TUNABLES="$setting" # as mdf4rec does

python3 "$here/sources.py" 1 > "$work/one.txt"
python3 "$here/sources.py" 4 1000 > "$work/runs.txt"
python3 "$here/sources.py" 4 1 > "$work/four.txt"
record() { echo "'$program' record '$work/made.mf4' < '$work/$1.txt'"; }
python3 "$here/../paired.py" "$runs" "$work/made.mf4" 'one source' "$(record one)" \
    'four sources, in runs of 1,000 lines' "$(record runs)" 'four sources, line by line' "$(record four)"

"${CC:-cc}" -O2 -shared -fPIC -o "$work/turns.so" "$here/turns.c" -ldl
rm "$work/made.mf4"
TURNS_SAID="$work/turns" LD_PRELOAD="$work/turns.so" "$program" record "$work/made.mf4" < "$work/four.txt" > "$work/said"
read -r sleeps wakes < "$work/turns"
awk -v sleeps="$sleeps" -v wakes="$wakes" \
    'BEGIN { printf "four sources: the turn was met %.1f times in 1,000 appends, and a flush woke the others %.1f times\n", sleeps / 200, wakes / 200 }'
