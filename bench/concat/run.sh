#!/usr/bin/env bash
# Counts the instructions, or without valgrind the best time in microseconds, of `concat` of a finalized file of 5 MB of three groups
# with record ids and itself, and of a twin in straight C that reads both files whole, goes over their records once, or once for each group,
# and writes the same file with the same calls. Prints the numbers and the ratio to each way. Of two files of 125 MB, one of three such groups and
# one of a single group without ids, each joined with itself, it prints the times of `concat` and of a plain copy of what it makes
# with one sync, run in turn, in microseconds, and their ratio, which is to be at most 2 for those without ids; and the peak memory of `concat` in
# bytes and its ratio to the size of what it makes.
#
# usage: bench/concat/run.sh [RUNS]
#
# It is run by hand and is no part of the gate. It needs the built program (MDF4REC_PROVE=1 ./mdf4rec), python3, a C compiler and 1 GB of
# memory, and works in a folder of its own under out/, so that all write to the same disk. Both have to make the same file; the
# twin takes the time of the new entry of the history from the file that is made first.
set -euo pipefail

here="$(cd "$(dirname "$0")" && pwd)"
command=concat
. "$here/../program.sh"

before() { rm -f "$work/made.mf4"; }

file="$work/small.mf4"
python3 "$here/../make.py" unsorted 5000000 "$file"
inputs=("$file" "$file") behind=()
beside_maker concat

# compares `concat` with a plain copy on a file of this shape
compare() {
    local file="$work/$1.mf4" memory
    python3 "$here/../make.py" "$1" 125000000 "$file"
    memory="$(before && peak "${tuned[@]}" concat "$file" "$file" "$work/made.mf4")"
    mv "$work/made.mf4" "$work/joined.mf4"
    beside_copy "$work/joined.mf4" "concat, $1" "$program" concat "$file" "$file" "$work/made.mf4"
    ratio "$1, memory: concat" "$memory" made "$(stat -c %s "$work/joined.mf4")"
    rm "$file" "$work/joined.mf4"
}

compare unsorted
compare sorted
