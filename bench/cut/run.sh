#!/usr/bin/env bash
# Counts the instructions, or without valgrind the best time in microseconds, of `cut` of a finalized file of 5 MB of three groups
# with record ids, of whose masters it keeps all, and of a twin in straight C that reads the file whole, goes over its records once, or
# once for each group, and writes the same file with the same calls. Prints the numbers and the ratio to each way; that to the one that
# goes over them once is to be at most 4. Of two files of 250 MB,
# one of three such groups and one of a single group without ids, it prints the times of `cut` and of a plain copy of the file
# with one sync, run in turn, in microseconds, and their ratio, which is to be at most 2 for the one without ids; and the peak memory of `cut`
# in bytes and its ratio to the size of the file.
#
# usage: bench/cut/run.sh [RUNS]
#
# It is run by hand and is no part of the gate. It needs the built program (MDF4REC_PROVE=1 ./mdf4rec), python3, a C compiler and 1 GB of
# memory, and works in a folder of its own under out/, so that all write to the same disk. Both have to make the same file; the
# twin takes the time of the new entry of the history from the file that is made first.
set -euo pipefail

here="$(cd "$(dirname "$0")" && pwd)"
. "$here/../program.sh"

before() { rm -f "$work/made.mf4"; }

range=(0 9223372036854775808) # all floats that are not negative

file="$work/small.mf4"
python3 "$here/../make.py" unsorted 5000000 "$file"
inputs=("$file") behind=("${range[@]}")
beside_maker cut

# compares `cut` with a plain copy on a file of this shape
compare() {
    local file="$work/$1.mf4" memory
    python3 "$here/../make.py" "$1" 250000000 "$file"
    beside_copy "$file" "cut, $1" "$program" cut "$file" "$work/made.mf4" "${range[@]}"
    memory="$(before && peak "${tuned[@]}" cut "$file" "$work/made.mf4" "${range[@]}")"
    ratio "$1, memory: cut" "$memory" file "$(stat -c %s "$file")"
    rm "$file"
}

compare unsorted
compare sorted
