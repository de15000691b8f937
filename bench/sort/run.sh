#!/usr/bin/env bash
# Counts the instructions, or without valgrind the best time in microseconds, of `sort` of a finalized file of 5 MB of three groups
# with record ids, and of a twin in straight C that reads the file whole, goes over its records once, or once for each group, and
# writes the same file with the same calls. Prints the numbers and the ratio to each way, of which that to one pass is to be at most 4; and of a file of 250 MB the peak memory of
# `sort` in bytes and its ratio to the size of the file, which is to be at most 2.2.
#
# usage: bench/sort/run.sh [RUNS]
#
# It is run by hand and is no part of the gate. It needs the built program (MDF4REC_PROVE=1 ./mdf4rec), python3, a C compiler and 1 GB of
# memory, and works in a folder of its own under out/, so that both write to the same disk. Both have to make the same file; the
# twin takes the time of the new entry of the history from the file that is made first.
set -euo pipefail

here="$(cd "$(dirname "$0")" && pwd)"
command=sort
. "$here/../program.sh"

before() { rm -f "$work/made.mf4"; }

file="$work/small.mf4"
python3 "$here/../make.py" unsorted 5000000 "$file"
inputs=("$file") behind=()
beside_maker sort

file="$work/large.mf4"
python3 "$here/../make.py" unsorted 250000000 "$file"
memory="$(before && peak "$program" sort "$file" "$work/made.mf4")"
ratio "memory: sort" "$memory" file "$(stat -c %s "$file")"
