#!/usr/bin/env bash
# Counts the instructions, or without valgrind the best time in microseconds, of `export` of a group of a million samples of five
# channels, and of a twin in straight C that reads the file whole and prints the same table. Prints both numbers and their ratio,
# which is to be at most 1.4.
#
# usage: bench/export/run.sh [RUNS]
#
# It is run by hand and is no part of the gate. It needs the built program (MDF4REC_PROVE=1 ./mdf4rec), python3 and a C compiler, and works in a
# folder of its own under out/. Both have to print the same table.
set -euo pipefail

here="$(cd "$(dirname "$0")" && pwd)"
. "$here/../program.sh"

"${CC:-cc}" -O2 -o "$work/twin" "$here/twin.c"

file="$work/rows.mf4"
python3 "$here/../make.py" sorted 16000000 "$file"
"$program" export "$file" 0 > "$work/ours"
"$work/twin" "$file" > "$work/twins"
cmp "$work/ours" "$work/twins"
ratio export "$(cost /dev/null "$program" export "$file" 0)" C "$(cost /dev/null "$work/twin" "$file")"
