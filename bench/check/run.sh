#!/usr/bin/env bash
# Compares `check` of finalized files with a twin in straight C that reads a file whole and goes over its records in a plain
# loop, by a pointer in the block or byte by byte. Of files of 500 MB, one whose records have no ids and one of three groups with ids, it
# prints the best time of each in microseconds and the ratios, and the peak memory of `check` in bytes and its ratio to the size of the file; of
# files of 5 MB, where valgrind is there, the same of instructions, of which that of the groups with ids to the loop by a pointer is to be
# at most 4.
# Last it prints the best times for 100,000 and for 10,000 channels of variable length in one group, whose ratio is to be at most 20.
#
# usage: bench/check/run.sh [RUNS]
#
# It is run by hand and is no part of the gate. It needs the built program (MDF4REC_PROVE=1 ./mdf4rec), python3, a C compiler and 3 GB of
# memory, and works in a folder of its own under out/. Both have to find each file valid.
set -euo pipefail

here="$(cd "$(dirname "$0")" && pwd)"
. "$here/../program.sh"

"${CC:-cc}" -O2 -o "$work/twin" "$here/../read.c"

# compares both on a file of this shape and size, by this measure of what a program costs
compare() {
    local file="$work/$1.mf4" measure="$3" ours twin way
    python3 "$here/../make.py" "$1" "$2" "$file"
    "$program" check "$file" > "$work/ours"
    grep -qx valid "$work/ours"
    ours="$("$measure" /dev/null "$program" check "$file")"
    for way in once often; do
        "$work/twin" "$way" check "$file" > "$work/twins"
        cmp "$work/ours" "$work/twins"
        twin="$("$measure" /dev/null "$work/twin" "$way" check "$file")"
        ratio "$1, $2 bytes, $4: check" "$ours" "C $way" "$twin"
    done
    ratio "$1, $2 bytes, memory: check" "$(peak "${tuned[@]}" check "$file")" file "$(stat -c %s "$file")"
    rm "$file"
}

for shape in sorted unsorted; do
    if command -v valgrind > "$work/which"; then
        compare "$shape" 5000000 cost instructions
    fi
    compare "$shape" 500000000 best microseconds
done

for size in 20000000 2000000; do
    python3 "$here/../make.py" offsets "$size" "$work/offsets.mf4"
    "$program" check "$work/offsets.mf4" > "$work/ours"
    grep -qx valid "$work/ours"
    times+=("$(best /dev/null "$program" check "$work/offsets.mf4")")
done
ratio "offsets: check of 100,000 channels" "${times[0]}" "10,000 channels" "${times[1]}"
