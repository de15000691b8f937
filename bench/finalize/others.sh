#!/usr/bin/env bash
# Counts the instructions, or without valgrind the best time in microseconds, of `finalize` of a file of 5 MB that another tool left
# unfinished, and of `sort` of the same file as it is finished: of three groups with record ids, and of one group without ids. Prints the
# numbers and their ratio, which is to be at most 1.5; and of such files of 250 MB the peak memory of `finalize` in bytes and its ratio to
# the size of the file, which is to be at most 2.2, and 1.1 without ids.
#
# usage: bench/finalize/others.sh [RUNS]
#
# It is run by hand and is no part of the gate. It needs the built program (MDF4REC_PROVE=1 ./mdf4rec), python3 and 1 GB of memory, and works in
# a folder of its own under out/, so that both write to the same disk. Both have to say the same of what they made, and nothing is to be
# left over.
set -euo pipefail

here="$(cd "$(dirname "$0")" && pwd)"
. "$here/../program.sh"

before() { rm -f "$work/made.mf4"; }

# compares both on a file of this shape
compare() {
    local open="$work/open.mf4" finished="$work/finished.mf4" ours theirs memory
    python3 "$here/../make.py" "open-$1" 5000000 "$open"
    python3 "$here/../make.py" "$1" 5000000 "$finished"
    theirs="$(cost /dev/null "$program" sort "$finished" "$work/made.mf4")"
    cp "$work/said" "$work/wanted"
    echo "rest 0" >> "$work/wanted"
    ours="$(cost /dev/null "$program" finalize "$open" "$work/made.mf4")"
    cmp "$work/said" "$work/wanted"
    ratio "$1: finalize" "$ours" sort "$theirs"

    python3 "$here/../make.py" "open-$1" 250000000 "$open"
    memory="$(before && peak "${tuned[@]}" finalize "$open" "$work/made.mf4")"
    "$program" check "$work/made.mf4" | grep -qx valid
    ratio "$1, memory: finalize" "$memory" file "$(stat -c %s "$open")"
    rm "$open" "$finished"
}

compare unsorted
compare sorted
