#!/usr/bin/env bash
# Compares `finalize` of two recordings of 250 MB, one of small records and one of wide ones, with a plain copy of the file with one
# sync, run in turn. Prints of each the times in microseconds and their ratio, which is to be at most 2 for the wide ones, and the peak memory of `finalize`
# in bytes and its ratio to the size of the file, which is to be at most 2.2.
#
# usage: bench/finalize/run.sh [RUNS]
#
# It is run by hand and is no part of the gate. It needs the built program (MDF4REC_PROVE=1 ./mdf4rec), python3 and 1 GB of memory, and works in
# a folder of its own under out/, so that both write to the same disk. The file that is made has to be valid.
set -euo pipefail

here="$(cd "$(dirname "$0")" && pwd)"
. "$here/../program.sh"

before() { rm -f "$work/made.mf4"; }

# compares both on a recording of this shape
compare() {
    local file="$work/$1.mf4" memory
    python3 "$here/../make.py" "$1" 250000000 "$file"
    beside_copy "$file" "finalize, $1" "$program" finalize "$file" "$work/made.mf4"
    memory="$(before && peak "${tuned[@]}" finalize "$file" "$work/made.mf4")"
    "$program" check "$work/made.mf4" | grep -qx valid
    ratio "$1, memory: finalize" "$memory" file "$(stat -c %s "$file")"
    rm "$file"
}

compare recording # records of 17 to 25 bytes, with values of variable length
compare wide      # records of 801 bytes
