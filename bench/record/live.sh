#!/usr/bin/env bash
# Prints the most memory that `record` holds of a script of 1,000,000 samples of a number of 64 bits, without `live` and with it, in bytes, and the
# ratio, which is to be at most 1.15. Then prints the same where a flush stands behind each sample; that has no goal.
#
# usage: bench/record/live.sh
#
# It is run by hand and is no part of the gate. It needs the built program (MDF4REC_PROVE=1 ./mdf4rec) and python3, and works in a folder of its own
# under out/, but for the files that it records: they lie in memory, so that no flush waits for a disk.
set -euo pipefail

here="$(cd "$(dirname "$0")" && pwd)"
. "$here/../program.sh"
made="$(mktemp -d /dev/shm/bench.XXXXXX)"
trap 'rm -rf "$work" "$made"' EXIT

# Prints a script whose first lines are these, with this form of the lines of sample %d.
script() {
    printf "$1group 0 g\nchannel t u64 master\nbegin\n"
    awk -v form="$2" 'BEGIN { for (i = 0; i < 1000000; i++) printf form, i }'
    echo end
}

# Compares the peaks of scripts whose samples have lines of this form.
compare() {
    local without with
    script '' "$2" > "$work/without.txt"
    script 'live\n' "$2" > "$work/with.txt"
    without="$(peak "$program" record "$made/without.mf4" < "$work/without.txt")"
    with="$(peak "$program" record "$made/with.mf4" < "$work/with.txt")"
    ratio "$1: live" "$with" without "$without"
    rm "$made"/*
}

compare 'few flushes' '0 %d\n'
compare 'a flush a sample' '0 %d\n! 0\n'
