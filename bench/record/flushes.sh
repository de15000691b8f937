#!/usr/bin/env bash
# Records over a disk of which each sync takes 5 milliseconds (slow.c), with a flush behind each ten samples of a source. Prints how many
# samples a second one source makes and how many four make together, by the best of the runs of 4,000 samples; and how long a fifth source
# of 100,000 samples, which flushes nothing, is kept waiting while the four make 800: how often in each recording, and for how long at the
# median, at 90 % and at most. Goals: 3,000 samples a second of four sources; waits below 1 millisecond at the median and 6 at 90 %; and of
# one source what two syncs for each ten samples let it make, some 930.
#
# usage: bench/record/flushes.sh [RUNS [WAITS]]
#
# It is run by hand, on a machine of four processors or more, and is no part of the gate. It needs the built program (MDF4REC_PROVE=1 ./mdf4rec),
# python3 and a C compiler, and works in a folder of its own under out/. The syncs are slow and the sleeps are timed in front of the C
# library, so that the program is the same.
set -euo pipefail

here="$(cd "$(dirname "$0")" && pwd)"
runs=5
. "$here/../program.sh"
waits="${2:-20}"
export GLIBC_TUNABLES="$setting" # as mdf4rec does

"${CC:-cc}" -O2 -shared -fPIC -o "$work/slow.so" "$here/slow.c" -ldl
record() {
    rm -f "$work/made.mf4"
    SLOW_SAID="$work/waited" LD_PRELOAD="$work/slow.so" "$program" record "$work/made.mf4" < "$1" > "$work/said"
}

for sources in 1 4; do
    python3 "$here/flushes.py" 4000 "$sources" > "$work/script.txt"
    best=0
    for _ in $(seq "$runs"); do
        from="$(date +%s%N)"
        record "$work/script.txt"
        took=$(($(date +%s%N) - from))
        made=$((4000 * 1000000000 / took))
        if ((made > best)); then best="$made"; fi
    done
    echo "$sources sources: $best samples a second"
done

python3 "$here/flushes.py" 800 4 100000 > "$work/script.txt"
for _ in $(seq "$waits"); do
    record "$work/script.txt"
    cat "$work/waited"
done | sort -n > "$work/waits"
awk -v runs="$waits" '{ at[NR] = $1 / 1000 } END {
    if (NR == 0) { print "an append of another source never waits"; exit }
    printf "an append of another source waits %.1f times in 100,000, %.1f ms at the median, %.1f at 90 %%, %.1f at most\n", NR / runs, at[int((NR + 1) / 2)], at[int((9 * NR + 9) / 10)], at[NR]
}' "$work/waits"
