#!/usr/bin/env bash
# What reading through pages costs. Of files of 5 MB, one whose records have no ids and one of three groups with ids, it compares `check`,
# `info` and `export` with those of a program that reads its input whole, by instructions: at most 1.25 times as many. Of a file of 500 MB without
# record ids, and of one of 8 GB whose data are a hole, it prints the most memory that the three hold, which is to be at most 64 MiB; `export` of
# the hole is stopped after ten seconds. Last it prints how many instructions a number of 8 bytes takes in the page that was used last, at most 25,
# and a fill of 8 bytes there, at most 100.
#
# usage: bench/pages/run.sh WHOLE [RUNS]
#
# WHOLE is a program of before: `git show 1e033c5:dist/mdf4rec > whole; chmod +x whole`. It is run by hand and is no part of the gate. It needs the
# built program (MDF4REC_PROVE=1 ./mdf4rec), rt, python3, valgrind and a disk on which files have holes, and works in a folder of its own under out/.
set -euo pipefail

here="$(cd "$(dirname "$0")" && pwd)"
whole="$1"
shift
. "$here/../program.sh"

# compares a command of both programs on a file
compare() {
    local name="$1" file="$2" ours theirs
    shift 2
    "$program" "$1" "$file" "${@:2}" > "$work/ours"
    "$whole" "$1" "$file" "${@:2}" > "$work/wholes"
    cmp "$work/ours" "$work/wholes"
    ours="$(cost /dev/null "$program" "$1" "$file" "${@:2}")"
    theirs="$(cost /dev/null "$whole" "$1" "$file" "${@:2}")"
    ratio "$name: $*" "$ours" whole "$theirs"
}

# the most memory that a command holds in its first ten seconds, in millions of bytes
held() {
    local name="$1"
    shift
    awk -v name="$name" -v peak="$(peak bash -c 'timeout 10 "$@" || [ $? = 124 ]' held "$program" "$@")" 'BEGIN { printf "%s %.1f million bytes\n", name, peak / 1000000 }'
}

for shape in sorted unsorted; do
    python3 "$here/../make.py" "$shape" 5000000 "$work/$shape.mf4"
    compare "$shape" "$work/$shape.mf4" check
    compare "$shape" "$work/$shape.mf4" info
    compare "$shape" "$work/$shape.mf4" export 0
done

for shape in sorted hole; do
    size=500000000
    if [ "$shape" = hole ]; then
        size=8589934592
    fi
    python3 "$here/../make.py" "$shape" "$size" "$work/large.mf4"
    held "$shape of $size: check" check "$work/large.mf4"
    held "$shape of $size: info" info "$work/large.mf4"
    held "$shape of $size: export" export "$work/large.mf4" 0
    rm "$work/large.mf4"
done

ours="$work/crates/bench_pages"
mkdir -p "$ours/src" "$ours/proofs/numbers" "$ours/proofs/fills"
cp -r "$top/crates/"{mdf_format,mdf_num,mdf_disk,mdf_pages} "$work/crates/"
cp "$here/program.rt.txt" "$ours/src/main.rt"
cp "$here/invariants.antt.txt" "$ours/proofs/numbers/Invariants.antt"
sed 's/numbers/fills/' "$here/invariants.antt.txt" > "$ours/proofs/fills/Invariants.antt"
grep -E '^(mdf_format|mdf_num|mdf_disk|mdf_pages):' "$top/crates.txt" > "$work/crates.txt"
echo 'bench_pages: mdf_num mdf_disk mdf_pages' >> "$work/crates.txt"
if ! (cd "$ours" && rt run) > "$work/log" 2>&1 < /dev/null; then
    cat "$work/log" >&2
    exit 1
fi
counts=()
for what in none number fill; do
    echo "$what" > "$work/what"
    counts+=("$(cost "$work/what" "$ours/out/bench_pages")")
done
awk -v none="${counts[0]}" -v number="${counts[1]}" -v fill="${counts[2]}" \
    'BEGIN { printf "a number of 8 bytes %.1f, a fill %.1f instructions\n", (number - none) / 1000000, (fill - none) / 1000000 }'
