# What a program costs. The benches read this file, most of them by program.sh; `here` is the folder of the bench, `work` one of its own, `runs`
# how often it times a program, and a bench whose program needs something done before each run says so in a `before` of its own.

before() { :; }

# The best time of a program with this file as its standard input, in microseconds.
#
# usage: best INPUT PROGRAM WORD...
best() {
    local input="$1" least=0 start end time
    shift
    for _ in $(seq "$runs"); do
        before
        start="$(date +%s%N)"
        "$@" < "$input" > "$work/said"
        end="$(date +%s%N)"
        time=$(((end - start) / 1000))
        if ((least == 0 || time < least)); then
            least="$time"
        fi
    done
    echo "$least"
}

# How many instructions a program executes with this file as its standard input, or without valgrind its best time.
#
# usage: cost INPUT PROGRAM WORD...
cost() {
    if ! command -v valgrind > "$work/which"; then
        best "$@"
        return
    fi
    local input="$1"
    shift
    before
    valgrind --tool=callgrind --callgrind-out-file="$work/counts" "$@" < "$input" > "$work/said" 2> "$work/told"
    grep -m1 -E '^(summary|totals):' "$work/counts" | awk '{ print $2 }'
}

# The most memory that a program holds, in bytes.
#
# usage: peak PROGRAM WORD...
peak() {
    [ -x "$work/peak" ] || "${CC:-cc}" -O2 -o "$work/peak" "$here/../peak.c"
    "$work/peak" "$@"
}

# Times the program and a plain copy of a file with one sync, in turn, once that file lies on the disk: with the `setting` of mdf4rec, but
# without its look at the sources. Prints of both the best time and the median in microseconds, and the ratio of the medians.
#
# usage: beside_copy FILE NAME PROGRAM WORD...
beside_copy() {
    local file="$1" name="$2"
    shift 2
    sync
    GLIBC_TUNABLES="$setting" python3 "$here/../paired.py" "$runs" "$work/made.mf4" \
        'copy' "dd if='$file' of='$work/made.mf4' bs=4M conv=fsync status=none" "$name" "$(printf "'%s' " "$@")"
}

# Builds the program of a bench, which has crates of its own in `work`, and its twin in C. Both have to print the same. Sets `ours` to the
# program.
#
# usage: build NAME
build() {
    if ! (cd "$work/crates/$1" && rt run) > "$work/log" 2>&1; then
        cat "$work/log" >&2
        exit 1
    fi
    "${CC:-cc}" -O2 -o "$work/twin" "$here/twin.c"
    ours="$work/crates/$1/out/$1"
    if [ "$("$ours")" != "$("$work/twin")" ]; then
        echo "the two programs print different sums" >&2
        exit 1
    fi
}
