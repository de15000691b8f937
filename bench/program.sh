# What a bench of the program begins with: `top` is the repository, `work` a folder of the bench's own under out/, `runs` how often a
# program is timed (the bench's first word, or what it set before), `program` the built program, or the one that the variable PROGRAM names,
# `setting` that of the C library that mdf4rec makes for the bench's `command`, or for most commands if it named none,
# and `tuned` that program with it.

top="$(cd "$here/../.." && pwd)"
runs="${1:-${runs:-5}}"
mkdir -p "$top/out"
work="$(mktemp -d "$top/out/bench.XXXXXX")"
trap 'rm -rf "$work"' EXIT
. "$here/../cost.sh"

if [ -n "${PROGRAM:-}" ]; then
    program="$(realpath "$PROGRAM")"
else
    MDF4REC_PROVE=1 "$top/mdf4rec" opened "$top/examples/two_blocks.mf4" > "$work/said" # builds the program where it is stale
    program="$top/crates/mdf_cli/out/mdf_cli"
fi
. "$top/.ci/memory"
setting="$(memory_settings mdf4rec "${command-}")"
tuned=(env "GLIBC_TUNABLES=$setting" "$program")

# Prints both numbers and their ratio.
#
# usage: ratio NAME OURS NAME THEIRS
ratio() {
    awk -v name="$1" -v ours="$2" -v other="$3" -v theirs="$4" \
        'BEGIN { printf "%s %.0f, %s %.0f, ratio %.2f\n", name, ours, other, theirs, ours / theirs }'
}

# Compares a command that makes a file of finalized ones, `inputs`, with `behind` as the words behind the name of the file, with both ways of a
# twin in C that makes the same file with the same calls, and takes the time of the new entry of the history from a file that is made first.
#
# usage: beside_maker COMMAND
beside_maker() {
    local ours twin way
    "${CC:-cc}" -O2 -o "$work/twin" "$here/../made.c"
    "$program" "$1" "${inputs[@]}" "$work/first.mf4" "${behind[@]}" > "$work/ours"
    ours="$(cost /dev/null "$program" "$1" "${inputs[@]}" "$work/made.mf4" "${behind[@]}")"
    for way in once often; do
        before
        "$work/twin" "$way" "$1" "$work/first.mf4" "${inputs[@]}" "$work/made.mf4" "${behind[@]}" > "$work/twins"
        cmp "$work/ours" "$work/twins"
        cmp "$work/first.mf4" "$work/made.mf4"
        twin="$(cost /dev/null "$work/twin" "$way" "$1" "$work/first.mf4" "${inputs[@]}" "$work/made.mf4" "${behind[@]}")"
        ratio "$1" "$ours" "C $way" "$twin"
    done
    rm "$work/first.mf4"
}
