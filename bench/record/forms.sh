#!/usr/bin/env bash
# Counts the instructions, or without valgrind the best time in microseconds, of `record` in form 2 and in form 1: of the scripts of run.sh, and of
# one of 100,000 samples with blocks of 512 bytes of data. Prints both numbers for each script and their ratio, which is to be at most 1.05.
#
# usage: bench/record/forms.sh [RUNS]
#
# It is run by hand and is no part of the gate. It needs the built program (MDF4REC_PROVE=1 ./mdf4rec) and python3, and works in a folder of its own
# under out/. Both recordings have to print the same lines, and to be opened with as many bytes of data.
set -euo pipefail

here="$(cd "$(dirname "$0")" && pwd)"
. "$here/../program.sh"

before() { rm -f "$work/made.mf4"; }

# Records the script of this name in both forms, with these lines before it.
compare() {
    local form bare listed
    for form in 1 2; do
        { printf "form $form\n$2"; python3 "$here/$1.py"; } > "$work/$form.txt"
        before
        "$program" record "$work/made.mf4" < "$work/$form.txt" > "$work/recorded$form"
        "$program" opened "$work/made.mf4" > "$work/opened$form"
    done
    cmp "$work/recorded1" "$work/recorded2"
    cmp "$work/opened1" "$work/opened2"
    bare="$(cost "$work/1.txt" "$program" record "$work/made.mf4")"
    listed="$(cost "$work/2.txt" "$program" record "$work/made.mf4")"
    ratio "$1: form 2" "$listed" "form 1" "$bare"
}

compare words ''
compare mixed ''
compare words 'block 512\n'
