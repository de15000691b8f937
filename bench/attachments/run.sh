#!/usr/bin/env bash
# Compares `attachments` of a finalized file with one embedded attachment of 256,000,000 bytes with coreutils' md5sum of the same bytes, run in
# turn. Prints the best time of each in microseconds and their ratio, which is to be at most 1.3.
#
# usage: bench/attachments/run.sh [RUNS]
#
# It is run by hand and is no part of the gate. It needs the built program (MDF4REC_PROVE=1 ./mdf4rec), python3 and 1 GB of memory, and works in
# a folder of its own under out/. The program has to find the MD5 right.
set -euo pipefail

here="$(cd "$(dirname "$0")" && pwd)"
. "$here/../program.sh"

head -c 256000000 /dev/urandom > "$work/data"
python3 "$top/examples/attach_text.py" "$work/data" > "$work/attached.mf4"
"$program" attachments "$work/attached.mf4" | grep -qx 'attachment 0 data size 256000000 embedded 256000000 md5 ok'
ours="$(best /dev/null "$program" attachments "$work/attached.mf4")"
sum="$(best /dev/null md5sum "$work/data")"
ratio "256,000,000 bytes, microseconds: attachments" "$ours" md5sum "$sum"
