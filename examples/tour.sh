#!/usr/bin/env bash
# Goes through the commands in a new folder: each line is shown as it is typed at the top of the repository, with what it prints behind
# it. docs/tour.md shows the same text, README parts of it, and .ci/tour says where one differs.
#
# usage: examples/tour.sh
top=$(cd "$(dirname "${BASH_SOURCE[0]}")/.." && pwd) || exit 1
folder=$(mktemp -d) || exit 1
trap 'rm -rf "$folder"' EXIT
cd "$folder" || exit 1
cp -r "$top/examples" . || exit 1
for program in mdf4rec mdf4log; do
  printf '#!/bin/sh\nexec "%s/%s" "$@"\n' "$top" "$program" >"$program" && chmod +x "$program" || exit 1
done

# Shows a line, and runs it.
show() {
  echo "\$ $1"
  eval "$1" 2>&1
}

# A drive of one source: recorded, looked at, finished, and printed as a table.
show './mdf4rec record drive.mf4 < examples/drive.txt'
show './mdf4rec opened drive.mf4'
show './mdf4rec finalize drive.mf4 finished.mf4'
show './mdf4rec check finished.mf4'
show './mdf4rec info finished.mf4'
show './mdf4rec export finished.mf4 0'

# Its floats are printed as the numbers that their bits are; the script was made of one with decimals in the same way.
show './mdf4rec export finished.mf4 0 | examples/floats.py oil:f32'

# Two sources, which run at once.
show './mdf4rec record two.mf4 < examples/two_sources.txt'
show './mdf4rec finalize two.mf4 done.mf4'
show './mdf4rec info done.mf4'

# It is sorted, cut to a range of its times, and joined behind that part.
show './mdf4rec sort done.mf4 sorted.mf4'
show './mdf4rec export sorted.mf4 0'
show './mdf4rec cut sorted.mf4 part.mf4 1500 2500'
show './mdf4rec check part.mf4'
show './mdf4rec export part.mf4 1'
show './mdf4rec concat part.mf4 done.mf4 both.mf4'
show './mdf4rec check both.mf4'
show './mdf4rec export both.mf4 0'

# A drive of two sources that is longer than a session: recorded in parts, which are finished and joined, two at a time.
show './mdf4rec rotate parts < examples/parts.txt'
show 'for k in 0 1 2; do ./mdf4rec finalize parts.$k part$k.mf4; done'
show './mdf4rec concat part0.mf4 part1.mf4 parts01.mf4'
show './mdf4rec concat parts01.mf4 part2.mf4 whole.mf4'
show './mdf4rec export whole.mf4 0'
show './mdf4rec export whole.mf4 1'

# The script of the first drive is attached to it, and listed.
show 'python3 examples/attach_text.py examples/drive.txt > script.mf4'
show './mdf4rec attach script.mf4 finished.mf4 scripted.mf4'
show './mdf4rec attachments scripted.mf4'
show './mdf4rec check scripted.mf4'

# A generated recording.
show './mdf4rec gen 1000 many.mf4'
show './mdf4rec opened many.mf4'

# A file that another tool left unfinished.
show './mdf4rec finalize examples/unfinished.mf4 completed.mf4'
show './mdf4rec check completed.mf4'

# A recording and a finished file of other hands, and a recording by a reader that shares nothing with the program.
show './mdf4rec opened examples/two_blocks.mf4'
show './mdf4rec info examples/two_groups.mf4'
show 'python3 examples/read_mdf.py drive.mf4'

# The same reader finds the samples of a recording of form 2 along its list blocks, without knowing of gates.
show './mdf4rec record chain.mf4 < examples/chain.txt'
show './mdf4rec opened chain.mf4'
show 'python3 examples/read_mdf.py chain.mf4'

# A refusal is a line and a status; of two inputs standard error names the one that has the fault.
show './mdf4rec check drive.mf4 2> /dev/null; echo $?'
show './mdf4rec concat done.mf4 drive.mf4 joined.mf4; echo $?'
show 'echo word | ./mdf4rec record none.mf4 2> /dev/null; echo $?'

# Where standard output is closed nothing is printed into the recording.
show './mdf4rec record closed.mf4 < examples/drive.txt 2> /dev/null >&-; echo $?'
show './mdf4rec finalize closed.mf4 open.mf4'

# A recording that the system kills when its file would grow past 1,024 bytes: what was flushed is all there.
show "(printf 'group 0 g\\nchannel t u64 master\\nbegin\\n'; seq 100 | sed 's/.*/0 &\\n! 0/'; echo end) > hundred.txt"
show '(ulimit -f 1; ./mdf4rec record killed.mf4 < hundred.txt) 2> /dev/null || echo killed'
show './mdf4rec opened killed.mf4'
show './mdf4rec finalize killed.mf4 saved.mf4'
show './mdf4rec check saved.mf4'

# A drive that is recorded while two FIFOs say it: what was acknowledged is in the file, though the program is killed.
show 'mkfifo engine door'
show './mdf4log live examples/live_setup.txt engine door > told &'
show "exec 3> engine 4> door; echo '0 1000 800 90.5' >&3; until grep 'source 0' told; do sleep 0.1; done"
show "echo '1 1500 1' >&4; until grep 'source 1' told; do sleep 0.1; done"
show '{ kill -9 $!; wait $!; } 2> /dev/null; exec 3>&- 4>&-'
show './mdf4rec finalize live.0 lived.mf4'
show './mdf4rec export lived.mf4 0 | examples/floats.py oil:f32'
show './mdf4rec export lived.mf4 1'

# Its inputs may be files too. A bad line is counted, and all others are recorded.
show './mdf4log filed examples/live_setup.txt examples/live_engine.txt examples/live_door.txt | grep -v durable..$; echo ${PIPESTATUS[0]}'
