#!/usr/bin/env python3
"""Runs a command, `rt ci` by default, and prints the processor seconds of what it starts, by crate: for the proof of the
crate, for the second proof over which its must-fail edits are tried (with the check of it when all were tried), for the
edits themselves, and for its tests.

Twice a second it reads which processes there are below the command, and adds up what each had used when it was last seen.
So a process loses up to half a second, and one that is shorter may be missed."""

import collections
import os
import re
import subprocess
import sys
import time

TICKS = os.sysconf("SC_CLK_TCK")


def processes():
    """Each process's parent, seconds used, and start, by its number."""
    found = {}
    for name in filter(str.isdigit, os.listdir("/proc")):
        try:
            with open(f"/proc/{name}/stat", encoding="utf-8", errors="replace") as file:
                fields = file.read().rpartition(")")[2].split()
        except OSError:
            continue
        found[int(name)] = int(fields[1]), (int(fields[11]) + int(fields[12])) / TICKS, fields[19]
    return found


def is_below(number, top, found):
    """Whether the process was started by `top` or by one below it."""
    while number in found:
        if number == top:
            return True
        number = found[number][0]
    return False


def work_of(number):
    """The crate that the process works on, and what it does: its proof, the proof for its edits, an edit, or its tests."""
    try:
        with open(f"/proc/{number}/cmdline", "rb") as file:
            words = file.read().decode("utf-8", "replace").split("\0")
        folder = os.readlink(f"/proc/{number}/cwd")
    except OSError:
        return None
    crate = re.search(r"--crate-name (\S+)", " ".join(words))
    if not crate:
        return "others", "proof"
    if "/rt-edit-" in folder:
        kept = words[words.index("--incremental") + 1] if "--incremental" in words else ""
        return crate.group(1), "again" if kept.endswith("/seed") else "edits"
    return crate.group(1), "tests" if "--test" in words else "proof"


def main():
    command = sys.argv[1:] or ["rt", "ci"]
    run = subprocess.Popen(command)
    work, seconds = {}, {}
    while run.poll() is None:
        found = processes()
        for number, (_, used, start) in found.items():
            key = number, start
            if key not in work and is_below(number, run.pid, found):
                work[key] = work_of(number)
            if work.get(key):
                seconds[key] = used
        time.sleep(0.5)
    table = collections.defaultdict(collections.Counter)
    for key, used in seconds.items():
        crate, kind = work[key]
        table[crate][kind] += used
    kinds = ["proof", "again", "edits", "tests"]
    print("| crate | proof | proof for the edits | edits | tests | sum |\n|---|---|---|---|---|---|")
    for crate, row in sorted(table.items(), key=lambda item: -sum(item[1].values())):
        print(f"| {crate} | {' | '.join(f'{row[kind]:.0f}' for kind in kinds)} | {sum(row.values()):.0f} |")
    sums = [sum(row[kind] for row in table.values()) for kind in kinds]
    print(f"| all | {' | '.join(f'{it:.0f}' for it in sums)} | {sum(seconds.values()):.0f} |")
    return run.returncode


if __name__ == "__main__":
    sys.exit(main())
