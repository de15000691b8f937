#!/usr/bin/env python3
"""Kills logs of three sources at random moments, in form 1 and form 2 and with a large and a small session by turns, and says what is left.

usage: bench/live/kill.py [RUNS]     (200 without a number; both programs must be built: MDF4REC_PROVE=1 ./mdf4rec and ./mdf4log once;
PROGRAM and LOGGER name others)

Each source has a FIFO and a writer of its own: one sends a line now and then in pieces of three bytes, one some lines at a time, one as
fast as they are taken. What is acknowledged is read until the end. Of each run: each acknowledged sample is in the finalized files of the
parts, in order, each once, and there is no sample that was not sent. It ends with 1 at the first run that is otherwise."""
import random
import sys
import tempfile
import time

from logs import COST, Log, checked, ended

SOURCES, SAMPLES = 3, 20_000
SMALL = 700


def slow(source, samples):
    """A line now and then, in pieces of three bytes."""
    for number in range(1, samples + 1):
        line = b"%d %d\n" % (source, number)
        for at in range(0, len(line), 3):
            yield line[at:at + 3], int(at + 3 >= len(line))
        time.sleep(0.001)


def some(source, samples):
    """Up to 40 lines at a time, in two pieces that end anywhere, and a flush line now and then."""
    number = 1
    while number <= samples:
        count = min(random.randint(1, 40), samples + 1 - number)
        text = b"".join(b"%d %d\n" % (source, k) for k in range(number, number + count))
        cut = random.randint(0, len(text))
        for piece in filter(None, (text[:cut], text[cut:])):
            yield piece, piece.count(b"\n")
            time.sleep(0.0005)
        if random.random() < 0.1:
            yield b"! %d\n" % source, 0
        number += count


def fast(source, samples):
    """A thousand lines at a time, as fast as they are taken."""
    for first in range(1, samples + 1, 1000):
        yield b"".join(b"%d %d\n" % (source, k) for k in range(first, first + 1000)), 1000


def main():
    runs = int(sys.argv[1]) if len(sys.argv) > 1 else 200
    seen = {"no file or no MDF": 0, "killed": 0, "at their end": 0}
    parts, acknowledged, there, most = {}, 0, 0, 0
    for run in range(runs):
        form, session = run % 2 + 1, (268_435_456, (SMALL + 1) * COST - 1)[run // 2 % 2]
        with tempfile.TemporaryDirectory() as folder:
            log = Log(folder, SOURCES, f"form {form}", "block 4096", f"session {session}")
            writers = log.written((slow, SAMPLES), (some, SAMPLES), (fast, SAMPLES))
            time.sleep(random.uniform(0, 1.5))
            was_killed = log.kill()
            found = checked(log, writers)
            count = len(log.parts())
            for writer in writers:
                writer.join()
        parts[count] = parts.get(count, 0) + 1
        acknowledged, there, most = acknowledged + sum(log.told), there + sum(found), max(most, sum(found))
        seen["no file or no MDF" if sum(found) == 0 and count <= 1 else "killed" if was_killed else "at their end"] += 1
    print(f"{runs} logs: " + ", ".join(f"{name} {count}" for name, count in seen.items()))
    several = {k: count for k, count in parts.items() if k > 1}
    print(f"parts: {runs - sum(several.values())} of them had one or none, {sum(several.values())} had {min(several, default=0)} to {max(several, default=0)}")
    print(f"acknowledged {acknowledged} samples, found {there}, of one log at most {most}")
    print("each acknowledged sample was there, each once and in order, and none that was not sent")


ended(main)
