#!/usr/bin/env python3
"""Two FIFOs with slow writers, and says how long an acknowledgement takes.

usage: bench/live/fifos.py [SECONDS]     (10 without a number; both programs must be built; PROGRAM and LOGGER name others)

One writer sends a line each 20 milliseconds, in pieces of three bytes; the other ten lines each 50 milliseconds, of which the last is not whole
until the next are sent. The session has room for 100 samples, so that there are many parts. Each sample must be acknowledged while it goes
on, at most what was sent, and be in the files of the parts, in order, each once. It ends with 1 where one is not."""
import sys
import tempfile
import time

from logs import COST, Log, checked, ended

ROOM = 100


def line_by_line(source, samples):
    """A line each 20 milliseconds, in pieces of three bytes."""
    for number in range(1, samples + 1):
        line = b"%d %d\n" % (source, number)
        for at in range(0, len(line), 3):
            yield line[at:at + 3], int(at + 3 >= len(line))
        time.sleep(0.02)


def ten_by_ten(source, samples):
    """Ten lines each 50 milliseconds, of the last of which four bytes come with the next."""
    left = b""
    for first in range(1, samples + 1, 10):
        text = left + b"".join(b"%d %d\n" % (source, k) for k in range(first, first + 10))
        cut = len(text) - 4 if first + 10 <= samples else len(text)
        piece, left = text[:cut], text[cut:]
        yield piece, piece.count(b"\n")
        time.sleep(0.05)


def main():
    seconds = int(sys.argv[1]) if len(sys.argv) > 1 else 10

    counts = (seconds * 50, seconds * 200)
    with tempfile.TemporaryDirectory() as folder:
        log = Log(folder, 2, f"session {(ROOM + 1) * COST - 1}")
        writers = log.written((line_by_line, counts[0]), (ten_by_ten, counts[1]))
        status, rest, told = log.end(60 + 4 * seconds)
        found = checked(log, writers)
        assert (status, told) == (0, ""), f"status {status}, {told}"
        assert tuple(found) == counts == tuple(log.told), f"{found} there, {log.told} acknowledged, {counts} sent"
        summary = [f"source {source} accepted {count}" for source, count in enumerate(counts)] + [f"samples {sum(counts)} durable {sum(counts)}"]
        assert rest[-3:] == summary, f"the end is {rest[-3:]}"
        parts = [line.split() for line in rest[:-3]]
        assert [line[:2] for line in parts] == [["part", str(k)] for k in range(len(parts))] and len(parts) == len(log.parts())
        assert all(line[3] == line[5] and (line is parts[-1] or int(line[3]) == ROOM) for line in parts), "a part that is not full"
        waits = [waited(writer, log.when[source]) for source, writer in enumerate(writers)]
    print(f"two FIFOs, {counts[0]} and {counts[1]} samples in {len(parts)} parts: all acknowledged, all there, each once and in order")
    for source, wait in enumerate(waits):
        print(f"source {source}: from the end of a line to its acknowledgement {1000 * wait[len(wait) // 2]:.1f} ms in the middle, {1000 * wait[-1]:.1f} ms at most")


def waited(writer, when):
    """How long each sample waited for its acknowledgement, the least first."""
    waits, place = [], 0
    for at, sent in writer.at:
        while place < len(when) and when[place][1] < sent:
            place += 1
        if place < len(when):
            waits.append(when[place][0] - at)
    return sorted(waits)


ended(main)
