#!/usr/bin/env python3
"""A device of so many lines a second: how many of them are recorded a second, and the memory of the program.

usage: bench/live/speed.py [LINES] [SECONDS]     (1,000,000 lines a second for 10 seconds without numbers; both programs must be built;
PROGRAM and LOGGER name others)

The device sends a hundredth of a second's lines at a time, and waits where the log does not take them. The session is the default, so there
are parts: at least three, with so many lines. Each line must be there, in order, each once, over the parts. It prints how long the device
sent and the log ran, how often it was told, and the memory of the program at its end and at its peak. It ends with 1 where a line is missing."""
import os
import resource
import struct
import sys
import tempfile
import threading
import time

from logs import Log, ended
from recordings import opened_data

# Numbers of one length: a line is `0 10000001`.
FIRST = 10_000_000


class Device(threading.Thread):
    def __init__(self, name, text, length, rate):
        super().__init__(daemon=True)
        self.name_of, self.text, self.length, self.rate = name, text, length, rate
        self.began = self.ended = 0.0
        self.late = 0.0

    def run(self):
        step = self.rate // 100 * self.length
        with open(self.name_of, "wb", buffering=0) as fifo:
            self.began = time.monotonic()
            for number, at in enumerate(range(0, len(self.text), step)):
                wait = self.began + number / 100 - time.monotonic()
                if wait > 0:
                    time.sleep(wait)
                self.late = max(self.late, -wait)
                left = self.text[at:at + step]
                while left:
                    left = left[fifo.write(left):]
            self.ended = time.monotonic()


def memory(pid, word):
    """A line of what the system says of a process, in millions of bytes."""
    try:
        with open(f"/proc/{pid}/status", encoding="ascii") as status:
            for line in status:
                if line.startswith(word):
                    return int(line.split()[1]) * 1024 / 1e6
    except OSError:
        pass
    return 0.0


def main():
    rate = int(sys.argv[1]) if len(sys.argv) > 1 else 1_000_000
    seconds = int(sys.argv[2]) if len(sys.argv) > 2 else 10
    count = rate * seconds
    text = memoryview(b"".join(b"0 %d\n" % (FIRST + number) for number in range(count)))
    with tempfile.TemporaryDirectory() as folder:
        log = Log(folder, 1, "block 1048576")
        device = Device(log.inputs[0], text, len(b"0 %d\n" % FIRST), rate)
        device.start()
        began, most, last, by_part = time.monotonic(), 0.0, 0.0, []
        while log.run.poll() is None:
            now, top = memory(log.run.pid, "VmRSS:"), memory(log.run.pid, "VmHWM:")
            if top:
                last, most = now, max(most, top)
            parts = len(log.parts())
            while len(by_part) < parts:
                by_part.append(0.0)
            if parts:
                by_part[parts - 1] = max(by_part[parts - 1], now)
            time.sleep(0.01)
        status, rest, told = log.end()
        ended_at, used = time.monotonic(), resource.getrusage(resource.RUSAGE_CHILDREN)
        device.join(10)
        assert (status, told) == (0, ""), f"status {status}, {told}, {rest}"
        assert rest[-2:] == [f"source 0 accepted {count}", f"samples {count} durable {count}"], rest[-2:]
        assert log.told[0] == count, f"{log.told[0]} acknowledged"
        expected = FIRST
        for part in log.parts():
            with open(part, "rb") as file:
                data = opened_data(file.read())
            os.remove(part)
            for at in range(0, len(data), 9):
                number = struct.unpack_from("<Q", data, at + 1)[0]
                assert number == expected, f"{number} in the place of {expected}"
                expected += 1
        assert expected == FIRST + count, f"{expected - FIRST} of {count} lines are there"
        parts = [line for line in rest if line.startswith("part ")]
        assert len(parts) >= min(3, count // 1_860_000), parts
    ran = ended_at - device.began
    print(f"{count} lines in {len(parts)} parts: all there, each once and in order")
    print(f"sent in {device.ended - device.began:.2f} s, {device.late:.2f} s behind at most; recorded in {ran:.2f} s: {count / ran:,.0f} lines a second")
    print(f"processor {used.ru_utime:.2f} s of its own and {used.ru_stime:.2f} s of the system; {count / (used.ru_utime + used.ru_stime):,.0f} lines a second of these")
    print(f"told {len(log.when[0])} times; memory {last:.0f} million bytes at its end, {most:.0f} at its peak; most in each part {[round(part) for part in by_part]}")


ended(main)
