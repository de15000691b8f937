"""Prints a script of so many samples of two channels of 64-bit numbers (200,000 without a number), shared out among so many sources, which
take turns of so many samples (1 without a number).

usage: sources.py SOURCES [TURN [SAMPLES]]"""

import sys

sources = int(sys.argv[1])
turn = int(sys.argv[2]) if len(sys.argv) > 2 else 1
samples = int(sys.argv[3]) if len(sys.argv) > 3 else 200_000
lines = []
for source in range(sources):
    lines += [f"group {source} g{source}", "channel t u64 master", "channel v u64"]
lines.append("begin")
lines += [f"{i // turn % sources} {i} {(1664525 * i + 1013904223) % 2**32}" for i in range(samples)]
sys.stdout.write("\n".join(lines + ["end", ""]))
