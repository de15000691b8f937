"""Prints a script of so many samples of two channels of 64-bit numbers, shared out among so many sources, which take turns, with a flush
of a source behind each ten samples of its own. Where it is given, so many samples of one source more stand behind them, without a flush,
in blocks that they do not fill.

usage: flushes.py SAMPLES SOURCES [MORE]"""

import sys

samples, sources = int(sys.argv[1]), int(sys.argv[2])
more = int(sys.argv[3]) if len(sys.argv) > 3 else 0
lines = ["block 16777216"] if more else []
for source in range(sources + (more > 0)):
    lines += [f"group {source} g{source}", "channel t u64 master", "channel v u64"]
lines.append("begin")
for i in range(samples):
    source = i % sources
    lines.append(f"{source} {i} {(1664525 * i + 1013904223) % 2**32}")
    if i // sources % 10 == 9:
        lines.append(f"! {source}")
lines += [f"{sources} {i} 0" for i in range(more)]
sys.stdout.write("\n".join(lines + ["end", ""]))
