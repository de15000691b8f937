"""Prints a script of so many samples of two channels of 64-bit numbers, 100,000 without a number.

usage: words.py [SAMPLES]"""

import sys

samples = int(sys.argv[1]) if len(sys.argv) > 1 else 100_000
lines = ["group 0 g", "channel t u64 master", "channel v u64", "begin"]
lines += [f"0 {i} {(1664525 * i + 1013904223) % 2**32}" for i in range(samples)]
sys.stdout.write("\n".join(lines + ["end", ""]))
