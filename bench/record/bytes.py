"""Prints a script of so many samples of one channel of 8 bits, 200,000 without a number.

usage: bytes.py [SAMPLES]"""

import sys

samples = int(sys.argv[1]) if len(sys.argv) > 1 else 200_000
lines = ["group 0 g", "channel v u8", "begin"] + [f"0 {i % 256}" for i in range(samples)]
sys.stdout.write("\n".join(lines + ["end", ""]))
