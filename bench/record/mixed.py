"""Prints a script of so many samples of two groups with channels of all kinds, 60,000 without a number.

usage: mixed.py [SAMPLES]"""

import sys

samples = int(sys.argv[1]) if len(sys.argv) > 1 else 60_000
lines = ["group 0 g", "channel t u64 master", "channel a u7", "channel b u9", "channel c s13 inv", "channel d ub12"]
lines += ["channel e sb20", "unit km", "channel f f64", "channel g bytes4 inv", "channel h u1", "channel n var"]
lines += ["group 0 h", "channel t f64 master", "channel w u32", "channel s s16", "channel m vartext inv", "begin"]
for i in range(samples):
    v = (1664525 * i + 1013904223) % 2**32
    word = f"x{v:08x}"
    text = "x" + "61" * (i % 5)
    if i % 3 == 2:
        lines.append(f"1 {i} {v} {v % 65536 - 32768} {text}" + "?" * (i % 4 == 0))
    else:
        c, g = f"{v % 8192 - 4096}" + "?" * (i % 5 == 0), word + "?" * (i % 7 == 0)
        lines.append(f"0 {i} {v % 128} {v % 512} {c} {v % 4096} {v % 2**20 - 2**19} {v} {g} {v % 2} {text}")
    if i % 10_000 == 9_999:
        lines.append(f"! 0")
sys.stdout.write("\n".join(lines + ["end", ""]))
