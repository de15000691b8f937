"""Times commands in turn, so that what else the machine does falls on each of them alike.

usage: paired.py RUNS MADE NAME COMMAND NAME COMMAND...

Each command is a line for the shell. Before each run the file MADE is removed. Prints of each command its best time and its median in
microseconds, and the ratio of its median to that of the first.
"""

import os
import statistics
import subprocess
import sys
import time


def timed(command, made):
    """How many microseconds the command takes."""
    if os.path.exists(made):
        os.remove(made)
    start = time.monotonic_ns()
    subprocess.run(command, shell=True, stdout=subprocess.DEVNULL, check=True)
    return (time.monotonic_ns() - start) // 1000


def main():
    runs, made, names, commands = int(sys.argv[1]), sys.argv[2], sys.argv[3::2], sys.argv[4::2]
    times = [[] for _ in commands]
    for run in range(runs):
        order = list(range(len(commands)))
        for k in order if run % 2 == 0 else reversed(order):
            times[k].append(timed(commands[k], made))
    first = statistics.median(times[0])
    for name, each in zip(names, times):
        median = statistics.median(each)
        print(f"{name}: best {min(each)} us, median {median:.0f} us, ratio {median / first:.2f}")


if __name__ == "__main__":
    main()
