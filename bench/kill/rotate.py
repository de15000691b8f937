#!/usr/bin/env python3
"""Kills rotations of four sources at random moments, in form 1 and form 2 by turns, and says what is left of their parts.

usage: bench/kill/rotate.py [RUNS]     (100 without a number; the program must be built: MDF4REC_PROVE=1 ./mdf4rec once)

Each part that is left must be no MDF file, or one that `finalize` finishes with status 0, with just the records of its opened blocks.
The samples of each source, one part behind the other, must be a beginning of its samples, in their order. Each part but the last that
is there must be whole: its samples fit into a session, and one more would not. It ends with status 1 at the first that is otherwise."""
import os
import random
import sys
import tempfile

from recordings import SAMPLES, SOURCES, finished, killed, script, timed

# A session has room for so many samples, which cost their record of 9 bytes, 96, and 40 for their value.
ROOM, COST = 1000, 9 + 96 + 40
SESSION = (ROOM + 1) * COST - 1
PARTS = SOURCES * SAMPLES // ROOM


def judged(parts):
    """The samples of all sources in these parts, of which the last is not whole perhaps."""
    assert None not in parts[:-1], "a part without a file behind one"
    for part in parts[:-1]:
        held = sum(len(own) for own in part)
        assert held * COST <= SESSION < (held + 1) * COST, "a part with room for one more sample"
    begun = [part for part in parts if part is not None]
    whole = [sum((part[source] for part in begun), []) for source in range(SOURCES)]
    for own in whole:
        assert own == list(range(1, len(own) + 1)), "no beginning of a source's samples"
    return sum(len(own) for own in whole)


def main():
    runs = int(sys.argv[1]) if len(sys.argv) > 1 else 100
    counts = {form: {"without a part": 0, "killed": 0, "at their end": 0} for form in (1, 2)}
    samples, ended_in = 0, [0] * (PARTS + 1)
    with tempfile.TemporaryDirectory() as folder:
        texts = {}
        for form in (1, 2):
            texts[form] = f"{folder}/script{form}.txt"
            with open(texts[form], "wb") as made:
                made.write(script(form, f"session {SESSION}"))
        whole = timed("rotate", f"{folder}/whole", texts[2])
        for run in range(runs):
            form = run % 2 + 1
            out = f"{folder}/drive{run}"
            was_killed = killed("rotate", out, texts[form], random.uniform(0, whole))
            there = [f"{out}.{k}" for k in range(PARTS) if os.path.exists(f"{out}.{k}")]
            assert there == [f"{out}.{k}" for k in range(len(there))], "a part behind one that is not there"
            parts = [finished(part, f"{folder}/finished.mf4") for part in there]
            begun = [part for part in parts if part is not None]
            found = judged(parts)
            samples += found
            ended_in[len(begun)] += 1
            assert was_killed or found == SOURCES * SAMPLES, "not all samples at its end"
            counts[form]["without a part" if not begun else "killed" if was_killed else "at their end"] += 1
            for part in there:
                os.remove(part)
    for form, seen in counts.items():
        print(f"form {form}: " + ", ".join(f"{name} {count}" for name, count in seen.items()))
    print("parts that were begun: " + ", ".join(f"{count} of {runs} had {k}" for k, count in enumerate(ended_in) if count))
    print(f"samples found {samples}; nothing was lost, and nothing was in another order")


main()
