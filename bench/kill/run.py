#!/usr/bin/env python3
"""Kills recordings of four sources at random moments, in form 1 and form 2 by turns, and says what is left of them.

usage: bench/kill/run.py [RUNS]     (200 without a number; the program must be built: MDF4REC_PROVE=1 ./mdf4rec once)

Each file that is left must be no MDF file, or one that `finalize` finishes with status 0. Of the latter the finished file must have
just the records of the opened blocks of the recording, and of each source a beginning of its samples, in their order. It ends with
status 1 at the first file that is otherwise."""
import os
import random
import sys
import tempfile

from recordings import SAMPLES, finished, killed, script, timed


def main():
    runs = int(sys.argv[1]) if len(sys.argv) > 1 else 200
    counts = {form: {"no file or no MDF": 0, "finished": 0, "at their end": 0} for form in (1, 2)}
    samples, most = 0, 0
    with tempfile.TemporaryDirectory() as folder:
        texts = {}
        for form in (1, 2):
            texts[form] = f"{folder}/script{form}.txt"
            with open(texts[form], "wb") as made:
                made.write(script(form))
        whole = timed("record", f"{folder}/whole.mf4", texts[2])
        path = f"{folder}/drive.mf4"
        for run in range(runs):
            form = run % 2 + 1
            was_killed = killed("record", path, texts[form], random.uniform(0, whole))
            found = finished(path, f"{folder}/finished.mf4")
            if found is None:
                counts[form]["no file or no MDF"] += 1
            else:
                for own in found:
                    assert own == list(range(1, len(own) + 1)), "no beginning of a source's samples"
                    samples, most = samples + len(own), max(most, len(own))
                counts[form]["finished" if was_killed else "at their end"] += 1
            if os.path.exists(path):
                os.remove(path)
    for form, seen in counts.items():
        print(f"form {form}: " + ", ".join(f"{name} {count}" for name, count in seen.items()))
    print(f"samples found {samples}, of one source at most {most} of {SAMPLES}; nothing was lost and nothing was in another order")


main()
