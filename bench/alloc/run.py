#!/usr/bin/env python3
"""Refuses each allocation of the program in turn, and says how the runs ended and what they left.

usage: bench/alloc/run.py [SCRIPT]     (examples/counting.txt without one; the program must be built: MDF4REC_PROVE=1 ./mdf4rec once; it needs cc)

Each command is run with its first allocation refused, then with its second, and so on up to the first run that has no allocation to
refuse. Such a run ends with status 7; with 4 or 6 where the allocation was one of a disk's or of the sink's own; or with 0. What it leaves
must be as if it had been stopped there: of a recording no MDF file, or one that `finalize` finishes with status 0, with at least the
samples that were said to be durable and at most those that were said to be accepted, which are a beginning of all; of a made file no MDF
file, or the whole one; and the input as it was. It ends with status 1 at the first run that is otherwise."""
import collections
import os
import struct
import subprocess
import sys
import tempfile

TOP = os.path.dirname(os.path.dirname(os.path.dirname(os.path.abspath(__file__))))
PROGRAM = os.environ.get("PROGRAM", f"{TOP}/crates/mdf_cli/out/mdf_cli")
COUNTING = f"{TOP}/examples/counting.txt"


def fresh(folder, *names):
    for name in names:
        if os.path.exists(f"{folder}/{name}"):
            os.remove(f"{folder}/{name}")


def ran(folder, words, script, refused=0):
    """The status, what is printed, and whether an allocation was refused."""
    fresh(folder, "refused")
    given = dict(os.environ)
    if refused:
        given.update(LD_PRELOAD=f"{folder}/refuse.so", REFUSE_AT=str(refused), REFUSE_SAID=f"{folder}/refused")
    run = subprocess.run([PROGRAM, *words], input=script, capture_output=True, cwd=folder, env=given, timeout=60)
    return run.returncode, run.stdout, os.path.exists(f"{folder}/refused")


def held(folder, name):
    path = f"{folder}/{name}"
    return open(path, "rb").read() if os.path.exists(path) else b""


def without_times(file):
    """The file with the times of its history as 0, since each run is at another time."""
    file = bytearray(file)
    at = struct.unpack_from("<Q", file, 96)[0]
    while at:
        file[at + 40 : at + 48] = bytes(8)
        at = struct.unpack_from("<Q", file, at + 24)[0]
    return bytes(file)


def groups_of(file, group):
    """Of the channel groups of a data group, by their record ids: how many bytes a record has, or None for a group of values."""
    at, found = struct.unpack_from("<Q", file, group + 32)[0], {}
    while at:
        number, _, flags = struct.unpack_from("<QQH", file, at + 72)
        found[number] = None if flags & 1 else sum(struct.unpack_from("<II", file, at + 96))
        at = struct.unpack_from("<Q", file, at + 24)[0]
    return found


def records(file):
    """The records of a finished recording, whose one data group names one DT: of each channel group its own, in order; and how many
    samples they are."""
    group = struct.unpack_from("<Q", file, 88)[0]
    sizes = groups_of(file, group)
    data = struct.unpack_from("<Q", file, group + 40)[0]
    at, end = data + 24, data + struct.unpack_from("<Q", file, data + 8)[0]
    found, samples = {number: [] for number in sizes}, 0
    while at < end:
        number, size = file[at], sizes[file[at]]
        if size is None:
            size = 4 + struct.unpack_from("<I", file, at + 1)[0]
        else:
            samples += 1
        found[number].append(file[at + 1 : at + 1 + size])
        at += 1 + size
    assert at == end, "half a record"
    return found, samples


def said_samples(printed):
    """How many samples were said to be accepted, and how many to be durable; none where no such line was printed whole."""
    for line in printed.decode().splitlines():
        words = line.split()
        if len(words) == 4 and words[0] == "samples" and words[2] == "durable":
            return int(words[1]), int(words[3])
    return None


def finished(folder, left):
    """The finished file of what a recording left; None where that is no MDF file."""
    if not left.startswith(b"UnFinMF "):
        assert len(left) < 2 or left[0] == 0, "a file that is neither a recording nor none"
        return None
    with open(f"{folder}/left.mf4", "wb") as file:
        file.write(left)
    fresh(folder, "finished.mf4")
    status, printed, _ = ran(folder, ["finalize", "left.mf4", "finished.mf4"], b"")
    assert status == 0, f"a recording that is not finalized: {status} {printed}"
    status, printed, _ = ran(folder, ["check", "finished.mf4"], b"")
    assert printed == b"valid\n", f"a finished file that is not valid: {status} {printed}"
    return held(folder, "finished.mf4")


def look_at_recording(folder, left, printed, whole, counts):
    """A recording that was left has of each group a beginning of its records, with those that are durable."""
    said = said_samples(printed)
    made = finished(folder, left)
    found, samples = ({}, 0) if made is None else records(made)
    for number, of_group in found.items():
        assert whole[number][: len(of_group)] == of_group, "other records than those of the script"
    if said:
        assert said[1] <= samples <= said[0], f"{samples} samples are found, but {said} said to be accepted and durable"
    counts["no MDF" if made is None else f"finished with {samples} samples"] += 1


def look_at_made(left, whole, counts):
    """A made file is whole or no MDF file."""
    if len(left) > 1 and left[:1] == b"M":
        assert without_times(left) == whole, "a made file that is not whole"
        counts["whole"] += 1
    else:
        counts["no MDF"] += 1


TEXTS = {4: b"device fault\n", 7: b"want of memory\n"}


def look_at_status(status, printed, whole_printed):
    assert status in (0, 4, 6, 7), f"status {status}"
    if status == 0:
        assert printed == whole_printed, f"status 0 prints {printed}"
    elif status in TEXTS:
        assert printed.endswith(TEXTS[status]), f"status {status} prints {printed}"


def swept(folder, words, script, inputs, look):
    """Runs the command with each allocation refused, and counts the statuses; `look` is given what the run left and printed."""
    output = next((it for it in words[1:] if it == "out.mf4"), None)
    fresh(folder, "out.mf4")
    status, whole_printed, _ = ran(folder, words, script)
    assert status == 0, f"{words} ends with {status} where nothing is refused"
    before = {name: held(folder, name) for name in inputs}
    statuses = collections.Counter()
    number = 1
    while True:
        fresh(folder, "out.mf4")
        status, printed, was_refused = ran(folder, words, script, number)
        if not was_refused:
            assert status == 0, f"status {status} where nothing is refused"
            return statuses
        try:
            look_at_status(status, printed, whole_printed)
            for name in inputs:
                assert held(folder, name) == before[name], "a changed input"
            if output:
                look(held(folder, output), printed)
        except AssertionError as error:
            sys.exit(f"{' '.join(words)}, allocation {number} refused: {error}")
        statuses[status] += 1
        number += 1


def told(name, statuses, counts):
    ends = ", ".join(f"{statuses[it]} with status {it}" for it in sorted(statuses))
    left = ", ".join(f"{counts[it]} {it}" for it in sorted(counts))
    print(f"{name}: {sum(statuses.values())} runs with an allocation refused, {ends}" + (f"; left: {left}" if left else ""))
    sys.stdout.flush()
    return sum(statuses.values())


def sweep_record(folder, words, script):
    """Sweeps a command that records; answers how many runs it took. What it records without a refusal is left as in.mf4."""
    fresh(folder, "out.mf4")
    status, _, _ = ran(folder, words, script)
    assert status == 0, f"{words} ends with {status}"
    os.rename(f"{folder}/out.mf4", f"{folder}/in.mf4")
    whole, _ = records(finished(folder, held(folder, "in.mf4")))
    counts = collections.Counter()
    statuses = swept(folder, words, script, [], lambda left, said: look_at_recording(folder, left, said, whole, counts))
    return told(words[0], statuses, counts)


def sweep_made(folder, words, inputs, keep):
    """The same of a command that makes a file of files; what it makes without a refusal is left under the name `keep`."""
    fresh(folder, "out.mf4", keep)
    status, printed, _ = ran(folder, words, b"")
    assert status == 0, f"{words} ends with {status}: {printed}"
    os.rename(f"{folder}/out.mf4", f"{folder}/{keep}")
    whole = without_times(held(folder, keep))
    counts = collections.Counter()
    statuses = swept(folder, words, b"", inputs, lambda left, _: look_at_made(left, whole, counts))
    return told(words[0], statuses, counts)


def sweep_read(folder, words, inputs):
    """The same of a command that makes no file."""
    return told(words[0], swept(folder, words, b"", inputs, None), {})


def is_built(folder, words):
    """Whether the program knows the command: it prints its usage where it does not."""
    return ran(folder, words, b"")[0] != 1


def main():
    script = open(sys.argv[1] if len(sys.argv) > 1 else COUNTING, "rb").read()
    with tempfile.TemporaryDirectory() as folder:
        source = os.path.join(os.path.dirname(os.path.abspath(__file__)), "refuse.c")
        subprocess.run(["cc", "-O2", "-shared", "-fPIC", "-o", f"{folder}/refuse.so", source, "-ldl"], check=True)
        runs = sweep_record(folder, ["record", "out.mf4"], script)
        runs += sweep_read(folder, ["opened", "in.mf4"], ["in.mf4"])
        runs += sweep_made(folder, ["finalize", "in.mf4", "out.mf4"], ["in.mf4"], "made.mf4")
        for words in (["check", "made.mf4"], ["info", "made.mf4"], ["export", "made.mf4", "0"]):
            if is_built(folder, words):
                runs += sweep_read(folder, words, ["made.mf4"])
        for words in (
            ["sort", "made.mf4", "out.mf4"],
            ["cut", "made.mf4", "out.mf4", "0", "1"],
            ["concat", "made.mf4", "made.mf4", "out.mf4"],
        ):
            fresh(folder, "out.mf4")
            if is_built(folder, words):
                runs += sweep_made(folder, words, ["made.mf4"], f"{words[0]}.mf4")
        fresh(folder, "out.mf4")
        if is_built(folder, ["gen", "7", "out.mf4"]):
            runs += sweep_record(folder, ["gen", "7", "out.mf4"], b"")
    print(f"{runs} runs: nothing durable was lost, and no input changed")


main()
