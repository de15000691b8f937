#!/usr/bin/env python3
"""Ends logs in each way that a drive may end, and says what came of each.

usage: bench/live/ends.py [CASE]..     (the cases of these names alone, or all; both programs must be built; PROGRAM and LOGGER name others;
as root a tmpfs of 1 MiB is the full disk, else a limit on the length of a file)

Of each: the status, the lines at the end, what standard error is told where a device failed, and that of each source the files have just
what was accepted, in order, and at least what was acknowledged. It ends with 1 where one is otherwise."""
import os
import subprocess
import sys
import tempfile
import time

from logs import COST, LOGGER, Log, checked, ended, setup


def numbered(source, samples):
    """Each line at once."""
    for number in range(1, samples + 1):
        yield b"%d %d\n" % (source, number), 1


def at_once(text, whole):
    """These bytes at once, of which so many lines are samples."""
    return lambda source, samples: [(text, whole)]


def expect(log, writers, status, rest, durable=None):
    """The log ends so, and its files hold what it says: `rest` are the lines at its end, but for those of the parts."""
    got, printed, told = log.end()
    found = checked(log, writers)
    printed = [line for line in printed if not line.startswith("part ")]
    assert (got, printed) == (status, rest), f"status {got}, {printed}, {told!r}"
    if durable is not None:
        assert found == durable, f"there are {found}"
    return told


def middle_of_a_line(folder):
    log = Log(folder, 1)
    writers = log.written((at_once(b"0 1\n0 2\n0 34", 2), 2))
    expect(log, writers, 0, ["source 0 accepted 2", "source 0 cut", "samples 2 durable 2"], [2])
    return "a writer that stops in the middle of a line: the last two bytes are no sample"


def bad_lines(folder):
    long = b"0 " + b"1" * 70_000 + b"\n"
    text = b"0 1\nnonsense\n; a comment\n\n1 7\n! 1\n0 1 2\n" + long + b"0 2\n0 99999999999999999999\n0 3\r\n0 3\nend\n0 4\n"
    log = Log(folder, 2)
    writers = log.written((at_once(text, 3), 3), (numbered, 2))
    writers[0].sent = 3
    expect(log, writers, 8, ["source 0 accepted 3", "source 0 refused 7", "source 1 accepted 2", "samples 5 durable 5"], [3, 2])
    return "seven bad lines of many kinds: counted, and all others recorded; nothing behind `end`"


def sixteen(folder):
    log = Log(folder, 16, f"session {1001 * COST - 1}")
    writers = log.written(*[(numbered, 500)] * 16)
    rest = [f"source {source} accepted 500" for source in range(16)] + ["samples 8000 durable 8000"]
    expect(log, writers, 0, rest, [500] * 16)
    return f"16 inputs of 500 samples each, in {len(log.parts())} parts: all there"


def closed_output(folder):
    log = Log(folder, 1, command=("sh", "-c", 'exec "$@" >&-', "sh"))
    writers = log.written((numbered, 1000))
    got, printed, told = log.end()
    assert (got, printed) == (6, []), f"status {got}, {printed}"
    assert checked(log, writers) == [1000]
    assert "standard output" in told, told
    return "standard output closed from the start: status 6, and all 1,000 samples are there"


def reader_that_leaves(folder):
    """Its standard output is a pipe that nobody reads any more behind the first acknowledgement."""
    words = [LOGGER, f"{folder}/drive", setup(f"{folder}/setup.txt", 1), f"{folder}/in0"]
    os.mkfifo(f"{folder}/in0")
    run = subprocess.Popen(words, stdout=subprocess.PIPE, stderr=subprocess.PIPE)
    with open(f"{folder}/in0", "wb", buffering=0) as fifo:
        fifo.write(b"0 1\n")
        assert run.stdout.readline() == b"source 0 durable 1\n"
        run.stdout.close()
        for number in range(2, 1001):
            fifo.write(b"0 %d\n" % number)
            if number < 5:
                time.sleep(0.05)
    run.wait(30)
    assert run.returncode == 6, run.returncode
    log = Log.__new__(Log)
    log.folder, log.out, log.sources = folder, f"{folder}/drive", 1
    assert log.samples() == [list(range(1, 1001))]
    return "nobody reads standard output any more: status 6, and all 1,000 samples are there"


def full_disk(folder):
    small = f"{folder}/small"
    os.mkdir(small)
    mounted = os.geteuid() == 0 and subprocess.run(["mount", "-t", "tmpfs", "-o", "size=1m", "tmpfs", small], check=False).returncode == 0
    try:
        log = Log(folder, 2, "block 4096", out="small/drive", command=() if mounted else ("sh", "-c", 'trap "" XFSZ; ulimit -f 1024; exec "$@"', "sh"))
        writers = log.written((numbered, 200_000), (numbered, 1))
        writers[1].let_go.clear()
        began = time.monotonic()
        got, printed, told = log.end()
        took = time.monotonic() - began
        found = checked(log, writers)
        assert got == 4 and printed[-1] == "device fault", f"status {got}, {printed}"
        assert "drive.0: " in told, told
        assert found[0] < 200_000 and found[0] >= log.told[0] > 0, f"{found} there, {log.told} acknowledged"
        writers[0].join(10)
        assert not writers[0].is_alive(), "its writer is not told"
        writers[1].let_go.set()
    finally:
        if mounted:
            subprocess.run(["umount", small], check=True)
    return f"a full disk ({'tmpfs of 1 MiB' if mounted else 'a file of 1 MiB at most'}): status 4 after {took:.1f} s, {log.told[0]} acknowledged and {found[0]} there, though another input stays open"


def too_large(folder):
    log = Log(folder, 2, f"session {COST - 1}")
    writers = log.written((numbered, 3), (numbered, 0))
    got, printed, _ = log.end()
    assert got == 5 and printed[-1].startswith("session full"), f"status {got}, {printed}"
    assert checked(log, writers) == [0, 0] and len(log.parts()) == 1
    return "a sample that has no room in an empty session: status 5, in the first part"


def dearer_than_a_session(folder):
    """A sample of the second group costs 17 bytes, 96 and 40 for each value, one of the first COST."""
    made = f"{folder}/setup.txt"
    with open(made, "w", encoding="ascii") as text:
        text.write("session 150\ngroup 0 a\nchannel t u64 master\ngroup 0 b\nchannel t u64 master\nchannel v u64\nbegin\n")
    run = subprocess.run([LOGGER, f"{folder}/drive", made, "-"], input=b"0 1\n1 2 3\n0 4\n", capture_output=True, check=False, timeout=30)
    lines = ["source 0 durable 1", "part 0 samples 1 durable 1", "source 0 accepted 1", "samples 1 durable 1", f"session full {COST} {17 + 96 + 80} 150"]
    said = run.stdout.decode().splitlines()
    assert run.returncode == 5 and sorted(said) == sorted(lines) and said[-1] == lines[-1] and not os.path.exists(f"{folder}/drive.1"), run
    return "a sample that costs more than a session, behind others: status 5, in the first part"


def behind_the_end(folder):
    log = Log(folder, 2)
    with open(log.inputs[0], "wb", buffering=0) as first, open(log.inputs[1], "wb", buffering=0) as second:
        first.write(b"0 1\nend\n")
        log.wait_told(0, 1)
        taken = 0
        while taken < 50:
            try:
                first.write(b"0 2\n")
            except BrokenPipeError:
                break
            taken += 1
            time.sleep(0.05)
        second.write(b"1 1\n")
        log.wait_told(1, 1)
    got, printed, _ = log.end()
    assert taken < 50, "its writer is not told"
    assert got == 0 and printed[-1] == "samples 2 durable 2" and log.samples() == [[1], [1]], f"status {got}, {printed}"
    return f"who writes on behind `end` is told after {taken} writes, while another input stays open"


def no_input(folder):
    os.mkfifo(f"{folder}/in0")
    log = Log(folder, 2, inputs=[f"{folder}/in0", f"{folder}/none"])
    writers = log.written((numbered, 100))
    writers.append(writers[0])
    got, printed, told = log.end()
    assert log.samples() == [list(range(1, 101)), []]
    assert got == 2 and "source 1 failed" in printed and f"{folder}/none: " in told, f"status {got}, {printed}, {told}"
    return "an input that is not there: status 2, and all of the other"


def standard_input(folder):
    made = setup(f"{folder}/setup.txt", 1)
    run = subprocess.run([LOGGER, f"{folder}/drive", made, "-"], input=b"0 1\n! 0\n0 2\n", capture_output=True, check=False, timeout=30)
    said = run.stdout.decode().splitlines()
    assert run.returncode == 0 and said[-3:] == ["part 0 samples 2 durable 2", "source 0 accepted 2", "samples 2 durable 2"], run
    return "`-`: standard input is an input"


def refused(folder):
    made = setup(f"{folder}/setup.txt", 2)
    wrong = f"{folder}/wrong.txt"
    with open(wrong, "w", encoding="ascii") as text:
        text.write("group 0 g\nchannel t u65\nbegin\n")
    rows = [
        ([], 1), ([f"{folder}/a", made], 1), ([f"{folder}/a", made, "-"], 1), ([f"{folder}/a", made, "-", "-"], 1),
        ([f"{folder}/a", wrong, "-"], 8), ([f"{folder}/a", f"{folder}/none", "-"], 2),
    ]
    for words, status in rows:
        run = subprocess.run([LOGGER, *words], stdin=subprocess.DEVNULL, capture_output=True, check=False, timeout=30)
        assert run.returncode == status and not os.path.exists(f"{folder}/a.0"), f"{words}: {run}"
    with open(f"{folder}/a.0", "wb"):
        pass
    run = subprocess.run([LOGGER, f"{folder}/a", setup(made, 1), "-"], stdin=subprocess.DEVNULL, capture_output=True, check=False, timeout=30)
    assert run.returncode == 4 and os.path.getsize(f"{folder}/a.0") == 0, run
    return "words, setups and names that are refused: each its status, and no file is made"


def no_writer(folder):
    """A FIFO that nobody writes holds up nobody."""
    log = Log(folder, 2)
    writers = log.written((numbered, 100))
    log.wait_told(0, 100)
    writers.append(type(writers[0])(log.inputs[1], 1, 0, numbered))
    writers[1].start()
    expect(log, writers, 0, ["source 0 accepted 100", "source 1 accepted 0", "samples 100 durable 100"], [100, 0])
    return "a FIFO without a writer: the other source is acknowledged meanwhile"


CASES = (
    middle_of_a_line, bad_lines, sixteen, closed_output, reader_that_leaves, full_disk, too_large, dearer_than_a_session, behind_the_end,
    no_input, standard_input, refused, no_writer,
)


def main():
    unknown = {*sys.argv[1:]} - {case.__name__ for case in CASES}
    if unknown:
        sys.exit(f"no case: {', '.join(unknown)}")
    for case in CASES:
        if len(sys.argv) > 1 and case.__name__ not in sys.argv[1:]:
            continue
        with tempfile.TemporaryDirectory() as folder:
            print(case(folder), flush=True)


ended(main)
