#!/usr/bin/env python3
"""Counts the calls of the system that the program makes on its files, and compares them with what is said of them.

usage: bench/calls/run.py     (the program must be built: MDF4REC_PROVE=1 ./mdf4rec once; it needs strace, which is Debian's package of that name)

What is said: a recording is made under a new name, whose folder is synced once; its head is four writes and three syncs, and each block
two writes and two syncs, wherever the samples of it came from. A finalized file is made in the same way, by three writes and three syncs, and its
input is opened, asked for its size and read, once each. `check`, `info` and `export` read page by page: a file that fits into one is opened
once, asked for its size twice and read once. Of a refused input the output is made and stays empty; a taken name is tried once;
and of a wrong script no file is asked. It ends with status 1 where one of these commands makes other calls, or ends with another status."""
import collections
import os
import re
import subprocess
import sys
import tempfile

TOP = os.path.dirname(os.path.dirname(os.path.dirname(os.path.abspath(__file__))))
PROGRAM = os.environ.get("PROGRAM", f"{TOP}/crates/mdf_cli/out/mdf_cli")

# The names of the calls of the system, and what they are called here.
NAMES = {
    "openat": "open", "fstat": "size", "newfstatat": "size", "statx": "size", "pread64": "read", "read": "read",
    "pwrite64": "write", "write": "write", "fsync": "sync all", "fdatasync": "sync",
}
CALL = re.compile(r"^(?:\d+ +)?(\w+)\((.*)$")
# A file of the folder that the program is run in, by its name; and an open one, by its path.
NAMED = re.compile(r'AT_FDCWD[^,]*, "([^"/]+)"')
HELD = re.compile(r"\d+<(/[^>]*)>")


def kind(name, rest):
    """What a call is counted as: one that opens makes a file where it may not be there."""
    return "make" if name == "openat" and "O_EXCL" in rest else NAMES[name]


def file_of(folder, rest):
    """Which file of the folder the call names or holds open, or the folder as `.`; nothing for all others."""
    named, held = NAMED.match(rest), HELD.match(rest)
    if named:
        return named[1]
    if held and os.path.commonpath([folder, held[1]]) == folder:
        return os.path.relpath(held[1], folder)
    return None


def calls(folder, words, script=b""):
    """The status of a command, and how often it makes each call on each file of the folder."""
    log = os.path.join(folder, "..", os.path.basename(folder) + ".calls")
    run = subprocess.run(
        ["strace", "-f", "-qq", "-y", "-s", "0", "-o", log, "-e", "trace=" + ",".join(NAMES), PROGRAM, *words],
        input=script, stdout=subprocess.DEVNULL, stderr=subprocess.DEVNULL, cwd=folder, check=False)
    made = collections.Counter()
    with open(log, encoding="utf-8", errors="replace") as lines:
        for call in filter(None, map(CALL.match, lines)):
            at = file_of(folder, call[2])
            if at is not None:
                made[at, kind(call[1], call[2])] += 1
    os.remove(log)
    return run.returncode, dict(made)


def made(name, writes, syncs):
    """The calls that make a file of this name and write it."""
    said = {(name, "make"): 1, (".", "open"): 1, (".", "sync all"): 1}
    return {**said, **({(name, "write"): writes, (name, "sync"): syncs} if writes else {})}


def loaded(name):
    return {(name, "open"): 1, (name, "size"): 1, (name, "read"): 1}


def script(blocks):
    flushed = "".join(f"0 {k}\n! 0\n" for k in range(1, blocks + 1))
    return f"group 0 g\nchannel t u64 master\nbegin\n{flushed}end\n".encode()


def rows(folder):
    """What is run, in this order: its words, its script, and the status and the calls that are said of it."""
    for blocks in (0, 1, 2, 50):
        yield (["record", f"{blocks}.mf4"], script(blocks), 0, made(f"{blocks}.mf4", 4 + 2 * blocks, 3 + 2 * blocks))
    yield (["finalize", "50.mf4", "done.mf4"], b"", 0, {**loaded("50.mf4"), **made("done.mf4", 3, 3)})
    for words in (["check"], ["info"], ["export", "0"]):
        yield ([words[0], "done.mf4", *words[1:]], b"", 0, {("done.mf4", "open"): 1, ("done.mf4", "size"): 2, ("done.mf4", "read"): 1})
    yield (["record", "50.mf4"], script(1), 4, {("50.mf4", "make"): 1})
    yield (["record", "wrong.mf4"], b"channel t u64 master\n", 8, {})
    yield (["opened", "none.mf4"], b"", 4, {("none.mf4", "open"): 1})
    with open(f"{folder}/text", "wb") as text:
        text.write(b"no MDF file, but a text that is longer than 64 bytes, as those that are.\n")
    yield (["opened", "text"], b"", 3, loaded("text"))
    yield (["finalize", "text", "empty.mf4"], b"", 3, {**loaded("text"), **made("empty.mf4", 0, 0)})


def shown(counts):
    return ", ".join(f"{at}: {call} {count}" for (at, call), count in sorted(counts.items())) or "no call"


def main():
    wrong = 0
    with tempfile.TemporaryDirectory() as above:
        folder = os.path.realpath(f"{above}/files")
        os.mkdir(folder)
        for words, text, status, said in rows(folder):
            got = calls(folder, words, text)
            print(" ".join(words), f"-> {got[0]};", shown(got[1]))
            if got != (status, said):
                wrong += 1
                print(f"  but it is said: {status};", shown(said))
    print("all calls are as they are said" if wrong == 0 else f"{wrong} commands make other calls")
    return 1 if wrong else 0


sys.exit(main())
