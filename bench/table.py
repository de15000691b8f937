#!/usr/bin/env python3
"""Prints the tables of docs/performance.md: what each command costs beside straight C, and how that grows.

usage: bench/table.py [WORD...]     (only the rows with one of these words in their first two columns)

The first table has for each command, of an input and of one ten times as large, the instructions (valgrind) of the program and of a twin in C
that prints the same lines and makes the same file with the same calls, and their ratio; for `sort`, `cut`, `concat`, `check` and `info` it
has two twins, one that goes over the records once and one that goes over them byte by byte (`sort`, `cut` and `concat`: once for each
group). Of the larger input it has the system calls of both (strace, if it is there) and the most memory that both held. The second table
has the instructions and calls for inputs in which one thing is ten times as many.

The programs are those that were built (MDF4REC_PROVE=1 ./mdf4rec, and ./mdf4log), or those that the variables PROGRAM and LOGGER name. It is
run by hand and is no part of the gate. It needs python3, valgrind, a C compiler and 2 GB of memory, and works in a folder of its own under out/. Each twin's lines and
file are compared with the program's; of four sources and `gen` the lines alone, since the order of their records is any. A twin takes
the time of the recording, or of the new entry of the history, from the file that the program made."""
import filecmp
import os
import re
import shutil
import subprocess
import sys
import tempfile
from dataclasses import dataclass, field

BENCH = os.path.dirname(os.path.abspath(__file__))
TOP = os.path.dirname(BENCH)
TWINS = {"record": "record/twin.c", "read": "read.c", "made": "made.c", "export": "export/twin.c", "peak": "peak.c"}
KEPT = ["0", "9223372036854775808"]  # all masters that are not negative


@dataclass
class Row:
    """A command, its input of a size and of ten times that, and its twins. The first word of a command is a program (OURS, LOG, or the name of a
    twin), and of the others OUT is the file that it makes, IN its input, SETUP that of a log, NOTES a file with an attachment, DATA so many bytes,
    COUNT the size and FIRST the file that OURS made. A maker writes IN, or prints what is given as `prints` says."""

    name: str
    what: str  # the input, in words
    size: int
    maker: list  # what prints or makes the input
    ours: list
    twins: list = field(default_factory=list)  # the words of each
    any_order: bool = False  # whether the records may stand in another order
    prints: str = ""  # what the maker prints: the script on standard input, IN, or a script that is the setup and the input of a log


def made(shape):
    return ["make.py", shape, "COUNT", "IN"]


def scripted(name, what, size, maker, any_order=False):
    return Row(name, what, size, maker, ["OURS", "record", "OUT"], [["record", "FIRST", "OUT"]], any_order, "script")


def looking(name, shape, what, size):
    twins = [["read", way, name, "IN"] for way in ("once", "often")]
    return Row(name, what, size, made(shape), ["OURS", name, "IN"], twins)


def making(name, shape, what, size):
    inputs, behind = ["IN"] * (2 if name == "concat" else 1), KEPT if name == "cut" else []
    twins = [["made", way, name, "FIRST", *inputs, "OUT", *behind] for way in ("once", "often")]
    return Row(name, what, size, made(shape), ["OURS", name, *inputs, "OUT", *behind], twins)


def finalizing(shape, what, size):
    ours, twin = ["OURS", "finalize", "IN", "OUT"], ["read", "finalize", "FIRST", "IN", "OUT"]
    return Row("finalize", what, size, made(shape), ours, [twin])


IDS, NONE = "small records with ids", "records without ids"
ROWS = [
    scripted("record", "two channels of words", 10_000, ["record/words.py", "COUNT"]),
    scripted("record", "channels of all kinds", 6_000, ["record/mixed.py", "COUNT"]),
    scripted("record", "one channel of 8 bits", 20_000, ["record/bytes.py", "COUNT"]),
    scripted("record", "four sources, line by line", 20_000, ["record/sources.py", "4", "1", "COUNT"], True),
    scripted("record", "four sources, runs of 1,000", 20_000, ["record/sources.py", "4", "1000", "COUNT"], True),
    Row("gen", "samples", 20_000, [], ["OURS", "gen", "COUNT", "OUT"], [["record", "FIRST", "OUT", "COUNT"]], True),
    Row("opened", "small records", 500_000, made("recording"), ["OURS", "opened", "IN"], [["read", "opened", "IN"]]),
    finalizing("recording", IDS, 500_000),
    finalizing("wide", "records of 801 bytes", 500_000),
    *(looking(name, shape, what, 500_000) for name in ("check", "info") for shape, what in (("unsorted", IDS), ("sorted", NONE))),
    *(making(name, shape, what, 500_000) for name in ("sort", "cut", "concat") for shape, what in (("unsorted", IDS), ("sorted", NONE))),
    Row("export", "rows of five channels", 500_000, made("sorted"), ["OURS", "export", "IN", "0"], [["export", "IN"]]),
]
GROWTH = [
    *(Row(name, "channel groups", 32_800, made("groups"), ["OURS", name, "IN"]) for name in ("check", "info")),
    *(Row(name, "channels", 19_200, made("channels"), ["OURS", name, "IN"]) for name in ("check", "info")),
    Row("check", "channels of variable length", 20_000, made("offsets"), ["OURS", "check", "IN"]),
    Row("check", "texts", 65_600, made("texts"), ["OURS", "check", "IN"]),
    Row("check", "data blocks of 96 bytes", 9_600, made("blocks"), ["OURS", "check", "IN"]),
    Row("opened", "data blocks of 98 bytes", 9_800, made("gates"), ["OURS", "opened", "IN"]),
    Row("finalize", "data blocks of 98 bytes", 9_800, made("gates"), ["OURS", "finalize", "IN", "OUT"]),
    Row("rotate", "samples of four sources", 20_000, ["record/sources.py", "4", "1", "COUNT"], ["OURS", "rotate", "OUT"], prints="script"),
    Row("attach", "records with ids behind them", 500_000, made("unsorted"), ["OURS", "attach", "NOTES", "IN", "OUT"]),
    Row("attachments", "bytes that are embedded", 500_000, ["../examples/attach_text.py", "DATA"], ["OURS", "attachments", "IN"], prints="in"),
    Row("mdf4log", "samples of one source", 20_000, ["record/bytes.py", "COUNT"], ["LOG", "OUT", "SETUP", "IN"], prints="log"),
]


def build(status, script, *words):
    """Builds the program of this script where it is stale; with these words it makes no file, and ends with this status."""
    said = subprocess.run([f"{TOP}/{script}", *words], env=os.environ | {"MDF4REC_PROVE": "1"}, stdout=subprocess.DEVNULL, check=False)
    if said.returncode != status:
        sys.exit(f"{script} was not built")


class Bench:
    def __init__(self, work, rows):
        self.work = work
        self.programs = {name: f"{work}/{name}" for name in TWINS}
        self.programs["OURS"] = os.path.abspath(os.environ.get("PROGRAM", f"{TOP}/crates/mdf_cli/out/mdf_cli"))
        self.programs["LOG"] = os.path.abspath(os.environ.get("LOGGER", f"{TOP}/crates/log_cli/out/log_cli"))
        if "PROGRAM" not in os.environ:
            build(0, "mdf4rec", "opened", f"{TOP}/examples/two_blocks.mf4")
        if "LOGGER" not in os.environ and any(row.ours[0] == "LOG" for row in rows):
            build(1, "mdf4log")
        for name, source in TWINS.items():
            subprocess.run([os.environ.get("CC", "cc"), "-O2", "-o", self.programs[name], f"{BENCH}/{source}"], check=True)

    def path(self, name):
        return os.path.join(self.work, name)

    def input_of(self, row, size):
        """Makes the input of this size."""
        words = [str(size) if word == "COUNT" else self.place(word) if word in ("IN", "DATA") else word for word in row.maker]
        if "DATA" in row.maker:
            with open(self.path("data"), "wb") as data:
                data.write(bytes(size))
        with open(self.path("in" if row.prints == "in" else "script"), "wb") as out:
            if words:
                subprocess.run([sys.executable, f"{BENCH}/{words[0]}", *words[1:]], stdout=out, check=True)
        if row.prints == "log":
            with open(self.path("script"), "rb") as script, open(self.path("setup"), "wb") as setup, open(self.path("in"), "wb") as lines:
                front, begin, rest = script.read().partition(b"begin\n")
                setup.write(front + begin)
                lines.write(rest)

    def place(self, word):
        """Where the file of this word stands."""
        if word == "NOTES" and not os.path.exists(self.path("notes")):
            with open(self.path("notes"), "wb") as out:
                subprocess.run([sys.executable, f"{TOP}/examples/attach_text.py", f"{TOP}/examples/drive.txt"], stdout=out, check=True)
        return self.path(word.lower())

    def command(self, words, size):
        return [self.programs[words[0]], *(str(size) if word == "COUNT" else self.place(word) if word.isupper() else word for word in words[1:])]

    def run(self, row, command, said="said", told="told"):
        """Runs a command, and answers what it printed."""
        for name in os.listdir(self.work):
            if name == "out" or name.startswith("out."):
                os.remove(self.path(name))
        with open(self.path("script") if row.prints == "script" else os.devnull, "rb") as given:
            with open(self.path(said), "wb") as out, open(self.path(told), "wb") as err:
                subprocess.run(command, stdin=given, stdout=out, stderr=err, check=True)

    def compare(self, row, size):
        """Whether each twin prints the same, and makes the same file."""
        self.run(row, self.command(row.ours, size), "ours")
        if "OUT" in row.ours:
            os.replace(self.path("out"), self.path("first"))
        for twin in row.twins:
            self.run(row, self.command(twin, size), "theirs")
            same = filecmp.cmp(self.path("ours"), self.path("theirs"), False)
            if "OUT" in twin and not row.any_order:
                same = same and filecmp.cmp(self.path("first"), self.path("out"), False)
            if not same:
                sys.exit(f"{row.name}, {row.what}: `{' '.join(twin)}` does not do the same")

    def instructions(self, row, words, size):
        counts = self.path("counts")
        self.run(row, ["valgrind", "--tool=callgrind", f"--callgrind-out-file={counts}", *self.command(words, size)])
        with open(counts, encoding="utf8") as lines:
            return int(re.search(r"^(?:summary|totals): (\d+)", lines.read(), re.MULTILINE)[1])

    def calls(self, row, words, size):
        if not shutil.which("strace"):
            return None
        self.run(row, ["strace", "-f", "-c", "-o", self.path("calls"), *self.command(words, size)])
        with open(self.path("calls"), encoding="utf8") as lines:
            each = re.findall(r"^ *[\d.]+ +[\d.]+ +\d+ +(\d+) +(?:\d+ +)?(\w+)$", lines.read(), re.MULTILINE)
            return sum(int(count) for count, name in each if name != "total")

    def peak(self, row, words, size):
        settings = settings_of(row.name) if words == row.ours else ""
        setting = ["env", f"GLIBC_TUNABLES={settings}"] if settings else []
        self.run(row, [*setting, self.programs["peak"], *self.command(words, size)], "held")
        with open(self.path("held"), encoding="utf8") as said:
            return int(said.read())


def settings_of(command):
    """The settings of the C library with which mdf4rec runs a command, without pages of 2 MB."""
    script = '. "$0/.ci/memory"; memory_settings mdf4rec "$1"'
    said = subprocess.run(["bash", "-c", script, TOP, command], check=True, capture_output=True, text=True).stdout
    return ":".join(part for part in said.strip().split(":") if "hugetlb" not in part)


def millions(counts):
    return " / ".join(f"{count / 1e6:.{1 if count >= 1e7 else 2}f}" for count in counts)


def ratios(ours, theirs):
    return " / ".join(f"{a / b:.2f}" for a, b in zip(ours, theirs))


def line(*cells):
    print("|", " | ".join(str(cell) for cell in cells), "|", flush=True)


def heading(*cells):
    line(*cells)
    print("|" + "---|" * len(cells), flush=True)


def beside_c(bench, row):
    """The cells of a row of the first table."""
    sizes = [row.size, 10 * row.size]
    ours, twins = [], [[] for _ in row.twins]
    for size in sizes:
        bench.input_of(row, size)
        bench.compare(row, size)
        ours.append(bench.instructions(row, row.ours, size))
        for counts, twin in zip(twins, row.twins):
            counts.append(bench.instructions(row, twin, size))
    calls = [bench.calls(row, words, sizes[1]) for words in (row.ours, row.twins[0])]
    peaks = [bench.peak(row, words, sizes[1]) for words in (row.ours, row.twins[0])]
    often = ratios(ours, twins[1]) if len(twins) > 1 else ""
    growth = f"{ours[1] / ours[0]:.1f}"
    return [millions(ours), growth, millions(twins[0]), ratios(ours, twins[0]), often, *calls, *(f"{peak / 1e6:.1f}" for peak in peaks)]


def growth(bench, row):
    """The cells of a row of the second table."""
    counts, calls = [], []
    for size in (row.size, 10 * row.size):
        bench.input_of(row, size)
        bench.run(row, bench.command(row.ours, size))
        counts.append(bench.instructions(row, row.ours, size))
        calls.append(bench.calls(row, row.ours, size))
    return [millions(counts), f"{counts[1] / counts[0]:.1f}", " / ".join(str(count) for count in calls)]


def main():
    words = sys.argv[1:]
    rows, grown = ([row for row in of if not words or any(word in f"{row.name} {row.what}" for word in words)] for of in (ROWS, GROWTH))
    os.makedirs(f"{TOP}/out", exist_ok=True)
    with tempfile.TemporaryDirectory(prefix="bench.", dir=f"{TOP}/out") as work:
        bench = Bench(work, rows + grown)
        if rows:
            heading("command", "input", "size, ten times", "ours, M", "growth", "C, M", "ratio", "byte by byte", "calls", "C", "peak, MB", "C")
        for row in rows:
            line(f"`{row.name}`", row.what, f"{row.size:,}", *beside_c(bench, row))
        if rows and grown:
            print()
        if grown:
            heading("command", "what grows", "size, ten times", "ours, M", "growth", "calls")
        for row in grown:
            line(f"`{row.name}`", row.what, f"{row.size:,}", *growth(bench, row))


if __name__ == "__main__":
    main()
