"""Logs whose samples are counted on: what their inputs are sent, what they acknowledge, and what the files of their parts hold. A sample is
a number, counted from 1 for each source; a group of each source has one channel of 8 bytes, so a record is its group's id and 8 bytes."""
import os
import re
import signal
import subprocess
import sys
import threading
import time

TOP = os.path.dirname(os.path.dirname(os.path.dirname(os.path.abspath(__file__))))
sys.path.insert(0, f"{TOP}/bench/kill")
from recordings import finished  # noqa: E402

LOGGER = os.environ.get("LOGGER", f"{TOP}/crates/log_cli/out/log_cli")
# What a sample costs of a session: its record, 96, and 40 for its value.
COST = 9 + 96 + 40
DURABLE = re.compile(r"source (\d+) durable (\d+)")


def setup(path, sources, *lines_before):
    """Writes the setup of so many sources."""
    with open(path, "w", encoding="ascii") as made:
        for line in lines_before:
            made.write(f"{line}\n")
        for source in range(sources):
            made.write(f"group {source} source{source}\nchannel count u64 master\n")
        made.write("begin\n")
    return path


class Log:
    """A log that runs: what it prints is read while it does. `told` has the last acknowledgement of each source."""

    def __init__(self, folder, sources, *lines_before, inputs=None, fifos=True, out="drive", command=()):
        self.folder, self.sources, self.out = folder, sources, f"{folder}/{out}"
        self.lines, self.told, self.when = [], [0] * sources, [[] for _ in range(sources)]
        self.inputs = inputs or [f"{folder}/in{source}" for source in range(sources)]
        if fifos and inputs is None:
            for name in self.inputs:
                if not os.path.exists(name):
                    os.mkfifo(name)
        words = [*command, LOGGER, self.out, setup(f"{folder}/setup.txt", sources, *lines_before), *self.inputs]
        self.run = subprocess.Popen(words, stdin=subprocess.DEVNULL, stdout=subprocess.PIPE, stderr=subprocess.PIPE)
        self.reader = threading.Thread(target=self.read)
        self.reader.start()

    def read(self):
        """Reads what is printed, up to its end. An acknowledgement never goes back."""
        for line in self.run.stdout:
            text = line.decode("ascii")
            assert text.endswith("\n") or self.run.poll() is None or self.run.returncode < 0, "a line that is cut"
            self.lines.append(text.rstrip("\n"))
            found = DURABLE.fullmatch(self.lines[-1])
            if found:
                source, count = int(found[1]), int(found[2])
                assert count >= self.told[source], f"source {source} was told of {count} behind {self.told[source]}"
                self.told[source] = count
                self.when[source].append((time.monotonic(), count))

    def wait_told(self, source, count, seconds=30):
        """Waits until so many samples of a source are acknowledged."""
        end = time.monotonic() + seconds
        while self.told[source] < count:
            assert time.monotonic() < end, f"source {source}: no acknowledgement of {count} in {seconds} s"
            assert self.run.poll() is None, f"it ended with {self.run.returncode}: {self.lines[-3:]}"
            time.sleep(0.002)

    def written(self, *ways):
        """Writers of its inputs that have begun, one for each of these ways to send so many samples."""
        writers = [Writer(name, source, samples, way) for source, (name, (way, samples)) in enumerate(zip(self.inputs, ways))]
        for writer in writers:
            writer.start()
        return writers

    def kill(self):
        """Kills it, and answers whether it was killed before its end. A writer that still waits for a reader is let go."""
        self.run.send_signal(signal.SIGKILL)
        self.run.wait()
        self.reader.join()
        for name in self.inputs:
            os.close(os.open(name, os.O_RDONLY | os.O_NONBLOCK))
        return self.run.returncode == -signal.SIGKILL

    def end(self, seconds=120):
        """Waits for its end, and answers its status and the lines behind the last acknowledgement, and what standard error was told."""
        try:
            self.run.wait(seconds)
        except subprocess.TimeoutExpired:
            self.kill()
            raise AssertionError(f"it did not end in {seconds} s") from None
        self.reader.join()
        return self.run.returncode, [line for line in self.lines if not DURABLE.fullmatch(line)], self.run.stderr.read().decode()

    def parts(self):
        """The files of the parts that are there, in order."""
        found = []
        while os.path.exists(f"{self.out}.{len(found)}"):
            found.append(f"{self.out}.{len(found)}")
        return found

    def samples(self):
        """The samples of each source, part behind part, as `finalize` leaves them. A part that is no MDF file is the last one."""
        parts = [finished(part, f"{self.folder}/finished.mf4", self.sources) for part in self.parts()]
        assert None not in parts[:-1], "a part without a file behind one"
        begun = [part for part in parts if part is not None]
        return [sum((part[source] for part in begun), []) for source in range(self.sources)]


class Writer(threading.Thread):
    """Sends numbered samples of a source into a FIFO, as `pieces` cuts their bytes, until it has sent all or nobody reads. `sent` is how many
    lines are whole in what was written."""

    def __init__(self, name, source, samples, pieces, held=False):
        super().__init__(daemon=True)
        self.name_of, self.source, self.samples, self.pieces = name, source, samples, pieces
        # When held it leaves the FIFO open, until `let_go` is set.
        self.sent, self.at, self.let_go = 0, [], threading.Event()
        if not held:
            self.let_go.set()

    def run(self):
        try:
            with open(self.name_of, "wb", buffering=0) as fifo:
                for piece, whole in self.pieces(self.source, self.samples):
                    # Counted before it is written, since it may be acknowledged before the next line of this is run.
                    self.sent += whole
                    self.at.append((time.monotonic(), self.sent))
                    left = piece
                    while left:
                        left = left[fifo.write(left):]
                self.let_go.wait()
        except BrokenPipeError:
            pass


def checked(log, writers):
    """Says what the files of a log hold against what its inputs were sent and what it acknowledged: how many samples of each source."""
    found = log.samples()
    for source, own in enumerate(found):
        assert own == list(range(1, len(own) + 1)), f"source {source}: no beginning of what was sent, or not in order"
        assert len(own) >= log.told[source], f"source {source}: {log.told[source]} acknowledged, {len(own)} there"
        assert len(own) <= writers[source].sent, f"source {source}: {len(own)} there, {writers[source].sent} sent"
    return [len(own) for own in found]


def ended(main):
    """Ends the script with 1 where something is wrong."""
    try:
        main()
    except AssertionError as wrong:
        print(f"wrong: {wrong}")
        sys.exit(1)
