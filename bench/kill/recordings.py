"""Recordings of four sources, whose samples are counted on: their scripts, and what their files hold. The blocks are read here from the
bytes, by the tables of the standard; nothing of it is the program's."""
import os
import signal
import struct
import subprocess
import time

TOP = os.path.dirname(os.path.dirname(os.path.dirname(os.path.abspath(__file__))))
PROGRAM = os.environ.get("PROGRAM", f"{TOP}/crates/mdf_cli/out/mdf_cli")
SOURCES, SAMPLES, BEHIND_EACH = 4, 2000, 20


def script(form, *lines_before):
    lines = [*lines_before, f"form {form}", "block 512"]
    for source in range(SOURCES):
        lines += [f"group {source} source{source}", "channel count u64 master"]
    lines.append("begin")
    for k in range(1, SAMPLES + 1):
        for source in range(SOURCES):
            lines.append(f"{source} {k}")
            if k % BEHIND_EACH == 0:
                lines.append(f"! {source}")
    return "\n".join(lines + ["end", ""]).encode()


def number(data, at, form="<Q"):
    return struct.unpack_from(form, data, at)[0]


def first_place(data):
    """The data link of the first data group, which HD names."""
    return number(data, number(data, 88) + 40)


def opened_data(data):
    """The data of the blocks whose first byte is `#`, one behind the other; in form 2 of those that list blocks name."""
    at, found = first_place(data), b""
    while at < len(data) and data[at] == ord("#"):
        block = number(data, at + 32) if data[at + 2 : at + 4] == b"DL" else at
        size = number(data, block + 8)
        found += data[block + 24 : block + size]
        at = number(data, at + 24) if block > at else (at + size + 7) // 8 * 8
    return found


def finished_data(data):
    at = first_place(data)
    return data[at + 24 : at + number(data, at + 8)]


def samples_of(data, sources):
    """The numbers of each source: a record is its group's id, counted from 1, and 8 bytes."""
    found = [[] for _ in range(sources)]
    for at in range(0, len(data), 9):
        found[data[at] - 1].append(number(data, at + 1))
    return found


def finished(path, done, sources=SOURCES):
    """What the samples of each source are that `finalize` makes of a file, or None where it is none or no MDF file."""
    data = open(path, "rb").read() if os.path.exists(path) else b""
    if not data.startswith(b"UnFinMF "):
        assert len(data) < 2 or data[0] == 0, "a file whose first bytes are no mark"
        return None
    subprocess.run([PROGRAM, "finalize", path, done], stdout=subprocess.DEVNULL, check=True)
    made = finished_data(open(done, "rb").read())
    os.remove(done)
    assert made == opened_data(data), "other records than the opened blocks have"
    return samples_of(made, sources)


def timed(command, path, text):
    """How long the command takes that is not killed."""
    began = time.time()
    with open(text, "rb") as given:
        subprocess.run([PROGRAM, command, path], stdin=given, stdout=subprocess.DEVNULL, check=True)
    return time.time() - began


def killed(command, path, text, seconds):
    """Kills the command after so many seconds, and answers whether it was killed before its end."""
    with open(text, "rb") as given:
        run = subprocess.Popen([PROGRAM, command, path], stdin=given, stdout=subprocess.DEVNULL)
        time.sleep(seconds)
        run.send_signal(signal.SIGKILL)
        return run.wait() != 0
