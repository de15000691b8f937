#!/usr/bin/env python3
"""Makes two_groups.mf4, a finalized file to try `check` and `info` on.

It has one data group for each of two channel groups, without record ids: `engine` with a time in seconds (a float of 64 bits)
and a speed (16 bits), three records of 10 bytes, and `door` with a time and one bit, two records of 9 bytes. Each block stands
behind the one before, at the next multiple of 8: the identification at 0 (64 bytes), the header at 64, the history at 168.
"""
import pathlib
import struct

from blocks import link, made, place, text


def channel(name, unit, kind, data_type, byte, bits):
    body = struct.pack("<BBBBIIII", kind, 1 if kind == 2 else 0, data_type, 0, byte, bits, 0, 0) + bytes(52)
    return place(b"CN", [0, 0, text(name), 0, 0, 0, text(unit) if unit else 0, 0], body)


def data_group(name, size, channels, records):
    first = last = 0
    for row in channels:
        at = channel(*row)
        if last:
            link(last, 0, at)
        first, last = first or at, at
    body = struct.pack("<QQHHIII", 0, len(records), 0, 0, 0, size, 0)
    group = place(b"CG", [0, first, text(name), 0, 0, 0], body)
    data = place(b"DT", [], b"".join(records))
    return place(b"DG", [0, group, data, 0], bytes(8))


header = place(b"HD", [0, 0, 0, 0, 0, 0], bytes(32))
comment = place(b"MD", [], b"<FHcomment><TX>example</TX></FHcomment>\0")
entry = place(b"FH", [0, comment], bytes(16))
engine = data_group(
    "engine", 10, [("t", "s", 2, 4, 0, 64), ("speed", "1/min", 0, 0, 8, 16)],
    [struct.pack("<dH", k / 10, 800 + 10 * k) for k in range(3)],
)
door = data_group(
    "door", 9, [("t", "s", 2, 4, 0, 64), ("open", None, 0, 0, 8, 1)], [struct.pack("<dB", k, k % 2) for k in range(2)]
)
link(header, 0, engine)
link(header, 1, entry)
link(engine, 0, door)
(pathlib.Path(__file__).parent / "two_groups.mf4").write_bytes(made)
