#!/usr/bin/env python3
"""Makes two_blocks.mf4, a recording to try `opened` on.

The identification stands at 0 (64 bytes), the header at 64 (HDBLOCK, 104 bytes), the data group at 168 (DGBLOCK,
64 bytes). Its data link names 232, the first place. A data block with 10 bytes stands there, so the next place is 272;
one with 16 bytes stands at 272, so the next place is 312, and the gate there is closed.
"""
import pathlib
import struct


def block(name, links, body):
    size = 24 + 8 * len(links) + len(body)
    return b"##" + name + bytes(4) + struct.pack("<QQ", size, len(links)) + struct.pack(f"<{len(links)}Q", *links) + body


def filled(part):
    return part + bytes(-len(part) % 8)


identification = b"UnFinMF " + b"4.10    " + b"mdf4rec " + bytes(4) + struct.pack("<H", 410) + bytes(30) + struct.pack("<HH", 33, 1)
header = block(b"HD", [168, 0, 0, 0, 0, 0], bytes(32))
group = block(b"DG", [0, 0, 232, 0], bytes([1]) + bytes(7))
first = block(b"DT", [], bytes(range(10)))
second = block(b"DT", [], bytes(range(16)))
recording = identification + header + group + filled(first) + filled(second) + b"\0"
assert len(recording) == 313
(pathlib.Path(__file__).parent / "two_blocks.mf4").write_bytes(recording)
