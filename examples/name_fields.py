#!/usr/bin/env python3
"""Prints a recording byte by byte: each field with its place, its bytes and its name in the standard.

usage: examples/name_fields.py FILE

It goes over the file from its first byte to its last, block behind block as `record` writes them, so that no byte is left out.
The fields are those of the tables of the standard; this reader shares nothing with the program.
"""
import struct
import sys

IDENTIFICATION = [
    (8, "id_file, the mark"), (8, "id_vers"), (8, "id_prog"), (4, "reserved"), ("H", "id_ver, the version"), (30, "reserved"),
    ("H", "id_unfin_flags, 1 for cycle counts, 16 for the last DL and 32 for the sizes of VLSD groups"),
    ("H", "id_custom_unfin_flags, 1 for blocks behind gates, 3 for blocks behind gates with a DL each (own)"),
]
LINKS = {
    b"HD": ["first DG", "first FH", "first CH", "first AT", "first EV", "comment"],
    b"FH": ["next FH", "comment"],
    b"DG": ["next DG", "first CG", "data", "comment"],
    b"CG": ["next CG", "first CN", "name", "source", "first SR", "comment"],
    b"DL": ["the next place", "the data block"],
    b"CN": ["next CN", "composition", "name", "source", "conversion", "data", "unit", "comment"],
}
BODIES = {
    b"HD": [("Q", "start time, ns since 1970"), ("h", "zone, minutes"), ("h", "daylight, minutes"), ("B", "time flags"),
            ("B", "time class"), ("B", "flags"), (1, "reserved"), ("d", "start angle"), ("d", "start distance")],
    b"FH": [("Q", "time, ns since 1970"), ("h", "zone, minutes"), ("h", "daylight, minutes"), ("B", "time flags"), (3, "reserved")],
    b"DG": [("B", "bytes of a record id"), (7, "reserved")],
    b"CG": [("Q", "record id"), ("Q", "cycle count"), ("H", "flags"), ("H", "path separator"), (4, "reserved"),
            ("I", "data bytes"), ("I", "invalidation bytes")],
    b"DL": [("B", "flags"), (3, "reserved"), ("I", "count"), ("Q", "offset, data bytes in the units before")],
    b"CN": [("B", "kind"), ("B", "sync"), ("B", "data type"), ("B", "bit offset"), ("I", "byte offset"), ("I", "bits"), ("I", "flags"),
            ("I", "invalidation position"), ("B", "precision"), (1, "reserved"), ("H", "attachments"), ("d", "least value"),
            ("d", "greatest value"), ("d", "lower limit"), ("d", "upper limit"), ("d", "lower extended limit"), ("d", "upper extended limit")],
}


def shown(data):
    return " ".join(f"{byte:02x}" for byte in data)


def line(at, data, name, told=""):
    """At most sixteen bytes a line; the name stands behind the first."""
    for k in range(0, len(data), 16):
        words = f"  {name}{': ' if told != '' else ''}{told}" if k == 0 else ""
        print(f"{at + k:4}  {shown(data[k : k + 16]):47}{words}".rstrip())


def fields(data, at, table):
    for form, name in table:
        size = form if isinstance(form, int) else struct.calcsize("<" + form)
        part = data[at : at + size]
        line(at, part, name, "" if isinstance(form, int) else struct.unpack("<" + form, part)[0])
        at += size
    return at


def text(data):
    return data.split(b"\0")[0].decode()


def main(path):
    with open(path, "rb") as opened:
        data = opened.read()
    print("identification")
    at = fields(data, 0, IDENTIFICATION)
    gated = b"DL" if struct.unpack_from("<H", data, 62)[0] == 3 else b"DT"
    while data[at : at + 2] == b"##":
        kind, size, count = data[at + 2 : at + 4], *struct.unpack_from("<QQ", data, at + 8)
        print(f"\n{kind.decode()} at {at}")
        if kind == gated:
            line(at, data[at : at + 1], "the gate, written last: opened")
            line(at + 1, data[at + 1 : at + 4], "name", "#" + kind.decode())
        else:
            line(at, data[at : at + 4], "name", "##" + kind.decode())
        line(at + 4, data[at + 4 : at + 8], "reserved")
        line(at + 8, data[at + 8 : at + 16], "length", size)
        line(at + 16, data[at + 16 : at + 24], "links", count)
        body = fields(data, at + 24, [("Q", name) for name in LINKS.get(kind, [])])
        body = fields(data, body, BODIES.get(kind, []))
        end = at + size
        if kind in (b"TX", b"MD"):
            line(body, data[body:end], "text", text(data[body:end]))
        elif kind == b"DT":
            line(body, data[body:end], "records")
        at = (end + 7) // 8 * 8
        if at > end:
            line(end, data[end:at], "filler")
    print("\nthe next place")
    line(at, data[at:], "the gate: closed")


main(sys.argv[1])
