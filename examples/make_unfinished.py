#!/usr/bin/env python3
"""Makes unfinished.mf4, a file as a logger of another make leaves it that loses power, to try `finalize` on.

The file is written from the tables of the standard alone. Its identification says `UnFinMF `, and its standard flags 5: the cycle
counters (bit 0) and the length of the last DTBLOCK (bit 2) are to be updated. A DLBLOCK lists two DTBLOCKs, whose bodies, one behind
the other, hold records of 9 bytes: an id and a time as a float of 8 bytes. Three records are written, the second lies in both blocks,
and of the third the last byte is lost. The counter says 0, and the last block says that it has no body.
"""
import pathlib
import struct

PLACES = {}


def block(name, links, body, size=None):
    whole = 24 + 8 * len(links) + len(body)
    header = b"##" + name + bytes(4) + struct.pack("<QQ", whole if size is None else size, len(links))
    return header + struct.pack(f"<{len(links)}Q", *(PLACES.get(link, 0) for link in links)) + body


def text(words):
    return words.encode() + b"\0"


identification = b"UnFinMF " + b"4.10    " + b"Logger  " + bytes(4) + struct.pack("<H", 410) + bytes(30) + struct.pack("<HH", 5, 0)
comment = text('<FHcomment xmlns="http://www.asam.net/mdf/v4"><TX>recorded</TX><tool_id>logger</tool_id><tool_vendor>another</tool_vendor>'
               '<tool_version>1</tool_version></FHcomment>')
records = b"".join(struct.pack("<Bd", 1, time) for time in (0.25, 0.5, 0.75))[:-1]


def blocks():
    yield "header", block(b"HD", ["group", "history", 0, 0, 0, 0], struct.pack("<QhhBBBBdd", 1700000000000000000, 0, 0, 0, 0, 0, 0, 0.0, 0.0))
    yield "history", block(b"FH", [0, "comment"], struct.pack("<QhhB3x", 1700000000000000000, 0, 0, 0))
    yield "comment", block(b"MD", [], comment)
    yield "group", block(b"DG", [0, "channels", "list", 0], struct.pack("<B7x", 1))
    yield "channels", block(b"CG", [0, "time", "engine", 0, 0, 0], struct.pack("<QQHH4xII", 1, 0, 0, 0, 8, 0))
    yield "engine", block(b"TX", [], text("engine"))
    yield "time", block(b"CN", [0, 0, "name", 0, 0, 0, "unit", 0],
                        struct.pack("<BBBBIIIIBxHdddddd", 2, 1, 4, 0, 0, 64, 0, 0, 0, 0, 0, 0, 0, 0, 0, 0))
    yield "name", block(b"TX", [], text("time"))
    yield "unit", block(b"TX", [], text("s"))
    yield "list", block(b"DL", [0, "first", "last"], struct.pack("<B3xIQQ", 0, 2, 0, 13))
    yield "first", block(b"DT", [], records[:13])
    yield "last", block(b"DT", [], records[13:], size=24)


def laid():
    whole = identification
    for name, part in blocks():
        whole += bytes(-len(whole) % 8)
        PLACES[name] = len(whole)
        whole += part
    return whole


laid()
(pathlib.Path(__file__).parent / "unfinished.mf4").write_bytes(laid())
