#!/usr/bin/env python3
"""Makes a finalized file without a measurement, with a text as its attachment, for `attach`.

usage: attach_text.py TEXT > OUT

The block of the attachment (AT) has the text's file name, its MIME type, its MD5 and its bytes. Each block stands behind the one
before, at the next multiple of 8: the identification at 0 (64 bytes), the header at 64.
"""
import hashlib
import pathlib
import struct
import sys

from blocks import link, made, place, text

path = pathlib.Path(sys.argv[1])
data = path.read_bytes()
header = place(b"HD", [0, 0, 0, 0, 0, 0], bytes(32))
comment = place(b"MD", [], b"<FHcomment><TX>example</TX></FHcomment>\0")
entry = place(b"FH", [0, comment], bytes(16))
name = text(path.name)
kind = text("text/plain")
# embedded (1), with a valid MD5 (4); the entry of the history is that with the number 0
fields = struct.pack("<HH4x16sQQ", 5, 0, hashlib.md5(data).digest(), len(data), len(data))
attachment = place(b"AT", [0, name, kind, 0], fields + data)
link(header, 1, entry)
link(header, 3, attachment)
sys.stdout.buffer.write(made)
