"""Makes a file of about so many bytes to try the program on.

usage: make.py SHAPE BYTES OUT

SHAPE is one of

sorted     a finalized file of one channel group without record ids: a time (a float of 64 bits) and four numbers of 16 bits
unsorted   a finalized file with ids of 1 byte and three channel groups: a time and values of 8 and of 12 bytes in turns, these
           values, and a time and four numbers of 16 bits
recording  a recording of the groups of `unsorted`, as `record` leaves it behind its last flush
wide       such a recording of one channel group: a time and 99 numbers of 64 bits
offsets    a finalized file of one channel group without records: a channel of variable length for each 200 bytes, whose offsets
           lie in no order
hole       as `sorted`, but all records lie in one data block and are a hole of the file, which reads as zeros
groups     a finalized file with ids of 2 bytes without records: a channel group of one channel for each 328 bytes
channels   a finalized file of one channel group without records: a number of 16 bits for each 192 bytes
texts      as `channels`, but each channel has a unit and a comment of 200 bytes, and 656 bytes
blocks     as `sorted`, but the records lie in data blocks of 96 bytes
gates      as `recording`, but the records lie in data blocks of 98 bytes

and `sorted` and `unsorted` may have `open-` before them: the same records as another tool leaves them that loses power, unfinalized with
the standard flags 5, the cycle counts 0, and the length of the last data block that of an empty one.

Else the records of a finalized file lie in data blocks (DTBLOCK) of 4,000,000 bytes, the last a shorter one, which a chain of lists
(DLBLOCK) of at most 50 names, so some records lie across two blocks. Those of a recording lie in blocks of whole records of at
most 65,536 bytes, one behind the other, with a byte 0 behind the last.
"""

import itertools
import random
import struct
import sys

LISTED = 50
ALL = 98  # the records of `both`
WIDE = 801  # a record of `wide`, with its id

shape, size, out = sys.argv[1], int(sys.argv[2]), open(sys.argv[3], "wb")
is_open, shape = shape.startswith("open-"), shape.removeprefix("open-")
is_recording = shape in ("recording", "wide", "gates")
whole = WIDE if shape == "wide" else ALL
mark, flags, PART = (b"UnFinMF ", (33, 1), 65_536 // whole * whole) if is_recording else (b"MDF     ", (0, 0), 4_000_000)
mark, flags = (b"UnFinMF ", (5, 0)) if is_open else (mark, flags)
PART = {"blocks": 96, "gates": ALL}.get(shape, PART)
head = bytearray(mark + b"4.10    example " + bytes(4) + struct.pack("<H30x2H", 410, *flags))


def block(name, links, body):
    return b"##" + name + struct.pack(f"<4xQQ{len(links)}Q", 24 + 8 * len(links) + len(body), len(links), *links) + body


def place(name, links, body):
    """Puts a block behind the others, and answers its address."""
    at = len(head)
    made = block(name, links, body)
    head.extend(made + bytes(-len(made) % 8))
    return at


def text(words):
    return place(b"TX", [], words.encode() + bytes(8 - len(words) % 8))


def channel(after, name, kind, data_type, byte, bits, values=0, unit=0, comment=0):
    body = struct.pack("<BBBBIIII", kind, kind == 2, data_type, 0, byte, bits, 0, 0) + bytes(52)
    return place(b"CN", [after, 0, text(name), 0, 0, values, unit, comment], body)


def timed(first):
    return channel(first, "t", 2, 4, 0, 64)


def numbers():
    """The first of four channels behind the time."""
    first = 0
    for k in reversed(range(4)):
        first = channel(first, f"n{k}", 0, 0, 8 + 2 * k, 16)
    return first


def words():
    """The first of 99 channels behind the time."""
    first = 0
    for k in reversed(range(99)):
        first = channel(first, f"w{k}", 0, 0, 8 + 8 * k, 64)
    return first


def offsets(count):
    """The first of so many channels of variable length."""
    first = 0
    for k in random.Random(1).sample(range(count), count):
        first = channel(first, f"v{k}", 1, 10, 8 * k, 64)
    return first


def many(count, said):
    """The first of so many channels of 16 bits, with texts of 200 bytes or without."""
    first = 0
    for k in reversed(range(count)):
        texts = [text(f"{name} of the channel {k}".ljust(200, ".")) for name in ("unit", "comment")] if said else [0, 0]
        first = channel(first, f"n{k}", 0, 0, 2 * k, 16, 0, *texts)
    return first


def group(after, first, name, number, count, flags, length):
    body = struct.pack("<QQHHIII", number, count, flags, 0, 0, length, 0)
    return place(b"CG", [after, first, text(name), 0, 0, 0], body)


def plain(k):
    return struct.pack("<d4H", k / 100, k % 5000, k % 7, k % 65536, 1)


def both(k):
    """Two samples with their values, and two records of numbers."""
    made = b"\2\x08\0\0\0%08d\1" % (k % 10**8) + struct.pack("<dQ", k / 50, 28 * k)
    made += b"\2\x0c\0\0\0%012d\1" % k + struct.pack("<dQ", k / 50 + 0.01, 28 * k + 12)
    return made + b"\3" + plain(2 * k) + b"\3" + plain(2 * k + 1)


def broad(k):
    return b"\1" + struct.pack("<d99Q", k / 100, *range(k, k + 99))


place(b"HD", [0, 0, 0, 0, 0, 0], bytes(32))
comment = place(b"MD", [], b"<FHcomment><TX>example</TX></FHcomment>\0")
entry = place(b"FH", [0, comment], bytes(16))

# The groups, and the bytes of their records.
if shape in ("sorted", "hole", "blocks"):
    id_size, count = 0, size // 16
    first = group(0, timed(numbers()), "numbers", 0, 0 if is_open else count, 0, 16)
    total, records = 16 * count, map(plain, range(count))
elif shape in ("unsorted", "recording", "gates"):
    id_size, count = 1, size // ALL
    said = 0 if is_recording or is_open else 2 * count
    first = group(0, timed(numbers()), "numbers", 3, said, 0, 16)
    first = values = group(first, 0, "values", 2, said, 1, 0)
    first = group(first, timed(channel(0, "v", 1, 10, 8, 64, values)), "timed", 1, said, 0, 16)
    total, records = ALL * count, map(both, range(count))
elif shape == "wide":
    id_size, count = 1, size // WIDE
    first = group(0, timed(words()), "words", 1, 0, 0, 800)
    total, records = WIDE * count, map(broad, range(count))
elif shape == "offsets":
    id_size, count = 0, size // 200
    first = group(0, offsets(count), "offsets", 0, 0, 0, 8 * count)
    total, records = 0, iter(())
elif shape in ("channels", "texts"):
    id_size, count = 0, size // (656 if shape == "texts" else 192)
    first = group(0, many(count, shape == "texts"), shape, 0, 0, 0, 2 * count)
    total, records = 0, iter(())
elif shape == "groups":
    id_size, first = 2, 0
    for k in reversed(range(size // 328)):
        first = group(first, timed(0), f"g{k}", k + 1, 0, 0, 8)
    total, records = 0, iter(())
else:
    sys.exit(__doc__)

content = len(head) + 64 if total or is_recording else 0
data_group = place(b"DG", [0, first, content, 0], struct.pack("<B7x", id_size))
struct.pack_into("<QQ", head, 64 + 24, data_group, entry)
out.write(head)

made = bytearray()


def taken(length):
    """The next bytes of the records."""
    while len(made) < length:
        made.extend(b"".join(itertools.islice(records, 65536)))
    part = bytes(made[:length])
    del made[:length]
    return part


def data(length):
    """The next data block, and what fills it up to an address that 8 divides."""
    return block(b"DT", [], taken(length)) + bytes(-length % 8)


if shape == "hole":
    out.write(b"##DT" + struct.pack("<4xQQ", 24 + total, 0))
    out.truncate(len(head) + 24 + total)
    sys.exit()
at = len(head)
lengths = [min(PART, total - place) for place in range(0, total, PART)]
if is_recording:
    for length in lengths:
        out.write(data(length))
    out.write(b"\0")
    sys.exit()
last = 0
for k in range(0, len(lengths), LISTED):
    listed = lengths[k : k + LISTED]
    behind = at + 24 + 8 * (1 + len(listed)) + 8 + 8 * len(listed)
    places = list(itertools.accumulate((24 + length + -length % 8 for length in listed), initial=behind))
    body = struct.pack(f"<II{len(listed)}Q", 0, len(listed), *(PART * (k + n) for n in range(len(listed))))
    last, at = places[-2], places.pop()
    out.write(block(b"DL", [at if k + LISTED < len(lengths) else 0, *places], body))
    for length in listed:
        out.write(data(length))
if is_open and last:
    out.truncate(last + 24 + lengths[-1])
    out.seek(last + 8)
    out.write(struct.pack("<Q", 24))
