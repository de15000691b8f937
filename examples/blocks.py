"""The blocks of a finalized file, put one behind the other, each at the next multiple of 8: the identification at 0 (64 bytes), and what
is placed behind it."""
import struct

made = bytearray(b"MDF     4.10    example " + bytes(4) + struct.pack("<H", 410) + bytes(34))


def place(name, links, body):
    """Puts a block behind the others, and answers its address."""
    at = len(made)
    size = 24 + 8 * len(links) + len(body)
    made.extend(b"##" + name + bytes(4) + struct.pack("<QQ", size, len(links)))
    made.extend(struct.pack(f"<{len(links)}Q", *links) + body + bytes(-size % 8))
    return at


def text(words):
    """Puts a text behind the others, which ends with a zero, and answers its address."""
    letters = words.encode()
    return place(b"TX", [], letters + bytes(8 - len(letters) % 8))


def link(at, k, to):
    """Makes link `k` of the block at this address lead to another one."""
    struct.pack_into("<Q", made, at + 24 + 8 * k, to)
