# The head of a recording of the generated script, and what stands in its blocks of each record id, in order: two recordings of
# one script are equal in this, whatever the order in which their sources ran.
#
# usage: streams.py RECORDING
import hashlib
import struct
import sys

SIZES = {1: 12, 2: 12, 3: 12, 4: 20}  # behind the id; the values of id 5 have their length in front

data = open(sys.argv[1], "rb").read()
at = first = data.index(b"##DT")
streams = {}
while data[at : at + 4] == b"##DT":
    (length,) = struct.unpack_from("<Q", data, at + 8)
    place, end = at + 24, at + length
    while place < end:
        size = SIZES.get(data[place]) or 4 + struct.unpack_from("<I", data, place + 1)[0]
        streams.setdefault(data[place], bytearray()).extend(data[place + 1 : place + 1 + size])
        place += 1 + size
    at = (end + 7) // 8 * 8
print("head", first, hashlib.sha256(data[:first]).hexdigest())
for number, stream in sorted(streams.items()):
    print("id", number, len(stream), hashlib.sha256(stream).hexdigest())
