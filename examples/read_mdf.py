#!/usr/bin/env python3
"""Prints the groups, channels, units and samples of an MDF 4.1 file. It is a reader of its own, written from the tables
of the standard, and shares nothing with the program: what it finds in a recording is what any other tool would.

usage: examples/read_mdf.py FILE

It reads one data group whose records have an id of one byte. Its data are the blocks that a chain of list blocks (DLBLOCK)
names, where the data link names one; of a file that was never finalized the last of them may name a list block that was not
written. Else they are data blocks (DTBLOCK) that stand one behind the other from the place that the data group names, as a
recording of form 1 has them, up to the first place whose byte is 0.
"""
import struct
import sys

VALUES_OF_VARIABLE_LENGTH = 1  # cg_flags bit 0: the records of the group are the values of one channel
CAN_BE_INVALID = 2  # cn_flags bit 1: the invalidation position is used


class File:
    def __init__(self, data):
        self.data = data

    def number(self, form, at):
        return struct.unpack_from("<" + form, self.data, at)[0]

    def is_block(self, at, name):
        return at != 0 and self.data[at : at + 4] == b"##" + name

    def block(self, at, name):
        """The links and the place of the body of the block that stands at `at`."""
        assert self.is_block(at, name), f"no {name} at {at}"
        count = self.number("Q", at + 16)
        return [self.number("Q", at + 24 + 8 * k) for k in range(count)], at + 24 + 8 * count

    def text(self, at):
        if at == 0:
            return None
        _, body = self.block(at, b"TX")
        return self.data[body : at + self.number("Q", at + 8)].split(b"\0")[0].decode()


def channels(file, at):
    while at:
        links, body = file.block(at, b"CN")
        kind, sync, data_type, bit, byte, bits, flags, position = struct.unpack_from("<BBBBIIII", file.data, body)
        yield {
            "name": file.text(links[2]), "unit": file.text(links[6]), "kind": kind, "type": data_type, "bit": bit,
            "byte": byte, "bits": bits, "position": position if flags & CAN_BE_INVALID else None, "values": links[5],
        }
        at = links[0]


def groups(file, at):
    while at:
        links, body = file.block(at, b"CG")
        yield {
            "at": at, "name": file.text(links[2]), "id": file.number("Q", body), "flags": file.number("H", body + 16),
            "size": file.number("I", body + 24), "invalid": file.number("I", body + 28),
            "channels": list(channels(file, links[1])),
        }
        at = links[0]


def listed(file, at):
    data = b""
    while file.is_block(at, b"DL"):
        links, _ = file.block(at, b"DL")
        for block in links[1:]:
            _, body = file.block(block, b"DT")
            data += file.data[body : block + file.number("Q", block + 8)]
        at = links[0]
    return data


def stream(file, place):
    if file.is_block(place, b"DL"):
        return listed(file, place)
    data = b""
    while place < len(file.data) and file.data[place] == ord("#"):
        _, body = file.block(place, b"DT")
        size = file.number("Q", place + 8)
        data += file.data[body : place + size]
        place = (place + size + 7) // 8 * 8
    return data


def value(channel, record, invalid, found):
    size = (channel["bit"] + channel["bits"] + 7) // 8
    raw = record[channel["byte"] : channel["byte"] + size]
    if channel["kind"] == 1:
        told = "x" + found[channel["values"]][int.from_bytes(raw, "little")].hex()
    elif channel["type"] in (7, 10):
        told = "x" + raw.hex()
    else:
        number = int.from_bytes(raw, "big" if channel["type"] in (1, 3) else "little") >> channel["bit"]
        number &= (1 << channel["bits"]) - 1
        if channel["type"] in (2, 3) and number >> (channel["bits"] - 1):
            number -= 1 << channel["bits"]
        told = str(number)
    position = channel["position"]
    return told + ("?" if position is not None and invalid[position // 8] >> position % 8 & 1 else "")


def main(path):
    with open(path, "rb") as opened:
        file = File(opened.read())
    header, _ = file.block(64, b"HD")
    group, _ = file.block(header[0], b"DG")
    found = {one["id"]: one for one in groups(file, group[1])}
    named = [one for one in found.values() if not one["flags"] & VALUES_OF_VARIABLE_LENGTH]
    for one in named:
        print("group", one["name"])
        for channel in one["channels"]:
            print("  channel", channel["name"], "unit", channel["unit"] or "-")
    data, values, samples, at = stream(file, group[2]), {}, [], 0
    while at < len(data):
        one = found[data[at]]
        at += 1
        if one["flags"] & VALUES_OF_VARIABLE_LENGTH:
            size = struct.unpack_from("<I", data, at)[0]
            known = values.setdefault(one["at"], {})
            known[sum(4 + len(earlier) for earlier in known.values())] = data[at + 4 : at + 4 + size]
            at += 4 + size
        else:
            samples.append((one, data[at : at + one["size"]], data[at + one["size"] : at + one["size"] + one["invalid"]]))
            at += one["size"] + one["invalid"]
    for one, record, invalid in samples:
        print(one["name"], *(value(channel, record, invalid, values) for channel in one["channels"]))


main(sys.argv[1])
