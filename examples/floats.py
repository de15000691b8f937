#!/usr/bin/env python3
"""Turns floats into the numbers that their bits are, and back: scripts and tables have a float as such a number.

usage: examples/floats.py < SCRIPT                  prints the script with the values of its channels of f32 and f64, written as decimals
                                                    (90.5, -1e-3, nan), as numbers; all other lines stay as they are
       examples/floats.py NAME:TYPE.. < TABLE       prints a table of `export` with the columns of these names, of type f32 or f64, as
                                                    decimals

A `?` behind a value stays. A whole number without a point is a decimal too, so a script is turned once."""
import csv
import itertools
import struct
import sys

FORMS = {"f32": ("<f", "<I"), "f64": ("<d", "<Q")}


def bits(kind, word):
    """The number of the bits of the float that a decimal is."""
    value, number = FORMS[kind]
    return str(struct.unpack(number, struct.pack(value, float(word)))[0])


def decimal(kind, word):
    """A short decimal that is the float of these bits."""
    value, number = FORMS[kind]
    made = struct.unpack(value, struct.pack(number, int(word)))[0]
    if kind == "f32" and made == made:
        shorter = (f"{made:.{digits}g}" for digits in range(9, 0, -1))
        made = float([*itertools.takewhile(lambda short: bits(kind, short) == word, shorter)][-1])
    return repr(made)


def turned(turn, kind, word):
    """A word turned, but for the `?` behind it."""
    mark = "?" if word.endswith("?") else ""
    return turn(kind, word.removesuffix("?")) + mark


def script(lines):
    groups, has_begun = [], False
    for line in lines:
        words = line.rstrip("\n").split(" ")
        if words[0] == "group":
            groups.append([])
        elif words[0] == "channel" and groups:
            groups[-1].append(words[2])
        elif words[0] == "begin":
            has_begun = True
        elif has_begun and words[0].isdecimal():
            kinds = ["", *groups[int(words[0])]]
            words = [turned(bits, kind, word) if kind in FORMS else word for kind, word in zip(kinds, words)]
            line = " ".join(words) + "\n"
        sys.stdout.write(line)


def table(kinds, rows):
    names = next(rows)
    made = csv.writer(sys.stdout, lineterminator="\n")
    made.writerow(names)
    for row in rows:
        made.writerow([turned(decimal, kinds[name], word) if name in kinds else word for name, word in zip(names, row)])


if len(sys.argv) == 1:
    script(sys.stdin)
else:
    table(dict(word.rsplit(":", 1) for word in sys.argv[1:]), csv.reader(sys.stdin))
