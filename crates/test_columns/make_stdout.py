#!/usr/bin/env python3
"""Writes the files stdin and stdout beside this one: buffers, and what the program is to print of each.

A register is turned here by Python's slices, from the words of docs/REFERENCE.md, 'Columns of a register', and hashed by hashlib. Nothing is
taken from the proved crates."""
import hashlib
import os
import random
import struct
import sys

HERE = os.path.dirname(os.path.abspath(__file__))
sys.path.insert(0, os.path.join(HERE, "..", "..", "oracle"))
from layouts import PLACE, PLACES, REGISTER, record, register, summary  # noqa: E402

HEAD = REGISTER - PLACES * PLACE
UNTOUCHED = b"\7"


def columns(data):
    places = [data[HEAD + i * PLACE :][:PLACE] for i in range(PLACES)]
    return data[:HEAD] + b"".join(bytes(place[j] for place in places) for j in range(PLACE))


def uncolumns(data):
    return data[:HEAD] + b"".join(data[HEAD + i :: PLACES] for i in range(PLACES))


def line(turned, data, size=REGISTER):
    """What is answered, what is in the output then, and the line of both."""
    done = len(data) == REGISTER and size == REGISTER
    out = turned(data) if done else UNTOUCHED * size
    return out, "%d %s\n" % (0 if done else 17, hashlib.blake2s(out).hexdigest())


def lines(data):
    turned, first = line(columns, data)
    undone, third = line(uncolumns, data)
    short = [line(each, data, REGISTER - 1)[1] for each in (columns, uncolumns)]
    return "".join([first, line(uncolumns, turned)[1], third, line(columns, undone)[1], *short, "\n"])


def buffers():
    dice = random.Random(12)
    full = {record([k + 1, k + 2], lat=100 * k, time=1000 + k, models=[k % 64]): 1 << k % 32 for k in range(PLACES)}
    said = [summary(k % 32, k // 32, 3, bytes([k]) * 32) for k in range(256)]
    yield register()
    yield register(said[:3], dict(list(full.items())[:5]), (4, 9))
    yield register(said, full)
    yield dice.randbytes(REGISTER)
    yield b"\xff" * REGISTER
    for size in (0, 1, HEAD, REGISTER - 1, REGISTER + 1):
        yield dice.randbytes(size)


def main():
    stdin, stdout = b"", ""
    for data in buffers():
        assert len(data) != REGISTER or uncolumns(columns(data)) == data == columns(uncolumns(data))
        stdin += struct.pack("<H", len(data)) + data
        stdout += lines(data)
    with open(os.path.join(HERE, "stdin"), "wb") as out:
        out.write(stdin)
    with open(os.path.join(HERE, "stdout"), "w") as out:
        out.write(stdout)


main()
