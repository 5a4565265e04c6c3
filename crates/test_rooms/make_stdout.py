#!/usr/bin/env python3
"""Writes the files stdin and stdout beside this one: pairs of rooms, and what is said of each, which the second writing (oracle/second) says.
Nothing is taken from the proved crates."""
import os
import random
import struct
import sys

sys.dont_write_bytecode = True
HERE = os.path.dirname(os.path.abspath(__file__))
sys.path.insert(0, os.path.join(HERE, "..", "..", "oracle"))
from layouts import REGISTER, record, register, summary  # noqa: E402
from second.generate import operations_of, session_lines  # noqa: E402
from second.rooms import compare, room_of  # noqa: E402

FIXES = [record(list(range(1, n % 4 + 2)), lat=2700 * (n % 3), time=n // 6 * 3 * 10**9, message=bytes([n // 12]) + bytes(6)) for n in range(96)]
WIDEST = record([1], time=2**64 - 1, lat=-(2**31), lon=-(2**31), height=-(2**31), message=bytes(14))


def sessions():
    """A session, almost the same in another order, and the register that it leaves."""
    r = random.Random(7)
    for _ in range(6):
        first = b"".join(session_lines(r))
        operations = [one for one in operations_of(first) if r.random() < 0.8]
        r.shuffle(operations)
        yield first, b"".join(operations)
        yield first, room_of(first).raw


def pairs():
    some = register([summary(3, 5, 1, bytes(32))], {one: 1 << n % 5 for n, one in enumerate(FIXES[:20])}, [9])
    # both empty: of no bytes, and of zeros
    yield b"", b""
    yield b"", bytes(REGISTER)
    yield some, bytes(REGISTER)
    yield some, some
    # equal but for the convicted engines; the same bytes in another order of calls
    yield register(records={FIXES[0]: 2}, convicted=[0, 31]), register(records={FIXES[0]: 2}, convicted=[7])
    # a board of eight transmissions and one of one; every engine, and the widest line
    yield register(records={one: 1 for one in FIXES}), register(records={FIXES[95]: 1})
    yield register(records={WIDEST: 2**32 - 1}), register([summary(n, 2 * n + 1, 65535, bytes([n]) * 32) for n in range(32)])
    yield register(convicted=range(32)), register(records={WIDEST: 2**32 - 1})
    # a full table on either side
    yield register(records={one: 1 for one in FIXES}), register(records={one: 2 for one in FIXES[:48]})
    # refused: bytes that are no register, a bad line, and which of two is said
    yield some[:-1] + b"\1", some
    yield some, b"\xff" * REGISTER
    yield b"op=convict\nengine=07\n", some
    yield b"op=convict\nengine=7", b"\xff" * REGISTER
    yield b"op=convict\nengine=7\n", b"op=convict\nengine=8\n"
    # a byte less and a byte more than a register is a session
    yield some[:-1], some
    yield some, some + b"\0"
    yield from sessions()


def refusal(data):
    return "no register\n" if len(data) == REGISTER else "a refused session\n"


def said(first, second):
    one, two = room_of(first), room_of(second)
    if one is None or two is None:
        return refusal(first if one is None else second)
    compared = compare(one, two)
    return compared.output + ("false\n" if compared.status else "true\n")


def main():
    with open(os.path.join(HERE, "stdin"), "wb") as data, open(os.path.join(HERE, "stdout"), "w") as text:
        for pair in pairs():
            for room in pair:
                data.write(struct.pack("<H", len(room)) + room)
            text.write(said(*pair))


main()
