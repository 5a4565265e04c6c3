#!/usr/bin/env python3
"""Writes the file stdout beside this one: what the program is to print. The inputs are the program's, made anew, and the roots are
those of Python's math.sqrt, which is the machine's square root, correctly rounded. A negative value or a NaN gives
7ff8000000000000."""
import math
import os
import re
import struct

FINITE = 0x7FF0_0000_0000_0000
WORD = 2**64


def of_bits(b):
    return struct.unpack("<d", struct.pack("<Q", b))[0]


def to_bits(x):
    return struct.unpack("<Q", struct.pack("<d", x))[0]


def root(b):
    x = of_bits(b)
    if x != x or x < 0:
        return 0x7FF8_0000_0000_0000
    return to_bits(math.sqrt(x))


def edges():
    """The patterns of the program's `edge`, read from its source."""
    source = open(os.path.join(os.path.dirname(os.path.abspath(__file__)), "src", "main.rt")).read()
    return [int(w.replace("_", ""), 16) for w in re.findall(r"^ +(?:\d+|_) => (0x[0-9a-f_]+),$", source, re.M)]


def squares():
    for k in range(1, 101):
        b = to_bits(float((k * 920_137) ** 2))
        yield from (b - 1, b, b + 1)


def randoms():
    x = 0x9E37_79B9_7F4A_7C15
    for i in range(200):
        x ^= x << 13 & WORD - 1
        x ^= x >> 7
        x ^= x << 17 & WORD - 1
        yield from (x % FINITE, 0x3FF0_0000_0000_0000 + x % 2**53, x >> 12 + i % 50)


def main():
    inputs = edges() + list(squares()) + list(randoms())
    assert len(inputs) == 42 + 300 + 600
    with open(os.path.join(os.path.dirname(os.path.abspath(__file__)), "stdout"), "w") as out:
        for b in inputs:
            print("%016x" % root(b), file=out)


if __name__ == "__main__":
    main()
