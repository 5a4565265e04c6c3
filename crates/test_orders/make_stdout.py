#!/usr/bin/env python3
"""Writes the files stdin and stdout beside this one: sessions in random orders, and what comes out of each, which the second writing
(oracle/second) says; some counts were worked by hand besides. Nothing is taken from the proved crates."""
import os
import random
import struct
import sys

sys.dont_write_bytecode = True
HERE = os.path.dirname(os.path.abspath(__file__))
sys.path.insert(0, os.path.join(HERE, "..", "..", "oracle"))
from second.generate import session_lines  # noqa: E402
from second.orders import try_orders  # noqa: E402

COVARIANCE = "4059000000000000" + "0" * 32 + "4059000000000000" + "0" * 16 + "4059000000000000"


def report(engine, tags, lat, time=1000):
    values = dict(engine=engine, time=time, lat=lat, lon=0, height=1500, message="8d" + "00" * 6, tags=",".join(map(str, tags)), used=(1 << len(tags)) - 1)
    return "op=report\n" + "".join(f"{key}={value}\n" for key, value in {**values, "models": "none", "spec": 0, "cov": COVARIANCE}.items())


# Of one message: a fix with one tag, one with two that agrees, one with three that agrees with neither. A track that takes the largest first serves another fix
# than one that takes it last: there is one board, and more than one listing.
NESTED = "".join(report(1, range(1, n + 1), 2700 * (n - 1)) for n in (1, 2, 3)).encode()
# 97 different records: in each order the last is refused as full. Where it is one of the latest eight, which alone are shown, the board is another.
TOO_MANY = "".join(report(n % 3, [1], 0, time=1000 + n * 10**9) for n in range(97)).encode()


def cases():
    """Sessions, each with how many orders and the seed."""
    yield b"", 5, 1
    yield NESTED, 1, 0
    for seed in (1, 2, 2**64 - 1):
        yield NESTED, 60, seed
    yield TOO_MANY, 40, 7
    r = random.Random(11)
    for seed in range(12):
        yield b"".join(session_lines(r)), 8, seed


def main():
    nested = try_orders(NESTED, 60, 1)
    assert (nested.boards, nested.full) == (1, 0) and nested.listings > 1
    many = try_orders(TOO_MANY, 40, 7)
    assert many.full == 40 and many.boards > 1
    with open(os.path.join(HERE, "stdin"), "wb") as out:
        for data, count, seed in cases():
            out.write(struct.pack("<IQH", count, seed, len(data)) + data)
    with open(os.path.join(HERE, "stdout"), "w") as out:
        for data, count, seed in cases():
            out.write(try_orders(data, count, seed).text(seed, count))


main()
