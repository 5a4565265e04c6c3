#!/usr/bin/env python3
"""Writes the files stdin and stdout beside this one: buffers, and the monthly numbers of each, worked out by the second writing (oracle/second),
which was made from docs/REFERENCE.md. Of some registers the numbers were also counted by hand, and are compared here first. Nothing is taken
from the proved crates."""
import os
import struct
import sys

sys.dont_write_bytecode = True
HERE = os.path.dirname(os.path.abspath(__file__))
sys.path.insert(0, os.path.join(HERE, "..", "..", "oracle"))
from layouts import PLACE, PLACES, REGISTER, diagonal, record, register, summary  # noqa: E402
from second.monthly import REFUSED, monthly  # noqa: E402

HEAD = REGISTER - PLACES * PLACE
SECOND = 10**9
NO_NUMBER = diagonal(0.0)


def text(numbers):
    """The text where these engines have these numbers, ranked, dominated, refused, other and uncounted, and the others none."""
    lines = []
    for engine in range(32):
        ranked, dominated, refused, other, uncounted = counts = numbers.get(engine, (0, 0, 0, 0, 0))
        lines.append(
            f"engine={engine} held={sum(counts)} ranked={ranked} dominated={dominated} refused={refused} other={other} uncounted={uncounted}\n"
        )
    return "".join(lines)


def nested(time=1000, first=1, covariance=diagonal(100.0)):
    """A fix with a tag, one with a further tag, and one with two: neighbours agree, the ends do not."""
    return [record(list(range(first, first + n)), lat=2700 * (n - 1), time=time, covariance=covariance) for n in (1, 2, 3)]


def transmissions(count, start=1000):
    """So many fixes of different tags."""
    return [record([1000 + k], time=start + k * SECOND) for k in range(count)]


def by_hand():
    """Registers, and their numbers as they were counted by hand."""
    small, middle, large = nested()
    # no record; and no record but summaries and a convicted engine
    yield register(), {}
    yield register([summary(3, 5, 1, bytes(32))], {}, [9]), {}
    # a fix alone, signed by all engines
    yield register((), {small: 0xFFFF_FFFF}), {engine: (1, 0, 0, 0, 0) for engine in range(32)}
    # the one between is ranked, the small one dominated, the large one refused
    yield register((), {small: 1 << 1, middle: 1 << 2, large: 1 << 3}), {1: (0, 1, 0, 0, 0), 2: (1, 0, 0, 0, 0), 3: (0, 0, 1, 0, 0)}
    # two records of one identity from two engines: of time and position the least bytes represent
    yield register((), {record([1], lat=0): 1 << 1, record([1], lat=1): 1 << 2}), {1: (1, 0, 0, 0, 0), 2: (0, 0, 0, 1, 0)}
    # three of one identity, of which an engine signed all, and another the one that represents and one more
    three = {record([1], lat=k): mask for k, mask in ((0, 0b110), (1, 0b010), (2, 0b110))}
    yield register((), three), {1: (1, 0, 0, 2, 0), 2: (1, 0, 0, 1, 0)}
    # nine transmissions and more, all ranked
    yield register((), dict.fromkeys(transmissions(9), 1 << 4)), {4: (9, 0, 0, 0, 0)}
    yield register((), dict.fromkeys(transmissions(30), 1 << 31)), {31: (30, 0, 0, 0, 0)}
    # a transmission older than eight others, with one of each
    old = {small: 1 << 5, middle: 1 << 6, large: 1 << 7}
    yield register((), {**old, **dict.fromkeys(transmissions(8, 5 * SECOND), 1)}), {0: (8, 0, 0, 0, 0), 5: (0, 1, 0, 0, 0), 6: (1, 0, 0, 0, 0), 7: (0, 0, 1, 0, 0)}
    # models: 5 is agreed, 6 disputed, 7 has no summary; and one of another spec
    said = [summary(10, 5, 3, bytes(32)), summary(11, 5, 3, bytes(32)), summary(10, 6, 3, bytes(32)), summary(11, 6, 3, bytes([1]) * 32)]
    cites = lambda tag, models, spec=3: record([tag], models=models, spec=spec)
    yield (
        register(said, {cites(1, [5]): 0b01, cites(2, [6]): 0b10, cites(3, [7]): 0b10, cites(4, [5, 6]): 0b11, cites(5, [5], 4): 0b01}),
        {0: (1, 0, 0, 0, 2), 1: (0, 0, 0, 0, 3)}
    )
    # refused, and no chi-square was measured
    yield register((), {one: 1 << 8 for one in nested(covariance=NO_NUMBER)}), {8: (1, 0, 2, 0, 0)}
    # 96 records: each a transmission, or all of one identity
    yield register((), dict.fromkeys(transmissions(96), 3)), {0: (96, 0, 0, 0, 0), 1: (96, 0, 0, 0, 0)}
    yield register((), {record([1], lat=k): 1 << k % 32 for k in range(96)}), {k: (1, 0, 0, 2, 0) if k == 0 else (0, 0, 0, 3, 0) for k in range(32)}
    # 96 records in 32 transmissions of three
    many = {one: 1 << n for k in range(32) for n, one in enumerate(nested(k * 10 * SECOND, 1 + 10 * k))}
    yield register((), many), {0: (0, 32, 0, 0, 0), 1: (32, 0, 0, 0, 0), 2: (0, 0, 32, 0, 0)}


def no_registers():
    """Bytes that are no register."""
    good = register([summary(3, 5, 1, bytes(32))], {one: 1 << 2 for one in nested()})
    changed = lambda at, *some: good[:at] + bytes(some) + good[at + len(some) :]
    yield b""
    yield good[:-1]
    yield good + b"\0"
    # 257 summaries, 97 records, fewer and more records than there are
    for at, count in ((4, 257), (6, 97), (6, 2), (6, 4)):
        yield changed(at, count & 255, count >> 8)
    # the engine of the summary, and the signer of the records, is convicted
    yield changed(0, 1 << 3)
    yield changed(0, 1 << 2)
    # a byte behind the last record; a record without signers; two records changed about; a record without tags
    yield changed(HEAD + 3 * PLACE, 1)
    yield changed(HEAD + PLACE - 4, 0)
    yield good[:HEAD] + good[HEAD + PLACE :][:PLACE] + good[HEAD:][:PLACE] + good[HEAD + 2 * PLACE :]
    yield changed(HEAD + 36, 0)


def main():
    stdin, stdout = b"", ""
    for data, numbers in by_hand():
        assert monthly(data) == text(numbers), (monthly(data), numbers)
        stdin += struct.pack("<H", len(data)) + data
        stdout += text(numbers) + "\n"
    for data in no_registers():
        assert monthly(data) == REFUSED
        stdin += struct.pack("<H", len(data)) + data
        stdout += REFUSED + "\n"
    with open(os.path.join(HERE, "stdin"), "wb") as out:
        out.write(stdin)
    with open(os.path.join(HERE, "stdout"), "w") as out:
        out.write(stdout)


main()
