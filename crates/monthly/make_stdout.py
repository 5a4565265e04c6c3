#!/usr/bin/env python3
"""Writes the files stdin and stdout beside this one: a register, and its monthly numbers, which were counted by hand. The second writing
(oracle/second) is asked besides. Nothing is taken from the proved crates."""
import os
import sys

sys.dont_write_bytecode = True
HERE = os.path.dirname(os.path.abspath(__file__))
sys.path.insert(0, os.path.join(HERE, "..", "..", "oracle"))
from layouts import record, register, summary  # noqa: E402
from second.monthly import monthly  # noqa: E402

# Of a message and a place a fix with one tag, with two and with three; their neighbours agree, and the ends do not.
SMALL, MIDDLE, LARGE = (record(list(range(1, n + 1)), lat=2700 * (n - 1)) for n in (1, 2, 3))
# The fix of two tags once more, a little further on: MIDDLE comes before it in byte order, and represents both.
AGAIN = record([1, 2], lat=2701)
# A fix that has no tag in common with these.
ALONE = record([9])
# One that cites a disputed model, and one that cites a model of which nothing is held.
DISPUTED, MISSING = record([7], models=[5]), record([8], models=[6])

HELD = {SMALL: {1}, MIDDLE: {2, 3}, LARGE: {3}, AGAIN: {3, 4}, DISPUTED: {4, 31}, MISSING: {4}, ALONE: {0}}
SUMMARIES = [summary(1, 5, 0, bytes(32)), summary(2, 5, 0, bytes([1]) * 32)]

# ranked, dominated, refused, other, uncounted
NUMBERS = {0: (1, 0, 0, 0, 0), 1: (0, 1, 0, 0, 0), 2: (1, 0, 0, 0, 0), 3: (1, 0, 1, 1, 0), 4: (0, 0, 0, 1, 2), 31: (0, 0, 0, 0, 1)}


def main():
    data = register(SUMMARIES, {one: sum(1 << engine for engine in engines) for one, engines in HELD.items()}, [9])
    text = ""
    for engine in range(32):
        counts = NUMBERS.get(engine, (0, 0, 0, 0, 0))
        columns = " ".join(f"{name}={count}" for name, count in zip(("ranked", "dominated", "refused", "other", "uncounted"), counts))
        text += f"engine={engine} held={sum(counts)} {columns}\n"
    assert monthly(data) == text, monthly(data)
    with open(os.path.join(HERE, "stdin"), "wb") as out:
        out.write(data)
    with open(os.path.join(HERE, "stdout"), "w") as out:
        out.write(text)


main()
