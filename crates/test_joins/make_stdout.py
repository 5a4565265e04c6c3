#!/usr/bin/env python3
"""Writes the files stdin and stdout beside this one: pairs of registers, and what the program is to print of each.

A join and what is lacking are made here of sets and maps, from the words of docs/REFERENCE.md, 'Join', and hashed by hashlib. Nothing is
taken from the proved crates."""
import hashlib
import os
import random
import struct
import sys
from dataclasses import dataclass, field

HERE = os.path.dirname(os.path.abspath(__file__))
sys.path.insert(0, os.path.join(HERE, "..", "..", "oracle"))
from layouts import PLACES, REGISTER, SUMMARIES, record, register, summary  # noqa: E402

MALFORMED, FULL, SMALL_OUTPUT = 1, 5, 10
UNTOUCHED = b"\7"


@dataclass
class Room:
    """What one register holds; damaged bytes are none."""
    convicted: frozenset = frozenset()
    summaries: frozenset = frozenset()
    records: dict = field(default_factory=dict)
    damaged: int | None = None

    def bytes(self):
        records = {one: sum(1 << engine for engine in engines) for one, engines in self.records.items()}
        data = bytearray(register(self.summaries, records, self.convicted))
        if self.damaged is not None:
            data[self.damaged] ^= 0x80
        return bytes(data)


def convict(room, engines):
    records = {one: signers - engines for one, signers in room.records.items()}
    return Room(
        room.convicted | engines,
        frozenset(one for one in room.summaries if one[0] not in engines),
        {one: signers for one, signers in records.items() if signers},
    )


def join(room, other):
    """The answer, and the room that is left."""
    if room.damaged is not None or other.damaged is not None:
        return MALFORMED, room
    records = {one: room.records.get(one, frozenset()) | other.records.get(one, frozenset()) for one in room.records | other.records}
    both = convict(Room(frozenset(), room.summaries | other.summaries, records), room.convicted | other.convicted)
    if len(both.records) > PLACES or len(both.summaries) > SUMMARIES:
        return FULL, room
    return 0, both


def lacking(room, other):
    """What the other holds and the room does not."""
    left = convict(Room(frozenset(), other.summaries - room.summaries, other.records), room.convicted)
    new = {one: signers - room.records.get(one, frozenset()) for one, signers in left.records.items()}
    return Room(other.convicted - room.convicted, left.summaries, {one: signers for one, signers in new.items() if signers})


def line(answer, data):
    return "%d %s\n" % (answer, hashlib.blake2s(data).hexdigest())


def lacking_lines(room, other):
    refused = room.damaged is not None or other.damaged is not None
    written = UNTOUCHED * (REGISTER + 1) if refused else lacking(room, other).bytes() + UNTOUCHED
    return line(MALFORMED if refused else 0, written) + line(MALFORMED if refused else SMALL_OUTPUT, UNTOUCHED * (REGISTER - 1))


def lines(one, two):
    joins = "".join(line(answer, left.bytes()) for answer, left in (join(one, two), join(two, one)))
    return joins + lacking_lines(one, two) + lacking_lines(two, one)


def room(dice, records, summaries, convicted, engines=32):
    made = Room(
        frozenset(),
        frozenset(summary(dice.randrange(engines), dice.randrange(64), dice.randrange(2), bytes([dice.randrange(3)]) * 32) for _ in range(summaries)),
        {
            record([k + 1, k + 2], lat=100 * (k % 7), time=1000 + k): frozenset(dice.sample(range(engines), dice.randrange(1, 4)))
            for k in dice.sample(range(150), records)
        },
    )
    return convict(made, frozenset(dice.sample(range(engines), convicted)))


def damaged(room, at):
    return Room(room.convicted, room.summaries, room.records, at)


def pairs():
    dice = random.Random(52)
    some = room(dice, 20, 50, 1)
    yield Room(), Room()
    yield Room(), some
    yield some, some
    yield some, convict(some, frozenset(range(32)))
    for _ in range(8):
        engines = dice.randrange(4, 33)
        one, two = (room(dice, dice.randrange(97), dice.randrange(200), dice.randrange(3), engines) for _ in range(2))
        yield one, two
    # exactly full, and one more, of each table
    halves = [{record([k + 1], time=k): frozenset([5]) for k in range(a, b)} for a, b in ((0, 48), (48, 96), (48, 97))]
    yield Room(records=halves[0]), Room(records=halves[1])
    yield Room(records=halves[0]), Room(records=halves[2])
    yield convict(Room(records=halves[0] | {record([9], time=500): frozenset([6])}), frozenset([7])), Room(frozenset([6]), records=halves[1])
    sums = [frozenset(summary(9, k % 64, k // 64, bytes(32)) for k in range(a, b)) for a, b in ((0, 200), (100, 256), (100, 257))]
    yield Room(summaries=sums[0]), Room(summaries=sums[1])
    yield Room(summaries=sums[0]), Room(summaries=sums[2])
    # bytes that are no register, of one and of both: the count of records, a signer's highest bit, a byte behind the records
    yield damaged(some, 7), some
    yield some, damaged(some, 7)
    yield damaged(some, REGISTER - 1), damaged(some, 7)


def main():
    stdin, stdout = b"", ""
    for one, two in pairs():
        stdin += one.bytes() + two.bytes()
        stdout += lines(one, two)
    with open(os.path.join(HERE, "stdin"), "wb") as out:
        out.write(stdin)
    with open(os.path.join(HERE, "stdout"), "w") as out:
        out.write(stdout)


main()
