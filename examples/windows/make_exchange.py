"""Prints what exchange.c must print, with no call of the library: a register is laid out from the sets that it holds, hashed by Python's
hashlib, and a board shows the eight latest transmissions whose record counts.

    python3 examples/windows/make_exchange.py > examples/windows/exchange.expected
"""

import hashlib
import struct

SECOND, START, MODEL = 10**9, 1731679200 * 10**9, 5
SUMMARIES, RECORDS = 256, 96


def record(transmission, model):
    r = struct.pack("<Qii", START + transmission * 2 * SECOND // 5, 481370000 + 1800 * transmission, 115820000)
    r += bytes(5) + bytes([7, transmission]) + bytes(13)
    r += bytes([1]) + struct.pack("<I", 1) + struct.pack("<Q", 101) + bytes(23 * 8)
    r += bytes([1, model, 0, 0, 0]) + struct.pack("<H", 1) if model else bytes(7)
    return r + bytes(48)


class Room:
    def __init__(self):
        self.convicted, self.summaries, self.records = set(), set(), {}

    def report(self, engine, transmission, model=0):
        if engine not in self.convicted:
            self.records.setdefault((transmission, model), set()).add(engine)

    def summary(self, engine):
        self.summaries.add(bytes([engine, MODEL]) + struct.pack("<H", 1) + bytes(32))

    def convict(self, engine):
        self.convicted.add(engine)
        self.summaries = {s for s in self.summaries if s[0] != engine}
        self.records = {k: v - {engine} for k, v in self.records.items() if v - {engine}}

    def state(self):
        held = sorted(record(*k) + struct.pack("<I", sum(1 << e for e in v)) for k, v in self.records.items())
        tables = b"".join(sorted(self.summaries)).ljust(SUMMARIES * 36, b"\0") + b"".join(held).ljust(RECORDS * 292, b"\0")
        register = struct.pack("<HH", len(self.summaries), len(held)) + tables
        return hashlib.blake2s(register).hexdigest(), sum(1 << e for e in self.convicted)

    def board(self):
        counts = [(k, frozenset(v)) for k, v in self.records.items() if not k[1] or self.summaries]
        return sorted(counts)[-8:]


def compare(when, north, south):
    print(when)
    for name, room in (("north", north), ("south", south)):
        print("  %s sends %s.. convicted %08x" % (name, room.state()[0][:16], room.state()[1]))
    equal = [a == b for a, b in ((north.board(), south.board()), *zip(north.state(), south.state()))]
    words = ["equal" if e else "differ" for e in equal]
    same = "the rooms have the same" if all(equal[1:]) else "the rooms do not have the same"
    print("  boards %s, hashes %s, convicted %s: %s" % (*words, same))


def rooms():
    return Room(), Room()


north, south = rooms()
for room in (north, south):
    for t in range(9):
        room.report(1, t)
    room.report(2, 9)
compare("ten transmissions, in two orders", north, south)

north, south = rooms()
for t in range(9):
    north.report(1, t)
    if t != 1:
        south.report(1, t)
for room in (north, south):
    room.report(2, 9)
compare("the ninth youngest is lost in the south: no board shows it", north, south)
for room in (north, south):
    room.convict(2)
compare("engine 2, which sent the youngest, is convicted in both", north, south)

north, south = rooms()
for room in (north, south):
    room.report(1, 0)
north.report(1, 1, MODEL)
compare("a record that is withheld is lost in the south", north, south)
for room in (north, south):
    room.summary(1)
compare("engine 1 says in both what its model is", north, south)

north, south = rooms()
for room in (north, south):
    room.report(1, 0)
north.convict(3)
compare("engine 3, which sent nothing, is convicted in the north alone", north, south)
for room in (north, south):
    room.report(3, 1)
compare("engine 3 sends a fix to both", north, south)
