#!/usr/bin/env python3
"""Prints what main.c beside this is to print, worked out with the second writing (oracle/second), which does not call the library."""
import os
import sys

sys.dont_write_bytecode = True
HERE = os.path.dirname(os.path.abspath(__file__))
sys.path.insert(0, os.path.join(HERE, "..", "..", "oracle"))
from layouts import record, summary  # noqa: E402
from second.identity import read_summary  # noqa: E402
from second.record import read_record  # noqa: E402
from second.register import Register  # noqa: E402
from second.rooms import board_of, join, lacks  # noqa: E402

SECOND = 10**9
START = 1731679200 * SECOND
NAMES = ["north", "south", "coast"]
MODEL = 5


class Links:
    """Which of what is sent is lost."""

    def __init__(self):
        self.x = 1

    def lost(self, odds):
        self.x = (self.x * 6364136223846793005 + 1442695040888963407) % 2**64
        return (self.x >> 33) % odds == 0


def fix(engine, transmission):
    return read_record(record(
        [101 + i for i in range(engine)], time=START + transmission * 10 * SECOND, lat=481370000 + 1800 * transmission, lon=115820000, height=None,
        message=bytes([transmission]) + bytes(6), models=[MODEL] if transmission % 4 == 0 else [], spec=1 if transmission % 4 == 0 else 0, covariance=(0.0,) * 6
    ))


def show(when, rooms):
    print(when)
    for name, room in zip(NAMES, rooms):
        print(f"  {name}: records {len(room.signers)}, summaries {len(room.summaries)}, convicted {room.convicted:08x}")
    words = ["equal" if len(set(texts)) == 1 else "different" for texts in ([room.raw for room in rooms], [board_of(room.raw) for room in rooms])]
    print(f"  registers {words[0]}, boards {words[1]}")


def fly(rooms, links):
    """Twenty transmissions, four engines, three summaries; two convictions, each in one room."""
    for transmission in range(20):
        for engine in range(1, 5):
            for i, room in enumerate(rooms):
                if not links.lost(8) and not room.is_convicted(engine):
                    rooms[i] = room.with_report(engine, fix(engine, transmission))
        if transmission % 8 == 0:
            engine = transmission // 8 + 1
            for i, room in enumerate(rooms):
                if not links.lost(3) and not room.is_convicted(engine):
                    rooms[i] = room.with_summary(read_summary(summary(engine, MODEL, 1, bytes(32))))
        if transmission == 5:
            rooms[0] = rooms[0].with_conviction(4)
        if transmission == 15:
            rooms[2] = rooms[2].with_conviction(3)


def exchange(rooms, links):
    number = 0
    while len({room.raw for room in rooms}) > 1:
        number += 1
        for sender in range(3):
            for to in range(3):
                packet = lacks(rooms[to], rooms[sender])
                if sender == to or packet == Register():
                    continue
                reports = sum(mask.bit_count() for mask in packet.signers.values())
                is_lost = links.lost(3)
                print(
                    f"  round {number}, {NAMES[sender]} to {NAMES[to]}: convictions {packet.convicted.bit_count()}, summaries {len(packet.summaries)}, reports {reports}"
                    + (", lost" if is_lost else "")
                )
                if not is_lost:
                    rooms[to] = join(rooms[to], packet)


def main():
    rooms, links = [Register()] * 3, Links()
    fly(rooms, links)
    show("before", rooms)
    exchange(rooms, links)
    show("after", rooms)


main()
