#!/usr/bin/env python3
"""Writes the files in data/ and the file stdout beside this one: a session and a saved register, and what is printed of the two, which the
second writing (oracle/second) says; some lines were written by hand besides. Nothing is taken from the proved crates."""
import os
import sys

sys.dont_write_bytecode = True
HERE = os.path.dirname(os.path.abspath(__file__))
sys.path.insert(0, os.path.join(HERE, "..", "..", "oracle"))
from layouts import record, register, summary  # noqa: E402
from second.rooms import compare, room_of  # noqa: E402

COVARIANCE = "4059000000000000" + "0" * 32 + "4059000000000000" + "0" * 16 + "4059000000000000"


def operation(name, **values):
    return f"op={name}\n" + "".join(f"{key}={value}\n" for key, value in values.items())


def report(engine, tags, lat, time=1000):
    used = (1 << len(tags)) - 1
    return operation(
        "report", engine=engine, time=time, lat=lat, lon=0, height=1500, message="8d" + "00" * 6, tags=",".join(map(str, tags)), used=used, models="none",
        spec=0, cov=COVARIANCE
    )


# Of one message: a fix with one tag, one with two that agrees, one with three that agrees with neither; and a later one.
SMALL, MIDDLE, LARGE = (record(list(range(1, n + 1)), lat=2700 * (n - 1)) for n in (1, 2, 3))
LATER = record([9], time=5_000_000_000, lat=-3)
SAID = summary(4, 5, 1, bytes(range(32)))

# Engine 7 is convicted in the first room, and its report is in the second; engine 8 the other way round.
FIRST = (
    operation("summary", engine=4, model=6, spec=1, inputs="ff" * 32) + report(1, [1], 0) + report(2, [1, 2], 2700) + report(3, [1, 2, 3], 5400)
    + report(8, [1], 0) + operation("convict", engine=7) + operation("convict", engine=0)
)
SECOND = register([SAID], {SMALL: 1 << 1 | 1 << 31, MIDDLE: 1 << 2 | 1 << 7, LATER: 1 << 3 | 1 << 4}, [8])

BY_HAND = [
    "room=A lacks=conviction engine=8",
    "room=A lacks=summary engine=4 model=5 spec=1 inputs=" + bytes(range(32)).hex(),
    "room=A lacks=report engine=3 time=5000000000 lat=-3 lon=0",
    "room=A lacks=report engine=4 time=5000000000 lat=-3 lon=0",
    "room=A lacks=report engine=31 time=1000 lat=0 lon=0",
    "room=B lacks=conviction engine=0",
    "room=B lacks=conviction engine=7",
    "room=B lacks=summary engine=4 model=6 spec=1 inputs=" + "ff" * 32,
    "room=B lacks=report engine=3 time=1000 lat=5400 lon=0",
    "registers=different",
    "boards=different",
]


def main():
    os.makedirs(os.path.join(HERE, "data"), exist_ok=True)
    with open(os.path.join(HERE, "data", "north.session"), "w") as out:
        out.write(FIRST)
    with open(os.path.join(HERE, "data", "south.register"), "wb") as out:
        out.write(SECOND)
    compared = compare(room_of(FIRST.encode()), room_of(SECOND))
    lines = compared.output.splitlines()
    assert lines[: len(BY_HAND)] == BY_HAND, lines
    assert compared.status == 1 and compared.joined is not None
    with open(os.path.join(HERE, "stdout"), "w") as out:
        out.write(compared.output)


main()
