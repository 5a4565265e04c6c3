#!/usr/bin/env python3
"""Makes stdin (registers, one after another) and stdout (what each map must be answered, and its text) of this program.

    oracle/peer/build && crates/test_maps/make_stdout.py

A register is written here, from its layout in docs/REFERENCE.md, and its map is that of a second writing in plain Rust
(target/oracle/peer map). Each map is read back here by Python's json, with decimals kept: what it says must be the whole numbers
that were put into the register. Nothing of ours is asked."""
import decimal
import json
import os
import subprocess
import sys

HERE = os.path.dirname(os.path.abspath(__file__))
sys.path.insert(0, os.path.join(HERE, "..", "..", "oracle"))
from layouts import record, register, summary  # noqa: E402

PEER = os.path.join(HERE, "..", "..", "target", "oracle", "peer")
LEAST, GREATEST = -(1 << 31), (1 << 31) - 1
SECONDS = 10_000_000_000


class Fix:
    """A record that is alone in its transmission, and what a map must say of it, if anything."""

    def __init__(self, number, lon, lat, height=1500, time=None, tags=2, signers=2):
        self.lon, self.lat, self.height, self.signers = lon, lat, height, signers
        self.time = SECONDS * number if time is None else time
        self.tags = [100 * (number + 1) + tag for tag in range(tags)]

    def held(self):
        return record(self.tags, time=self.time, lat=self.lat, lon=self.lon, height=self.height)

    def point(self):
        if abs(self.lon) > 1_800_000_000 or abs(self.lat) > 900_000_000:
            return None
        return (self.lon, self.lat, self.height, self.time, len(self.tags), self.signers)


def places(pairs, **fields):
    return [Fix(number, lon, lat, **fields) for number, (lon, lat) in enumerate(pairs)]


# Both ends of an i32, -1, 0 and 1, the limits and a unit beyond each of them.
LISTS = [
    [],
    [Fix(0, 100_000_000, 500_000_000, time=1000)],
    places([(LEAST, 0), (GREATEST, 0), (-1, 1), (0, 0), (1, -1), (0, LEAST), (0, GREATEST), (-9_999_999, 9_999_999)]),
    places([(1_800_000_000, 0), (1_800_000_001, 0), (-1_800_000_000, 0), (-1_800_000_001, 0), (0, 900_000_000), (0, 900_000_001), (0, -900_000_000), (0, -900_000_001)]),
    places([(1_800_000_001, 900_000_000), (1_800_000_000, 900_000_001), (LEAST, LEAST), (-1_800_000_000, -900_000_000)]),
    # Every point outside.
    places([(LEAST, 5), (5, LEAST), (GREATEST, GREATEST)]),
    # Heights: none, zero, a millimetre below it, and both ends.
    [Fix(number, -5, 5, height) for number, height in enumerate((None, 0, -1, 1, 999, -1000, LEAST, GREATEST))],
    # Everything at its widest, eight times; and two transmissions more, of which a board shows none.
    [Fix(number, -1_800_000_000, -900_000_000, LEAST, (1 << 64) - 1 - SECONDS * (9 - number), 24, (1 << 32) - 1) for number in range(10)],
]

# One transmission: the larger fix is ranked second, since it is heard by fewer used tags; the first lies beyond, so there is no point.
FAR = record([1, 2], lat=0, lon=1_800_000_001, used=3)
NEAR = record([1, 3], lat=0, lon=0, used=1)


def expected(bytes_):
    return subprocess.run([PEER, "map"], input=bytes_, capture_output=True, check=True).stdout


def whole(number, places_):
    """The whole number of units that a decimal number of just so many decimals is."""
    assert -number.as_tuple().exponent == places_, number
    return int(number.scaleb(places_))


def read_back(text):
    """What a map says, each number as the whole number that was put into a record."""
    collection = json.loads(text, parse_float=decimal.Decimal)
    assert list(collection) == ["type", "features"] and collection["type"] == "FeatureCollection"
    points = []
    for feature in collection["features"]:
        assert list(feature) == ["type", "geometry", "properties"] and feature["type"] == "Feature"
        assert list(feature["geometry"]) == ["type", "coordinates"] and feature["geometry"]["type"] == "Point"
        said = feature["properties"]
        assert list(said) == ["time", "weight", "signers"] and len(said["signers"]) == 8
        lon, lat, *height = feature["geometry"]["coordinates"]
        height = whole(height[0], 3) if height else None
        points.append((whole(lon, 7), whole(lat, 7), height, int(said["time"]), said["weight"], int(said["signers"], 16)))
    return points


def main():
    stdin, stdout = b"", b""
    cases = []
    for fixes in LISTS:
        memory = register((), {fix.held(): fix.signers for fix in fixes})
        cases.append((memory, [point for fix in fixes[-8:] if (point := fix.point())]))
    cases.append((register((), {FAR: 2, NEAR: 4}), []))
    cases.append((register([summary(1, 5, 0, bytes(32))], {NEAR: 6}), [(0, 0, 1500, 1000, 1, 6)]))
    for memory, points in cases:
        text = expected(memory)
        assert read_back(text) == points, (text, points)
        assert b" " not in text and b"\n" not in text and 42 <= len(text) <= 1473, text
        stdin += memory
        stdout += b"answer=%d\n%s\nanswer=14\n\n" % (len(text), text)
    assert max(len(expected(memory)) for memory, _ in cases) == 1473
    # Engine 3 signed a record and is convicted: no register.
    stdin += register((), {NEAR: 8}, (3,))
    stdout += b"answer=1\nanswer=1\n\n"
    open(os.path.join(HERE, "stdin"), "wb").write(stdin)
    open(os.path.join(HERE, "stdout"), "wb").write(stdout)
    print(f"make_stdout.py: {len(cases) + 1} registers")


main()
