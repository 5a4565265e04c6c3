#!/usr/bin/env python3
"""Writes the files stdin and stdout beside this one: a register and what records are to say, and what the program is to print of them.

Which parts are a record, its bytes, its model inputs and its identity follow docs/REFERENCE.md, 'Record', 'Values' and 'Models and
identity'; the hash is that of Python's hashlib. Nothing is taken from the proved crates."""
import hashlib
import os
import random
import struct
import sys

HERE = os.path.dirname(os.path.abspath(__file__))
sys.path.insert(0, os.path.join(HERE, "..", "..", "oracle"))
from layouts import RECORD, SHORT, record, register, summary  # noqa: E402

LONG = bytes(range(1, 15))
# Models 1 and 2 are agreed, 3 is disputed, 4 agreed of another spec; 5 has no summary.
SAID = [(0, 1, 3, b"a"), (7, 1, 3, b"a"), (0, 2, 3, b"b"), (0, 3, 3, b"c"), (1, 3, 3, b"d"), (0, 4, 4, b"e")]
SUMMARIES = [(engine, model, spec, inputs.ljust(32, b".")) for engine, model, spec, inputs in SAID]


def blake2s(data):
    return hashlib.blake2s(data, digest_size=32).digest()


class Case:
    """What a record is to say."""

    def __init__(self, tags, time=1000, lat=0, lon=0, height=1500, message=SHORT, used=1, models=(), spec=3, covariance=(100.0, 0.0, 0.0, 100.0, 0.0, 100.0)):
        self.tags, self.message, self.used, self.models, self.spec = list(tags), message, used, list(models), spec
        self.place = {"time": time, "lat": lat, "lon": lon, "height": height}
        self.covariance = covariance

    def bytes(self):
        p = self.place
        data = struct.pack("<QiiBi", p["time"], p["lat"], p["lon"], p["height"] is not None, p["height"] or 0)
        data += struct.pack("<B20s", len(self.message), self.message)
        data += struct.pack("<B30Q", len(self.tags), *self.tags, *[0] * (30 - len(self.tags)))
        data += struct.pack("<I", self.used)
        data += struct.pack("<B8s", len(self.models), bytes(self.models))
        return data + struct.pack("<H6d", self.spec, *self.covariance)

    def is_record(self):
        tags = self.tags
        return (
            len(self.message) in (7, 14)
            and 1 <= len(tags) <= 24
            and all(a < b for a, b in zip(tags, tags[1:]))
            and self.used < 1 << len(tags)
            and len(self.models) <= 4
            and all(model <= 63 for model in self.models)
        )

    def record(self):
        return record(self.tags, message=self.message, used=self.used, models=self.models, spec=self.spec, covariance=self.covariance, **self.place)

    def inputs(self):
        """The answer of a register, and the model inputs where it is 0."""
        said = [{s[2:] for s in SUMMARIES if s[1] == model} for model in self.models]
        if not all(said):
            return 24, bytes(32)
        if any(len(one) > 1 or next(iter(one))[0] != self.spec for one in said):
            return 7, bytes(32)
        return 0, blake2s(b"tally pair model cited inputs\0" + b"".join(next(iter(one))[1] for one in said))

    def line(self):
        if not self.is_record():
            zeros = bytes(32).hex()
            said = "answer=3 record=%s answer=3 inputs=%s answer=3 identity=%s" % (blake2s(bytes(RECORD)).hex(), zeros, zeros)
            return said + faults(bytes(RECORD)) + "\n"
        answer, inputs = self.inputs()
        tags = struct.pack("<%dQ" % len(self.tags), *self.tags)
        chosen = blake2s(bytes([len(self.message)]) + self.message + bytes([len(self.tags)]) + tags)
        identity = blake2s(b"tally merge input set\0" + chosen + inputs)
        said = "answer=0 record=%s answer=%d inputs=%s answer=0 identity=%s" % (blake2s(self.record()).hex(), answer, inputs.hex(), identity.hex())
        return said + faults(self.record()) + "\n"


def fault(r):
    """The number of the first check that bytes fail, by docs/REFERENCE.md, 'Values'; 0 where they are a record."""
    if len(r) != 288:
        return 1
    flag, message, tags, models = r[16], r[21], r[36], r[233]
    used = int.from_bytes(r[37:41], "little")
    numbers = struct.unpack("<24Q", r[41:233])
    checks = [
        lambda: flag in (0, 1),
        lambda: flag == 1 or not any(r[17:21]),
        lambda: message in (7, 14),
        lambda: not any(r[22 + message : 36]),
        lambda: tags >= 1,
        lambda: tags <= 24,
        lambda: used >> tags == 0,
        lambda: all(a < b for a, b in zip(numbers[:tags], numbers[1:tags])),
        lambda: not any(numbers[tags:]),
        lambda: models <= 4,
        lambda: all(model <= 63 for model in r[234 : 234 + models]),
        lambda: not any(r[234 + models : 238]),
    ]
    return next((number for number, check in enumerate(checks, 2) if not check()), 0)


def faults(r):
    turned = (r[:i] + bytes([255 - r[i]]) + r[i + 1 :] for i in range(len(r)))
    return " fault=%d turned=%s" % (fault(r), "".join(chr(ord("a") + fault(one)) for one in turned))


def fixed():
    few = list(range(5, 29))
    yield Case([1], height=None)
    yield Case(few, used=(1 << 24) - 1, message=LONG, models=[1, 2, 1, 2])
    for message in (b"", LONG[:6], LONG[:8], LONG[:13], LONG + b"x", LONG + b"abcdef"):
        yield Case([1, 2], message=message)
    for tags in ([], few + [29], few + list(range(29, 35)), [2, 1], [1, 1], [1, 3, 2], [0, (1 << 64) - 1]):
        yield Case(tags)
    for used in (0, 3, 4, (1 << 32) - 1):
        yield Case([1, 2], used=used)
    for models in ([63], [64], [255], [1, 2, 1, 2, 1], [5] * 8, [5, 3], [3, 5], [3], [4], [1, 4], [2, 1], [1, 2]):
        yield Case([1, 2], models=models)
    for place in ({"lat": -(1 << 31), "lon": (1 << 31) - 1}, {"height": -(1 << 31)}, {"height": 0}, {"time": (1 << 64) - 1}):
        yield Case([9], **place)
    yield Case([9], spec=65535, models=[4])
    yield Case([9], spec=4, models=[4])
    # the greatest length of a record together with a message, tags or models over it: one list too long and another too short
    yield Case(few[:23], message=LONG + b"abcdef")
    yield Case([1], covariance=(float("inf"), -0.0, 5e-324, 1.0, -1.0, 1e308))


def drawn(random):
    message = random.choice([SHORT, LONG, LONG[:random.randrange(15)]] + [SHORT, LONG] * 4)
    tags = sorted(random.sample(range(60), random.choice([1, 2, 3, 16, 17, 23, 24, 25])))
    if random.randrange(8) == 0:
        random.shuffle(tags)
    used = random.randrange(1 << min(32, len(tags) + (random.randrange(6) == 0)))
    models = [random.choice([1, 1, 2, 2, 3, 4, 5, 64][: random.choice([4, 4, 8])]) for _ in range(random.choice([0, 1, 1, 2, 4, 5]))]
    place = {"time": random.getrandbits(64), "lat": random.getrandbits(32) - (1 << 31), "lon": random.getrandbits(32) - (1 << 31)}
    height = random.choice([None, 0, random.getrandbits(32) - (1 << 31)])
    covariance = [random.uniform(-1e3, 1e3) for _ in range(6)]
    return Case(tags, height=height, message=message, used=used, models=models, spec=random.choice([3, 3, 3, 4]), covariance=covariance, **place)


def main():
    numbers = random.Random(53)
    cases = list(fixed()) + [drawn(numbers) for _ in range(400)]
    with open(os.path.join(HERE, "stdin"), "wb") as out:
        out.write(register([summary(*one) for one in SUMMARIES]))
        for case in cases:
            out.write(case.bytes())
    with open(os.path.join(HERE, "stdout"), "w") as out:
        out.writelines(case.line() for case in cases)


main()
