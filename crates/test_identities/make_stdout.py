#!/usr/bin/env python3
"""Writes the files stdin and stdout beside this one: records among summaries, and what the program is to print of them. Model inputs and
identity are those of a record that counts; of any other `none` is printed.

States, counting and hashes follow docs/REFERENCE.md, 'Models and identity', and publish::cited_inputs of sky-commons/tally; the hash
is that of Python's hashlib. Nothing is taken from the proved crates."""
import hashlib
import os
import random
import struct
import sys

HERE = os.path.dirname(os.path.abspath(__file__))
sys.path.insert(0, os.path.join(HERE, "..", "..", "oracle"))
import layouts  # noqa: E402
from layouts import COVARIANCE_AT, MAX_TAGS, MODEL_COUNT_AT, MODELS_AT, SHORT, SPEC_AT, TAGS_AT  # noqa: E402


def record(models, spec=3, tags=(11, 12), message=SHORT, time=1000, height=1500):
    """A record by its models, with no covariance and its first tag used."""
    place = {"time": time, "lat": 500_000_000, "lon": 100_000_000, "height": height}
    return layouts.record(tags, **place, message=message, used=1, models=models, spec=spec, covariance=layouts.diagonal(0.0))


def summary(engine, model, spec=3, inputs=b"i"):
    """A summary; its inputs are spread over 32 bytes."""
    return layouts.summary(engine, model, spec, inputs.ljust(32, b"\x2e"))


def blake2s(data):
    return hashlib.blake2s(data, digest_size=32).digest()


def state(table, model):
    """None, the spec and inputs that all have, or False."""
    said = {p[2:] for p in table if p[1] == model}
    if not said:
        return None
    return said.pop() if len(said) == 1 else False


def show_state(table, model):
    said = state(table, model)
    if said is None:
        return "6"
    if said is False:
        return "7"
    return "0@%d" % min(i for i, p in enumerate(table) if p[1] == model)


def line(table, r):
    if not well_formed(r):
        return "malformed\n"
    models = list(r[MODELS_AT : MODELS_AT + r[MODEL_COUNT_AT]])
    said = [state(table, m) for m in models]
    counts = all(s and s[:2] == r[SPEC_AT:COVARIANCE_AT] for s in said)
    missing = any(s is None for s in said)
    inputs = blake2s(b"tally pair model cited inputs" + b"\0" + b"".join(s[2:] for s in said if s))
    message = r[22 : 22 + r[21]]
    tags = struct.unpack("<%dQ" % r[36], r[TAGS_AT : TAGS_AT + 8 * r[36]])
    sets = blake2s(bytes([len(message)]) + message + bytes([len(tags)]) + b"".join(t.to_bytes(8, "little") for t in tags))
    identity = blake2s(b"tally merge input set" + b"\0" + sets + inputs)
    return "states %s counts %s missing %s %s %s %s\n" % (
        " ".join(show_state(table, m) for m in range(5)),
        "yes" if counts else "no",
        "yes" if missing else "no",
        inputs.hex() if counts else "none",
        sets.hex(),
        identity.hex() if counts else "none",
    )


def well_formed(r):
    """Only what the cases below break: the message's length, and that tags ascend."""
    tags = struct.unpack("<%dQ" % r[36], r[TAGS_AT : TAGS_AT + 8 * r[36]])
    return r[21] in (7, 14) and all(a < b for a, b in zip(tags, tags[1:]))


def named():
    """Summaries and a record, one case for each rule."""
    one, two = summary(1, 1, inputs=b"one"), summary(1, 2, inputs=b"two")
    both = [one, two]
    # no models, one, several in each order, repeats
    for models in ([], [1], [2], [1, 2], [2, 1], [1, 1], [1, 2, 1], [2, 1, 1, 2], [1, 1, 1, 1]):
        yield both, record(models)
    # without summaries; a model that has none, before and after others
    yield [], record([])
    yield [], record([1])
    for models in ([3], [1, 3], [3, 1], [0]):
        yield both, record(models)
    # another spec; a spec whose bytes are turned round; without models any spec
    for spec in (4, 0x0300, 0):
        yield both, record([1], spec)
        yield both, record([], spec)
    yield [summary(1, 1, 256)], record([1], 256)
    yield [summary(1, 1, 256)], record([1], 1)
    # two engines that say the same, other inputs, another spec, and one engine that says two things
    yield [one, summary(2, 1, inputs=b"one")], record([1])
    yield [one, summary(2, 1, inputs=b"two")], record([1])
    yield [one, summary(2, 1, 4, b"one")], record([1])
    yield [one, summary(2, 1, 0x0103, b"one")], record([1])
    yield [one, summary(1, 1, 4, b"one")], record([1])
    # inputs that differ in the first byte, and in the last
    yield [summary(1, 1), summary(2, 1, inputs=b"j")], record([1])
    yield [summary(1, 1), summary(2, 1, inputs=b"i" + b"\x2e" * 30 + b"\x2f")], record([1])
    # the dispute comes last, or only about a model that is not cited; disputed and missing together
    yield [one, summary(2, 1, inputs=b"one"), two, summary(3, 1, inputs=b"two")], record([1])
    yield both + [summary(3, 2)], record([1])
    yield both + [summary(3, 2)], record([1, 2])
    yield both + [summary(3, 2)], record([2, 3])
    # a used place of zeros is a summary of model 0
    yield [bytes(36)], record([0], 0)
    yield [bytes(36), summary(0, 0, 0, b"\0")], record([0], 0)
    yield [bytes(36), summary(1, 0, 0, bytes(32))], record([0], 0)
    # the same order as in a register, 256 summaries
    yield [summary(e, m, m, b"%d" % m) for e in range(4) for m in range(64)], record([4, 4], 4)
    yield [summary(e, m, m, b"%d" % (m + (e == 3 and m == 4))) for e in range(4) for m in range(64)], record([4, 4], 4)
    # messages of both lengths, the longer filled up with zeros; one tag, all tags, high and low tags
    for message in (SHORT, SHORT + bytes(7), bytes(range(14))):
        yield both, record([1], message=message)
    for tags in ((0,), (1,), (255, 256), (11, 12, 13), tuple(range(16)), tuple(range(17)), tuple(range(MAX_TAGS)), tuple(2**64 - MAX_TAGS + i for i in range(MAX_TAGS))):
        yield both, record([1], tags=tags)
    # what is not hashed
    yield both, record([1], time=1)
    yield both, record([1], height=None)
    # malformed
    yield both, record([1], tags=(11, 11))
    yield both, record([1])[:21] + b"\x08" + record([1])[22:]


def randoms():
    dice = random.Random(7)
    for _ in range(60):
        table = [
            summary(dice.randrange(4), dice.randrange(5), dice.choice([3, 3, 3, 4]), dice.choice([b"a", b"a", b"a", b"b"]))
            for _ in range(dice.randrange(9))
        ]
        tags = sorted(dice.sample(range(40), dice.randrange(1, 17)))
        message = dice.choice([SHORT, bytes(range(14))])
        yield sorted(set(table)), record([dice.randrange(5) for _ in range(dice.randrange(5))], tags=tags, message=message)


def main():
    stdin, stdout = b"", ""
    for table, r in list(named()) + list(randoms()):
        stdin += struct.pack("<H", len(table)) + r + b"".join(table)
        stdout += line(table, r)
    with open(os.path.join(HERE, "stdin"), "wb") as out:
        out.write(stdin)
    with open(os.path.join(HERE, "stdout"), "w") as out:
        out.write(stdout)


main()
