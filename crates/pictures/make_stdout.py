#!/usr/bin/env python3
"""Writes the file stdout beside this one: a line for each of the 2,744 cases of docs/REFERENCE.md, 'All small pictures'.

    oracle/build && crates/pictures/make_stdout.py

What is decided of a case is worked out twice: by the rules of crates/test_decisions/make_stdout.py, and by the Rust (target/oracle/oracle-program)
from the items' bytes. The two are compared, and nothing is written where they differ. Nothing is taken from the proved crates."""
import importlib.util
import itertools
import os
import subprocess
import sys

HERE = os.path.dirname(os.path.abspath(__file__))
ROOT = os.path.join(HERE, "..", "..")
PROGRAM = os.path.join(ROOT, "target", "oracle", "oracle-program")
RULES = os.path.join(HERE, "..", "test_decisions", "make_stdout.py")

spec = importlib.util.spec_from_file_location("rules", RULES)
rules = importlib.util.module_from_spec(spec)
spec.loader.exec_module(rules)

MASKS = range(1, 8)


def item(number, mask, unit):
    """The fix of this number, whose tags are those of the mask."""
    tags = [tag for tag in (1, 2, 3) if mask >> (tag - 1) & 1]
    record = dict(time=0, lat=0, lon=0, height=0, message=bytes(14), tags=tags, used=set(tags), cov=rules.layouts.diagonal(float(unit)))
    return dict(record=record, inputs=bytes(32), identity=bytes(31) + bytes([number]), standing=0, consistent=1, preferred=0, verified=0)


def cases():
    """The items of each case, the first fix's tags slowest and the third's covariance fastest."""
    for choice in itertools.product(MASKS, MASKS, MASKS, (0, 1), (0, 1), (0, 1)):
        yield [item(number, choice[number - 1], choice[number + 2]) for number in (1, 2, 3)]


def by_the_rules(items):
    ranked, dominated, refusals = rules.decide(items)
    return ranked, dominated, list(refusals)


def by_the_rust(every):
    """What the Rust answers of each list of items."""
    asked = "".join("decide %s\n" % b"".join(rules.item_bytes(one) for one in items).hex() for items in every)
    told = subprocess.run([PROGRAM], input=asked, capture_output=True, text=True, check=True).stdout.splitlines()
    for line in told:
        parts = dict(part.split("=", 1) for part in line.split())
        words = lambda name: [word for word in parts[name].split(",") if word not in ("", "none", "-")]
        yield [int(at) for at in words("ranked")], [int(at) for at in words("dominated")], [int(word.split(":")[0]) for word in words("refused")]


def numbers(places):
    return ",".join(str(at + 1) for at in places) or "none"


def main():
    every = list(cases())
    answers = [by_the_rules(items) for items in every]
    for number, (ours, theirs) in enumerate(itertools.zip_longest(answers, by_the_rust(every)), 1):
        if ours != theirs:
            sys.exit("case %d: the rules say %s, the Rust says %s" % (number, ours, theirs))
    lines = ["case=%d ranked=%s dominated=%s refused=%s\n" % (number, *map(numbers, answer)) for number, answer in enumerate(answers, 1)]
    assert len(lines) == 2744 and max(map(len, lines)) <= 51
    with open(os.path.join(HERE, "stdout"), "w") as out:
        out.writelines(lines)


main()
