#!/usr/bin/env python3
"""Makes stdin (registers, one after another) and stdout (what the fixes of each board must be answered) of this program.

    oracle/peer/build && crates/test_entries/make_stdout.py

A register is written here, from its layout in docs/REFERENCE.md. Which lines its board has, in which order and with which chi-square is taken
from the board of a second writing in plain Rust (target/oracle/peer board). Each line is of the one record here with its numbers; places are
counted, identities are by Python's hashlib, and the fix against which one is refused is the lowest identity of its subsets that a board of
the two alone refuses it against. Nothing of ours is asked."""
import hashlib
import os
import struct
import subprocess
import sys

HERE = os.path.dirname(os.path.abspath(__file__))
sys.path.insert(0, os.path.join(HERE, "..", "..", "oracle"))
from layouts import SHORT, diagonal, record, register  # noqa: E402

PEER = os.environ.get("PEER") or os.path.join(HERE, "..", "..", "target", "oracle", "peer")
ROLES = ("ranked", "dominated", "refused")
NO_INPUTS = hashlib.blake2s(b"tally pair model cited inputs\0").digest()


class Fix:
    """A record that cites no model, with its signers."""

    def __init__(self, tags, signers, time=1000, lat=0, lon=0, variance=100.0):
        self.tags, self.signers, self.time, self.lat, self.lon = list(tags), signers, time, lat, lon
        self.record = record(self.tags, time=time, lat=lat, lon=lon, covariance=diagonal(variance))
        chosen = hashlib.blake2s(bytes([len(SHORT)]) + SHORT + struct.pack("<B%dQ" % len(self.tags), len(self.tags), *self.tags)).digest()
        self.identity = hashlib.blake2s(b"tally merge input set\0" + chosen + NO_INPUTS).digest()

    def is_line(self, said):
        return (int(said["time"]), int(said["lat"]), int(said["lon"]), int(said["weight"]), int(said["signers"], 16)) == (self.time, self.lat, self.lon, len(self.tags), self.signers)


def held(fixes):
    return register((), {fix.record: fix.signers for fix in fixes})


def lines(fixes):
    """Of each line of the board: the transmission's number, the fix, its role and its chi-square."""
    text = subprocess.run([PEER, "board"], input=held(fixes), capture_output=True, check=True).stdout.decode()
    number, found = 0, []
    for line in text.splitlines():
        said = dict(word.split("=", 1) for word in line.split(" "))
        if "transmission" in said:
            number = int(said["transmission"])
            continue
        (fix,) = [fix for fix in fixes if fix.is_line(said)]
        found.append((number, fix, said["role"], said.get("chi2", "none")))
    return found


def is_refused_against(fix, other):
    return set(other.tags) < set(fix.tags) and "refused" in [role for _, one, role, _ in lines([fix, other]) if one is fix]


def entries(fixes):
    records, shown, data = sorted(fix.record for fix in fixes), lines(fixes), b""
    for number, fix, role, chi2 in shown:
        against = fix
        if role == "refused":
            against = min((one for n, one, _, _ in shown if n == number and is_refused_against(fix, one)), key=lambda one: one.identity)
        index = [one for _, one, _, _ in shown].index(against)
        measured, bits = (0, 0) if chi2 == "none" else (1, int(chi2, 16))
        data += struct.pack("<BBBBI32sBQ", number, ROLES.index(role), records.index(fix.record), index, fix.signers, fix.identity, measured, bits)
    return data


def nested(count, step, time=1000, signers=1, variance=100.0, base=0):
    """So many fixes, each a subset of the next, each so far north of the one before."""
    return [Fix(range(base + 1, base + 2 + i), signers << i, time=time, lat=step * i, variance=variance) for i in range(count)]


SECONDS = 10_000_000_000
LISTS = [
    [],
    [Fix([1, 2], 2, lat=500_000_000, lon=100_000_000)],
    # All agree; all disagree; some do; none can be measured.
    nested(3, 0),
    nested(4, 100_000),
    nested(6, 2_700),
    nested(3, 1, variance=0.0),
    # Ten transmissions, of which a board shows eight, each with one that is refused or dominated.
    [fix for k in range(10) for fix in nested(2 + k % 3, 100_000 * (k % 2), time=1000 + SECONDS * k, signers=1 + k, base=100 * k)],
    # As many as a register holds.
    [fix for k in range(32) for fix in nested(3, 2_700, time=1000 + SECONDS * k, signers=1 + k, base=100 * k)],
    [Fix([1] + [tag for bit, tag in enumerate(range(10, 17)) if (k >> bit) & 1], 1 + k, lat=700 * k) for k in range(96)],
]


def main():
    stdin, stdout = b"", ""
    for fixes in LISTS:
        data = entries(fixes)
        stdin += held(fixes)
        stdout += "answer=%d output=%s\nanswer=10\n" % (len(data), hashlib.blake2s(data.ljust(4704, b"\0")).hexdigest())
    # Engine 3 signed a record and is convicted: no register.
    stdin += register((), {Fix([1], 8).record: 8}, (3,))
    stdout += "answer=1 output=%s\nanswer=1\n" % hashlib.blake2s(bytes(4704)).hexdigest()
    open(os.path.join(HERE, "stdin"), "wb").write(stdin)
    open(os.path.join(HERE, "stdout"), "w").write(stdout)
    print(f"make_stdout.py: {len(LISTS) + 1} registers")


main()
