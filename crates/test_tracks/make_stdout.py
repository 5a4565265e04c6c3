#!/usr/bin/env python3
"""Writes the files stdin and stdout beside this one: lists of calls on a track and its shelf, and what is answered and held after each.

    oracle/build && crates/test_tracks/make_stdout.py [FILE]

FILE has lists in the form that src/main.rt reads. Without one the lists of tracks are few: three nested fixes S, M and L in two
orders, and the same with a call more. Behind them come the lists of shelf_lists.py, in which fixes wait. The answers and the tracks
come from target/oracle/oracle-program, which is the Rust (oracle/README.md); which fix waits, where and for how long is written
here, from docs/REFERENCE.md, and the Rust is only asked to take a fix none of whose models is missing. Both are hashed by hashlib,
and a listing is written here from the Rust's track. Nothing of what the program itself prints goes into them."""
import fractions
import hashlib
import pathlib
import struct
import subprocess
import sys

HERE = pathlib.Path(__file__).resolve().parent
sys.path.insert(0, str(HERE.parent.parent / "oracle"))
import layouts  # noqa: E402
import shelf_lists  # noqa: E402
from second.record import read_record  # noqa: E402

ORACLE = HERE.parent.parent / "target" / "oracle" / "oracle-program"
NUMBERS = {"Changed": 20, "Contested": 21, "Duplicate": 22, "Dropped": 23}
SIZES = {0: 1 + layouts.RECORD, 1: 36, 2: 1, 3: 0}
FIX = layouts.PLACE + 32
REFUSED = FIX + 32 + 8
REFUSED_AT = 2 + 5 * FIX
TRANSMISSIONS_AT, TRANSMISSION = 9232, REFUSED_AT + 4 * REFUSED
INFINITY = 0x7FF0_0000_0000_0000
SHELF_FULL, WAITING, MAX_WAITING = 13, 24, 64
SHELF_SIZE = 1 + MAX_WAITING * (2 + layouts.RECORD)


def own_lists():
    small, middle, large = (b"\0\1" + layouts.record([1, 2, 3][:n], lat=lat) for n, lat in ((1, 0), (2, 2700), (3, 5400)))
    convict, listing = b"\2\7", b"\3"
    orders = [[small, middle, large], [large, small, middle]]
    more = [orders[0] + [small], orders[0] + [small, middle], orders[1] + [convict]]
    return b"".join(struct.pack("<H", len(calls) + 1) + b"".join(calls) + listing for calls in orders + more)


def lists_in(data):
    """The lists of a file: of each call its kind and its fields."""
    at = 0
    while at < len(data):
        (count,) = struct.unpack_from("<H", data, at)
        at += 2
        calls = []
        for _ in range(count):
            kind = data[at]
            calls.append((kind, data[at + 1 : at + 1 + SIZES[kind]]))
            at += 1 + SIZES[kind]
        yield calls
    assert at == len(data)


def request(kind, fields):
    if kind == 0:
        return f"report {fields[0]} {fields[1:].hex()}"
    if kind == 1:
        engine, model, spec = struct.unpack_from("<BBH", fields)
        return f"summary {engine} {model} {spec} {fields[4:].hex()}"
    return f"convict {fields[0]}"


class Rust:
    """The Rust's track, one call after another."""

    def __init__(self):
        self.process = subprocess.Popen([ORACLE], stdin=subprocess.PIPE, stdout=subprocess.PIPE, text=True)

    def ask(self, line):
        self.process.stdin.write(line + "\n")
        self.process.stdin.flush()
        told = dict(word.split("=") for word in self.process.stdout.readline().split())
        answer, state = told["answer"], bytes.fromhex(told["state"])
        assert len(state) == TRANSMISSIONS_AT + 8 * TRANSMISSION
        return int(NUMBERS.get(answer, answer)), state


class Both:
    """The Rust's track, and the fixes that wait beside it: for each the model, the engine and the record."""

    def __init__(self, rust):
        self.rust, self.waiting = rust, []
        _, self.track = rust.ask("fresh")

    @property
    def shelf(self):
        places = b"".join(struct.pack("<BB", model, engine) + record for model, engine, record in self.waiting)
        return (bytes([len(self.waiting)]) + places).ljust(SHELF_SIZE, b"\0")

    def stated(self):
        """The models that have a summary."""
        (count,) = struct.unpack_from("<H", self.track, 4)
        return {self.track[16 + 36 * k + 1] for k in range(count)}

    def ask(self, kind, fields):
        answer, self.track = self.rust.ask(request(kind, fields))
        return answer

    def report(self, engine, record):
        read = read_record(record)
        (convicted,) = struct.unpack_from("<I", self.track)
        if engine > 31 or read is None or convicted >> engine & 1:
            return self.ask(0, bytes([engine]) + record)
        missing = [model for model in read.models if model not in self.stated()]
        if not missing:
            return self.ask(0, bytes([engine]) + record)
        if len(self.waiting) == MAX_WAITING:
            return SHELF_FULL
        self.waiting.append((missing[0], engine, record))
        return WAITING

    def summary(self, fields):
        answer = self.ask(1, fields)
        if answer == 0:
            tried = [fix for fix in self.waiting if fix[0] == fields[1]]
            self.waiting = [fix for fix in self.waiting if fix[0] != fields[1]]
            for _, engine, record in tried:
                self.report(engine, record)
        return answer

    def conviction(self, engine):
        answer = self.ask(2, bytes([engine]))
        if answer == 0:
            self.waiting = [fix for fix in self.waiting if fix[1] != engine]
        return answer

    def call(self, kind, fields):
        if kind == 0:
            return self.report(fields[0], fields[1:])
        return self.summary(fields) if kind == 1 else self.conviction(fields[0])


def metres(height):
    """The nearest whole metre, and the even one of two equally near, which is how Python rounds a fraction."""
    return round(fractions.Fraction(height, 1000))


def measured(bits):
    """No number where the stored chi-square is infinite, which says that none was measured."""
    return "none" if bits == INFINITY else f"{bits:016x}"


def line(role, fix, chi2=None):
    time, lat, lon, has_height, height = struct.unpack_from("<QiiBi", fix)
    (used,) = struct.unpack_from("<I", fix, layouts.USED_AT)
    (signers,) = struct.unpack_from("<I", fix, layouts.RECORD)
    shown = metres(height) if has_height else "none"
    text = f"role={role} time={time} lat={lat} lon={lon} height={shown} weight={used.bit_count()} signers={signers:08x}"
    return text + ("\n" if chi2 is None else f" chi2={measured(chi2)}\n")


def listing(state):
    """A line `contested=N`, then board lines in the track's order with `dominated=0`."""
    text = f"contested={struct.unpack_from('<Q', state, 8)[0]}\n"
    for k in range(state[6]):
        block = state[TRANSMISSIONS_AT + k * TRANSMISSION :][:TRANSMISSION]
        fixes = [block[2 + i * FIX :][:FIX] for i in range(block[0])]
        refused = [block[REFUSED_AT + i * REFUSED :][:REFUSED] for i in range(block[1])]
        text += f"transmission={k + 1} ranked={len(fixes)} dominated=0 refused={len(refused)}\n"
        text += "".join(line("ranked", f) for f in fixes)
        text += "".join(line("refused", r, struct.unpack_from("<Q", r, FIX + 32)[0]) for r in refused)
    return text


def expected(data):
    rust = Rust()
    for calls in lists_in(data):
        both = Both(rust)
        for kind, fields in calls:
            if kind == 3:
                yield listing(both.track)
                continue
            answer = both.call(kind, fields)
            yield f"answer={answer} hash={hashlib.blake2s(both.track).hexdigest()} shelf={hashlib.blake2s(both.shelf).hexdigest()}\n"
        yield "\n"


def main():
    if not ORACLE.is_file():
        sys.exit("make_stdout.py: run oracle/build first")
    data = (pathlib.Path(sys.argv[1]).read_bytes() if len(sys.argv) > 1 else own_lists()) + shelf_lists.lists()
    (HERE / "stdin").write_bytes(data)
    (HERE / "stdout").write_text("".join(expected(data)))
    print(f"make_stdout.py: {sum(1 for _ in lists_in(data))} lists")


main()
