#!/usr/bin/env python3
"""Makes stdin (registers, one after another) and stdout (what each desk must be answered, with the texts) of this program.

    oracle/peer/build && crates/test_previews/make_stdout.py

A register is written here, from its layout in docs/REFERENCE.md; what it holds is given to the peer too, a second writing of register and
board in plain Rust (target/oracle/peer), as a session that ends with the conviction: what that prints after its answers is what the preview must have, and
without the conviction, or with the word crew, what the boards must have.
Nothing of ours is asked."""
import os
import struct
import subprocess
import sys

HERE = os.path.dirname(os.path.abspath(__file__))
sys.path.insert(0, os.path.join(HERE, "..", "..", "oracle"))
import layouts  # noqa: E402

PEER = os.path.join(HERE, "..", "..", "target", "oracle", "peer")
HUNDRED = struct.pack("<d", 100.0)
ZERO = bytes(8)
QUIET = b"transmissions=0\n"
ENGINES = range(33)
DESKS = (0, 1, 2, 3, 258)


class Report:
    """A report: its session lines, and its record by the layout."""

    def __init__(self, engine, tags, lat, time=1000, height=1500, models=(), spec=0, message=b"\x8d" + bytes(6)):
        self.engine, self.tags, self.lat, self.time, self.height = engine, tags, lat, time, height
        self.models, self.spec, self.message = models, spec, message
        self.covariance = (HUNDRED, ZERO, ZERO, HUNDRED, ZERO, HUNDRED)

    def record(self):
        fields = {"time": self.time, "lat": self.lat, "height": self.height, "message": self.message}
        return layouts.record(self.tags, models=self.models, spec=self.spec, **fields)

    def lines(self):
        listed = lambda numbers: ",".join(map(str, numbers)) or "none"
        return (
            f"op=report\nengine={self.engine}\ntime={self.time}\nlat={self.lat}\nlon=0\n"
            f"height={'none' if self.height is None else self.height}\nmessage={self.message.hex()}\ntags={listed(self.tags)}\n"
            f"used={(1 << len(self.tags)) - 1}\nmodels={listed(self.models)}\nspec={self.spec}\n"
            f"cov={''.join(number[::-1].hex() for number in self.covariance)}\n"
        )


class Summary:
    """What an engine says of a model: inputs of 32 equal bytes."""

    def __init__(self, engine, model, byte, spec=0):
        self.engine, self.model, self.byte, self.spec = engine, model, byte, spec

    def place(self):
        return layouts.summary(self.engine, self.model, self.spec, bytes([self.byte]) * 32)

    def lines(self):
        return f"op=summary\nengine={self.engine}\nmodel={self.model}\nspec={self.spec}\ninputs={bytes([self.byte]).hex() * 32}\n"


def held(calls, kind):
    return [call for call in calls if isinstance(call, kind)]


def register(calls, convicted=()):
    """The bytes of a register that holds what the calls say; none of them is of a convicted engine."""
    signers = {}
    for call in held(calls, Report):
        signers[call.record()] = signers.get(call.record(), 0) | 1 << call.engine
    return layouts.register({call.place() for call in held(calls, Summary)}, signers, convicted)


def text(calls, engines, words=()):
    """The board after the calls and these convictions: the peer's, without the answers; with the word crew, as a crew sees it."""
    session = "".join(call.lines() for call in calls) + "".join(f"op=convict\nengine={engine}\n" for engine in engines)
    out = subprocess.run([PEER, *words], input=session.encode(), capture_output=True, check=True).stdout
    left = out.split(b"\n", len(calls) + len(engines))
    assert left[:-1] == [b"answer=0"] * (len(calls) + len(engines)), out
    return b"" if left[-1] == QUIET else left[-1]


def line(what, answer):
    return f"{what} answer={answer}\n".encode()


def refusal(desk, right, formed, engine):
    """With what a call is refused before its output is looked at; 0 where it is not. A desk has a right from this kind on."""
    return 15 if desk > 2 else 16 if desk < right else 1 if not formed else 2 if engine > 31 else 0


def at_desk(desk, calls, convicted, formed):
    """The board, two convictions, every preview, and the refusals of an output that is too small."""
    refused = refusal(desk, 0, formed, 0)
    board = b"" if refused else text(calls, convicted, ("crew",) if desk == 0 else ())
    out = line(f"desk={desk} board", refused or len(board)) + board + line(f"desk={desk} too small", refused or 10)
    for engine in (1, 33):
        refused = refusal(desk, 2, formed, engine)
        out += line(f"desk={desk} convict={engine}", refused) + (b"same=true\n" if refused or engine in convicted else b"same=false\n")
    for engine in ENGINES:
        refused = refusal(desk, 1, formed, engine)
        board = b"" if refused else text(calls, (*convicted, engine))
        out += line(f"desk={desk} engine={engine}", refused or len(board)) + board
    for engine in (0, 33):
        out += line(f"desk={desk} engine={engine} too small", refusal(desk, 1, formed, engine) or 10)
    return out


def expected(calls, convicted, formed=True):
    return b"".join(at_desk(desk, calls, convicted, formed) for desk in DESKS) + b"\n"


S, M, L = Report(1, [1], 0), Report(2, [1, 2], 2700), Report(3, [1, 2, 3], 5400)
# S again by an engine of the highest number, one record of S's identity elsewhere, and a transmission of its own.
NESTED = [S, M, L, Report(31, [1], 0), Report(4, [1], 1), Report(5, [9], 7, height=None)]
# Model 5 is disputed by engine 3, model 6 rests on engine 1 alone, model 7 on engines 1 and 2.
DISPUTE = [
    Summary(1, 5, 0), Summary(2, 5, 0), Summary(3, 5, 255), Summary(1, 6, 1), Summary(1, 7, 2), Summary(2, 7, 2),
    Report(1, [1], 0, models=(5,)), Report(2, [1, 2], 2700, models=(7, 5)), Report(2, [3], 0, models=(6,)), Report(4, [4], 0, 2000, models=(7,)),
]
# Ten transmissions, of which a board shows eight: without one that is shown an older one comes back.
MANY = [Report(i, [100 + i], 10 * i, 10_000_000_000 * i, message=bytes([i] * 14)) for i in range(10)]


def main():
    given = []
    for calls, convicted in (([], ()), (NESTED, ()), (NESTED, (7, 0)), (DISPUTE, ()), (MANY, (30,))):
        given.append((register(calls, convicted), expected(calls, convicted)))
    # Engine 3 signed a record and is convicted: no register.
    given.append((register(NESTED, (3,)), expected(NESTED, (3,), formed=False)))
    open(os.path.join(HERE, "stdin"), "wb").write(b"".join(bytes_ for bytes_, _ in given))
    open(os.path.join(HERE, "stdout"), "wb").write(b"".join(out for _, out in given))
    print(f"make_stdout.py: {len(given)} registers")


main()
