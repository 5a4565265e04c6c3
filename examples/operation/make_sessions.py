"""Writes the sessions of this folder. docs/OPERATION.md says what each of them shows.

    python3 examples/operation/make_sessions.py
"""
import os
import struct

HERE = os.path.dirname(os.path.abspath(__file__))
T = 1731679200 * 10**9
HUNDRED, ZERO = "4059000000000000", "0" * 16
COV = HUNDRED + 2 * ZERO + HUNDRED + ZERO + HUNDRED
END = 2**64 - 1


def report(engine, time, lat=481370000, message="8d3c6dd0000000", tags=(101,), models="none", spec=0, cov=COV, used=None):
    fields = [
        ("op", "report"), ("engine", engine), ("time", time), ("lat", lat), ("lon", 115820000), ("height", 312400), ("message", message),
        ("tags", ",".join(map(str, tags))), ("used", 2 ** len(tags) - 1 if used is None else used), ("models", models), ("spec", spec), ("cov", cov),
    ]
    return "".join(f"{k}={v}\n" for k, v in fields)


def summary(engine, model, inputs, spec=1):
    return f"op=summary\nengine={engine}\nmodel={model}\nspec={spec}\ninputs={inputs * 32}\n"


def convict(engine):
    return f"op=convict\nengine={engine}\n"


def write(name, *calls):
    with open(os.path.join(HERE, name + ".session"), "w") as f:
        f.write("".join(calls))


# 97 transmissions, half a second apart, of one engine: one more than a register has places for.
flight = [report(1, T + i * 500000000, 481370000 + 1800 * i, f"8d3c6dd00000{i:02x}") for i in range(97)]
write("full-north", *flight)
write("full-south", *reversed(flight))

# The same message by the same receivers, a thousandth of a degree apart. The later time has the lesser lowest byte.
write("signers", report(1, T + 255, 481370000), report(2, T + 256, 481380000))

# A record that cites model 5, before anybody has said what model 5 is; and after.
waiting = [report(1, T, models="5", spec=1), report(2, T + 1, 481380000, "8d3c6dd0000001")]
write("missing", *waiting)
write("stated", *waiting, summary(1, 5, "00"))

# Two engines agree on model 5, a third says something else; that it corrects itself does not help.
agreed = [summary(1, 5, "00"), summary(2, 5, "00"), report(1, T, models="5", spec=1), report(2, T, 481371000, tags=(101, 102), models="5", spec=1)]
dispute = [summary(3, 5, "ff"), summary(3, 5, "00")]
write("agreed", *agreed)
write("disputed", *agreed, *dispute)
write("settled", *agreed, *dispute, convict(3))

# One fix of now, and eight of the end of time by an engine with a broken clock; then that engine is convicted.
broken = [report(3, END - i, message=f"8d3c6dd00000{i + 1:02x}") for i in range(8)]
write("clocks", report(1, T), *broken)
write("clocks-settled", report(1, T), *broken, convict(3))

# Two fixes of one transmission, 100 ns apart, that disagree. One room's window begins before both, the other's between them.
small, large = report(1, T, 481370000), report(2, T + 100, 481375400, tags=(101, 102))
write("cut-north", small, large)
write("cut-south", large)

# Two fixes of one transmission, of one place. The smaller one's covariance is all zeros, so that nothing can be measured against it.
write("unmeasured", report(1, T, cov=6 * ZERO), report(2, T + 100, tags=(101, 102)))

# A parked helicopter repeats its message, and an hour later the receivers have been restarted and use the same tags. Then a fix between
# two others, each two seconds away, of which the last is too far from the first. And the same tags five hours later: one identity, for
# which the record of the earlier time stands, whose bytes come first.
HOUR, SECOND = 3600 * 10**9, 10**9
write("restarted", report(1, T), report(2, T + HOUR, 481375400, tags=(101, 102)))
write("repeated", report(1, T), report(1, T + 5 * HOUR, 481375400))
write("chained", report(1, T), report(2, T + 2 * SECOND, tags=(101, 102)), report(1, T + 4 * SECOND, tags=(101, 103)))
write("unchained", report(1, T), report(1, T + 4 * SECOND, tags=(101, 103)))

# A conviction of an engine that reported nothing.
write("bystander", *agreed, convict(9))

# A register of version 0.10 or before, in which a record has room for 16 tags, and a session with the same calls: of the 16 tags that the widest record has, two
# were used, and two engines reported it.
MANY = tuple(range(101, 117))


def before(engines, time, lat=481370000, message="8d3c6dd0000000", tags=(101,), used=None, models=(), spec=0):
    """A record as it was, and its signers: the mask of used tags in two bytes, room for 16 tags, 222 bytes in all."""
    used, data = 2 ** len(tags) - 1 if used is None else used, bytes.fromhex(message)
    record = struct.pack("<QiiBiB14s", time, lat, 115820000, 1, 312400, len(data), data)
    record += struct.pack("<BH16Q", len(tags), used, *tags, *[0] * (16 - len(tags))) + struct.pack("<B4BH", len(models), *models, *[0] * (4 - len(models)), spec)
    record += struct.pack("<6d", 100, 0, 0, 100, 0, 100)
    assert len(record) == 222
    return record + struct.pack("<I", sum(1 << engine for engine in engines))


places = sorted([
    before([1, 3], T + 200, 481372000, tags=MANY, used=3),
    before([2], T + 100, 481370000, tags=(101, 102)),
    before([1], T + 10**10, message="8d3c6dd0000001", models=(5,), spec=1),
])
said = b"".join(struct.pack("<BBH", engine, 5, 1) + bytes(32) for engine in (1, 2))
with open(os.path.join(HERE, "widen.register"), "wb") as f:
    f.write((struct.pack("<IHH", 0, 2, 3) + said).ljust(8 + 256 * 36, b"\0") + b"".join(places).ljust(96 * 226, b"\0"))
widest = dict(time=T + 200, lat=481372000, tags=MANY, used=3)
write(
    "widened", summary(1, 5, "00"), summary(2, 5, "00"), report(1, **widest), report(3, **widest), report(2, T + 100, 481370000, tags=(101, 102)),
    report(1, T + 10**10, message="8d3c6dd0000001", models="5", spec=1),
)
