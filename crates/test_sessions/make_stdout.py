#!/usr/bin/env python3
"""Makes stdin (sessions, each after its length in four bytes, lowest first) and stdout (what each must print) of this program.

The expected output is the peer's, a second writing of register, board and session in plain Rust (oracle/peer/build makes target/oracle/peer), and what is
written here by hand beside some cases is compared with it. Nothing of ours is asked."""
import hashlib
import os
import subprocess
import sys

here = os.path.dirname(os.path.abspath(__file__))
peer = os.path.join(here, "..", "..", "target", "oracle", "peer")

ZERO = "0" * 96
HUNDRED = "4059000000000000"
DIAG = HUNDRED + "0" * 32 + HUNDRED + "0" * 16 + HUNDRED


def summary(engine, model, spec=0, inputs="00" * 32):
    return f"op=summary\nengine={engine}\nmodel={model}\nspec={spec}\ninputs={inputs}\n"


def convict(engine):
    return f"op=convict\nengine={engine}\n"


def report(engine, tags, lat=0, time=1000, lon=0, height="1500", message="8d000000000000", used=None, models="none", spec=0, cov=DIAG):
    listed = ",".join(str(t) for t in tags)
    used = (1 << len(tags)) - 1 if used is None else used
    return (
        f"op=report\nengine={engine}\ntime={time}\nlat={lat}\nlon={lon}\nheight={height}\nmessage={message}\n"
        f"tags={listed}\nused={used}\nmodels={models}\nspec={spec}\ncov={cov}\n"
    )


S = report(1, [1], 0)
M = report(2, [1, 2], 2700)
L = report(3, [1, 2, 3], 5400)
WORKED = (
    summary(1, 5, 3)
    + report(1, [11, 12], 500000000, 1000, 100000000, "1500", models="5", spec=3, cov=ZERO)
    + report(2, [11, 12, 13], 500000000, 1000, 100000000, "none", models="5", spec=3, cov=ZERO)
)
WORKED_OUT = """answer=0
answer=0
answer=0
transmission=1 ranked=1 dominated=0 refused=1
role=ranked time=1000 lat=500000000 lon=100000000 height=2 weight=2 signers=00000002
role=refused time=1000 lat=500000000 lon=100000000 height=none weight=3 signers=00000004 chi2=none
"""

# heights in millimetres and the whole metres written for them (docs/REFERENCE.md, 'Register and board'); a row is one session
HEIGHTS = (
    {"500": "0", "1500": "2", "2500": "2", "-1500": "-2"},
    {"499": "0", "501": "1", "0": "0", "none": "none"},
    {"1499": "1", "1501": "2", "2499": "2", "2501": "3"},
    {"3500": "4", "-3500": "-4", "1000": "1", "-1000": "-1"},
    {"-1": "0", "-499": "0", "-500": "0", "-501": "-1"},
    {"-1499": "-1", "-1501": "-2", "-2500": "-2", "-2501": "-3"},
    {"2147483499": "2147483", "2147483500": "2147484", "2147483501": "2147484", "2147483647": "2147484"},
    {"-2147483499": "-2147483", "-2147483500": "-2147484", "-2147483501": "-2147484", "-2147483648": "-2147484"},
)


def of_heights(row):
    """A report for each height, each a transmission of its own, and what is printed of them."""
    board = "".join(
        f"transmission={i} ranked=1 dominated=0 refused=0\nrole=ranked time={i} lat=0 lon=0 height={metres} weight=1 signers=00000002\n"
        for i, metres in enumerate(row.values(), 1)
    )
    return "".join(report(1, [i], time=i, height=height) for i, height in enumerate(row, 1)), "answer=0\n" * len(row) + board


# two times, and whether fixes of these times with a common tag are one transmission (docs/REFERENCE.md, 'Register and board')
SECOND = 10**9
HOUR = 3600 * SECOND
LAST = 2**64 - 1
TIMES = (
    (0, 1999999999, True), (0, 2000000000, True), (0, 2000000001, False),
    (LAST - 2000000000, LAST, True), (LAST - 2000000001, LAST, False), (0, LAST, False), (1000, 1000 + HOUR, False),
)


def fix_line(role, time, weight, signers, lat=0):
    return f"role={role} time={time} lat={lat} lon=0 height=2 weight={weight} signers={signers:08x}\n"


def board(*transmissions):
    """The lines of transmissions, each a list of lines whose roles are counted."""
    out = ""
    for number, lines in enumerate(transmissions, 1):
        counts = (sum(line.startswith(f"role={role} ") for line in lines) for role in ("ranked", "dominated", "refused"))
        out += "transmission=%d ranked=%d dominated=%d refused=%d\n" % (number, *counts) + "".join(lines)
    return out


def identity(tags):
    """The identity of a fix of these tags that cites no model: dominated fixes are listed by it."""
    heard = bytes.fromhex("07" + "8d000000000000") + bytes([len(tags)]) + b"".join(tag.to_bytes(8, "little") for tag in tags)
    inputs = hashlib.blake2s(b"tally pair model cited inputs\0").digest()
    return hashlib.blake2s(b"tally merge input set\0" + hashlib.blake2s(heard).digest() + inputs).digest()


def of_times(early, late, one):
    """A fix of one tag and one of two at the same place, the small one first or the large one, reported in both orders."""
    for small, large in ((early, late), (late, early)):
        reports = report(1, [1], time=small), report(2, [1, 2], time=large)
        if one:
            drawn = board([fix_line("ranked", large, 2, 4), fix_line("dominated", small, 1, 2)])
        else:
            alone = [(small, [fix_line("ranked", small, 1, 2)]), (large, [fix_line("ranked", large, 2, 4)])]
            drawn = board(*(lines for _, lines in sorted(alone)))
        yield "".join(reports), "answer=0\n" * 2 + drawn
        yield "".join(reversed(reports)), "answer=0\n" * 2 + drawn


def of_a_chain():
    """Fixes at 0, 2 and 4 seconds, each linked to the next; then without the one between, whether the ends have a common tag or not."""
    first, second, third = report(1, [1], time=0), report(2, [1, 2], time=2 * SECOND), report(3, [2], time=4 * SECOND)
    ends = sorted([(identity([1]), fix_line("dominated", 0, 1, 2)), (identity([2]), fix_line("dominated", 4 * SECOND, 1, 8))])
    joined = board([fix_line("ranked", 2 * SECOND, 2, 4)] + [line for _, line in ends])
    for order in (first + second + third, third + first + second, second + third + first):
        yield order, "answer=0\n" * 3 + joined
    apart = board([fix_line("ranked", 0, 1, 2)], [fix_line("ranked", 4 * SECOND, 1, 8)])
    yield first + third, "answer=0\n" * 2 + apart
    yield third + first, "answer=0\n" * 2 + apart
    far = report(3, [1, 3], time=4 * SECOND)
    yield far + first, "answer=0\n" * 2 + board([fix_line("ranked", 0, 1, 2)], [fix_line("ranked", 4 * SECOND, 2, 8)])
    ranked = sorted([(identity([1, 2]), fix_line("ranked", 2 * SECOND, 2, 4)), (identity([1, 3]), fix_line("ranked", 4 * SECOND, 2, 8))])
    yield far + second + first, "answer=0\n" * 3 + board([line for _, line in ranked] + [fix_line("dominated", 0, 1, 2)])


def of_one_identity(early):
    """Two records of one identity an hour apart, the first at this time, and a larger fix at time 2. The record whose bytes come first
    represents both: the earlier one if its lowest byte is 0, as that of an hour is, and else the later one."""
    reports = report(1, [1], time=early), report(2, [1], time=HOUR), report(3, [1, 2], time=2)
    if early == 0:
        drawn = board([fix_line("ranked", 2, 2, 8), fix_line("dominated", 0, 1, 6)])
    else:
        drawn = board([fix_line("ranked", 2, 2, 8)], [fix_line("ranked", HOUR, 1, 6)])
    yield "".join(reports), "answer=0\n" * 3 + drawn
    yield "".join(reversed(reports)), "answer=0\n" * 3 + drawn


# what is printed in place of a board without bytes (docs/REFERENCE.md, 'Session')
QUIET = "transmissions=0\n"


def quiet(*numbers):
    """The answers of a session without a board, and the line after them."""
    return "".join(f"answer={n}\n" for n in numbers) + QUIET


def bad(line):
    return f"refused=11 line={line}\n"


def changed(text, line, new):
    lines = text.split("\n")
    lines[line - 1] = new
    return "\n".join(lines)


def cases():
    yield WORKED, WORKED_OUT
    # three nested fixes, in several orders and with repeats
    for order in (S + M + L, L + S + M, M + L + S, S + M + L + S, L + L + M + S + M):
        yield order, None
    # two rooms: other orders, and a conviction half way
    yield S + M + report(4, [1, 4], 900) + L + convict(4), None
    yield L + convict(4) + report(4, [1, 4], 900) + M + S, None
    # one identity with two positions, both orders: the record whose bytes come first represents
    yield report(1, [1], 0) + report(2, [1], 2700), None
    yield report(2, [1], 2700) + report(1, [1], 0), None
    yield report(1, [1], 0, time=256) + report(2, [1], 0, time=1), None
    # a fix tied to two transmissions
    yield report(1, [1]) + report(1, [2]) + report(1, [1, 2]), None
    yield report(1, [1, 2]) + report(1, [2]) + report(1, [1]), None
    # 7 bytes and the same with seven zeros are different messages
    yield report(1, [1]) + report(1, [1], message="8d000000000000" + "00" * 7), None
    # nine transmissions: the oldest is not shown
    yield "".join(report(i, [10 * i], time=100 - i) for i in range(1, 10)), None
    yield "".join(report(i, [10 * i], time=7) for i in range(1, 10)), None
    # a disputed model, settled by a conviction; a model of another spec; a model that is not there
    X, Y = "11" * 32, "22" * 32
    yield summary(1, 5, 0, X) + report(1, [1], models="5") + summary(2, 5, 0, Y), quiet(0, 0, 0)
    yield summary(1, 5, 0, X) + report(1, [1], models="5") + summary(2, 5, 0, Y) + convict(2), None
    yield summary(1, 5, 1, X) + report(1, [1], models="5"), quiet(0, 0)
    yield report(1, [1], models="5"), quiet(0)
    yield summary(1, 5, 0, X) + summary(1, 6, 0, Y) + report(1, [1], models="5,6") + report(2, [1], models="6,5") + report(3, [1], models="5,5"), None
    # answers 2, 3, 4, 9
    yield report(32, [1]) + report(255, [1]) + summary(32, 0) + convict(32) + convict(31), quiet(2, 2, 2, 2, 0)
    yield report(1, [2, 1]) + report(1, [1], used=2) + report(1, [1], models="64") + report(1, [1, 1]), quiet(3, 3, 3, 3)
    yield summary(1, 64) + summary(1, 255) + convict(1) + summary(1, 1) + report(1, [1]), quiet(9, 9, 0, 4, 4)
    yield summary(255, 255) + report(255, [2, 1]), quiet(2, 2)
    # no board: no call; only a conviction; a report that is refused; all reports of a convicted engine, before and after; only summaries; a
    # model that is missing, and the same once it is stated
    yield "", QUIET
    yield convict(1), quiet(0)
    yield report(1, [2, 1]), quiet(3)
    yield report(32, [1]), quiet(2)
    yield S + report(1, [1, 2], 2700) + convict(1) + S, quiet(0, 0, 0, 4)
    yield convict(1) + S + convict(1), quiet(0, 4, 0)
    yield summary(1, 5) + summary(2, 5) + summary(2, 6, 1, Y), quiet(0, 0, 0)
    yield report(1, [1], models="5,6") + summary(2, 5), quiet(0, 0)
    yield (
        report(1, [1], models="5,6") + summary(2, 5) + summary(2, 6),
        "answer=0\n" * 3 + "transmission=1 ranked=1 dominated=0 refused=0\n"
        "role=ranked time=1000 lat=0 lon=0 height=2 weight=1 signers=00000002\n",
    )
    # times around the limit of a link, a chain that is longer than one, and one identity with two times
    for row in TIMES:
        yield from of_times(*row)
    yield from of_a_chain()
    yield from of_one_identity(0)
    yield from of_one_identity(1)
    # a subset an hour away, which would disagree, refuses nobody and is not dominated
    yield (
        S + report(3, [1, 2, 3], 5400, time=1000 + HOUR),
        "answer=0\n" * 2 + board([fix_line("ranked", 1000, 1, 2)], [fix_line("ranked", 1000 + HOUR, 3, 8, 5400)]),
    )
    # heights and widths
    yield from map(of_heights, HEIGHTS)
    yield report(31, range(24), -2147483648, 18446744073709551615, 2147483647, used=0), None
    # a mask of 32 bits: the last tag's, and one at and above the count
    yield report(1, range(17), used=2**16) + report(2, range(24)) + report(3, range(24), used=2**24) + report(4, range(16), used=2**16), None
    yield report(1, [1], used=65536) + report(1, [1], used=2**32 - 1) + report(1, [1]), None
    yield report(1, [18446744073709551615], cov="7ff8000000000001" * 6) + report(1, [1, 18446744073709551615], cov="fff0000000000000" * 6), None
    # a full register: a 97th record is 5, a held one with a new signer 0; a conviction half way makes room
    full = "".join(report(1 + i % 2, [i + 1], time=i, cov=ZERO) for i in range(96))
    yield full + report(3, [97], time=97) + report(3, [1], time=0, cov=ZERO), None
    yield full + report(3, [97], time=97) + convict(1) + report(3, [97], time=97) + report(3, [98], time=98) + report(1, [99]), None
    many = "".join(summary(i // 64, i % 64) for i in range(256))
    yield many + summary(4, 0) + summary(3, 63), None
    yield many + summary(4, 0) + convict(2) + summary(4, 0), None
    # each kind of bad line
    yield "\n", bad(1)
    yield "\n\n", bad(1)
    yield "\x00", bad(1)
    yield "transmissions=0\n", bad(1)
    yield S[:-1], bad(12)
    yield S + "op=convict\n", bad(14)
    yield S + "op=convict\nengine=1", bad(14)
    yield "op=convict\r\nengine=1\n", bad(1)
    yield "op=other\nengine=1\n", bad(1)
    yield "Op=convict\nengine=1\n", bad(1)
    yield " op=convict\nengine=1\n", bad(1)
    yield convict(1) + "\n" + convict(1), bad(3)
    for value in ("", "01", "+1", "-1", "-0", " 1", "1 ", "256", "1" * 40, "0x1", "1\x00", "\xff"):
        yield f"op=convict\nengine={value}\n", bad(2)
    for line, new in (
        (2, "motor=1"), (3, "time=18446744073709551616"), (3, "time=-1"), (3, "time=" + "9" * 200), (4, "lat=2147483648"), (4, "lat=-2147483649"),
        (4, "lat=-0"), (4, "lat=--1"), (5, "lon=00"), (6, "height="), (6, "height=None"), (6, "height=2147483648"), (7, "message="),
        (7, "message=8d0000000000"), (7, "message=8D000000000000"), (7, "message=8d00000000000g"), (8, "tags="), (8, "tags=none"), (8, "tags=1,"),
        (8, "tags=,1"), (8, "tags=1,,2"), (8, "tags=" + ",".join(str(i) for i in range(25))), (8, "tags=01"), (9, "used=4294967296"), (10, "models="),
        (10, "models=1,2,3,4,5"), (10, "models=256"), (10, "models=none,1"), (11, "spec=65536"), (12, "cov=" + "0" * 95), (12, "cov=" + "0" * 97),
        (12, "cov=" + "A" * 96),
    ):
        yield changed(S, line, new), bad(line)
    yield changed(summary(1, 5), 5, "inputs=" + "0" * 62), bad(5)
    yield changed(summary(1, 5), 5, "inputs=" + "0" * 66), bad(5)
    yield changed(summary(1, 5), 4, "spec=-1"), bad(4)
    # good lines that look odd
    yield report(1, range(24), models="1,2,3,4") + report(1, [0], message="8d" + "00" * 13) + report(1, [5], used=0), None
    # 65,536 bytes are read, one more is not
    longest = convict(1) * 3260 + convict(10) * 16
    assert len(longest) == 65536
    yield convict(1) * 3276 + "op=convict\nengin", bad(6554)
    yield longest, quiet(*[0] * 3276)
    yield longest + "\n", "refused=12\n"
    yield "x" * 65537, "refused=12\n"


def main():
    if not os.path.exists(peer):
        sys.exit("no target/oracle/peer: run oracle/peer/build first")
    inputs, outputs = b"", b""
    for number, (text, expected) in enumerate(cases(), 1):
        data = text.encode("latin-1")
        out = subprocess.run([peer], input=data, capture_output=True, check=True).stdout
        assert expected is None or out == expected.encode(), (number, text[:300], expected, out)
        inputs += len(data).to_bytes(4, "little") + data
        outputs += b"case %d\n" % number + out
    open(os.path.join(here, "stdin"), "wb").write(inputs)
    open(os.path.join(here, "stdout"), "wb").write(outputs)
    print(number, "sessions,", len(inputs), "bytes in,", len(outputs), "bytes out")


main()
