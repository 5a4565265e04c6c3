"""Writes NAME.stderr beside each session of this folder and of bad/: what the program says on standard error. It is worked out from the
session's own bytes and from NAME.stdout, which has the answers or the number of the bad line; the program is not called. Where nothing is
to be said there is no file.

    python3 examples/session/make_stderr.py
"""

import pathlib
import re

HERE = pathlib.Path(__file__).parent
LINES = {
    b"summary": ["engine", "model", "spec", "inputs"],
    b"convict": ["engine"],
    b"report": ["engine", "time", "lat", "lon", "height", "message", "tags", "used", "models", "spec", "cov"],
}
NUMBER = "a decimal number from {} to {} without leading zeros"
BYTE, SIXTEEN = NUMBER.format(0, 255), NUMBER.format(0, 65535)
MASK = NUMBER.format(0, 4294967295)
SIGNED, LONG = NUMBER.format(-(2**31), 2**31 - 1), f"from 0 to {2**64 - 1} without leading zeros"
WORDS = {
    "op": "summary, convict or report",
    "engine": BYTE,
    "model": BYTE,
    "spec": SIXTEEN,
    "used": MASK,
    "inputs": "64 lowercase hex digits",
    "time": f"a decimal number {LONG}",
    "lat": SIGNED,
    "lon": SIGNED,
    "height": f"the word none, or {SIGNED}",
    "message": "14 or 28 lowercase hex digits",
    "tags": f"1 to 24 decimal numbers {LONG}, with commas between",
    "models": "the word none, or 1 to 4 decimal numbers from 0 to 255 without leading zeros, with commas between",
    "cov": "96 lowercase hex digits, 16 for each of six numbers",
}
WHY = {
    2: "TL_ENGINE_OVER_31: there is no engine with a number over 31",
    3: "TL_MALFORMED_RECORD: what is reported is no well-formed record",
    4: "TL_ENGINE_CONVICTED: the engine is convicted",
    5: "TL_FULL: it is not held yet, and the register is full",
    9: "TL_BAD_SUMMARY: there is no model with a number over 63",
}
SHOWN = 60


def keys_of(data):
    """The key that is due on each line, operation by operation."""
    lines, at, keys = data.split(b"\n"), 0, []
    while at < len(lines):
        kind = lines[at][3:] if lines[at].startswith(b"op=") else None
        block = ["op"] + LINES.get(kind, [])
        keys += block
        at += len(block)
    return keys


def found(data, number):
    """What stands on a line."""
    rest = data.split(b"\n", number - 1)[-1]
    if not rest:
        return "the end of the input"
    line, feed, _ = rest.partition(b"\n")
    text = "".join(chr(b) if 32 <= b <= 126 else f"\\x{b:02x}" for b in line[:SHOWN])
    end = "'.." if len(line) > SHOWN else "'"
    if not feed:
        return f"'{text}{end} and the end of the input, without a line feed"
    return f"'{text}{end}" + (", with a carriage return before the line feed" if line.endswith(b"\r") else "")


def said(data, printed):
    if printed == "refused=12\n":
        return "the input has more than 65536 bytes\n"
    bad = re.fullmatch(r"refused=11 line=(\d+)\n", printed)
    if bad:
        number = int(bad[1])
        key = keys_of(data)[number - 1]
        return f"line {number}: {key}= is due, then {WORDS[key]}, then a line feed; found {found(data, number)}\n"
    starts = [n for n, line in enumerate(data.split(b"\n"), 1) if line.startswith(b"op=")]
    answers = [int(a) for a in re.findall(r"^answer=(\d+)$", printed, re.M)]
    assert len(starts) == len(answers)
    return "".join(
        f"operation {k}, line {line}: answer={a}, {WHY[a]}\n" for k, (line, a) in enumerate(zip(starts, answers), 1) if a != 0
    )


for session in sorted([*HERE.glob("*.session"), *HERE.glob("bad/*.session")]):
    text = said(session.read_bytes(), session.with_suffix(".stdout").read_text())
    file = session.with_suffix(".stderr")
    if text:
        file.write_text(text)
    else:
        file.unlink(missing_ok=True)
