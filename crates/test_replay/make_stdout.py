#!/usr/bin/env python3
"""Writes the files stdin and stdout beside this one from a sample of the Rust's answers, which `oracle/replay` makes.

    oracle/replay && crates/test_replay/make_stdout.py [FOLDER]      (default: target/replay)

stdin has the inputs alone and stdout the Rust's answers alone, so the program under test is never told what to answer.
oracle/README.md has the formats of FOLDER/agreement.bin and FOLDER/decide.bin."""
import pathlib
import struct
import sys

HERE = pathlib.Path(__file__).resolve().parent
CLAIMS = 122
AGREEMENT = CLAIMS + 17
REFUSAL = 12


def digits(measured, bits):
    """No number where none was measured."""
    assert measured or bits == 0
    return f"{bits:016x}" if measured else "none"


def agreements(data):
    for at in range(0, len(data), AGREEMENT):
        measured, chi2, limit = struct.unpack_from("<?QQ", data, at + CLAIMS)
        yield b"a" + data[at : at + CLAIMS], f"agreement {digits(measured, chi2)} {digits(measured, limit)}"


def words(answer):
    """The Rust's answer in bytes as a line."""
    if answer == b"\x08":
        return "answer 8 ranked dominated refused"
    at = 1
    line = ["answer", "0"]
    for name in ("ranked", "dominated"):
        count = answer[at]
        line += [name] + [str(i) for i in answer[at + 1 : at + 1 + count]]
        at += 1 + count
    count = answer[at]
    line.append("refused")
    for k in range(count):
        refused, kept, superseded, measured, chi2 = struct.unpack_from("<BB??Q", answer, at + 1 + REFUSAL * k)
        line += ["superseded" if superseded else "contested", str(refused), str(kept), digits(measured, chi2)]
    assert answer[0] == 0 and at + 1 + REFUSAL * count == len(answer)
    return " ".join(line)


def decisions(data):
    at = 0
    while at < len(data):
        (size,) = struct.unpack_from("<I", data, at)
        items = data[at + 4 : at + 4 + size]
        at += 4 + size
        (size,) = struct.unpack_from("<H", data, at)
        yield b"d" + struct.pack("<H", len(items)) + items, words(data[at + 2 : at + 2 + size])
        at += 2 + size


def main():
    folder = pathlib.Path(sys.argv[1]) if len(sys.argv) > 1 else HERE.parent.parent / "target" / "replay"
    for name in ("agreement.bin", "decide.bin"):
        if not (folder / name).is_file():
            sys.exit(f"make_stdout.py: no {name} in {folder}: run oracle/replay first")
    cases = list(agreements((folder / "agreement.bin").read_bytes())) + list(decisions((folder / "decide.bin").read_bytes()))
    (HERE / "stdin").write_bytes(b"".join(given for given, _ in cases))
    (HERE / "stdout").write_text("".join(line + "\n" for _, line in cases))
    print(f"make_stdout.py: {len(cases)} cases")


main()
