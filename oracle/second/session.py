"""The program `session`: docs/REFERENCE.md, 'Session'."""
from __future__ import annotations

import re
from dataclasses import dataclass
from typing import Callable, Iterator, Mapping

from . import board, register
from .answers import TEXT_ROOM, Answer
from .record import record_bytes

MOST_BYTES = 65_536
NO_TRANSMISSIONS = "transmissions=0\n"

Value = object
Parser = Callable[[str], Value]
Operation = Mapping[str, Value]


class BadLine(Exception):
    """The first line that is bad, counted from 1, and the key that is due there."""

    def __init__(self, number: int, key: str) -> None:
        super().__init__(number, key)
        self.number = number
        self.key = key


class BadValue(Exception):
    """A value that is not of its form."""


_UNSIGNED = re.compile(r"0|[1-9][0-9]*", re.ASCII)
_SIGNED = re.compile(r"0|-?[1-9][0-9]*", re.ASCII)
_HEX = re.compile(r"[0-9a-f]*", re.ASCII)


def unsigned(most: int) -> Parser:
    """A decimal number up to this one."""

    def parse(value: str) -> int:
        if not _UNSIGNED.fullmatch(value) or len(value) > len(str(most)) or int(value) > most:
            raise BadValue
        return int(value)

    return parse


def signed(value: str) -> int:
    """A decimal number from -2^31 to 2^31 - 1."""
    if not _SIGNED.fullmatch(value) or len(value) > len(str(-2**31)) or not -2**31 <= int(value) < 2**31:
        raise BadValue
    return int(value)


def signed_or_none(value: str) -> int | None:
    """A height."""
    return None if value == "none" else signed(value)


def several(most: int, parse: Parser) -> Parser:
    """From one to so many values, with commas between."""

    def parse_all(value: str) -> tuple[Value, ...]:
        parts = value.split(",")
        if len(parts) > most:
            raise BadValue
        return tuple(parse(part) for part in parts)

    return parse_all


def several_or_none(most: int, parse: Parser) -> Parser:
    """From one to so many values, or `none`."""
    parse_all = several(most, parse)
    return lambda value: () if value == "none" else parse_all(value)


def hexadecimal(*lengths: int) -> Parser:
    """So many bytes, each as two lowercase digits."""

    def parse(value: str) -> bytes:
        if not _HEX.fullmatch(value) or len(value) not in [2 * length for length in lengths]:
            raise BadValue
        return bytes.fromhex(value)

    return parse


def covariance(value: str) -> bytes:
    """Six f64, each with its highest digit first, as a record has them."""
    digits = hexadecimal(48)(value)
    return b"".join(digits[at:at + 8][::-1] for at in range(0, 48, 8))


BYTE, HALF, WORD, LONG = (unsigned(2**bits - 1) for bits in (8, 16, 32, 64))

OPERATIONS: Mapping[str, Mapping[str, Parser]] = {
    "summary": {"engine": BYTE, "model": BYTE, "spec": HALF, "inputs": hexadecimal(32)},
    "convict": {"engine": BYTE},
    "report": {
        "engine": BYTE, "time": LONG, "lat": signed, "lon": signed, "height": signed_or_none, "message": hexadecimal(7, 14),
        "tags": several(24, LONG), "used": WORD, "models": several_or_none(4, BYTE), "spec": HALF, "cov": covariance
    },
}


class _Lines:
    """The lines of an input, one after another."""

    def __init__(self, data: bytes) -> None:
        # Latin-1 gives each byte a character of its own, and none beyond ASCII is of any form.
        *self._whole, self._rest = data.decode("latin-1").split("\n")
        self.number = 0

    @property
    def at_end(self) -> bool:
        """Whether no byte is left."""
        return self.number == len(self._whole) and not self._rest

    def value_of(self, key: str, parse: Parser) -> Value:
        """The value of the next line, on which this key is due."""
        self.number += 1
        if self.number > len(self._whole):
            raise BadLine(self.number, key)
        found, equals, value = self._whole[self.number - 1].partition("=")
        if found != key or not equals:
            raise BadLine(self.number, key)
        try:
            return parse(value)
        except BadValue:
            raise BadLine(self.number, key) from None


def _operation_named(value: str) -> str:
    if value not in OPERATIONS:
        raise BadValue
    return value


def operations_of(data: bytes) -> Iterator[Operation]:
    """The operations of an input."""
    lines = _Lines(data)
    while not lines.at_end:
        name = str(lines.value_of("op", _operation_named))
        yield {"op": name, **{key: lines.value_of(key, parse) for key, parse in OPERATIONS[name].items()}}


def call(memory: bytearray, operation: Operation) -> int:
    """Makes the call of an operation on a register."""
    values = dict(operation)
    name, engine = values.pop("op"), values.pop("engine")
    match name:
        case "summary":
            return register.summary(memory, engine, values["model"], values["spec"], values["inputs"])
        case "convict":
            return register.conviction(register.MANAGER, memory, engine)
        case _:
            values["covariance"] = values.pop("cov")
            return register.report(memory, engine, record_bytes(**values))


DECIMAL = "without leading zeros"
DUE_VALUES: Mapping[str, str] = {
    "op": "summary, convict or report",
    "engine": f"a decimal number from 0 to 255 {DECIMAL}",
    "model": f"a decimal number from 0 to 255 {DECIMAL}",
    "spec": f"a decimal number from 0 to 65535 {DECIMAL}",
    "used": f"a decimal number from 0 to 4294967295 {DECIMAL}",
    "inputs": "64 lowercase hex digits",
    "time": f"a decimal number from 0 to 18446744073709551615 {DECIMAL}",
    "lat": f"a decimal number from -2147483648 to 2147483647 {DECIMAL}",
    "lon": f"a decimal number from -2147483648 to 2147483647 {DECIMAL}",
    "height": f"the word none, or a decimal number from -2147483648 to 2147483647 {DECIMAL}",
    "message": "14 or 28 lowercase hex digits",
    "tags": f"1 to 24 decimal numbers from 0 to 18446744073709551615 {DECIMAL}, with commas between",
    "models": f"the word none, or 1 to 4 decimal numbers from 0 to 255 {DECIMAL}, with commas between",
    "cov": "96 lowercase hex digits, 16 for each of six numbers",
}

REASONS: Mapping[int, str] = {
    Answer.ENGINE_OVER_31: "TL_ENGINE_OVER_31: there is no engine with a number over 31",
    Answer.MALFORMED_RECORD: "TL_MALFORMED_RECORD: what is reported is no well-formed record",
    Answer.ENGINE_CONVICTED: "TL_ENGINE_CONVICTED: the engine is convicted",
    Answer.FULL: "TL_FULL: it is not held yet, and the register is full",
    Answer.BAD_SUMMARY: "TL_BAD_SUMMARY: there is no model with a number over 63",
}

MOST_SHOWN = 60


@dataclass(frozen=True)
class Run:
    """What the program writes, and whether it refuses the input or some operation is not answered 0."""

    output: str
    error: str
    is_refused: bool
    is_unanswered: bool

    def status(self, is_strict: bool) -> int:
        """The exit status."""
        if self.is_refused:
            return 1
        return 4 if is_strict and self.is_unanswered else 0


def found_at(data: bytes, number: int) -> str:
    """What stands where this line is due, counted from 1."""
    behind = data.split(b"\n", number - 1)
    rest = behind[number - 1] if len(behind) == number else b""
    if not rest:
        return "the end of the input"
    line, feed, _ = rest.partition(b"\n")
    shown = "".join(chr(byte) if 32 <= byte <= 126 else f"\\x{byte:02x}" for byte in line[:MOST_SHOWN])
    quoted = f"'{shown}'" + (".." if len(line) > MOST_SHOWN else "")
    if not feed:
        return quoted + " and the end of the input, without a line feed"
    return quoted + (", with a carriage return before the line feed" if line.endswith(b"\r") else "")


def run(data: bytes) -> Run:
    """The program on this input."""
    if len(data) > MOST_BYTES:
        return Run(f"refused={Answer.SESSION_TOO_LONG}\n", f"the input has more than {MOST_BYTES} bytes\n", True, False)
    try:
        operations = list(operations_of(data))
    except BadLine as bad:
        due = f"{bad.key}= is due, then {DUE_VALUES[bad.key]}, then a line feed"
        return Run(
            f"refused={Answer.BAD_LINE} line={bad.number}\n", f"line {bad.number}: {due}; found {found_at(data, bad.number)}\n", True, False
        )
    memory = bytearray(register.REGISTER_SIZE)
    answers, notices, line = "", "", 1
    for number, operation in enumerate(operations, start=1):
        answer = call(memory, operation)
        answers += f"answer={answer}\n"
        if answer:
            notices += f"operation {number}, line {line}: answer={answer}, {REASONS[answer]}\n"
        line += len(operation)
    out = bytearray(TEXT_ROOM)
    text = out[:board.board(register.MANAGER, memory, out)].decode("ascii")
    return Run(answers + (text or NO_TRANSMISSIONS), notices, False, bool(notices))


def output_of(data: bytes) -> str:
    """What the program prints of this input."""
    return run(data).output
