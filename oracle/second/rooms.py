"""Two rooms: docs/REFERENCE.md, 'Join' and 'Two rooms'."""
from __future__ import annotations

from dataclasses import dataclass
from itertools import zip_longest

from . import board
from .answers import TEXT_ROOM, Answer, Refused, require
from .record import MAX_ENGINE, Record
from .register import MANAGER, MAX_RECORDS, MAX_SUMMARIES, REGISTER_SIZE, Register, read_register
from .session import MOST_BYTES, BadLine, call, operations_of

CONVICTED_SIZE = 4


def engines_of(mask: int) -> list[int]:
    """The engines of a set, ascending."""
    return [engine for engine in range(MAX_ENGINE + 1) if mask >> engine & 1]


def without(register: Register, engines: int) -> Register:
    """Once the engines of a set are convicted."""
    for engine in engines_of(engines):
        register = register.with_conviction(engine)
    return register


def join(register: Register, other: Register) -> Register:
    """What both hold."""
    records = register.signers.keys() | other.signers.keys()
    signers = {record: register.signers.get(record, 0) | other.signers.get(record, 0) for record in records}
    joined = without(Register(0, register.summaries | other.summaries, signers), register.convicted | other.convicted)
    require(len(joined.signers) <= MAX_RECORDS and len(joined.summaries) <= MAX_SUMMARIES, Answer.FULL)
    return joined


def lacks(register: Register, other: Register) -> Register:
    """What the other holds and this one does not; nothing of an engine that this one has convicted."""
    free = without(other, register.convicted)
    signers = {record: mask & ~register.signers.get(record, 0) for record, mask in free.signers.items()}
    return Register(other.convicted & ~register.convicted, free.summaries - register.summaries, {record: mask for record, mask in signers.items() if mask})


def lacking_lines(room: str, lacking: Register) -> list[str]:
    """A line for each conviction, summary and report."""
    lines = [f"room={room} lacks=conviction engine={engine}\n" for engine in engines_of(lacking.convicted)]
    for summary in sorted(lacking.summaries, key=lambda summary: summary.raw):
        said = f"engine={summary.engine} model={summary.model} spec={summary.spec} inputs={summary.inputs.hex()}"
        lines.append(f"room={room} lacks=summary {said}\n")
    for record in sorted(lacking.signers, key=lambda record: record.raw):
        where = f"time={record.time} lat={record.lat} lon={record.lon}"
        lines += [f"room={room} lacks=report engine={engine} {where}\n" for engine in engines_of(lacking.signers[record])]
    return lines


def board_of(memory: bytes) -> str:
    """A manager's board."""
    out = bytearray(TEXT_ROOM)
    return out[:board.board(MANAGER, bytearray(memory), out)].decode("ascii")


def board_lines(first: str, second: str) -> list[str]:
    """Whether two boards are equal, and the lines in which they differ."""
    if first == second:
        return ["boards=equal\n"]
    lines = ["boards=different\n"]
    for number, pair in enumerate(zip_longest(first.splitlines(), second.splitlines()), start=1):
        if pair[0] != pair[1]:
            lines += [f"board={room} line={number} {line}\n" for room, line in zip("AB", pair) if line is not None]
    return lines


@dataclass(frozen=True)
class Compared:
    """What is printed of two rooms, the exit status, and the joined register, unless it is refused as full."""

    output: str
    status: int
    joined: bytes | None


def compare(first: Register, second: Register) -> Compared:
    """Two registers."""
    alike = first.raw[CONVICTED_SIZE:] == second.raw[CONVICTED_SIZE:]
    lines = lacking_lines("A", lacks(first, second)) + lacking_lines("B", lacks(second, first))
    lines += ["registers=equal\n" if alike else "registers=different\n"] + board_lines(board_of(first.raw), board_of(second.raw))
    try:
        joined = join(first, second).raw
    except Refused:
        joined = None
    return Compared("".join(lines), 0 if alike else 1, joined)


def room_of(data: bytes) -> Register | None:
    """The register of a file: a saved one by its length, else that of a session; or none, where it is refused."""
    if len(data) == REGISTER_SIZE:
        return read_register(data)
    if len(data) > MOST_BYTES:
        return None
    memory = bytearray(REGISTER_SIZE)
    try:
        for operation in list(operations_of(data)):
            call(memory, operation)
    except BadLine:
        return None
    return read_register(memory)
