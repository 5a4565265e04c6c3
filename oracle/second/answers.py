"""The numbers with which operations answer, and how a call is refused: docs/REFERENCE.md, 'Operations' and 'Answers'."""
from __future__ import annotations

from enum import IntEnum
from functools import wraps
from typing import Callable

TEXT_ROOM = 16_384
"""The bytes that the output of a text must have."""


class Answer(IntEnum):
    """What a call returns, where it does not return the length of a text."""

    OK = 0
    MALFORMED_MEMORY = 1
    ENGINE_OVER_31 = 2
    MALFORMED_RECORD = 3
    ENGINE_CONVICTED = 4
    FULL = 5
    MODEL_DISPUTED = 7
    BAD_ITEMS = 8
    BAD_SUMMARY = 9
    OUTPUT_TOO_SMALL = 10
    BAD_LINE = 11
    SESSION_TOO_LONG = 12
    SHELF_FULL = 13
    UNKNOWN_DESK = 15
    NO_RIGHT = 16
    CHANGED = 20
    CONTESTED = 21
    DUPLICATE = 22
    DROPPED = 23
    WAITING = 24


class Refused(Exception):
    """A check of an operation applies: the call changes no byte, and returns this answer."""

    def __init__(self, answer: Answer) -> None:
        super().__init__(answer)
        self.answer = answer


def require(holds: bool, answer: Answer) -> None:
    """One check of an operation: refuses with `answer` unless it holds."""
    if not holds:
        raise Refused(answer)


def operation(call: Callable[..., int]) -> Callable[..., int]:
    """An operation on memory that is passed: a refusal becomes its answer."""

    @wraps(call)
    def answered(*arguments: object) -> int:
        try:
            return int(call(*arguments))
        except Refused as refused:
            return int(refused.answer)

    return answered


def write_text(text: str, out: bytearray) -> int:
    """Writes a text to the start of an output, and returns its length; the bytes past it stay as found."""
    require(len(out) >= TEXT_ROOM, Answer.OUTPUT_TOO_SMALL)
    written = text.encode("ascii")
    out[:len(written)] = written
    return len(written)
