"""The register, and the calls that change it: docs/REFERENCE.md, 'Register' among the layouts, 'Register and board'."""
from __future__ import annotations

import struct
from dataclasses import dataclass, field, replace
from typing import Mapping

from .answers import Answer, operation, require
from .identity import HASH_SIZE, SUMMARY_SIZE, Summary, read_summary
from .record import MAX_ENGINE, RECORD_SIZE, Record, read_record

CREW, ANALYST, MANAGER = DESKS = range(3)
"""Who calls, by number."""

MAX_SUMMARIES = 256
MAX_RECORDS = 96
HELD_SIZE = RECORD_SIZE + 4

_HEAD = struct.Struct("<IHH")
SUMMARIES_AT = _HEAD.size
RECORDS_AT = SUMMARIES_AT + MAX_SUMMARIES * SUMMARY_SIZE
REGISTER_SIZE = RECORDS_AT + MAX_RECORDS * HELD_SIZE


@dataclass(frozen=True)
class Register:
    """What the bytes of a register hold: convicted engines, summaries, and of each record its signers."""

    convicted: int = 0
    summaries: frozenset[Summary] = frozenset()
    signers: Mapping[Record, int] = field(default_factory=dict)

    @property
    def raw(self) -> bytes:
        """The 37,256 bytes."""
        summaries = b"".join(sorted(summary.raw for summary in self.summaries))
        records = b"".join(sorted(record.raw + signers.to_bytes(4, "little") for record, signers in self.signers.items()))
        head = _HEAD.pack(self.convicted, len(self.summaries), len(self.signers))
        return (head + summaries).ljust(RECORDS_AT, b"\0") + records.ljust(MAX_RECORDS * HELD_SIZE, b"\0")

    def is_convicted(self, engine: int) -> bool:
        """Whether the engine is convicted."""
        return bool(self.convicted >> engine & 1)

    def with_report(self, engine: int, record: Record) -> Register:
        """With the engine among the signers of the record."""
        return replace(self, signers={**self.signers, record: self.signers.get(record, 0) | 1 << engine})

    def with_summary(self, summary: Summary) -> Register:
        """With the summary beside those that are held."""
        return replace(self, summaries=self.summaries | {summary})

    def with_conviction(self, engine: int) -> Register:
        """Without all that the engine reported and stated."""
        left = {record: signers & ~(1 << engine) for record, signers in self.signers.items()}
        return Register(
            self.convicted | 1 << engine,
            frozenset(summary for summary in self.summaries if summary.engine != engine),
            {record: signers for record, signers in left.items() if signers},
        )


def read_register(memory: bytes | bytearray) -> Register | None:
    """The register that these bytes are, or none."""
    if len(memory) != REGISTER_SIZE:
        return None
    raw = bytes(memory)
    convicted, summary_count, record_count = _HEAD.unpack_from(raw)
    if summary_count > MAX_SUMMARIES or record_count > MAX_RECORDS:
        return None
    summaries = [read_summary(place) for place in places(raw, SUMMARIES_AT, SUMMARY_SIZE, summary_count)]
    if not all(summary.keeps_limits and not convicted >> summary.engine & 1 for summary in summaries):
        return None
    held: dict[Record, int] = {}
    for place in places(raw, RECORDS_AT, HELD_SIZE, record_count):
        record, signers = read_record(place[:RECORD_SIZE]), int.from_bytes(place[RECORD_SIZE:], "little")
        if record is None or signers == 0 or signers & convicted:
            return None
        held[record] = signers
    register = Register(convicted, frozenset(summaries), held)
    # Written again the places ascend strictly, and all behind the counts is zero.
    return register if register.raw == raw else None


def places(raw: bytes, start: int, size: int, count: int) -> list[bytes]:
    """So many places of this size."""
    return [raw[at:at + size] for at in range(start, start + count * size, size)]


def taken_in(memory: bytes | bytearray) -> Register:
    """Check 1."""
    register = read_register(memory)
    require(register is not None, Answer.MALFORMED_MEMORY)
    assert register is not None
    return register


def checked_record(raw: bytes) -> Record:
    """Check 3."""
    record = read_record(bytes(raw))
    require(record is not None, Answer.MALFORMED_RECORD)
    assert record is not None
    return record


def checked_summary(engine: int, model: int, spec: int, inputs: bytes) -> Summary:
    """Checks 2 and 9."""
    require(engine <= MAX_ENGINE, Answer.ENGINE_OVER_31)
    summary = Summary(engine, model, spec, bytes(inputs))
    require(summary.keeps_limits and len(inputs) == HASH_SIZE, Answer.BAD_SUMMARY)
    return summary


@operation
def report(memory: bytearray, engine: int, raw: bytes) -> int:
    """Report to a register: checks 1, 2, 3, 4, 5."""
    register = taken_in(memory)
    require(engine <= MAX_ENGINE, Answer.ENGINE_OVER_31)
    record = checked_record(raw)
    require(not register.is_convicted(engine), Answer.ENGINE_CONVICTED)
    require(record in register.signers or len(register.signers) < MAX_RECORDS, Answer.FULL)
    memory[:] = register.with_report(engine, record).raw
    return Answer.OK


@operation
def summary(memory: bytearray, engine: int, model: int, spec: int, inputs: bytes) -> int:
    """Summary to a register: checks 1, 2, 9, 4, 5."""
    register = taken_in(memory)
    stated = checked_summary(engine, model, spec, inputs)
    require(not register.is_convicted(engine), Answer.ENGINE_CONVICTED)
    require(stated in register.summaries or len(register.summaries) < MAX_SUMMARIES, Answer.FULL)
    memory[:] = register.with_summary(stated).raw
    return Answer.OK


@operation
def conviction(desk: int, memory: bytearray, engine: int) -> int:
    """Conviction in a register: checks 15, 16, 1, 2."""
    require(desk in DESKS, Answer.UNKNOWN_DESK)
    require(desk == MANAGER, Answer.NO_RIGHT)
    register = taken_in(memory)
    require(engine <= MAX_ENGINE, Answer.ENGINE_OVER_31)
    memory[:] = register.with_conviction(engine).raw
    return Answer.OK
