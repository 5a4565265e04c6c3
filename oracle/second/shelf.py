"""The shelf beside a track, and the operations on both: docs/REFERENCE.md, 'Shelf' among the layouts, 'Operations', 'Track and listing'."""
from __future__ import annotations

import struct
from dataclasses import dataclass, replace

from .answers import Answer, Refused, operation, require
from .identity import Models
from .record import MAX_ENGINE, RECORD_SIZE, Record, read_record
from .register import checked_record, checked_summary, places
from .track import MAX_PAIRS, Track, pair_of, read_track

MAX_WAITING = 64

_WAITING = struct.Struct(f"<BB{RECORD_SIZE}s")
PLACES_AT = 1
SHELF_SIZE = PLACES_AT + MAX_WAITING * _WAITING.size


@dataclass(frozen=True)
class Waiting:
    """A fix that waits: the model for which it waits, the engine that reported it, and its record."""

    model: int
    engine: int
    record: Record

    @property
    def raw(self) -> bytes:
        """The 290 bytes."""
        return _WAITING.pack(self.model, self.engine, self.record.raw)


Shelf = tuple[Waiting, ...]


def shelf_bytes(shelf: Shelf) -> bytes:
    """The 18,561 bytes."""
    return (bytes([len(shelf)]) + b"".join(waiting.raw for waiting in shelf)).ljust(SHELF_SIZE, b"\0")


def read_shelf(memory: bytes | bytearray, track: Track) -> Shelf | None:
    """The shelf that these bytes are beside a track, or none."""
    raw = bytes(memory)
    if len(raw) != SHELF_SIZE or raw[0] > MAX_WAITING:
        return None
    shelf: list[Waiting] = []
    for place in places(raw, PLACES_AT, _WAITING.size, raw[0]):
        model, engine, record_raw = _WAITING.unpack(place)
        record = read_record(record_raw)
        if record is None or engine > MAX_ENGINE or track.is_convicted(engine):
            return None
        if model not in record.models or not track.models.is_without_summary(model):
            return None
        shelf.append(Waiting(model, engine, record))
    # Written again all bytes that are not used are zero.
    return tuple(shelf) if shelf_bytes(tuple(shelf)) == raw else None


@dataclass(frozen=True)
class Both:
    """A track and its shelf."""

    track: Track
    shelf: Shelf

    def with_report(self, engine: int, record: Record) -> tuple[Both, Answer]:
        """With a fix of an engine that is not convicted: it waits, or it is merged; a refusal is 13 or 7."""
        model = first_missing(self.track.models, record)
        if model is not None:
            require(len(self.shelf) < MAX_WAITING, Answer.SHELF_FULL)
            return replace(self, shelf=(*self.shelf, Waiting(model, engine, record))), Answer.WAITING
        require(self.track.models.is_eligible(record), Answer.MODEL_DISPUTED)
        track, answer = self.track.with_report(engine, record)
        return replace(self, track=track), answer

    def with_arrival(self, model: int) -> Both:
        """With the fixes that wait for the model taken out, and each tried as if it were reported now."""
        both = replace(self, shelf=tuple(waiting for waiting in self.shelf if waiting.model != model))
        for waiting in self.shelf:
            if waiting.model == model:
                both = both.with_trial(waiting)
        return both

    def with_trial(self, waiting: Waiting) -> Both:
        """With a fix that is tried; what would be refused is gone."""
        try:
            return self.with_report(waiting.engine, waiting.record)[0]
        except Refused:
            return self

    def without_engine(self, engine: int) -> Both:
        """Without all that an engine reported and stated."""
        return Both(self.track.with_conviction(engine), tuple(waiting for waiting in self.shelf if waiting.engine != engine))


def first_missing(models: Models, record: Record) -> int | None:
    """The first model without a summary, in the order of the record."""
    return next((model for model in record.models if models.is_without_summary(model)), None)


def taken_in(memory: bytes | bytearray, shelf: bytes | bytearray) -> Both:
    """Check 1."""
    track = read_track(memory)
    waiting = None if track is None else read_shelf(shelf, track)
    require(waiting is not None, Answer.MALFORMED_MEMORY)
    assert track is not None and waiting is not None
    return Both(track, waiting)


def put_back(memory: bytearray, shelf: bytearray, both: Both) -> None:
    """Writes both."""
    memory[:], shelf[:] = both.track.raw, shelf_bytes(both.shelf)


@operation
def report(memory: bytearray, shelf: bytearray, engine: int, raw: bytes) -> int:
    """Report to a track: checks 1, 2, 3, 4, 13, 7."""
    both = taken_in(memory, shelf)
    require(engine <= MAX_ENGINE, Answer.ENGINE_OVER_31)
    record = checked_record(raw)
    require(not both.track.is_convicted(engine), Answer.ENGINE_CONVICTED)
    both, answer = both.with_report(engine, record)
    put_back(memory, shelf, both)
    return answer


@operation
def summary(memory: bytearray, shelf: bytearray, engine: int, model: int, spec: int, inputs: bytes) -> int:
    """Summary to a track: checks 1, 2, 9, 4, 5."""
    both = taken_in(memory, shelf)
    stated = checked_summary(engine, model, spec, inputs)
    require(not both.track.is_convicted(engine), Answer.ENGINE_CONVICTED)
    held = {pair_of(summary) for summary in both.track.summaries}
    require(pair_of(stated) in held or len(held) < MAX_PAIRS, Answer.FULL)
    put_back(memory, shelf, replace(both, track=both.track.with_summary(stated)).with_arrival(model))
    return Answer.OK


@operation
def conviction(memory: bytearray, shelf: bytearray, engine: int) -> int:
    """Conviction in a track: checks 1, 2."""
    both = taken_in(memory, shelf)
    require(engine <= MAX_ENGINE, Answer.ENGINE_OVER_31)
    put_back(memory, shelf, both.without_engine(engine))
    return Answer.OK
