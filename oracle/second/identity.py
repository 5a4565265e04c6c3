"""Summaries, models and identity: docs/REFERENCE.md, 'Summary' among the layouts, 'Models and identity'."""
from __future__ import annotations

import struct
from collections import defaultdict
from dataclasses import dataclass
from enum import Enum
from hashlib import blake2s
from typing import Iterable

from .record import MAX_ENGINE, MAX_MODEL, Record

SUMMARY_SIZE = 36
HASH_SIZE = 32

_LAYOUT = struct.Struct("<BBH32s")
_TAG = struct.Struct("<Q")


@dataclass(frozen=True)
class Summary:
    """What an engine states about a model."""

    engine: int
    model: int
    spec: int
    inputs: bytes

    @property
    def raw(self) -> bytes:
        """The 36 bytes."""
        return _LAYOUT.pack(self.engine, self.model, self.spec, self.inputs)

    @property
    def keeps_limits(self) -> bool:
        """Whether engine and model are among those that there are."""
        return self.engine <= MAX_ENGINE and self.model <= MAX_MODEL


def read_summary(raw: bytes) -> Summary:
    """The summary in 36 bytes, whether or not it keeps its limits."""
    return Summary(*_LAYOUT.unpack(raw))


class State(Enum):
    """What the summaries of a model come to."""

    MISSING = "no summary"
    AGREED = "one spec and one inputs"
    DISPUTED = "several"


class Models:
    """What a set of summaries says of every model."""

    def __init__(self, summaries: Iterable[Summary]) -> None:
        self._stated: defaultdict[int, set[tuple[int, bytes]]] = defaultdict(set)
        for summary in summaries:
            self._stated[summary.model].add((summary.spec, summary.inputs))

    def state(self, model: int) -> State:
        """Whether the model is missing, agreed or disputed."""
        match len(self._stated[model]):
            case 0:
                return State.MISSING
            case 1:
                return State.AGREED
            case _:
                return State.DISPUTED

    def is_without_summary(self, model: int) -> bool:
        """Whether the model is missing."""
        return self.state(model) is State.MISSING

    def is_eligible(self, record: Record) -> bool:
        """Whether each model that the record cites is agreed and of the record's spec."""
        return all(self.state(model) is State.AGREED and self._agreed(model)[0] == record.spec for model in record.models)

    def inputs_of(self, record: Record) -> bytes:
        """The model inputs of an eligible record."""
        return cited_inputs(self._agreed(model)[1] for model in record.models)

    def _agreed(self, model: int) -> tuple[int, bytes]:
        """The one spec and the one inputs of an agreed model."""
        (stated,) = self._stated[model]
        return stated


def cited_inputs(inputs: Iterable[bytes]) -> bytes:
    """The hash of the inputs of the cited models, in the order of the record."""
    return blake2s(b"tally pair model cited inputs\0" + b"".join(inputs)).digest()


def set_hash(record: Record) -> bytes:
    """The hash of the message and the tags."""
    message = bytes([len(record.message)]) + record.message
    tags = bytes([len(record.tags)]) + b"".join(_TAG.pack(tag) for tag in record.tags)
    return blake2s(message + tags).digest()


def identity(record: Record, inputs: bytes) -> bytes:
    """The identity of a record under these model inputs."""
    return blake2s(b"tally merge input set\0" + set_hash(record) + inputs).digest()
