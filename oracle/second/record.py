"""The record, and what links it to others: docs/REFERENCE.md, 'Words', 'Record' among the layouts, 'Agreement and decision'."""
from __future__ import annotations

import struct
from dataclasses import dataclass, field
from functools import cached_property, lru_cache

from .agreement import Claim

RECORD_SIZE = 288
MAX_TAGS = 24
MAX_CITED = 4
MAX_MODEL = 63
MAX_ENGINE = 31
MESSAGE_LENGTHS = (7, 14)

_LAYOUT = struct.Struct(f"<QiiBiB14sBI{MAX_TAGS}QB4BH48s")
_COVARIANCE = struct.Struct("<6d")


@dataclass(frozen=True)
class Record:
    """The fields of 288 well-formed bytes."""

    raw: bytes = field(repr=False)
    time: int
    lat: int
    lon: int
    height: int | None
    message: bytes
    used: int
    tags: tuple[int, ...]
    models: tuple[int, ...]
    spec: int
    covariance: bytes

    @property
    def weight(self) -> int:
        """The number of used tags."""
        return self.used.bit_count()

    @cached_property
    def tag_set(self) -> frozenset[int]:
        """The tags, used or not."""
        return frozenset(self.tags)

    @cached_property
    def claim(self) -> Claim:
        """What the record states of its place."""
        return Claim(self.lat, self.lon, self.height, _COVARIANCE.unpack(self.covariance))

    def shares_a_tag(self, other: Record) -> bool:
        """Whether both have the same message and a common tag."""
        return self.message == other.message and not self.tag_set.isdisjoint(other.tag_set)

    def is_subset_of(self, other: Record) -> bool:
        """Whether the other has the same message, all these tags, and more."""
        return self.message == other.message and self.tag_set < other.tag_set


def _filled(numbers: tuple[int, ...], places: int) -> tuple[int, ...]:
    """The numbers, and zeros behind them."""
    return numbers + (0,) * (places - len(numbers))


def record_bytes(
    *, time: int, lat: int, lon: int, height: int | None, message: bytes, used: int, tags: tuple[int, ...], models: tuple[int, ...],
    spec: int, covariance: bytes
) -> bytes:
    """The 288 bytes with these fields, which need not keep the limits of a record."""
    return _LAYOUT.pack(
        time, lat, lon, height is not None, height or 0, len(message), message, len(tags), used, *_filled(tags, MAX_TAGS),
        len(models), *_filled(models, MAX_CITED), spec, covariance
    )


@lru_cache(maxsize=1 << 16)
def read_record(raw: bytes) -> Record | None:
    """The record that these bytes are, or none where they are malformed."""
    if len(raw) != RECORD_SIZE:
        return None
    time, lat, lon, has_height, height, message_length, message, tag_count, used, *rest = _LAYOUT.unpack(raw)
    tags, (model_count, *models), (spec, covariance) = rest[:MAX_TAGS], rest[MAX_TAGS : MAX_TAGS + 5], rest[MAX_TAGS + 5 :]
    if message_length not in MESSAGE_LENGTHS or not 1 <= tag_count <= MAX_TAGS or model_count > MAX_CITED:
        return None
    record = Record(
        raw, time, lat, lon, height if has_height else None, message[:message_length], used, tuple(tags[:tag_count]),
        tuple(models[:model_count]), spec, covariance
    )
    well_formed = (
        used >> tag_count == 0
        and all(before < after for before, after in zip(record.tags, record.tags[1:]))
        and all(model <= MAX_MODEL for model in record.models)
        and _bytes_of(record) == raw
    )
    return record if well_formed else None


def _bytes_of(record: Record) -> bytes:
    """The fields as bytes again: other than what was read where the height flag is over 1 or an unused byte is not zero."""
    return record_bytes(
        time=record.time, lat=record.lat, lon=record.lon, height=record.height, message=record.message, used=record.used,
        tags=record.tags, models=record.models, spec=record.spec, covariance=record.covariance
    )
