"""The track and its listing: docs/REFERENCE.md, 'Track' among the layouts, 'Track and listing'. The other operations are in shelf.py."""
from __future__ import annotations

import struct
from dataclasses import dataclass, replace
from functools import cached_property
from typing import Callable, Iterable, Sequence

from .answers import Answer, operation, require, write_text
from .board import NO_CHI_SQUARE, bits_of, header, line
from .decision import Item, decide
from .identity import HASH_SIZE, SUMMARY_SIZE, Models, State, Summary, identity, read_summary
from .record import RECORD_SIZE, Record, read_record
from .register import places

MAX_PAIRS = 256
MAX_TRANSMISSIONS = 8
MAX_STANDING = 5
MAX_REFUSED = 4

INFINITY = 0x7FF0000000000000
MINUS_INFINITY = 0xFFF0000000000000
NAN = 0x7FF8000000000000

_HEAD = struct.Struct("<IHBBQ")
_FIX = struct.Struct(f"<{RECORD_SIZE}sI{HASH_SIZE}s")
_REFUSED = struct.Struct(f"<{_FIX.size}s{HASH_SIZE}sQ")
_COUNTS = struct.Struct("<BB")

SUMMARIES_AT = _HEAD.size
TRANSMISSIONS_AT = SUMMARIES_AT + MAX_PAIRS * SUMMARY_SIZE
REFUSED_AT = _COUNTS.size + MAX_STANDING * _FIX.size
TRANSMISSION_SIZE = REFUSED_AT + MAX_REFUSED * _REFUSED.size
TRACK_SIZE = TRANSMISSIONS_AT + MAX_TRANSMISSIONS * TRANSMISSION_SIZE

Pair = tuple[int, int]


@dataclass(frozen=True)
class Fix:
    """A held fix: a record, its signers, and the model inputs under which it was checked."""

    record: Record
    signers: int
    inputs: bytes

    @cached_property
    def identity(self) -> bytes:
        """The identity under the inputs that are kept."""
        return identity(self.record, self.inputs)

    @property
    def raw(self) -> bytes:
        """The 324 bytes."""
        return _FIX.pack(self.record.raw, self.signers, self.inputs)

    def without_signer(self, engine: int) -> Fix:
        """Without the engine's signature."""
        return replace(self, signers=self.signers & ~(1 << engine))


@dataclass(frozen=True)
class RefusedFix:
    """A refused fix, the identity against which it is refused, and the bits of the chi-square."""

    fix: Fix
    against: bytes
    chi_square: int

    @property
    def raw(self) -> bytes:
        """The 364 bytes."""
        return _REFUSED.pack(self.fix.raw, self.against, self.chi_square)


@dataclass(frozen=True)
class Transmission:
    """The fixes that stand, in rank, and the refused."""

    standing: tuple[Fix, ...]
    refused: tuple[RefusedFix, ...] = ()

    @property
    def held(self) -> tuple[Fix, ...]:
        """The held fixes: those that stand and then the refused."""
        return self.standing + tuple(refused.fix for refused in self.refused)

    @property
    def age(self) -> tuple[int, bytes]:
        """Ascending from the oldest: the time and then the identity of the first fix."""
        return self.standing[0].record.time, self.standing[0].identity

    @property
    def raw(self) -> bytes:
        """The 3,078 bytes."""
        counts = _COUNTS.pack(len(self.standing), len(self.refused))
        standing = b"".join(fix.raw for fix in self.standing)
        refused = b"".join(fix.raw for fix in self.refused)
        return (counts + standing).ljust(REFUSED_AT, b"\0") + refused.ljust(MAX_REFUSED * _REFUSED.size, b"\0")

    def is_tied_to(self, record: Record) -> bool:
        """Whether some held fix has the message and a tag of the record."""
        return any(fix.record.shares_a_tag(record) for fix in self.held)

    def with_signer(self, name: bytes, engine: int) -> Transmission:
        """With the engine among the signers of the first held fix of this identity."""
        at = next(index for index, fix in enumerate(self.held) if fix.identity == name)
        signed = replace(self.held[at], signers=self.held[at].signers | 1 << engine)
        if at < len(self.standing):
            return replace(self, standing=_replaced(self.standing, at, signed))
        at -= len(self.standing)
        return replace(self, refused=_replaced(self.refused, at, replace(self.refused[at], fix=signed)))

    def with_fix(self, fix: Fix) -> Transmission:
        """Decided again with a new fix: those that stand, the new one, the refused."""
        return decided_again([*self.standing, fix, *(refused.fix for refused in self.refused)])

    def without_signer(self, engine: int) -> Transmission:
        """Without the engine's signatures, which may leave fixes without a signer."""
        standing = tuple(fix.without_signer(engine) for fix in self.standing)
        return Transmission(standing, tuple(replace(refused, fix=refused.fix.without_signer(engine)) for refused in self.refused))

    def text(self, number: int) -> str:
        """The header and the lines of a listing."""
        lines = [header(number, len(self.standing), 0, len(self.refused))]
        lines += [line("ranked", fix.record, fix.signers) for fix in self.standing]
        lines += [line("refused", kept.fix.record, kept.fix.signers, chi_square_text(kept.chi_square)) for kept in self.refused]
        return "".join(lines)


@dataclass(frozen=True)
class Track:
    """What the bytes of a track hold."""

    convicted: int = 0
    summaries: tuple[Summary, ...] = ()
    transmissions: tuple[Transmission, ...] = ()
    contested: int = 0

    @property
    def raw(self) -> bytes:
        """The 33,856 bytes."""
        head = _HEAD.pack(self.convicted, len(self.summaries), len(self.transmissions), 0, self.contested)
        summaries = b"".join(summary.raw for summary in self.summaries)
        transmissions = b"".join(transmission.raw for transmission in self.transmissions)
        return (head + summaries).ljust(TRANSMISSIONS_AT, b"\0") + transmissions.ljust(MAX_TRANSMISSIONS * TRANSMISSION_SIZE, b"\0")

    @property
    def models(self) -> Models:
        """What the summaries say."""
        return Models(self.summaries)

    @property
    def text(self) -> str:
        """The listing."""
        return f"contested={self.contested}\n" + "".join(
            transmission.text(number) for number, transmission in enumerate(self.transmissions, start=1)
        )

    def is_convicted(self, engine: int) -> bool:
        """Whether the engine is convicted."""
        return bool(self.convicted >> engine & 1)

    def with_report(self, engine: int, record: Record) -> tuple[Track, Answer]:
        """With the report of an eligible record, and the answer."""
        new = Fix(record, 1 << engine, self.models.inputs_of(record))
        tied = [at for at, transmission in enumerate(self.transmissions) if transmission.is_tied_to(record)]
        if len(tied) != 1:
            return self._opened(new)
        if new.identity in identities(self.transmissions[tied[0]].held):
            signed = self.transmissions[tied[0]].with_signer(new.identity, engine)
            return replace(self, transmissions=_replaced(self.transmissions, tied[0], signed)), Answer.DUPLICATE
        return self._joined(tied[0], new)

    def _opened(self, new: Fix) -> tuple[Track, Answer]:
        """With a transmission of its own for the new fix."""
        track = replace(self, transmissions=arranged((*self.transmissions, Transmission((new,)))))
        first = any(transmission.standing[0].identity == new.identity for transmission in track.transmissions)
        return track, Answer.CHANGED if first else Answer.DROPPED

    def _joined(self, at: int, new: Fix) -> tuple[Track, Answer]:
        """With the new fix in the transmission at this place."""
        before = self.transmissions[at]
        after = before.with_fix(new)
        refused_before = identities(refused.fix for refused in before.refused)
        refused_now = identities(refused.fix for refused in after.refused)
        if new.identity in refused_now:
            answer = Answer.CONTESTED
        elif new.identity in identities(after.standing) or after.standing[0].identity != before.standing[0].identity:
            answer = Answer.CHANGED
        else:
            answer = Answer.DROPPED
        track = Track(
            self.convicted, self.summaries, arranged(_replaced(self.transmissions, at, after)),
            (self.contested + len(refused_now - refused_before)) % 2**64,
        )
        return track, answer

    def with_summary(self, stated: Summary) -> Track:
        """With the summary in the place of what its engine stated about its model before."""
        others = [summary for summary in self.summaries if pair_of(summary) != pair_of(stated)]
        track = replace(self, summaries=tuple(sorted([*others, stated], key=pair_of)))
        newly_disputed = track.models.state(stated.model) is State.DISPUTED and self.models.state(stated.model) is not State.DISPUTED
        return track.checked_again() if newly_disputed else track

    def without_engine(self, engine: int) -> Track:
        """Without the engine's summaries and signatures."""
        return replace(
            self, convicted=self.convicted | 1 << engine,
            summaries=tuple(summary for summary in self.summaries if summary.engine != engine),
            transmissions=tuple(transmission.without_signer(engine) for transmission in self.transmissions),
        )

    def with_conviction(self, engine: int) -> Track:
        """Without all that the engine reported and stated."""
        return self.without_engine(engine).without(lambda fix: fix.signers == 0).checked_again()

    def checked_again(self) -> Track:
        """Without the fixes that fall."""
        models = self.models

        def falls(fix: Fix) -> bool:
            return not models.is_eligible(fix.record) or models.inputs_of(fix.record) != fix.inputs

        return self.without(falls) if any(falls(fix) for transmission in self.transmissions for fix in transmission.held) else self

    def without(self, falls: Callable[[Fix], bool]) -> Track:
        """With every transmission decided again without the fixes that fall, and ordered."""
        left = [decided_again([fix for fix in transmission.held if not falls(fix)]) for transmission in self.transmissions]
        return replace(self, transmissions=arranged(left))


def decided_again(fixes: Sequence[Fix]) -> Transmission:
    """Of each identity the first fix, with the signers of all; the best five, and four of the refused."""
    merged: dict[bytes, Fix] = {}
    for fix in fixes:
        first = merged.get(fix.identity, fix)
        merged[fix.identity] = replace(first, signers=first.signers | fix.signers)
    each = list(merged.values())
    decision = decide([Item(fix.record, fix.inputs, fix.identity) for fix in each])
    kept = sorted(decision.refusals, key=lambda refusal: each[refusal.refused].identity)[:MAX_REFUSED]
    return Transmission(
        tuple(each[index] for index in decision.ranked[:MAX_STANDING]),
        tuple(
            RefusedFix(
                each[refusal.refused], each[refusal.against].identity,
                INFINITY if refusal.chi_square is None else bits_of(refusal.chi_square),
            )
            for refusal in kept
        ),
    )


def arranged(transmissions: Iterable[Transmission]) -> tuple[Transmission, ...]:
    """Those in which a fix stands, the oldest first, without those before the last eight."""
    standing = [transmission for transmission in transmissions if transmission.standing]
    return tuple(sorted(standing, key=lambda transmission: transmission.age)[-MAX_TRANSMISSIONS:])


def identities(fixes: Iterable[Fix]) -> set[bytes]:
    """The identities of these fixes."""
    return {fix.identity for fix in fixes}


def pair_of(summary: Summary) -> Pair:
    """What the summaries of a track are ordered by."""
    return summary.engine, summary.model


def chi_square_text(bits: int) -> str:
    """What a listing writes of the bits that stand in the track."""
    if bits == INFINITY:
        return NO_CHI_SQUARE
    is_nan = bits & INFINITY == INFINITY and bits != MINUS_INFINITY
    return f"{NAN if is_nan else bits:016x}"


def _replaced(values: tuple, at: int, value: object) -> tuple:
    return (*values[:at], value, *values[at + 1:])


def read_track(memory: bytes | bytearray) -> Track | None:
    """The track that these bytes are, or none."""
    if len(memory) != TRACK_SIZE:
        return None
    raw = bytes(memory)
    convicted, summary_count, transmission_count, _, contested = _HEAD.unpack_from(raw)
    if summary_count > MAX_PAIRS or transmission_count > MAX_TRANSMISSIONS:
        return None
    summaries = [read_summary(place) for place in places(raw, SUMMARIES_AT, SUMMARY_SIZE, summary_count)]
    if not all(summary.keeps_limits and not convicted >> summary.engine & 1 for summary in summaries):
        return None
    if not all(pair_of(before) < pair_of(after) for before, after in zip(summaries, summaries[1:])):
        return None
    transmissions: list[Transmission] = []
    for place in places(raw, TRANSMISSIONS_AT, TRANSMISSION_SIZE, transmission_count):
        transmission = read_transmission(place)
        if transmission is None or any(fix.signers == 0 or fix.signers & convicted for fix in transmission.held):
            return None
        transmissions.append(transmission)
    track = Track(convicted, tuple(summaries), tuple(transmissions), contested)
    # Written again all bytes that are not used are zero.
    return track if track.raw == raw else None


def read_transmission(raw: bytes) -> Transmission | None:
    """The transmission in 3,078 bytes, or none; bytes that are not used are not looked at."""
    standing_count, refused_count = _COUNTS.unpack_from(raw)
    if not 1 <= standing_count <= MAX_STANDING or refused_count > MAX_REFUSED:
        return None
    standing = [read_fix(place) for place in places(raw, _COUNTS.size, _FIX.size, standing_count)]
    refused = [_REFUSED.unpack(place) for place in places(raw, REFUSED_AT, _REFUSED.size, refused_count)]
    kept = [(read_fix(fix), against, chi_square) for fix, against, chi_square in refused]
    if None in standing or any(fix is None for fix, _, _ in kept):
        return None
    return Transmission(tuple(standing), tuple(RefusedFix(*fields) for fields in kept))


def read_fix(raw: bytes) -> Fix | None:
    """The fix in 324 bytes, or none where its record is malformed."""
    record_bytes, signers, inputs = _FIX.unpack(raw)
    record = read_record(record_bytes)
    return None if record is None else Fix(record, signers, inputs)


def taken_in(memory: bytes | bytearray) -> Track:
    """Check 1."""
    track = read_track(memory)
    require(track is not None, Answer.MALFORMED_MEMORY)
    assert track is not None
    return track


@operation
def listing(memory: bytes, out: bytearray) -> int:
    """Listing of a track: checks 1, 10."""
    return write_text(taken_in(memory).text, out)
