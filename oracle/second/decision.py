"""The decision: docs/REFERENCE.md, 'Item of a decision' and 'Answer of a decision' among the layouts, 'Decision'."""
from __future__ import annotations

import struct
from dataclasses import dataclass
from typing import Iterable, Sequence

from .agreement import Agreement, Outcome, agreement
from .answers import Answer
from .record import RECORD_SIZE, Record, read_record

ITEM_SIZE = 363
ANSWER_SIZE = 1_347
MAX_ITEMS = 96
PASSED = 1

_ITEM = struct.Struct(f"<{RECORD_SIZE}s32s32sQBBB")
_REFUSAL = struct.Struct("<BBBBd")


@dataclass(frozen=True)
class Item:
    """What is decided about: a fix, and what others think of it."""

    record: Record
    inputs: bytes
    identity: bytes
    standing: int = 0
    consistent: bool = True
    preferred: bool = False
    verified: int = 0

    @property
    def rank(self) -> tuple[bool, int, int, bytes]:
        """Ascending from the first in rank: preferred, more standing, more weight, lower identity."""
        return not self.preferred, -self.standing, -self.record.weight, self.identity


@dataclass(frozen=True)
class Refusal:
    """That an item is refused, against which, and the chi-square between the two; items by their indices."""

    refused: int
    against: int
    superseded: bool
    chi_square: float | None


@dataclass(frozen=True)
class Decision:
    """Items by their indices: ranked ones in rank, dominated and refused ones ascending."""

    ranked: tuple[int, ...]
    dominated: tuple[int, ...]
    refusals: tuple[Refusal, ...]


def decide(items: Sequence[Item]) -> Decision:
    """Which of these are ranked, dominated and refused."""
    everyone = range(len(items))
    disagreeing = _disagreeing_subsets(items)
    superseding = {
        f for f in everyone
        if items[f].verified == PASSED and disagreeing[f] and all(items[f].standing > items[g].standing for g in disagreeing[f])
    }
    superseded = {g for f in superseding for g in disagreeing[f]}
    contested = {f for f in everyone if f not in superseding | superseded and not disagreeing[f].keys() <= superseded}
    refused = superseded | contested
    left = [f for f in everyone if f not in refused]
    dominated = [
        f for f in left if any(items[f].inputs == items[g].inputs and items[f].record.is_subset_of(items[g].record) for g in left)
    ]

    def lowest(candidates: Iterable[int]) -> int:
        return min(candidates, key=lambda index: items[index].identity)

    def refusal_of(f: int) -> Refusal:
        if f in superseded:
            larger = lowest(h for h in superseding if f in disagreeing[h])
            return Refusal(f, larger, True, disagreeing[larger][f].chi_square)
        smaller = lowest(g for g in disagreeing[f] if g not in superseded)
        return Refusal(f, smaller, False, disagreeing[f][smaller].chi_square)

    return Decision(
        ranked=tuple(sorted((f for f in left if f not in dominated), key=lambda f: items[f].rank)),
        dominated=tuple(dominated),
        refusals=tuple(refusal_of(f) for f in sorted(refused)),
    )


def _disagreeing_subsets(items: Sequence[Item]) -> list[dict[int, Agreement]]:
    """Of each item its disagreeing subsets, with what was measured."""
    found: list[dict[int, Agreement]] = [{} for _ in items]
    for f, larger in enumerate(items):
        for g, smaller in enumerate(items):
            if smaller.consistent and smaller.record.is_subset_of(larger.record):
                measured = agreement(smaller.record.claim, larger.record.claim)
                if measured.outcome is not Outcome.INSIDE:
                    found[f][g] = measured
    return found


def read_items(raw: bytes) -> list[Item] | None:
    """The items in these bytes, or none where a check refuses them."""
    if len(raw) % ITEM_SIZE != 0 or len(raw) > MAX_ITEMS * ITEM_SIZE:
        return None
    items = []
    for record_bytes, inputs, identity, standing, consistent, preferred, verified in _ITEM.iter_unpack(raw):
        record = read_record(record_bytes)
        if record is None:
            return None
        items.append(Item(record, inputs, identity, standing, consistent != 0, preferred != 0, verified))
    return items if len({item.identity for item in items}) == len(items) else None


def decision_bytes(decision: Decision) -> bytes:
    """The 1,347 bytes of an answer."""
    refusals = b"".join(
        _REFUSAL.pack(refusal.refused, refusal.against, refusal.superseded, refusal.chi_square is not None, refusal.chi_square or 0.0)
        for refusal in decision.refusals
    )
    return (
        _counted(decision.ranked) + _counted(decision.dominated) + bytes([len(decision.refusals)])
        + refusals.ljust(MAX_ITEMS * _REFUSAL.size, b"\0")
    )


def _counted(indices: Sequence[int]) -> bytes:
    """A count, the indices, and zeros where there are no more."""
    return bytes([len(indices), *indices]).ljust(1 + MAX_ITEMS, b"\0")


def decide_bytes(raw: bytes, answer: bytearray) -> int:
    """The operation: decides the items, and writes the answer unless they are refused."""
    items = read_items(raw)
    if items is None:
        return Answer.BAD_ITEMS
    answer[:] = decision_bytes(decide(items))
    return Answer.OK
