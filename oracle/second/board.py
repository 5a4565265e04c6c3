"""The board and the preview: docs/REFERENCE.md, 'Register and board', 'Text' and 'Preview'."""
from __future__ import annotations

import struct
from dataclasses import dataclass
from typing import Sequence

from .answers import Answer, operation, require, write_text
from .decision import Decision, Item, decide
from .identity import Models, identity
from .record import MAX_ENGINE, Record
from .register import CREW, DESKS, Register, taken_in

LINK_SPAN = 2_000_000_000
SHOWN_TRANSMISSIONS = 8
MILLIMETRES_IN_A_METRE = 1_000
NO_CHI_SQUARE = "none"


@dataclass(frozen=True)
class Fix:
    """All eligible records of one identity: the record that represents them, under its model inputs, and their signers."""

    item: Item
    signers: int

    @property
    def record(self) -> Record:
        """The record that represents the fix."""
        return self.item.record

    def links(self, other: Fix) -> bool:
        """Whether the two are linked by message, tags and time."""
        return self.record.shares_a_tag(other.record) and abs(self.record.time - other.record.time) <= LINK_SPAN


@dataclass(frozen=True)
class Transmission:
    """Fixes that a chain of links reaches, and the decision of them."""

    fixes: Sequence[Fix]
    decision: Decision

    @property
    def age(self) -> tuple[int, bytes]:
        """Ascending from the oldest: the time and then the identity of the first ranked fix."""
        first = self.fixes[self.decision.ranked[0]]
        return first.record.time, first.item.identity

    def text(self, number: int) -> str:
        """The header and the lines."""
        decision = self.decision
        lines = [header(number, len(decision.ranked), len(decision.dominated), len(decision.refusals))]
        lines += [self._line("ranked", index) for index in decision.ranked]
        lines += [self._line("dominated", index) for index in sorted(decision.dominated, key=self._identity)]
        for refusal in sorted(decision.refusals, key=lambda refusal: self._identity(refusal.refused)):
            chi_square = NO_CHI_SQUARE if refusal.chi_square is None else f"{bits_of(refusal.chi_square):016x}"
            lines.append(self._line("refused", refusal.refused, chi_square))
        return "".join(lines)

    def _identity(self, index: int) -> bytes:
        return self.fixes[index].item.identity

    def _line(self, role: str, index: int, chi_square: str | None = None) -> str:
        return line(role, self.fixes[index].record, self.fixes[index].signers, chi_square)


def fixes_of(register: Register) -> list[Fix]:
    """Step 1: the fixes, by the record that represents each, the one that comes first in byte order."""
    models = Models(register.summaries)
    fixes: dict[bytes, Fix] = {}
    for record in sorted(register.signers, key=lambda record: record.raw):
        if models.is_eligible(record):
            inputs = models.inputs_of(record)
            name = identity(record, inputs)
            first = fixes.get(name, Fix(Item(record, inputs, name), 0))
            fixes[name] = Fix(first.item, first.signers | register.signers[record])
    return list(fixes.values())


def chains_of(fixes: Sequence[Fix]) -> list[list[Fix]]:
    """Step 2: everything that a chain of links reaches, together."""
    chains: list[list[Fix]] = []
    for fix in fixes:
        reached, apart = [fix], []
        for chain in chains:
            if any(fix.links(other) for other in chain):
                reached += chain
            else:
                apart.append(chain)
        chains = [*apart, reached]
    return chains


def crew_lines(text: str) -> str:
    """What a crew sees of a full board: of a header what stands before the first blank, and the ranked lines."""
    headers = (line.split(" ")[0] + "\n" if line.startswith("transmission=") else line for line in text.splitlines(keepends=True))
    return "".join(line for line in headers if line.startswith(("transmission=", "role=ranked")))


def board_text(register: Register) -> str:
    """Steps 3 and 4: the text of the eight latest transmissions, the oldest of them first."""
    decided = [Transmission(chain, decide([fix.item for fix in chain])) for chain in chains_of(fixes_of(register))]
    latest = sorted(decided, key=lambda transmission: transmission.age)[-SHOWN_TRANSMISSIONS:]
    return "".join(transmission.text(number) for number, transmission in enumerate(latest, start=1))


def header(number: int, ranked: int, dominated: int, refused: int) -> str:
    """The first line of a transmission."""
    return f"transmission={number} ranked={ranked} dominated={dominated} refused={refused}\n"


def line(role: str, record: Record, signers: int, chi_square: str | None = None) -> str:
    """The line of a fix; of a refused one with its chi-square."""
    height = "none" if record.height is None else metres(record.height)
    fields = [
        f"role={role}", f"time={record.time}", f"lat={record.lat}", f"lon={record.lon}", f"height={height}", f"weight={record.weight}",
        f"signers={signers:08x}"
    ]
    if chi_square is not None:
        fields.append(f"chi2={chi_square}")
    return " ".join(fields) + "\n"


def metres(millimetres: int) -> int:
    """The nearest whole metre, and the even one of two that are equally near."""
    below, rest = divmod(millimetres, MILLIMETRES_IN_A_METRE)
    half = MILLIMETRES_IN_A_METRE // 2
    return below + (rest > half or (rest == half and below % 2 == 1))


def bits_of(x: float) -> int:
    """The bits of an f64."""
    return int.from_bytes(struct.pack("<d", x), "little")


@operation
def board(desk: int, memory: bytes, out: bytearray) -> int:
    """Board of a register: checks 15, 1, 10."""
    require(desk in DESKS, Answer.UNKNOWN_DESK)
    text = board_text(taken_in(memory))
    return write_text(crew_lines(text) if desk == CREW else text, out)


@operation
def preview(desk: int, memory: bytes, engine: int, out: bytearray) -> int:
    """Preview of a conviction: checks 15, 16, 1, 2, 10."""
    require(desk in DESKS, Answer.UNKNOWN_DESK)
    require(desk != CREW, Answer.NO_RIGHT)
    register = taken_in(memory)
    require(engine <= MAX_ENGINE, Answer.ENGINE_OVER_31)
    return write_text(board_text(register.with_conviction(engine)), out)
