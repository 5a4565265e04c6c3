"""The monthly numbers: docs/REFERENCE.md, 'Monthly numbers'."""
from __future__ import annotations

from enum import Enum

from .board import chains_of, fixes_of
from .decision import decide
from .identity import Models
from .record import MAX_ENGINE, Record
from .register import Register, read_register

REFUSED = "refused=1\n"


class Ending(Enum):
    """What became of a held record, in the order of the columns."""

    RANKED = "ranked"
    DOMINATED = "dominated"
    REFUSED = "refused"
    OTHER = "other"
    UNCOUNTED = "uncounted"


def endings_of(register: Register) -> dict[Record, Ending]:
    """Of each held record."""
    models = Models(register.summaries)
    ended = {record: Ending.OTHER if models.is_eligible(record) else Ending.UNCOUNTED for record in register.signers}
    for chain in chains_of(fixes_of(register)):
        decision = decide([fix.item for fix in chain])
        ended.update({chain[index].record: Ending.RANKED for index in decision.ranked})
        ended.update({chain[index].record: Ending.DOMINATED for index in decision.dominated})
        ended.update({chain[refusal.refused].record: Ending.REFUSED for refusal in decision.refusals})
    return ended


def monthly(memory: bytes) -> str:
    """What the program `monthly` prints of any bytes."""
    register = read_register(memory)
    return REFUSED if register is None else "".join(lines_of(register))


def lines_of(register: Register) -> list[str]:
    """A line for each engine."""
    ended = endings_of(register)
    lines = []
    for engine in range(MAX_ENGINE + 1):
        own = [ended[record] for record, signers in register.signers.items() if signers >> engine & 1]
        counts = [f"{ending.value}={own.count(ending)}" for ending in Ending]
        lines.append(" ".join([f"engine={engine}", f"held={len(own)}", *counts]) + "\n")
    return lines
