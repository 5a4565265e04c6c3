"""Wrong rules for the self-test, each of which must make a difference. Among them are the other readings of what had to be guessed
of the library while docs/REFERENCE.md was shorter: that they make a difference shows that the comparison decided each guess."""
from __future__ import annotations

import math
import re
import struct
from contextlib import AbstractContextManager
from dataclasses import dataclass, replace
from typing import Any, Callable, Sequence
from unittest.mock import patch

from . import agreement, board, decision, identity, session, shelf, track, trials
from .agreement import Agreement, Claim, Outcome, Vector
from .record import Record
from .register import Register

_SINE_SERIES_OF_ONE_BIT_MORE = (*agreement.SINE_SERIES[:-1], 1.0 + 2.0**-52)


@dataclass(frozen=True)
class Fault:
    """A wrong rule, the comparison that must find it, and what stands in the place of what."""

    name: str
    found_by: str
    owner: Any
    attribute: str
    wrong: Any

    def planted(self) -> AbstractContextManager[Any]:
        """The second writing with this fault."""
        return patch.object(self.owner, self.attribute, self.wrong)


def _solved_from_the_last_row(factor: Sequence[Vector], y: Vector) -> Vector:
    rows = len(factor)
    x = [0.0] * rows
    for i in reversed(range(rows)):
        below = range(rows - 1, i, -1)
        x[i] = agreement.less_products(y[i], [factor[k][i] for k in below], [x[k] for k in below]) / factor[i][i]
    return x


def _with_the_height_of_none(cartesian: Callable[[Claim], Vector]) -> Callable[[Claim], Vector]:
    return lambda claim: cartesian(replace(claim, height=trials.HEIGHT_OF_NONE) if claim.height is None else claim)


def _outside_at_the_limit(measure: Callable[[Claim, Claim], Agreement]) -> Callable[[Claim, Claim], Agreement]:
    def strict(smaller: Claim, larger: Claim) -> Agreement:
        found = measure(smaller, larger)
        is_at = found.chi_square is not None and found.chi_square == found.limit
        return replace(found, outcome=Outcome.OUTSIDE) if is_at else found

    return strict


def _root_of_the_processor(x: float) -> float:
    return math.sqrt(x) if not x < 0.0 else -math.nan


def _deviation_with_a_sign(covariance: Vector) -> float:
    total = covariance[0] + covariance[3]
    return agreement.root(total / 2.0) if total >= 0.0 else 0.0


def _rank_by_numbers(item: decision.Item) -> tuple[bool, int, int, int]:
    return not item.preferred, -item.standing, -item.record.weight, int.from_bytes(item.identity, "little")


def _used(record: Record) -> set[int]:
    return {tag for at, tag in enumerate(record.tags) if record.used >> at & 1}


def _shares_a_used_tag(record: Record, other: Record) -> bool:
    return record.message == other.message and not _used(record).isdisjoint(_used(other))


def _is_subset_by_used_tags(record: Record, other: Record) -> bool:
    return record.message == other.message and _used(record) < _used(other)


def _numbered_from_the_oldest(register: Register) -> str:
    chains = board.chains_of(board.fixes_of(register))
    decided = [board.Transmission(chain, decision.decide([fix.item for fix in chain])) for chain in chains]
    decided.sort(key=lambda transmission: transmission.age)
    texts = [transmission.text(number) for number, transmission in enumerate(decided, start=1)]
    return "".join(texts[-board.SHOWN_TRANSMISSIONS:])


def _half_metres_up(millimetres: int) -> int:
    return (millimetres + 500) // 1_000


def _in_no_order(transmissions: Sequence[track.Transmission]) -> tuple[track.Transmission, ...]:
    return tuple(transmission for transmission in transmissions if transmission.standing)[-track.MAX_TRANSMISSIONS:]


def _ordered_once(held: track.Track, engine: int) -> track.Track:
    with patch.object(track, "arranged", tuple):
        left = held.without_engine(engine).without(lambda fix: fix.signers == 0).checked_again()
    return replace(left, transmissions=track.arranged(left.transmissions))


def _counting_what_falls(without: Callable[..., track.Track]) -> Callable[..., track.Track]:
    def counting(held: track.Track, falls: Callable[[track.Fix], bool]) -> track.Track:
        grown = 0
        for transmission in held.transmissions:
            after = track.decided_again([fix for fix in transmission.held if not falls(fix)])
            before = track.identities(refused.fix for refused in transmission.refused)
            grown += len(track.identities(refused.fix for refused in after.refused) - before)
        return replace(without(held, falls), contested=(held.contested + grown) % 2**64)

    return counting


def _least_missing(models: identity.Models, record: Record) -> int | None:
    return min((model for model in record.models if models.is_without_summary(model)), default=None)


def _tried_in_reverse(both: shelf.Both, model: int) -> shelf.Both:
    left = replace(both, shelf=tuple(waiting for waiting in both.shelf if waiting.model != model))
    for waiting in reversed(both.shelf):
        left = left.with_trial(waiting) if waiting.model == model else left
    return left


def _moved_to_the_front(both: shelf.Both, model: int) -> shelf.Both:
    left, stay = replace(both, shelf=()), tuple(waiting for waiting in both.shelf if waiting.model != model)
    for waiting in both.shelf:
        left = left.with_trial(waiting) if waiting.model == model else left
    return replace(left, shelf=left.shelf + stay)


def _leaving_its_places(both: shelf.Both, engine: int) -> shelf.Both:
    return shelf.Both(both.track.with_conviction(engine), both.shelf)


FAULTS = (
    Fault("the second solution begins with its last product", "agreements", agreement, "solve_back", _solved_from_the_last_row),
    Fault("the sine's last coefficient is one bit more", "agreements", agreement, "SINE_SERIES", _SINE_SERIES_OF_ONE_BIT_MORE),
    Fault("a chi-square at the limit is outside", "agreements", agreement, "agreement", _outside_at_the_limit(agreement.agreement)),
    Fault("two rows have the limit of three", "agreements", agreement, "LIMIT_WITHOUT", agreement.LIMIT_WITH_HEIGHTS),
    Fault("a height beside a false flag counts", "agreements", agreement, "cartesian", _with_the_height_of_none(agreement.cartesian)),
    Fault("the root of a negative number is the processor's NaN", "numbers", agreement, "root", _root_of_the_processor),
    Fault("the deviation of two negative zeros is one", "numbers", agreement, "horizontal_deviation", _deviation_with_a_sign),
    Fault("an item that failed supersedes", "decisions", decision, "PASSED", 2),
    Fault("a lower identity is a lower number", "decisions", decision.Item, "rank", property(_rank_by_numbers)),
    Fault("only used tags make a subset", "decisions", Record, "is_subset_of", _is_subset_by_used_tags),
    Fault("only a used tag is common", "register calls", Record, "shares_a_tag", _shares_a_used_tag),
    Fault("the set hash has each tag's highest byte first", "register calls", identity, "_TAG", struct.Struct(">Q")),
    Fault("two seconds do not link", "register calls", board, "LINK_SPAN", board.LINK_SPAN - 1),
    Fault("transmissions that are not written are numbered too", "register calls", board, "board_text", _numbered_from_the_oldest),
    Fault("half a metre is rounded up", "register calls", board, "metres", _half_metres_up),
    Fault("a track keeps its transmissions in no order", "track calls", track, "arranged", _in_no_order),
    Fault("a conviction in a track orders once, at its end", "track calls", track.Track, "with_conviction", _ordered_once),
    Fault("contested grows where fixes fall too", "track calls", track.Track, "without", _counting_what_falls(track.Track.without)),
    Fault("a chi-square that is a NaN is none", "track calls", track, "NAN", track.INFINITY),
    Fault("a fix waits for the least missing model", "track calls", shelf, "first_missing", _least_missing),
    Fault("63 fixes may wait", "track calls", shelf, "MAX_WAITING", 63),
    Fault("fixes that wait are tried in reverse", "track calls", shelf.Both, "with_arrival", _tried_in_reverse),
    Fault("a fix that waits again goes to the front", "track calls", shelf.Both, "with_arrival", _moved_to_the_front),
    Fault("a conviction leaves its engine's waiting fixes", "track calls", shelf.Both, "without_engine", _leaving_its_places),
    Fault("a session of 65,536 bytes is too long", "sessions", session, "MOST_BYTES", session.MOST_BYTES - 1),
    Fault("a minus may stand before zero", "sessions", session, "_SIGNED", re.compile(r"-?(0|[1-9][0-9]*)")),
)
