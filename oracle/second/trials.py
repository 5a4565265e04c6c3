"""The comparisons: random inputs, given to the library or the program and to the second writing."""
from __future__ import annotations

import math
import random
import struct
import subprocess
import tempfile
from collections import Counter
from dataclasses import dataclass, fields, is_dataclass
from typing import Any, Callable, Iterable, Sequence

from . import agreement, board, decision, generate, identity, session
from .library import Functions, Library, second_writing

UNTOUCHED = b"\xa5"
"""What every output holds before a call."""

HEIGHT_OF_NONE = 12_345
"""The height that is passed beside a false flag."""

MOST_TRIES = 3_000
"""How many inputs are tried while a smaller one that differs is looked for."""

Parts = Sequence[Any]
Differs = Callable[[Parts], str | None]
Simpler = Callable[[Any], Iterable[Any]]


@dataclass(frozen=True)
class Trial:
    """What is compared with what, where it starts, and how often."""

    library: Library
    program: str
    seed: int
    agreements: int
    decisions: int
    lists: int
    sessions: int

    def rng(self) -> random.Random:
        """The same start for each comparison."""
        return random.Random(self.seed)


class Difference(Exception):
    """The library or the program and the second writing do not do the same on an input, whose parts are shown."""

    def __init__(self, what: str, parts: Parts) -> None:
        super().__init__("\n  ".join([f"{what}, on", *map(shown, parts)]))


def shown(part: object) -> str:
    """A part of an input, with bytes in hex; the lines of a session as they are."""
    match part:
        case bytes() if part.startswith(b"op=") or part == b"\n":
            return part.decode("latin-1").rstrip("\n").replace("\n", "\n  ")
        case bytes() | bytearray():
            return part.hex()
        case tuple():
            return f"({', '.join(map(shown, part))})"
        case _ if is_dataclass(part):
            fields_shown = (f"{field.name}={shown(getattr(part, field.name))}" for field in fields(part) if field.repr)
            return f"{type(part).__name__}({', '.join(fields_shown)})"
        case _:
            return str(part)


def told(library: object, second: object) -> str | None:
    """Both outcomes, if they are not the same."""
    return None if library == second else f"the library: {library}; the second writing: {second}"


def first_difference(name: str, library: bytes, second: bytes) -> str | None:
    """The first byte that differs."""
    if library == second:
        return None
    at = next((at for at, (one, other) in enumerate(zip(library, second)) if one != other), min(len(library), len(second)))
    return f"byte {at} of {name}: {told(library[at:at + 16].hex(), second[at:at + 16].hex())}"


def stop_at(what: str | None, *parts: Any) -> None:
    """Raises the difference on an input that can't be smaller, if there is one."""
    if what:
        raise Difference(what, parts)


def stop_at_smallest(parts: Parts, differs: Differs, simpler: Simpler = lambda part: ()) -> None:
    """Raises the difference, if there is one, on the smallest input found; `simpler` gives simpler parts to take in the place of one."""
    if differs(parts):
        tried = at_most(MOST_TRIES, differs)
        parts = simplest(smallest(parts, tried), tried, simpler)
        raise Difference(str(differs(parts)), parts)


def at_most(tries: int, differs: Differs) -> Differs:
    """The same, but no input differs after so many tries."""
    left = tries

    def tried(parts: Parts) -> str | None:
        nonlocal left
        left -= 1
        return differs(parts) if left >= 0 else None

    return tried


def simplest(parts: Parts, differs: Differs, simpler: Simpler) -> Parts:
    """The parts, each made as simple as the difference allows."""
    for at in range(len(parts)):
        while True:
            tried = ([*parts[:at], part, *parts[at + 1:]] for part in simpler(parts[at]))
            found = next((candidate for candidate in tried if differs(candidate)), None)
            if found is None:
                break
            parts = found
    return parts


def smallest(parts: Parts, differs: Differs) -> Parts:
    """The parts without those that the difference does not need."""
    size = max(1, len(parts) // 2)
    while True:
        at = 0
        while at < len(parts):
            fewer = [*parts[:at], *parts[at + size:]]
            if differs(fewer):
                parts = fewer
            else:
                at += size
        if size == 1:
            return parts
        size //= 2


def bits(x: float) -> str:
    """All bits of a number."""
    return f"{board.bits_of(x):016x}"


def bits_of_either_zero(x: float) -> str:
    """The bits of a number; a zero's sign is free."""
    return bits(x + 0.0)


def numbers(trial: Trial) -> Counter[str]:
    """Roots, horizontal deviations and hashes."""
    rng, library, count = trial.rng(), trial.library, trial.agreements // 5
    for _ in range(count):
        x = generate.odd_number(rng)
        stop_at(told(bits(library.root(x)), bits(agreement.root(x))), x)
        covariance = tuple(generate.odd_number(rng) for _ in range(6)) if rng.random() < 0.5 else generate.covariance(rng)
        stop_at(told(bits(library.horizontal_deviation(covariance)), bits(agreement.horizontal_deviation(covariance))), covariance)
        data = rng.randbytes(rng.choice((rng.randrange(70), 64 * rng.randrange(9), rng.randrange(3_000))))
        stop_at(told(library.hash(data), identity.blake2s(data).digest()), data)
    return Counter({"roots": count, "horizontal deviations": count, "hashes": count})


def agreements(trial: Trial) -> Counter[str]:
    """The outcome, and the bits of chi-square and limit; where there is none, the bytes that are passed for them stay."""
    rng, seen = trial.rng(), Counter[str]()
    for _ in range(trial.agreements):
        pair = generate.pair_of_claims(rng)
        out = bytearray(UNTOUCHED * 16)
        outcome = trial.library.agreement(*map(_passed_claim, pair), out)
        found = agreement.agreement(*pair)
        if found.chi_square is None or found.limit is None:
            stop_at(told((outcome, bytes(out)), (found.outcome.value, UNTOUCHED * 16)), *pair)
        else:
            library = outcome, *map(bits_of_either_zero, struct.unpack("<2d", out))
            stop_at(told(library, (found.outcome.value, bits_of_either_zero(found.chi_square), bits(found.limit))), *pair)
        seen[found.outcome.name.lower()] += 1
        seen["at the limit"] += found.chi_square is not None and found.chi_square == found.limit
        seen["with a number that is odd"] += any(not math.isfinite(x) or 0.0 < abs(x) < 1e-300 for x in pair[0].covariance)
        seen["at an edge between quadrants"] += any(abs(abs(pair[0].lat) - edge) < 4 for edge in (450_000_000, 1_350_000_000))
    return seen


def _passed_claim(claim: agreement.Claim) -> tuple[Any, ...]:
    height = HEIGHT_OF_NONE if claim.height is None else claim.height
    return claim.lat, claim.lon, claim.height is not None, height, *claim.covariance


def decisions(trial: Trial) -> Counter[str]:
    """The answer, and all of its 1,347 bytes; those of a refused call stay."""
    rng, seen = trial.rng(), Counter[str]()

    def outcome(decide: Callable[[bytes, bytearray], int], items: Parts) -> tuple[int, bytes]:
        answer = bytearray(UNTOUCHED * decision.ANSWER_SIZE)
        return int(decide(b"".join(items), answer)), bytes(answer)

    def differs(items: Parts) -> str | None:
        answered, answer = outcome(trial.library.decide, items)
        second_answered, second_answer = outcome(decision.decide_bytes, items)
        return told(answered, second_answered) or first_difference("the answer", answer, second_answer)

    for _ in range(trial.decisions):
        items = generate.item_list(rng)
        stop_at_smallest(items, differs)
        answered, answer = outcome(decision.decide_bytes, items)
        seen[f"answer {answered}"] += 1
        if answered == 0:
            seen += Counter(ranked=answer[0], dominated=answer[97])
            for at in range(195, 195 + 12 * answer[194], 12):
                seen[("superseded" if answer[at + 2] else "contested") + ("" if answer[at + 3] else " without a chi-square")] += 1
    return seen


def register_calls(trial: Trial) -> Counter[str]:
    """Lists of calls on a register."""
    return _lists(trial, generate.register_list, generate.passed_register)


def track_calls(trial: Trial) -> Counter[str]:
    """Lists of calls on a track and its shelf."""
    return _lists(trial, generate.track_list, generate.passed_track)


def _lists(trial: Trial, make: Callable[..., Parts], memory_of: Callable[[Parts], tuple[bytes, ...]]) -> Counter[str]:
    """Lists of calls, from a fresh memory or, one in three, from one that is passed."""
    rng, seen = trial.rng(), Counter[str]()

    def differs(parts: Parts) -> str | None:
        return differing_call(trial.library, memory_of(parts), parts)

    for _ in range(trial.lists):
        parts = make(rng, passed=rng.random() < 1 / 3)
        seen["from a passed memory" if generate.of_kind(parts, generate.Head) else "from a fresh one, or of another length"] += 1
        if differing_call(trial.library, memory_of(parts), parts, seen):
            stop_at_smallest(parts, differs, generate.simpler)
    return seen


def differing_call(library: Library, start: tuple[bytes, ...], parts: Parts, seen: Counter[str] | None = None) -> str | None:
    """The first call after which answer, memory or output differ; counts what the calls did."""
    memory, second_memory, second = [bytearray(each) for each in start], [bytearray(each) for each in start], second_writing()
    for number, part in enumerate(generate.of_kind(parts, generate.Call | generate.Flip), start=1):
        if isinstance(part, generate.Flip):
            for each in (memory[part.behind], second_memory[part.behind]):
                if each:
                    each[part.at % len(each)] ^= part.mask
            continue
        answer, out = _outcome(library.on_memory, memory, part)
        second_answer, second_out = _outcome(second, second_memory, part)
        difference = (
            told(f"answer {answer}", f"answer {second_answer}")
            or first_difference("the memory", b"".join(memory), b"".join(second_memory)) or first_difference("the output", out, second_out)
        )
        if difference:
            return f"call {number}, {part.name}: {difference}"
        if seen is not None:
            _count(seen, part, answer, out)
    return None


def _outcome(functions: Functions, memory: list[bytearray], call: generate.Call) -> tuple[int, bytes]:
    """What a call returns, and its output; a call with an output has the first memory alone."""
    out = [] if call.room is None else [bytearray(UNTOUCHED * call.room)]
    desk = [] if call.desk is None else [call.desk]
    answer = functions[call.name](*desk, *(memory[:1] if out else memory), *call.arguments, *out)
    return answer, bytes().join(out)


def _count(seen: Counter[str], call: generate.Call, answer: int, out: bytes) -> None:
    """Counts what a call did."""
    name = call.name.removeprefix("tl_").replace("_", " ")
    if not out.strip(UNTOUCHED):
        seen[f"{name} no bytes" if call.room is not None and answer == 0 else f"{name} answer {answer}"] += 1
        return
    text = out[:answer]
    without = text.count(b"chi2=none")
    seen += Counter({
        f"{name} a text": 1, f"{name} eight transmissions": text.count(b"transmission=8"), f"{name} lines": text.count(b"role="),
        f"{name} chi-squares": text.count(b"chi2=") - without, f"{name} chi2=none": without,
    })


def sessions(trial: Trial) -> Counter[str]:
    """What the program writes to standard output and standard error, and its exit status, from standard input or from a file, with
    `--strict` and without; four in ten sessions are damaged."""
    rng, seen = trial.rng(), Counter[str]()
    is_strict, from_file = False, False

    def differs(operations: Parts) -> str | None:
        data, words = b"".join(operations), ["--strict"] * is_strict
        with tempfile.NamedTemporaryFile() as file:
            file.write(data)
            file.flush()
            words += [file.name] if from_file else ["-"]
            ran = subprocess.run([trial.program, *words], input=b"" if from_file else data, capture_output=True, check=False)
        second = session.run(data)
        return (
            first_difference("standard output", ran.stdout, second.output.encode("ascii"))
            or first_difference("standard error", ran.stderr, second.error.encode("ascii")) or told(ran.returncode, second.status(is_strict))
        )

    for _ in range(trial.sessions):
        is_damaged, is_strict, from_file = rng.random() < 0.4, rng.random() < 0.5, rng.random() < 0.5
        lines = generate.session_lines(rng)
        data = b"".join(generate.damaged(rng, lines) if is_damaged else lines)
        stop_at_smallest(generate.operations_of(data), differs, generate.without_a_line)
        output = session.output_of(data)
        seen["damaged" if is_damaged else "not damaged"] += 1
        seen[output.partition(" ")[0].strip() if output.startswith("refused=") else "a board" if "role=" in output else "no board"] += 1
    return seen


COMPARISONS: dict[str, Callable[[Trial], Counter[str]]] = {
    "numbers": numbers,
    "agreements": agreements,
    "decisions": decisions,
    "register calls": register_calls,
    "track calls": track_calls,
    "sessions": sessions,
}
