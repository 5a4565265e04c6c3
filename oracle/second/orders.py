"""A session in random orders: docs/REFERENCE.md, 'Orders of a session'."""
from __future__ import annotations

from dataclasses import dataclass

from . import shelf
from .answers import TEXT_ROOM, Answer
from .record import record_bytes
from .register import REGISTER_SIZE
from .rooms import board_of
from .session import Operation, call, operations_of
from .shelf import SHELF_SIZE
from .track import TRACK_SIZE, listing

MASK = 2**64 - 1


class SplitMix64:
    """Steele, Lea and Flood's generator, and of its 32-bit words Stafford's Mix4 variant, as the Rust crate rand_xoshiro has it."""

    def __init__(self, seed: int) -> None:
        self.state = seed

    def word(self) -> int:
        """The next 32 bits."""
        self.state = (self.state + 0x9E3779B97F4A7C15) & MASK
        z = self.state
        z = (z ^ z >> 33) * 0x62A9D9ED799705F5 & MASK
        z = (z ^ z >> 28) * 0xCB24D0A5C88C35B3 & MASK
        return z >> 32

    def below(self, bound: int) -> int:
        """A number below a bound, by Canon's method, as the Rust crate rand has it."""
        high, low = divmod(self.word() * bound, 2**32)
        if low > 2**32 - bound:
            high += low + (self.word() * bound >> 32) >= 2**32
        return high


def bound_of(first: int) -> tuple[int, int]:
    """The product of the numbers from this one on that is the last to have 32 bits, and of how many numbers it is."""
    product, count = first, 1
    while product * (first + count) < 2**32:
        product *= first + count
        count += 1
    return product, count


def shuffle(values: list, random: SplitMix64) -> None:
    """Fisher and Yates' shuffle, in which one draw serves several places, as the Rust crate rand has it."""
    chunk, left = 0, 1
    for place in range(len(values)):
        if not left:
            bound, left = bound_of(place + 1)
            chunk = random.below(bound)
        left -= 1
        chunk, index = divmod(chunk, place + 1) if left else (0, chunk)
        values[place], values[index] = values[index], values[place]


def call_on_track(memory: bytearray, shelf_memory: bytearray, operation: Operation) -> int:
    """Makes the call of an operation on a track."""
    values = dict(operation)
    name, engine = values.pop("op"), values.pop("engine")
    match name:
        case "summary":
            return shelf.summary(memory, shelf_memory, engine, values["model"], values["spec"], values["inputs"])
        case "convict":
            return shelf.conviction(memory, shelf_memory, engine)
        case _:
            values["covariance"] = values.pop("cov")
            return shelf.report(memory, shelf_memory, engine, record_bytes(**values))


def left_by(calls: list[Operation]) -> tuple[str, str, bool]:
    """The board and the listing that calls leave, and whether one was refused as full by the register."""
    memory, track, waiting = bytearray(REGISTER_SIZE), bytearray(TRACK_SIZE), bytearray(SHELF_SIZE)
    full = Answer.FULL in [call(memory, operation) for operation in calls]
    for operation in calls:
        call_on_track(track, waiting, operation)
    out = bytearray(TEXT_ROOM)
    return board_of(bytes(memory)), out[:listing(bytes(track), out)].decode("ascii"), full


@dataclass(frozen=True)
class Outcome:
    """How many different boards and listings came out, and in how many orders a call was refused as full."""

    boards: int
    listings: int
    full: int

    def text(self, seed: int, count: int) -> str:
        """What is printed."""
        return f"seed={seed}\norders={count}\nboards={self.boards}\nlistings={self.listings}\nfull={self.full}\n"


def try_orders(data: bytes, count: int, seed: int) -> Outcome:
    """A session in so many orders, drawn from a seed."""
    calls, random = list(operations_of(data)), SplitMix64(seed)
    boards, listings, full = set(), set(), 0
    for _ in range(count):
        shuffle(calls, random)
        board, text, refused = left_by(calls)
        boards.add(board)
        listings.add(text)
        full += refused
    return Outcome(len(boards), len(listings), full)
