"""Random inputs for the comparison: claims, items, lists of calls with the memory before them, and sessions."""
from __future__ import annotations

import random
import re
import struct
from dataclasses import dataclass, replace
from typing import Any, Iterable, Iterator, Sequence

from . import register, shelf, track
from .agreement import Claim, agreement
from .answers import TEXT_ROOM
from .decision import ITEM_SIZE
from .identity import Models, Summary
from .record import MAX_TAGS, RECORD_SIZE, Record, read_record, record_bytes

SECONDS = 1_000_000_000
EDGES = (-2**31, -1_350_000_000, -900_000_000, -450_000_000, 0, 450_000_000, 900_000_000, 1_350_000_000, 2**31 - 1)
ODD_NUMBERS = (
    0.0, -0.0, 1.0, -1.0, 5e-324, 1e-320, 2.2250738585072014e-308, 1e-160, 1e154, 1e308, 1.7976931348623157e308, float("inf"),
    float("-inf"), float("nan")
)
ODD_CHI_SQUARES = (
    0, 1 << 63, track.INFINITY, track.INFINITY - 1, track.INFINITY + 1, track.MINUS_INFINITY, track.MINUS_INFINITY + 1, track.NAN,
    2**64 - 1, 0x403044189374BC6A
)
REFUSED_ENGINES = (32, 255, 256, 2**32 - 1)


@dataclass(frozen=True)
class Call:
    """A call on memory, by its C name; with `room` it has an output of so many bytes, with `desk` a desk before all else."""

    name: str
    arguments: tuple[Any, ...] = ()
    room: int | None = None
    desk: int | None = None


@dataclass(frozen=True)
class Flip:
    """A change of one byte of the memory, or of the one behind it."""

    at: int
    mask: int
    behind: bool = False


@dataclass(frozen=True)
class Head:
    """What a passed memory has before its summaries."""

    convicted: int
    contested: int = 0


@dataclass(frozen=True)
class Signed:
    """A record of a passed register, with its signers."""

    record: Record
    signers: int


@dataclass(frozen=True)
class Raw:
    """Bytes that are passed as a memory, or as the one behind it."""

    data: bytes
    behind: bool = False


Part = Call | Flip | Head | Signed | Raw | Summary | track.Transmission | shelf.Waiting


def of_kind(parts: Iterable[Part], kind: type) -> list[Any]:
    """The parts that are of this kind."""
    return [part for part in parts if isinstance(part, kind)]


def passed_register(parts: Sequence[Part]) -> tuple[bytes, ...]:
    """The memory before the calls of a list: that of a fresh register where no part says more."""
    for raw in of_kind(parts, Raw):
        return (raw.data,)
    head = (of_kind(parts, Head) or [Head(0)])[0]
    signers = {signed.record: signed.signers for signed in of_kind(parts, Signed)}
    return (register.Register(head.convicted, frozenset(of_kind(parts, Summary)), signers).raw,)


def passed_track(parts: Sequence[Part]) -> tuple[bytes, ...]:
    """The same for a track and its shelf."""
    memory, behind = passed_track_alone(parts), shelf.shelf_bytes(tuple(of_kind(parts, shelf.Waiting)))
    for raw in of_kind(parts, Raw):
        memory, behind = (memory, raw.data) if raw.behind else (raw.data, behind)
    return memory, behind


def passed_track_alone(parts: Sequence[Part]) -> bytes:
    """A passed track that is well-formed."""
    head = (of_kind(parts, Head) or [Head(0)])[0]
    summaries = {track.pair_of(summary): summary for summary in of_kind(parts, Summary)}
    ascending = tuple(summaries[pair] for pair in sorted(summaries))
    return track.Track(head.convicted, ascending, tuple(of_kind(parts, track.Transmission)), head.contested).raw


def simpler(part: Part) -> Iterator[Part]:
    """The part with less in it: of a passed transmission one fix less."""
    if isinstance(part, track.Transmission):
        for at in range(len(part.refused)):
            yield replace(part, refused=part.refused[:at] + part.refused[at + 1:])
        for at in range(len(part.standing) if len(part.standing) > 1 else 0):
            yield replace(part, standing=part.standing[:at] + part.standing[at + 1:])


def odd_number(rng: random.Random) -> float:
    """A number at which arithmetic has an edge, or random bits."""
    return rng.choice(ODD_NUMBERS) if rng.random() < 0.8 else struct.unpack("<d", rng.randbytes(8))[0]


def covariance(rng: random.Random) -> tuple[float, ...]:
    """Mostly a positive definite one, sometimes odd."""
    kind = rng.random()
    if kind < 0.5:
        scale = rng.choice((1.0, 30.0, 100.0, 2500.0))
        rows = [[rng.uniform(-1.0, 1.0) * scale for _ in range(3)] for _ in range(3)]
        return tuple(sum(a * b for a, b in zip(rows[i], rows[j])) for i in range(3) for j in range(i, 3))
    diagonal = [rng.choice((100.0, rng.uniform(1.0, 1000.0))) for _ in range(3)]
    numbers = [diagonal[0], 0.0, 0.0, diagonal[1], 0.0, diagonal[2]]
    if kind > 0.8:
        for _ in range(rng.randrange(1, 4)):
            numbers[rng.randrange(6)] = odd_number(rng)
    if kind > 0.95:
        numbers = [odd_number(rng) for _ in range(6)]
    return tuple(numbers)


def within(value: int, bits: int) -> int:
    """The value in two's complement of so many bits."""
    return (value + 2 ** (bits - 1)) % 2**bits - 2 ** (bits - 1)


def angle(rng: random.Random) -> int:
    """1e-7 degree, often at the edge of a quadrant."""
    return within(rng.choice(EDGES) + rng.randrange(-2, 3), 32) if rng.random() < 0.4 else rng.randrange(-2**31, 2**31)


def pair_of_claims(rng: random.Random) -> tuple[Claim, Claim]:
    """A smaller and a larger one, mostly near one another."""
    height = rng.choice((None, 0, rng.randrange(-10_000, 15_000_000), rng.randrange(-2**31, 2**31)))
    smaller = Claim(angle(rng), angle(rng), height, covariance(rng))
    reach = rng.choice((1, 100, 3_000, 100_000))
    near = [within(value + rng.randrange(-reach, reach + 1), 32) for value in (smaller.lat, smaller.lon)]
    lat, lon = near if rng.random() < 0.9 else (angle(rng), angle(rng))
    beside = within((height or 0) + rng.randrange(-50_000, 50_001), 32)
    larger = Claim(lat, lon, None if rng.random() < 0.3 else beside, covariance(rng))
    return at_the_limit(smaller, larger) if rng.random() < 0.02 else (smaller, larger)


def at_the_limit(smaller: Claim, larger: Claim) -> tuple[Claim, Claim]:
    """The two with a covariance so much larger that the chi-square is the limit, or near it; as they are where there is none."""
    measured = agreement(smaller, larger)
    if measured.chi_square is None or measured.limit is None or not 1e-9 < measured.chi_square < 1e15:
        return smaller, larger
    for step in range(60):
        scale = measured.chi_square / measured.limit * (1.0 + (step - 30) * 2.0**-52)
        scaled = replace(smaller, covariance=tuple(number * scale for number in smaller.covariance))
        if agreement(scaled, larger).chi_square == measured.limit:
            break
    return scaled, larger


class World:
    """Small choices of everything, out of which one list is drawn, so that what is reported meets."""

    def __init__(self, rng: random.Random) -> None:
        self.rng = rng
        self.messages = [rng.randbytes(rng.choice((7, 14))) for _ in range(rng.choice((1, 1, 2, 3, 12)))]
        self.tags = sorted(rng.sample((0, 1, 2, 3, 255, 256, 2**63, 2**64 - 1), rng.randrange(2, 7)))
        if rng.random() < 0.1:
            self.tags = sorted({*self.tags, *range(1_000, 1_000 + MAX_TAGS - len(self.tags))})
        self.models = rng.sample(range(64), rng.randrange(1, 4))
        self.inputs = [rng.randbytes(32) for _ in range(2)]
        self.specs = [0, 1] if rng.random() < 0.5 else [rng.randrange(2**16)]
        self.engines = rng.sample(range(32), rng.randrange(1, 6))
        self.time = rng.choice((0, 2**64 - 1 - 8 * SECONDS, rng.randrange(2**64 - 8 * SECONDS)))
        self.lat, self.lon = angle(rng), angle(rng)
        self.covariances = [covariance(rng) for _ in range(3)]
        self.span = rng.choice((1, 1, 8, 60, 1_000_000))
        self.made: list[bytes] = []

    def engine(self) -> int:
        """Mostly one of the world's."""
        return self.rng.choice(REFUSED_ENGINES) if self.rng.random() < 0.03 else self.rng.choice(self.engines)

    def moment(self) -> int:
        """A time, often whole seconds, or almost, from another."""
        step = self.rng.randrange(5) * SECONDS + self.rng.choice((-1, 0, 0, 0, 1))
        return (self.time + self.rng.randrange(self.span) * SECONDS + step) % 2**64

    def record(self, cited: int | None = None) -> bytes:
        """288 bytes, almost always well-formed; where a model is given, it is among those that are cited."""
        rng = self.rng
        tags = tuple(sorted(rng.sample(self.tags, rng.randrange(1, len(self.tags) + 1))))
        reach = rng.choice((0, 300, 3_000, 10_000))
        height = rng.choice((None, 0, 500 * rng.randrange(-7, 8), rng.randrange(-3_000, 3_000), rng.randrange(-2**31, 2**31)))
        raw = record_bytes(
            time=self.moment(), lat=within(self.lat + rng.randrange(-reach, reach + 1), 32),
            lon=within(self.lon + rng.randrange(-reach, reach + 1), 32), height=height, message=rng.choice(self.messages),
            used=rng.randrange(2 ** len(tags)), tags=tags, models=self.cited(cited), spec=rng.choice(self.specs),
            covariance=struct.pack("<6d", *rng.choice(self.covariances))
        )
        self.made.append(raw)
        return raw

    def cited(self, model: int | None = None) -> tuple[int, ...]:
        """Up to four models, with repeats; where one is given, it is among them."""
        count = self.rng.choice((0, 0, 0, 1, 1, 2, 4) if model is None else (1, 2, 4))
        models = [self.rng.choice(self.models) for _ in range(count)]
        if model is not None:
            models[self.rng.randrange(count)] = model
        return tuple(models)

    def reported(self) -> bytes:
        """A record, often one that was made before; now and then one that is damaged, or bytes that can be none."""
        raw = self.rng.choice(self.made) if self.made and self.rng.random() < 0.2 else self.record()
        kind = self.rng.random()
        if kind < 0.02:
            at = self.rng.randrange(len(raw))
            return raw[:at] + self.rng.randbytes(1) + raw[at + 1:]
        return self.rng.choice((b"", raw[:-1], raw + b"\0")) if kind < 0.03 else raw

    def summary(self) -> Summary:
        """A summary that keeps its limits."""
        rng = self.rng
        inputs = self.inputs[0] if rng.random() < 0.8 else self.inputs[1]
        return Summary(rng.choice(self.engines), rng.choice(self.models), rng.choice(self.specs), inputs)

    def desk(self, kind: str) -> int | None:
        """Mostly a manager's, else another or none that there is; a track has no desk."""
        desks = (register.MANAGER,) * 6 + (register.CREW, register.ANALYST, register.ANALYST, 3, 258, 2**32 - 1)
        return self.rng.choice(desks) if kind == "register" else None

    def stated(self) -> tuple[Any, ...]:
        """The arguments of a summary call, now and then such as are refused."""
        summary = self.summary()
        kind = self.rng.random()
        model = self.rng.choice((64, 255, 2**32 - 1)) if kind < 0.02 else summary.model
        inputs = self.rng.choice((b"", summary.inputs[:31], summary.inputs + b"\0")) if 0.01 < kind < 0.04 else summary.inputs
        return self.engine(), model, summary.spec, inputs

    def room(self) -> int:
        """The bytes of an output."""
        return self.rng.choice((0, 100, TEXT_ROOM - 1, TEXT_ROOM + 1, 20_000)) if self.rng.random() < 0.1 else TEXT_ROOM

    def summaries(self) -> list[Summary]:
        """Those of a passed memory: few, or all that have room, or one less."""
        few = [self.summary() for _ in range(self.rng.randrange(6))]
        if self.rng.random() > 0.05:
            return few
        count = self.rng.choice((register.MAX_SUMMARIES - 1, register.MAX_SUMMARIES))
        pairs = self.rng.sample([(engine, model) for engine in range(32) for model in range(64)], count)
        return [Summary(engine, model, 0, self.inputs[0]) for engine, model in pairs]

    def convicted(self, held: int) -> int:
        """A few engines of which nothing is held."""
        return sum({1 << self.rng.randrange(32) for _ in range(self.rng.randrange(3))}) & ~held

    def signers(self) -> int:
        """At least one engine."""
        return 1 << self.rng.choice(self.engines) | 1 << self.rng.choice(self.engines)


def engines_of(summaries: Iterable[Summary], signers: Iterable[int]) -> int:
    """The engines of which something is held."""
    held = 0
    for summary in summaries:
        held |= 1 << summary.engine
    for signer in signers:
        held |= signer
    return held


def register_parts(world: World) -> list[Part]:
    """A passed register that no list of calls need lead to."""
    rng = world.rng
    count = rng.choice((register.MAX_RECORDS - 1, register.MAX_RECORDS)) if rng.random() < 0.05 else rng.randrange(20)
    records = {raw: Signed(record, world.signers()) for raw in (world.record() for _ in range(count)) if (record := read_record(raw))}
    summaries = world.summaries()
    held = engines_of(summaries, (signed.signers for signed in records.values()))
    return [Head(world.convicted(held)), *summaries, *records.values()]


def waiting_parts(world: World, parts: Sequence[Part]) -> list[Part]:
    """Fixes that may wait beside a passed track: mostly few, now and then as many as a shelf holds, or one less."""
    rng = world.rng
    head = (of_kind(parts, Head) or [Head(0)])[0]
    models = Models(of_kind(parts, Summary))
    missing = [model for model in (*world.models, rng.randrange(64)) if models.is_without_summary(model)]
    engines = [engine for engine in (*world.engines, rng.randrange(32)) if not head.convicted >> engine & 1]
    count = rng.choice((shelf.MAX_WAITING - 1, shelf.MAX_WAITING)) if rng.random() < 0.1 else rng.choice((0, 0, 1, 2, 5))
    waiting: list[Part] = []
    while missing and engines and len(waiting) < count:
        record = read_record(world.record(rng.choice(missing)))
        assert record is not None
        model = rng.choice([model for model in record.models if models.is_without_summary(model)])
        one = shelf.Waiting(model, rng.choice(engines), record)
        waiting += [one] if rng.random() < 0.95 or len(waiting) + 1 == count else [one, one]
    return waiting


def track_parts(world: World) -> list[Part]:
    """A passed track that no list of calls need lead to."""
    rng = world.rng
    summaries = list({track.pair_of(summary): summary for summary in world.summaries()}.values())
    models = Models(summaries)

    def checked() -> track.Fix:
        record = read_record(world.record())
        assert record is not None
        as_now = models.is_eligible(record) and rng.random() < 0.9
        return track.Fix(record, world.signers(), models.inputs_of(record) if as_now else rng.choice(world.inputs))

    again = [checked() for _ in range(rng.randrange(1, 8))]

    def fix() -> track.Fix:
        return replace(rng.choice(again), signers=world.signers()) if rng.random() < 0.5 else checked()

    def refused() -> track.RefusedFix:
        chi_square = rng.choice(ODD_CHI_SQUARES) if rng.random() < 0.8 else rng.getrandbits(64)
        return track.RefusedFix(fix(), rng.randbytes(32), chi_square)

    transmissions = [
        track.Transmission(
            tuple(fix() for _ in range(rng.randrange(1, track.MAX_STANDING + 1))),
            tuple(refused() for _ in range(rng.randrange(track.MAX_REFUSED + 1))),
        )
        for _ in range(rng.randrange(track.MAX_TRANSMISSIONS + 1))
    ]
    held = engines_of(summaries, (fix.signers for transmission in transmissions for fix in transmission.held))
    contested = rng.choice((0, 7, 2**64 - 1, rng.getrandbits(64)))
    return [Head(world.convicted(held), contested), *summaries, *transmissions]


def calls(world: World, kind: str, text: str, second_part: int, count: int, convictions: int = 4) -> list[Part]:
    """So many calls on a register or a track, and now and then a changed byte, which is mostly put back after the next call; it is among
    the first bytes, or among those from the records or the transmissions on."""
    rng = world.rng
    weights = {"report": 60, "summary": 23, "conviction": convictions, "text": 4, "preview": 5 if kind == "register" else 0, "flip": 4}
    made: list[Part] = []
    for name in rng.choices(list(weights), list(weights.values()), k=count):
        match name:
            case "report":
                made.append(Call(f"tl_{kind}_report", (world.engine(), world.reported())))
            case "summary":
                made.append(Call(f"tl_{kind}_summary", world.stated()))
            case "conviction":
                made.append(Call(f"tl_{kind}_conviction", (world.engine(),), desk=world.desk(kind)))
            case "text":
                made.append(Call(text, room=world.room(), desk=world.desk(kind)))
            case "preview":
                engine = world.engine() if rng.random() < 0.7 else rng.randrange(32)
                made.append(Call("tl_register_preview", (engine,), world.room(), world.desk(kind)))
            case "flip":
                behind = kind == "track" and rng.random() < 0.3
                at = rng.choice((0, 0, second_part)) if behind else rng.choice((0, 8, second_part))
                flip = Flip(at + rng.randrange(rng.choice((16, 1_000))), rng.randrange(1, 256), behind)
                made += [flip, Call(f"tl_{kind}_report", (world.engine(), world.record()))]
                made += [flip] if rng.random() < 0.8 else []
    return [*made, Call(text, room=TEXT_ROOM, desk=world.desk(kind))]


def list_length(rng: random.Random) -> int:
    """Mostly short, one in fifty with a hundred calls."""
    return rng.randrange(100, 130) if rng.random() < 0.02 else rng.randrange(1, 25)


def register_list(rng: random.Random, passed: bool) -> list[Part]:
    """A register, fresh or passed, and calls on it, with a board at the end."""
    world = World(rng)
    parts = register_parts(world) if passed else []
    return other_length(rng, parts, passed_register) + calls(world, "register", "tl_board", register.RECORDS_AT, list_length(rng))


def track_list(rng: random.Random, passed: bool) -> list[Part]:
    """A track and its shelf, fresh or passed, and calls on them, with a listing at the end."""
    world = World(rng)
    parts = track_parts(world) if passed else []
    parts += waiting_parts(world, parts) if passed else []
    count, convictions = (rng.randrange(1, 6), 30) if passed else (list_length(rng), 4)
    return other_length(rng, parts, passed_track) + calls(world, "track", "tl_track_listing", track.TRANSMISSIONS_AT, count, convictions)


def other_length(rng: random.Random, parts: list[Part], memory_of: Any) -> list[Part]:
    """Now and then a memory that is longer or shorter instead, or one behind it that is."""
    if rng.random() > 0.01:
        return parts
    memories = memory_of(parts)
    behind = len(memories) > 1 and rng.random() < 0.5
    raw = memories[behind]
    other = Raw(rng.choice((raw[:-1], raw + b"\0", raw[:8], b"")), behind)
    return [*parts, other] if behind else [other]


def item_list(rng: random.Random) -> list[bytes]:
    """Items of a decision, mostly few, almost always such as are not refused."""
    world = World(rng)
    world.tags = sorted(rng.sample(range(12), rng.randrange(2, 8)))
    flagged = rng.random() < 0.7
    ascending = flagged and rng.random() < 0.3
    size = rng.choice((96, 97)) if rng.random() < 0.01 else rng.randrange(14)
    items = []
    for _ in range(size):
        identity = rng.randbytes(32) if rng.random() < 0.999 else bytes(32)
        standing = rng.choice((0, 0, 1, 2, 2**64 - 1)) if flagged else 0
        flags = (rng.choice((0, 1, 1, 1, 255)), rng.choice((0, 0, 1, 2)), rng.choice((0, 1, 1, 2, 3, 255))) if flagged else (1, 0, 0)
        record = world.record() if rng.random() < 0.999 else world.reported()
        if ascending and (read := read_record(record)):
            # More tags, more standing: items that supersede are superseded in their turn.
            standing, flags = len(read.tags), (1, flags[1], 1 if rng.random() < 0.9 else flags[2])
        items.append(struct.pack(f"<{RECORD_SIZE}s32s32sQ3B", record.ljust(RECORD_SIZE, b"\0"), rng.choice(world.inputs), identity, standing, *flags))
    if items and rng.random() < 0.02:
        items[-1] = rng.choice((items[-1][:-1], items[-1] + b"\0", items[0], items[-1][:ITEM_SIZE // 2]))
    return items


def session_lines(rng: random.Random) -> list[bytes]:
    """The lines of a session."""
    world = World(rng)
    world.models = rng.sample(range(66), 2) if rng.random() < 0.1 else world.models
    lines: list[bytes] = []
    for _ in range(rng.choice((0, 1, 2, *range(3, 30)))):
        choice = rng.random()
        if choice < 0.65:
            lines += report_lines(min(world.engine(), 255), world.record())
        elif choice < 0.92:
            engine, model, spec, inputs = world.stated()
            digits = inputs.ljust(32, b"\0")[:32].hex()
            lines += lines_of(op="summary", engine=min(engine, 255), model=min(model, 255), spec=spec, inputs=digits)
        else:
            lines += lines_of(op="convict", engine=min(world.engine(), 255))
    return lines


def report_lines(engine: int, raw: bytes) -> list[bytes]:
    """A report of these 288 bytes, whose counts are not over their limits."""
    time, lat, lon, has_height, height, length, message, count, used, *rest = struct.unpack(f"<QiiBiB14sBI{MAX_TAGS}QB4BH48s", raw)
    tags, (cited, *models), (spec, numbers) = rest[:count], rest[MAX_TAGS : MAX_TAGS + 5], rest[MAX_TAGS + 5 :]
    return lines_of(
        op="report", engine=engine, time=time, lat=lat, lon=lon, height=height if has_height else "none", message=message[:length].hex(),
        tags=",".join(map(str, tags)), used=used, models=",".join(map(str, models[:cited])) or "none", spec=spec,
        cov="".join(numbers[at:at + 8][::-1].hex() for at in range(0, 48, 8))
    )


def lines_of(**values: Any) -> list[bytes]:
    """A line `key=value` of each."""
    return [f"{key}={value}\n".encode("ascii") for key, value in values.items()]


def operations_of(data: bytes) -> list[bytes]:
    """The session in parts, each from one `op=` to before the next."""
    return [part for part in re.split(rb"^(?=op=)", data, flags=re.MULTILINE) if part]


def without_a_line(operation: bytes) -> Iterator[bytes]:
    """The part of a session with one line less."""
    lines = operation.split(b"\n")
    for at in range(len(lines)):
        yield b"\n".join(lines[:at] + lines[at + 1:])


ODD_VALUES = (
    b"", b"0", b"00", b"+1", b"01", b"255", b"256", b"65535", b"65536", b"4294967295", b"4294967296", b"18446744073709551615", b"18446744073709551616", b"none",
    b"None", b"1,", b",1", b"1,2", b"1,2,3,4,5", b"0,1,63,64", b"1, 2", b" 1", b"1 ", b"1\r", b"\xc2\xb2", b"\xd9\xa1", b"1\0",
    b"1_0", b"a", b"AB", b"=", b"9" * 5000
)
ODD_SIGNED_VALUES = (
    b"-0", b"-1", b"-01", b"+0", b"--1", b"-", b"2147483647", b"2147483648", b"-2147483648", b"-2147483649", b"none", b"-none"
)
SIGNED_KEYS = b"lat", b"lon", b"height"


def odd_value(rng: random.Random, key: bytes) -> bytes:
    """A value that may not be of the form that this key has."""
    return rng.choice(ODD_SIGNED_VALUES if key in SIGNED_KEYS and rng.random() < 0.7 else ODD_VALUES)


def damaged(rng: random.Random, lines: list[bytes]) -> list[bytes]:
    """The lines with one thing wrong, or only odd."""
    lines = lines or [b"\n"]
    signed = [at for at, line in enumerate(lines) if line.startswith(SIGNED_KEYS)]
    at = rng.choice(signed) if signed and rng.random() < 0.3 else rng.randrange(len(lines))
    key, _, value = lines[at].rstrip(b"\n").partition(b"=")
    place = rng.randrange(len(value) + 1)
    changed = rng.choice((
        *[[key + b"=" + odd_value(rng, key) + b"\n"]] * 5,
        [key + b"=" + value[:place] + rng.randbytes(1) + value[place:] + b"\n"],
        [key + b"=" + value[:place] + value[place + 1:] + b"\n"], [key + b"=" + value.upper() + b"\n"],
        [], [lines[at], lines[at]], [b"\n", lines[at]], [lines[at][:-1]], [lines[at][:-1] + b"\r\n"], [key.upper() + b"=" + value + b"\n"],
        [b" " + lines[at]], [key + b"\n"], [b"op=\n"], [lines[at], b"op=reports\n"]
    ))
    lines = [*lines[:at], *changed, *lines[at + 1:]]
    kind = rng.random()
    if kind < 0.15:
        whole = b"".join(lines)
        return [whole[:rng.randrange(len(whole) + 1)]]
    if kind < 0.22:
        fill = b"op=convict\nengine=9\n" * 3_300
        return [b"".join(lines) + fill[:rng.choice((65_535, 65_536, 65_537)) - len(b"".join(lines))]]
    return lines
