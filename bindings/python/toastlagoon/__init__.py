"""The register, board and track of one aircraft, for control rooms: a library proved in Rattle, called from Python.

    from toastlagoon import Covariance, Desk, Fields, Record, Register

    record = Record(Fields(time=1731679200000000000, lat=481372700, lon=115820000, message=bytes(7), tags=(101, 102), used=3,
                           covariance=Covariance.diagonal(100.0)))
    register = Register()
    register.report(2, record)
    print(register.board(Desk.MANAGER), end="")

What each call does is in docs/REFERENCE.md of the library. A refused call raises Error and changes nothing. Before the call OverflowError is
raised for a number that does not fit the type that the library takes, TypeError for what is no number or no bytes, and ValueError for a wrong
length.

Threads: ctypes lets go of the interpreter's lock during a call, so two threads that use one register or one track at once really race.
Give each register and each track a lock of its own. Different ones need none.

Stack: a preview takes up to 144 KB of the calling thread's stack, a board, a map, the fixes and a call on a track up to 112 KB; a thread with
a smaller one (threading.stack_size) ends the process with a segmentation fault.

Floating point: call with the mode that a thread begins with, rounding to nearest, with denormals and nothing unmasked. Another one changes
chi-squares, and so which fixes are refused.
"""

import ctypes
import enum
import struct
from dataclasses import dataclass
from typing import Any, Callable, List, NamedTuple, Optional, Sequence, Tuple, Union

from . import _constants as tl
from ._library import array, content_of, library, number, numbers, part, real, zeros

__all__ = [
    "Agreement", "Answer", "Claim", "Covariance", "Desk", "Effect", "Error", "Fault", "Fields", "Held", "Item", "Kind", "Outcome", "Record",
    "Refusal", "Register", "Role", "Shelf", "Shown", "Summary", "Track", "Verdict", "Waiting", "agreement", "blake2s256", "decide", "decide_any",
    "horizontal_sigma", "root", "session_reason", "version",
]  # fmt: skip


class Kind(enum.IntEnum):
    """Why a call was refused; the numbers are those of the library's header."""

    MALFORMED = tl.TL_MALFORMED_REGISTER
    ENGINE_OVER_31 = tl.TL_ENGINE_OVER_31
    MALFORMED_RECORD = tl.TL_MALFORMED_RECORD
    ENGINE_CONVICTED = tl.TL_ENGINE_CONVICTED
    FULL = tl.TL_FULL
    MODEL_DISPUTED = tl.TL_MODEL_DISPUTED
    BAD_ITEMS = tl.TL_BAD_ITEMS
    BAD_SUMMARY = tl.TL_BAD_SUMMARY
    BAD_LINE = tl.TL_BAD_LINE
    SESSION_TOO_LONG = tl.TL_SESSION_TOO_LONG
    SHELF_FULL = tl.TL_SHELF_FULL
    NO_RIGHT = tl.TL_NO_RIGHT
    BAD_LENGTH = tl.TL_BAD_LENGTH
    MODEL_MISSING = tl.TL_WAITING


class Error(Exception):
    """A call was refused, and nothing has changed. Its text has the library's words."""

    def __init__(self, answer: int) -> None:
        words = zeros(tl.TL_ANSWER_TEXT_SIZE)
        length = library.tl_answer_text(answer, words, len(words))
        super().__init__(part(words, 0, length).decode("ascii"))
        self.kind = Kind(answer)

    def __reduce__(self) -> Tuple[Any, ...]:
        return type(self), (int(self.kind),)


def _done(answer: int) -> None:
    if answer != tl.TL_OK:
        raise Error(answer)


def _written(size: int, least: int, call: Callable[..., int]) -> str:
    """The text that a call writes. What it returns is a length where it is 0 or at least `least`, and a refusal else."""
    out = zeros(size)
    length = call(out, size)
    if 0 < length < least:
        raise Error(length)
    return part(out, 0, length).decode("ascii")


def version() -> int:
    """The version of the library: a million for each major number, a thousand for each minor one."""
    return int(library.tl_version())


def blake2s256(content: bytes) -> bytes:
    """The BLAKE2s-256 hash (RFC 7693, no key) of any bytes."""
    out = zeros(tl.TL_HASH_SIZE)
    given = content_of("content", content)
    library.tl_blake2s256(array("content", given), len(given), out)
    return bytes(out)


def root(x: float) -> float:
    """The square root, rounded to nearest. NaN for NaN and for a negative number."""
    return float(library.tl_root(real("x", x)))


class Covariance(NamedTuple):
    """In m^2; x is east, y north and z up."""

    xx: float = 0.0
    xy: float = 0.0
    xz: float = 0.0
    yy: float = 0.0
    yz: float = 0.0
    zz: float = 0.0

    @classmethod
    def diagonal(cls, variance: float) -> "Covariance":
        """The same variance on each axis, in m^2, and no other terms."""
        return cls(xx=variance, yy=variance, zz=variance)


def horizontal_sigma(covariance: Covariance) -> float:
    """The horizontal deviation in metres of a covariance; 0.0 where the sum of the two horizontal variances is NaN or not above zero, so a
    circle of 0 m says that nothing is known."""
    return float(library.tl_horizontal_sigma(*_covariance(covariance)))


def _covariance(covariance: Sequence[float]) -> Tuple[float, ...]:
    """Six numbers; ValueError where there are more or fewer."""
    found = tuple(real("covariance", value) for value in covariance)
    if len(found) != 6:
        raise ValueError(f"covariance has {len(found)} numbers and must have 6: xx, xy, xz, yy, yz, zz")
    return found


@dataclass(frozen=True)
class Claim:
    """A fix, as far as an agreement looks at it: latitude and longitude in 1e-7 degree, height in millimetres where it is known."""

    lat: int
    lon: int
    height: Optional[int]
    covariance: Covariance


class Outcome(enum.IntEnum):
    """What an agreement is."""

    INSIDE = tl.TL_INSIDE
    OUTSIDE = tl.TL_OUTSIDE
    UNMEASURABLE = tl.TL_UNMEASURABLE


@dataclass(frozen=True)
class Agreement:
    """Whether a larger fix lies within a smaller one's uncertainty. UNMEASURABLE has neither number, and counts as disagreeing."""

    outcome: Outcome
    chi2: Optional[float]
    limit: Optional[float]


def _height(height: Optional[int]) -> Tuple[bool, int]:
    return height is not None, number("height", 0 if height is None else height, ctypes.c_int32)


def _claim(claim: Claim) -> Tuple[Union[int, float], ...]:
    place = number("lat", claim.lat, ctypes.c_int32), number("lon", claim.lon, ctypes.c_int32)
    return (*place, *_height(claim.height), *_covariance(claim.covariance))


def agreement(smaller: Claim, larger: Claim) -> Agreement:
    """Whether the larger fix lies within the smaller one's uncertainty."""
    chi2, limit = ctypes.c_double(), ctypes.c_double()
    outcome = Outcome(library.tl_agreement(*_claim(smaller), *_claim(larger), ctypes.byref(chi2), ctypes.byref(limit)))
    if outcome == Outcome.UNMEASURABLE:
        return Agreement(outcome, None, None)
    return Agreement(outcome, chi2.value, limit.value)


@dataclass(frozen=True)
class Fields:
    """What a record says; what is left out it does not say."""

    time: int
    """Transmit time, in nanoseconds."""
    lat: int
    """Latitude, in 1e-7 degree."""
    lon: int
    """Longitude, in 1e-7 degree."""
    message: bytes
    """7 or 14 bytes."""
    tags: Sequence[int]
    """1 to 24, strictly ascending."""
    used: int
    """Bit i for the i-th tag, from 0."""
    covariance: Covariance
    """In m^2; every bit is kept."""
    height: Optional[int] = None
    """Height in millimetres, where it is known."""
    models: Sequence[int] = ()
    """Up to 4 models that the record cites, each at most 63."""
    spec: int = 0
    """The spec of the models."""


class Fault(enum.IntEnum):
    """The first check that bytes fail which are no record, in the order in which a record's fields stand."""

    LENGTH = tl.TL_FAULT_LENGTH
    HEIGHT_FLAG = tl.TL_FAULT_HEIGHT_FLAG
    HEIGHT_ROOM = tl.TL_FAULT_HEIGHT_ROOM
    MESSAGE_LENGTH = tl.TL_FAULT_MESSAGE_LENGTH
    MESSAGE_ROOM = tl.TL_FAULT_MESSAGE_ROOM
    NO_TAG = tl.TL_FAULT_NO_TAG
    TOO_MANY_TAGS = tl.TL_FAULT_TOO_MANY_TAGS
    USED_MASK = tl.TL_FAULT_USED_MASK
    TAG_ORDER = tl.TL_FAULT_TAG_ORDER
    TAG_ROOM = tl.TL_FAULT_TAG_ROOM
    TOO_MANY_MODELS = tl.TL_FAULT_TOO_MANY_MODELS
    MODEL = tl.TL_FAULT_MODEL
    MODEL_ROOM = tl.TL_FAULT_MODEL_ROOM

    @classmethod
    def of(cls, content: bytes) -> Optional["Fault"]:
        """Why these bytes are no record; None where they are one."""
        given = content_of("content", content)
        found = library.tl_record_fault(array("content", given), len(given))
        return None if found == tl.TL_FAULT_NONE else cls(found)


class Record:
    """A record: what an engine reports. Two are equal where their bytes are."""

    __slots__ = ("_bytes",)
    _bytes: bytes

    def __init__(self, fields: Fields) -> None:
        """The record that says this; Kind.MALFORMED_RECORD where none does."""
        out = zeros(tl.TL_RECORD_SIZE)
        tags = numbers("tags", fields.tags, ctypes.c_uint64)
        models = numbers("models", fields.models, ctypes.c_uint8)
        used, spec = number("used", fields.used, ctypes.c_uint32), number("spec", fields.spec, ctypes.c_uint16)
        lat, lon = number("lat", fields.lat, ctypes.c_int32), number("lon", fields.lon, ctypes.c_int32)
        time = number("time", fields.time, ctypes.c_uint64)
        covariance = (ctypes.c_double * 6)(*_covariance(fields.covariance))
        message = array("message", fields.message), len(fields.message)
        counted = tags, len(fields.tags), used, models, len(fields.models)
        _done(library.tl_record_write(time, lat, lon, *_height(fields.height), *message, *counted, spec, covariance, out))
        self._bytes = bytes(out)

    @classmethod
    def _found(cls, content: bytes) -> "Record":
        record = cls.__new__(cls)
        record._bytes = content
        return record

    @classmethod
    def from_bytes(cls, content: bytes) -> "Record":
        """The record that these bytes are; Kind.MALFORMED_RECORD where they are none, and Fault.of says why."""
        if Fault.of(content) is not None:
            raise Error(tl.TL_MALFORMED_RECORD)
        return cls._found(bytes(content))

    def as_bytes(self) -> bytes:
        """Its bytes."""
        return self._bytes

    def identity(self, inputs: bytes) -> bytes:
        """Its identity with these model inputs, as Register.inputs has them."""
        out = zeros(tl.TL_IDENTITY_SIZE)
        _done(library.tl_record_identity(array("record", self._bytes), len(self._bytes), _hash("inputs", inputs), out))
        return bytes(out)

    def fields(self) -> Fields:
        """What it says."""
        (time, lat, lon) = struct.unpack_from("<Qii", self._bytes, tl.TL_RECORD_TIME_AT)
        (height,) = struct.unpack_from("<i", self._bytes, tl.TL_RECORD_HEIGHT_AT)
        (used,) = struct.unpack_from("<I", self._bytes, tl.TL_RECORD_USED_AT)
        (spec,) = struct.unpack_from("<H", self._bytes, tl.TL_RECORD_SPEC_AT)
        count = self._bytes[tl.TL_RECORD_TAG_COUNT_AT]
        message_end = tl.TL_RECORD_MESSAGE_AT + self._bytes[tl.TL_RECORD_MESSAGE_LENGTH_AT]
        models_end = tl.TL_RECORD_MODELS_AT + self._bytes[tl.TL_RECORD_MODEL_COUNT_AT]
        return Fields(
            time=time,
            lat=lat,
            lon=lon,
            message=self._bytes[tl.TL_RECORD_MESSAGE_AT : message_end],
            tags=struct.unpack_from(f"<{count}Q", self._bytes, tl.TL_RECORD_TAGS_AT),
            used=used,
            covariance=Covariance(*struct.unpack_from("<6d", self._bytes, tl.TL_RECORD_XX_AT)),
            height=height if self._bytes[tl.TL_RECORD_HAS_HEIGHT_AT] else None,
            models=tuple(self._bytes[tl.TL_RECORD_MODELS_AT : models_end]),
            spec=spec,
        )

    def __eq__(self, other: object) -> bool:
        return isinstance(other, Record) and self._bytes == other._bytes

    def __hash__(self) -> int:
        return hash(self._bytes)

    def __repr__(self) -> str:
        return f"Record({self.fields()!r})"


def _hash(name: str, content: bytes) -> object:
    given = content_of(name, content)
    if len(given) != tl.TL_HASH_SIZE:
        raise ValueError(f"{name} has {len(given)} bytes and must have {tl.TL_HASH_SIZE}")
    return array(name, given)


class Desk(enum.IntEnum):
    """Who asks; the library believes it."""

    CREW = tl.TL_CREW
    """Its board has the ranked lines alone."""
    ANALYST = tl.TL_ANALYST
    """Has the full board, and previews a conviction."""
    MANAGER = tl.TL_MANAGER
    """May do everything: a manager alone convicts."""


class Held(NamedTuple):
    """A record that a register holds, and by which engines: bit n for engine n."""

    record: Record
    signers: int


class Summary(NamedTuple):
    """What an engine says of a model: its spec and the hash of its inputs."""

    engine: int
    model: int
    spec: int
    inputs: bytes


def _engine(engine: int) -> int:
    return number("engine", engine, ctypes.c_uint32)


def _summary(engine: int, model: int, spec: int, inputs: bytes) -> Tuple[object, ...]:
    model, spec = number("model", model, ctypes.c_uint32), number("spec", spec, ctypes.c_uint16)
    return _engine(engine), model, spec, array("inputs", inputs), len(inputs)


def _record(record: object) -> Tuple[object, int]:
    if not isinstance(record, Record):
        raise TypeError(f"record is a {type(record).__name__} and must be a Record")
    content = record.as_bytes()
    return array("record", content), len(content)


def _memory_of(name: str, other: object) -> Any:
    if not isinstance(other, Register):
        raise TypeError(f"{name} is a {type(other).__name__} and must be a Register")
    return other._memory


class Role(enum.IntEnum):
    """What is decided of a fix in its transmission."""

    RANKED = tl.TL_RANKED
    DOMINATED = tl.TL_DOMINATED
    REFUSED = tl.TL_REFUSED


class Shown(NamedTuple):
    """A fix of a board: one for each line of the full board."""

    transmission: int
    """The number of its transmission, from 1."""
    role: Role
    """What is decided of it."""
    place: int
    """The record that represents it, by its place among Register.records."""
    signers: int
    """The engines that reported a record of its identity: bit n for engine n."""
    identity: bytes
    """Its identity."""
    against: Optional[int]
    """The fix that it is refused against, by its index on the board."""
    chi_square: Optional[float]
    """The chi-square between the two, where there is one."""


def _shown(content: bytes) -> Shown:
    role = Role(content[tl.TL_SHOWN_ROLE_AT])
    (signers,) = struct.unpack_from("<I", content, tl.TL_SHOWN_SIGNERS_AT)
    (chi_square,) = struct.unpack_from("<d", content, tl.TL_SHOWN_CHI2_AT)
    return Shown(
        transmission=content[tl.TL_SHOWN_NUMBER_AT],
        role=role,
        place=content[tl.TL_SHOWN_PLACE_AT],
        signers=signers,
        identity=content[tl.TL_SHOWN_IDENTITY_AT : tl.TL_SHOWN_IDENTITY_AT + tl.TL_IDENTITY_SIZE],
        against=content[tl.TL_SHOWN_AGAINST_AT] if role == Role.REFUSED else None,
        chi_square=chi_square if content[tl.TL_SHOWN_MEASURED_AT] else None,
    )


def _session(session: Union[str, bytes]) -> bytes:
    return session.encode() if isinstance(session, str) else content_of("session", session)


def session_reason(session: Union[str, bytes]) -> Optional[str]:
    """Why a session is refused, in a sentence that ends with a line feed; None where it is not refused."""
    content, out = _session(session), zeros(tl.TL_REASON_SIZE)
    length = library.tl_session_reason(array("session", content), len(content), out)
    return part(out, 0, length).decode("ascii") or None


class Register:
    """Every report of one aircraft and one window of time. Two are equal where all of their bytes are."""

    __slots__ = ("_memory",)

    def __init__(self) -> None:
        """An empty register."""
        self._memory = zeros(tl.TL_REGISTER_SIZE)

    @classmethod
    def from_bytes(cls, content: bytes) -> "Register":
        """A stored register: Kind.BAD_LENGTH where it has another length, Kind.MALFORMED where it is not well-formed."""
        given = content_of("content", content)
        if len(given) != tl.TL_REGISTER_SIZE:
            raise Error(tl.TL_BAD_LENGTH)
        register = cls()
        register._memory = array("content", given)
        # Shown no room for a board, the library says so only of a register that is well-formed.
        answer = library.tl_board(tl.TL_MANAGER, register._memory, len(given), zeros(1), 0)
        if answer != tl.TL_OUTPUT_TOO_SMALL:
            raise Error(answer)
        return register

    def as_bytes(self) -> bytes:
        """Its bytes, to be stored."""
        return bytes(self._memory)

    def copy(self) -> "Register":
        """Another register with the same bytes."""
        other = Register()
        other._memory = array("content", memoryview(self._memory))
        return other

    def __copy__(self) -> "Register":
        return self.copy()

    def __deepcopy__(self, memo: object) -> "Register":
        return self.copy()

    def __reduce__(self) -> Tuple[Any, ...]:
        return Register.from_bytes, (self.as_bytes(),)

    def report(self, engine: int, record: Record) -> None:
        """Reports a record for an engine. One that cites a model without an agreed summary is held, and is on no board until it is
        agreed."""
        _done(library.tl_register_report(self._memory, len(self._memory), _engine(engine), *_record(record)))

    def summary(self, engine: int, model: int, spec: int, inputs: bytes) -> None:
        """Puts in what an engine says of a model: its spec and the hash of its inputs."""
        _done(library.tl_register_summary(self._memory, len(self._memory), *_summary(engine, model, spec, inputs)))

    def convict(self, desk: Desk, engine: int) -> None:
        """Convicts an engine: removes all that it reported, before and after. A manager alone may."""
        _done(library.tl_register_conviction(Desk(desk), self._memory, len(self._memory), _engine(engine)))

    def perform(self, session: Union[str, bytes]) -> List[Optional[Kind]]:
        """Performs the operations of a session, a text of lines, as a manager: for each why it was refused, or None where it is done. Raises
        Kind.SESSION_TOO_LONG or Kind.BAD_LINE where the session is refused: then none is performed, and session_reason says why."""
        content, out = _session(session), zeros(tl.TL_SESSION_SIZE)
        length = library.tl_register_session(self._memory, len(self._memory), array("session", content), len(content), out, len(out))
        if length % tl.TL_ANSWER_LINE_SIZE:
            raise Error(length)
        # The digit of a line stands before its line feed.
        answers = [int(chr(digit)) for digit in part(out, 0, length)[tl.TL_ANSWER_LINE_SIZE - 2 :: tl.TL_ANSWER_LINE_SIZE]]
        return [None if answer == tl.TL_OK else Kind(answer) for answer in answers]

    def join(self, other: "Register") -> None:
        """Joins what another register of the same aircraft and window holds. Kind.FULL where both together hold too much."""
        theirs = array("other", memoryview(_memory_of("other", other)))
        _done(library.tl_register_join(self._memory, len(self._memory), theirs, len(theirs)))

    def lacks(self, other: "Register") -> "Register":
        """What another register holds and this one does not: a register too, empty exactly where joining the other changes nothing."""
        out, theirs = Register(), _memory_of("other", other)
        _done(library.tl_register_lacks(self._memory, len(self._memory), theirs, len(theirs), out._memory, len(out._memory)))
        return out

    def board(self, desk: Desk) -> str:
        """The board, in the form of a desk; empty where no transmission is shown."""
        call = lambda out, size: library.tl_board(Desk(desk), self._memory, len(self._memory), out, size)  # noqa: E731
        return _written(tl.TL_BOARD_SIZE, tl.TL_MIN_CREW_LENGTH, call)

    def preview(self, desk: Desk, engine: int) -> str:
        """The full board as it would be if an engine were convicted. An analyst and a manager may."""
        asked = Desk(desk), self._memory, len(self._memory), _engine(engine)
        return _written(tl.TL_BOARD_SIZE, tl.TL_MIN_LENGTH, lambda out, size: library.tl_register_preview(*asked, out, size))

    def map(self) -> str:
        """The position to show of each transmission on the board, as GeoJSON in one line."""
        call = lambda out, size: library.tl_register_map(self._memory, len(self._memory), out, size)  # noqa: E731
        return _written(tl.TL_MAP_SIZE, tl.TL_MIN_MAP_LENGTH, call)

    def fixes(self) -> List[Shown]:
        """The fixes of the board as values: one for each line of the full board, in the order of the lines."""
        out = zeros(tl.TL_FIXES_SIZE)
        length = library.tl_register_fixes(self._memory, len(self._memory), out, len(out))
        if length == tl.TL_MALFORMED_REGISTER:
            raise Error(length)
        return [_shown(part(out, at, at + tl.TL_SHOWN_SIZE)) for at in range(0, length, tl.TL_SHOWN_SIZE)]

    def inputs(self, record: Record) -> bytes:
        """The model inputs of a record by the summaries here. Kind.MODEL_MISSING and Kind.MODEL_DISPUTED say why one that is held is on
        no board."""
        out = zeros(tl.TL_INPUTS_SIZE)
        _done(library.tl_register_inputs(self._memory, len(self._memory), *_record(record), out))
        return bytes(out)

    def to_columns(self) -> bytes:
        """The bytes turned for an archive that packs them; from_columns undoes it."""
        out = zeros(tl.TL_REGISTER_SIZE)
        _done(library.tl_register_columns(self._memory, len(self._memory), out, len(out)))
        return bytes(out)

    @classmethod
    def from_columns(cls, columns: bytes) -> "Register":
        """A register from an archive."""
        out = zeros(tl.TL_REGISTER_SIZE)
        given = content_of("columns", columns)
        _done(library.tl_register_uncolumns(array("columns", given), len(given), out, len(out)))
        return cls.from_bytes(bytes(out))

    @property
    def convicted(self) -> int:
        """The convicted engines: bit n for engine n."""
        return int(struct.unpack_from("<I", self._memory, tl.TL_REGISTER_CONVICTED_AT)[0])

    def records(self) -> List[Held]:
        """The records that it holds now, in byte order."""
        content = self.as_bytes()
        (count,) = struct.unpack_from("<H", content, tl.TL_REGISTER_RECORD_COUNT_AT)

        def held(at: int) -> Held:
            (signers,) = struct.unpack_from("<I", content, at + tl.TL_HELD_SIGNERS_AT)
            return Held(Record._found(content[at : at + tl.TL_RECORD_SIZE]), signers)

        return [held(tl.TL_REGISTER_RECORDS_AT + i * tl.TL_HELD_SIZE) for i in range(count)]

    def summaries(self) -> List[Summary]:
        """The summaries that it holds now, in byte order."""
        content = self.as_bytes()
        (count,) = struct.unpack_from("<H", content, tl.TL_REGISTER_SUMMARY_COUNT_AT)
        places = (tl.TL_REGISTER_SUMMARIES_AT + i * tl.TL_SUMMARY_SIZE for i in range(count))
        return [Summary(*struct.unpack_from("<BBH32s", content, at)) for at in places]

    def __eq__(self, other: object) -> bool:
        return isinstance(other, Register) and self.as_bytes() == other.as_bytes()

    __hash__ = None  # type: ignore[assignment]


class Effect(enum.IntEnum):
    """What a report did to a track."""

    CHANGED = tl.TL_CHANGED
    """A fix of its identity stands, or the transmission that it joined has another first fix than before."""
    CONTESTED = tl.TL_CONTESTED
    """A smaller fix disagrees with it, and it is kept among the refused."""
    DUPLICATE = tl.TL_DUPLICATE
    """Its identity was held, and gained the signer."""
    DROPPED = tl.TL_DROPPED
    """It is not kept."""
    WAITING = tl.TL_WAITING
    """A model that it cites has no summary: it waits on the shelf."""


class Waiting(NamedTuple):
    """A fix that waits beside a track: the model that it waits for, the engine that reported it, and the record."""

    model: int
    engine: int
    record: Record


class Shelf:
    """The shelf beside a track: the fixes that came before a summary of each model that they cite. Track has it."""

    __slots__ = ("_memory",)

    def __init__(self) -> None:
        """An empty shelf."""
        self._memory = zeros(tl.TL_SHELF_SIZE)

    def as_bytes(self) -> bytes:
        """Its bytes, to be stored with those of its track."""
        return bytes(self._memory)

    def waiting(self) -> List[Waiting]:
        """The fixes that wait now, in their order."""
        content = self.as_bytes()

        def waits(at: int) -> Waiting:
            record = Record._found(content[at + tl.TL_WAITING_RECORD_AT : at + tl.TL_WAITING_SIZE])
            return Waiting(content[at + tl.TL_WAITING_MODEL_AT], content[at + tl.TL_WAITING_ENGINE_AT], record)

        return [waits(tl.TL_SHELF_PLACES_AT + i * tl.TL_WAITING_SIZE) for i in range(content[tl.TL_SHELF_COUNT_AT])]

    def __copy__(self) -> "Shelf":
        other = Shelf()
        other._memory = array("content", memoryview(self._memory))
        return other

    def __deepcopy__(self, memo: object) -> "Shelf":
        return self.__copy__()

    def __reduce__(self) -> str:
        raise TypeError("a shelf is one only with its track: store both, and read them by Track.from_bytes")


class Track:
    """What the merge of sky-commons/tally holds of one aircraft, decided report by report, with its shelf. It depends on the order of the
    calls."""

    __slots__ = ("_memory", "shelf")
    shelf: Shelf
    """The shelf beside it."""

    def __init__(self) -> None:
        """An empty track and an empty shelf."""
        self._memory = zeros(tl.TL_TRACK_SIZE)
        self.shelf = Shelf()

    @classmethod
    def from_bytes(cls, memory: bytes, shelf: bytes) -> "Track":
        """A stored track and its shelf; Kind.MALFORMED where the one is no track, or the other no shelf of it."""
        given, waiting = content_of("memory", memory), content_of("shelf", shelf)
        if len(given) != tl.TL_TRACK_SIZE or len(waiting) != tl.TL_SHELF_SIZE:
            raise Error(tl.TL_MALFORMED_TRACK)
        track = cls()
        track._memory = array("memory", given)
        track.shelf._memory = array("shelf", waiting)
        # An engine that there is not is refused, after a track or a shelf that is none.
        try:
            track.convict(tl.TL_MAX_ENGINE + 1)
        except Error as error:
            if error.kind != Kind.ENGINE_OVER_31:
                raise
        return track

    def copy(self) -> "Track":
        """Another track, with a shelf of its own, with the same bytes."""
        other = Track()
        other._memory = array("memory", memoryview(self._memory))
        other.shelf = self.shelf.__copy__()
        return other

    def __copy__(self) -> "Track":
        return self.copy()

    def __deepcopy__(self, memo: object) -> "Track":
        return self.copy()

    def __reduce__(self) -> Tuple[Any, ...]:
        return Track.from_bytes, (self.as_bytes(), self.shelf.as_bytes())

    def _both(self) -> Tuple[object, ...]:
        return self._memory, len(self._memory), self.shelf._memory, len(self.shelf._memory)

    def as_bytes(self) -> bytes:
        """Its bytes, to be stored with those of its shelf."""
        return bytes(self._memory)

    def report(self, engine: int, record: Record) -> Effect:
        """Reports a record for an engine."""
        answer = library.tl_track_report(*self._both(), _engine(engine), *_record(record))
        if answer not in list(Effect):
            raise Error(answer)
        return Effect(answer)

    def summary(self, engine: int, model: int, spec: int, inputs: bytes) -> None:
        """Puts in what an engine says of a model; what waited for the model is tried."""
        _done(library.tl_track_summary(*self._both(), *_summary(engine, model, spec, inputs)))

    def convict(self, engine: int) -> None:
        """Convicts an engine."""
        _done(library.tl_track_conviction(*self._both(), _engine(engine)))

    def listing(self) -> str:
        """The listing: its transmissions and their fixes."""
        call = lambda out, size: library.tl_track_listing(self._memory, len(self._memory), out, size)  # noqa: E731
        return _written(tl.TL_LISTING_SIZE, tl.TL_OUTPUT_TOO_SMALL + 1, call)

    @property
    def convicted(self) -> int:
        """The convicted engines: bit n for engine n."""
        return int(struct.unpack_from("<I", self._memory, tl.TL_TRACK_CONVICTED_AT)[0])

    @property
    def contested(self) -> int:
        """How many reports were contested."""
        return int(struct.unpack_from("<Q", self._memory, tl.TL_TRACK_CONTESTED_AT)[0])


class Verdict(enum.IntEnum):
    """What a check of an item said."""

    UNJUDGED = tl.TL_UNJUDGED
    PASSED = tl.TL_PASSED
    FAILED = tl.TL_FAILED


@dataclass(frozen=True)
class Item:
    """A fix that is decided on: its record, its model inputs (Register.inputs) and identity (Record.identity)."""

    record: Record
    inputs: bytes
    identity: bytes
    standing: int = 0
    """The greater ranks first."""
    consistent: bool = True
    """An item that is not consistent refuses nobody."""
    preferred: bool = False
    verified: Verdict = Verdict.UNJUDGED


class Refusal(NamedTuple):
    """An item that is refused, and the one that it is refused against, by their indices; whether that one supersedes it (else it is
    contested); and the chi-square between the two, where there is one."""

    index: int
    against: int
    superseded: bool
    chi2: Optional[float]


class Answer(NamedTuple):
    """What is decided of one transmission's items, by their indices: those that stand, the first in rank first; those that a larger one
    repeats; those with which a smaller one disagrees."""

    ranked: Tuple[int, ...]
    dominated: Tuple[int, ...]
    refusals: Tuple[Refusal, ...]


def _item(item: Item) -> bytes:
    _hash("inputs", item.inputs)
    _hash("identity", item.identity)
    standing = number("standing", item.standing, ctypes.c_uint64)
    flags = struct.pack("<QBBB", standing, bool(item.consistent), bool(item.preferred), Verdict(item.verified))
    return item.record.as_bytes() + item.inputs + item.identity + flags


def _decided(call: Callable[..., int], items: Sequence[Item]) -> Answer:
    content, memory = b"".join(map(_item, items)), zeros(tl.TL_ANSWER_SIZE)
    _done(call(array("items", content), len(content), memory))
    out = bytes(memory)
    indices = [tuple(out[at + 1 : at + 1 + out[at]]) for at in (tl.TL_RANKED_AT, tl.TL_DOMINATED_AT)]
    refusals = []
    for i in range(out[tl.TL_REFUSALS_AT]):
        read = struct.unpack_from("<BBBBd", out, tl.TL_REFUSALS_AT + 1 + i * tl.TL_REFUSAL_SIZE)
        refusals.append(Refusal(read[0], read[1], read[2] == 1, read[4] if read[3] else None))
    return Answer(indices[0], indices[1], tuple(refusals))


def decide(items: Sequence[Item]) -> Answer:
    """Which of one transmission's items stand, which are dominated and which are refused; the last two by ascending index."""
    return _decided(library.tl_decide, items)


def decide_any(items: Sequence[Item]) -> Answer:
    """The same decision for items in no fixed order: the dominated and the refusals are by ascending identity."""
    return _decided(library.tl_decide_any, items)
