"""The shared library's functions, with the types of their arguments, and how bytes and numbers are passed."""

import ctypes
import operator
import os
from ctypes import c_bool, c_double, c_int32, c_size_t, c_uint8, c_uint16, c_uint32, c_uint64
from pathlib import Path
from typing import Any, Sequence, SupportsIndex, Type

from . import _constants as tl

U8 = ctypes.POINTER(c_uint8)
U64 = ctypes.POINTER(c_uint64)
F64 = ctypes.POINTER(c_double)
LEN = c_size_t
U16, U32, I32, D, B = c_uint16, c_uint32, c_int32, c_double, c_bool

# name: (what it returns, the types of its arguments); bindings/names.py compares their number with the header's.
FUNCTIONS = {
    "tl_version": (U32,),
    "tl_answer_text": (U32, U32, U8, LEN),
    "tl_blake2s256": (U32, U8, LEN, U8),
    "tl_root": (D, D),
    "tl_horizontal_sigma": (D, D, D, D, D, D, D),
    "tl_agreement": (U32, I32, I32, B, I32, D, D, D, D, D, D, I32, I32, B, I32, D, D, D, D, D, D, F64, F64),
    "tl_record_write": (U32, c_uint64, I32, I32, B, I32, U8, LEN, U64, LEN, U32, U8, LEN, U16, F64, U8),
    "tl_record_fault": (U32, U8, LEN),
    "tl_record_identity": (U32, U8, LEN, U8, U8),
    "tl_register_inputs": (U32, U8, LEN, U8, LEN, U8),
    "tl_decide": (U32, U8, LEN, U8),
    "tl_decide_any": (U32, U8, LEN, U8),
    "tl_register_report": (U32, U8, LEN, U32, U8, LEN),
    "tl_register_summary": (U32, U8, LEN, U32, U32, U16, U8, LEN),
    "tl_register_conviction": (U32, U32, U8, LEN, U32),
    "tl_register_join": (U32, U8, LEN, U8, LEN),
    "tl_register_lacks": (U32, U8, LEN, U8, LEN, U8, LEN),
    "tl_board": (U32, U32, U8, LEN, U8, LEN),
    "tl_register_preview": (U32, U32, U8, LEN, U32, U8, LEN),
    "tl_register_map": (U32, U8, LEN, U8, LEN),
    "tl_register_fixes": (U32, U8, LEN, U8, LEN),
    "tl_register_session": (U32, U8, LEN, U8, LEN, U8, LEN),
    "tl_session_reason": (U32, U8, LEN, U8),
    "tl_register_columns": (U32, U8, LEN, U8, LEN),
    "tl_register_uncolumns": (U32, U8, LEN, U8, LEN),
    "tl_track_report": (U32, U8, LEN, U8, LEN, U32, U8, LEN),
    "tl_track_summary": (U32, U8, LEN, U8, LEN, U32, U32, U16, U8, LEN),
    "tl_track_conviction": (U32, U8, LEN, U8, LEN, U32),
    "tl_track_listing": (U32, U8, LEN, U8, LEN),
}


def _place() -> Path:
    named = os.environ.get("TOASTLAGOON_SO")
    if named:
        return Path(named)
    here = Path(__file__).resolve().parent
    top = here.parent.parent.parent
    places = [here / "libtoastlagoon.so", top / "lib/libtoastlagoon.so", top / "dist/lib/libtoastlagoon.so"]
    for place in places:
        if place.is_file():
            return place
    raise ImportError(f"no shared library at {', '.join(map(str, places))} (TOASTLAGOON_SO names another)")


def _loaded() -> ctypes.CDLL:
    library = ctypes.CDLL(str(_place()))
    for name, (returned, *arguments) in FUNCTIONS.items():
        try:
            function = getattr(library, name)
        except AttributeError:
            raise ImportError(f"the library has no {name}: it is older than this package") from None
        function.restype = returned
        function.argtypes = arguments
    version = library.tl_version()
    if version // 1000 != tl.TL_VERSION_MAJOR * 1000 + tl.TL_VERSION_MINOR:
        raise ImportError(f"the library is of version {version}, and this package for {tl.TL_VERSION_MAJOR}.{tl.TL_VERSION_MINOR}")
    return library


library = _loaded()


def content_of(name: str, content: object) -> bytes:
    """These bytes; TypeError where they are none."""
    if not isinstance(content, (bytes, bytearray, memoryview)):
        raise TypeError(f"{name} is a {type(content).__name__} and must be bytes")
    return bytes(content)


def array(name: str, content: object) -> Any:
    """A copy of bytes that a call can read; of none the length is 0, and there is a byte to point to."""
    given = content_of(name, content)
    return (c_uint8 * max(1, len(given))).from_buffer_copy(given or bytes(1))


def zeros(size: int) -> Any:
    """So many zeros that a call can write."""
    return (c_uint8 * size)()


def part(memory: Any, start: int, stop: int) -> bytes:
    """A copy of some bytes of a call's memory."""
    return memoryview(memory)[start:stop].tobytes()


# The least and the greatest number of each type.
RANGES = {
    kind: (0, 2**bits - 1) for kind, bits in ((c_uint8, 8), (c_uint16, 16), (c_uint32, 32), (c_uint64, 64))
} | {c_int32: (-(2**31), 2**31 - 1)}  # fmt: skip


def number(name: str, value: SupportsIndex, kind: Type[Any]) -> int:
    """The number, where the type has it: ctypes would cut it off. TypeError where it is no integer, OverflowError where it does not fit."""
    try:
        found = operator.index(value)
    except TypeError:
        raise TypeError(f"{name} is a {type(value).__name__} and must be an integer") from None
    least, most = RANGES[kind]
    if not least <= found <= most:
        raise OverflowError(f"{name} is {found} and must be from {least} to {most}")
    return found


def numbers(name: str, values: Sequence[SupportsIndex], kind: Type[Any]) -> Any:
    """Numbers that a call can read, as `array` has bytes."""
    return (kind * max(1, len(values)))(*[number(name, value, kind) for value in values])


def real(name: str, value: object) -> float:
    """A number as a float; TypeError where it is none."""
    if not hasattr(value, "__float__") and not hasattr(value, "__index__"):
        raise TypeError(f"{name} is a {type(value).__name__} and must be a number")
    return float(value)  # type: ignore[arg-type]
