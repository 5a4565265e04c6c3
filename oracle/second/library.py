"""The functions of the static library, and the second writing of each, under the same names and with the same arguments.

A slice of the C signatures is a bytes or a bytearray here, and is passed as a pointer and a length."""
from __future__ import annotations

import ctypes
import os
import subprocess
import tempfile
from typing import Any, Callable, Mapping

from . import board, register, shelf, track

Functions = Mapping[str, Callable[..., int]]

_SLICE, _NUMBER, _SPEC = "slice", ctypes.c_uint32, ctypes.c_uint16
_REPORT = (_SLICE, _NUMBER, _SLICE)
_SUMMARY = (_SLICE, _NUMBER, _NUMBER, _SPEC, _SLICE)
_CONVICTION = (_SLICE, _NUMBER)
_TEXT = (_SLICE, _SLICE)
_DESK = (_NUMBER,)
_CLAIM = (ctypes.c_int32, ctypes.c_int32, ctypes.c_bool, ctypes.c_int32, *[ctypes.c_double] * 6)

_ON_MEMORY: Mapping[str, tuple[Any, ...]] = {
    "tl_register_report": _REPORT,
    "tl_register_summary": _SUMMARY,
    "tl_register_conviction": (*_DESK, *_CONVICTION),
    "tl_register_preview": (*_DESK, _SLICE, _NUMBER, _SLICE),
    "tl_board": (*_DESK, *_TEXT),
    "tl_track_report": (_SLICE, *_REPORT),
    "tl_track_summary": (_SLICE, *_SUMMARY),
    "tl_track_conviction": (_SLICE, *_CONVICTION),
    "tl_track_listing": _TEXT,
}


def second_writing() -> Functions:
    """The operations on memory, as this package has them."""
    return {
        "tl_register_report": register.report,
        "tl_register_summary": register.summary,
        "tl_register_conviction": register.conviction,
        "tl_register_preview": board.preview,
        "tl_board": board.board,
        "tl_track_report": shelf.report,
        "tl_track_summary": shelf.summary,
        "tl_track_conviction": shelf.conviction,
        "tl_track_listing": track.listing,
    }


class Library:
    """The static library, linked as a shared one."""

    def __init__(self, archive: str) -> None:
        with tempfile.TemporaryDirectory() as folder:
            shared = os.path.join(folder, "libtoastlagoon.so")
            whole = ["-Wl,--whole-archive", archive, "-Wl,--no-whole-archive"]
            subprocess.run([os.environ.get("CC", "gcc"), "-shared", "-o", shared, *whole], check=True)
            self._loaded = ctypes.CDLL(shared)
        self._root = self._function("tl_root", ctypes.c_double, [ctypes.c_double])
        self._deviation = self._function("tl_horizontal_sigma", ctypes.c_double, [ctypes.c_double] * 6)
        self._hash = self._function("tl_blake2s256", ctypes.c_uint32, [ctypes.c_void_p, ctypes.c_size_t, ctypes.c_void_p])
        self._decide = self._function("tl_decide", ctypes.c_uint32, [ctypes.c_void_p, ctypes.c_size_t, ctypes.c_void_p])
        self._agreement = self._function("tl_agreement", ctypes.c_uint32, [*_CLAIM, *_CLAIM, ctypes.c_void_p, ctypes.c_void_p])
        self.on_memory: Functions = {name: self._operation(name, kinds) for name, kinds in _ON_MEMORY.items()}

    def _function(self, name: str, result: Any, arguments: list[Any]) -> Any:
        function = getattr(self._loaded, name)
        function.restype, function.argtypes = result, arguments
        return function

    def _operation(self, name: str, kinds: tuple[Any, ...]) -> Callable[..., int]:
        types = [part for kind in kinds for part in ([ctypes.c_void_p, ctypes.c_size_t] if kind is _SLICE else [kind])]
        function = self._function(name, ctypes.c_uint32, types)

        def call(*arguments: Any) -> int:
            passed = [part for kind, value in zip(kinds, arguments) for part in (_slice(value) if kind is _SLICE else [value])]
            return function(*passed)

        return call

    def root(self, x: float) -> float:
        """tl_root."""
        return self._root(x)

    def horizontal_deviation(self, covariance: tuple[float, ...]) -> float:
        """tl_horizontal_sigma."""
        return self._deviation(*covariance)

    def hash(self, data: bytes) -> bytes:
        """tl_blake2s256."""
        out = bytearray(32)
        answer = self._hash(*_slice(data), _slice(out)[0])
        return bytes(out) if answer == 0 else b""

    def decide(self, items: bytes, answer: bytearray) -> int:
        """tl_decide."""
        return self._decide(*_slice(items), _slice(answer)[0])

    def agreement(self, smaller: tuple[Any, ...], larger: tuple[Any, ...], numbers: bytearray) -> int:
        """tl_agreement; the chi-square and the limit are written to the 16 bytes of `numbers`."""
        address = ctypes.addressof(_slice(numbers)[0])
        return self._agreement(*smaller, *larger, address, address + 8)


def _slice(value: bytes | bytearray) -> tuple[Any, int]:
    """A pointer and a length; what is written to a bytearray is written to its own bytes."""
    length = len(value)
    return ((ctypes.c_char * length).from_buffer(value) if isinstance(value, bytearray) else value), length
