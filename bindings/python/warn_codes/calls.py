"""The functions of the library, and the structs that cross; bindings/c/warn_codes.h says what each
is."""

from __future__ import annotations

import ctypes
import os
from ctypes import (
    POINTER,
    Structure,
    byref,
    c_char,
    c_char_p,
    c_size_t,
    c_uint8,
    c_uint16,
    c_uint32,
    c_void_p,
)
from pathlib import Path
from threading import Lock
from typing import Callable, List, Tuple, Type, TypeVar

from .errors import ReaderClosed, error_of

NO_TIME = 0xFFFFFFFF

_TOO_SMALL = 2

_BAD_ARGUMENT = 3


class RawVtec(Structure):
    _fields_ = [
        ("begin", c_uint32),
        ("end", c_uint32),
        ("number", c_uint16),
        ("phenomenon", c_uint8 * 2),
        ("office", c_uint8 * 4),
        ("action", c_uint8 * 3),
        ("vtec_class", c_uint8),
        ("significance", c_uint8),
    ]


class RawHvtec(Structure):
    _fields_ = [
        ("begin", c_uint32),
        ("crest", c_uint32),
        ("end", c_uint32),
        ("location", c_uint8 * 5),
        ("severity", c_uint8),
        ("cause", c_uint8 * 2),
        ("record_status", c_uint8 * 2),
    ]


class RawZone(Structure):
    _fields_ = [("number", c_uint16), ("state", c_uint8 * 2), ("kind", c_uint8)]


class RawUgc(Structure):
    _fields_ = [
        ("zones", c_size_t),
        ("used", c_size_t),
        ("fault_at", c_size_t),
        ("day", c_uint8),
        ("hour", c_uint8),
        ("minute", c_uint8),
    ]


class RawSegment(Structure):
    _fields_ = [
        ("zones", c_size_t),
        ("lines", c_size_t),
        ("day", c_uint8),
        ("hour", c_uint8),
        ("minute", c_uint8),
    ]


class RawLine(Structure):
    _fields_ = [("vtec", RawVtec), ("hvtec", RawHvtec), ("has_hvtec", c_uint8)]


class RawFrame(Structure):
    _fields_ = [
        ("segments", c_size_t),
        ("zones", c_size_t),
        ("lines", c_size_t),
        ("fault_line", c_size_t),
        ("issue", c_uint32),
        ("heading", c_uint8 * 6),
        ("identifier", c_uint8 * 6),
        ("office", c_uint8 * 4),
        ("bbb", c_uint8 * 3),
        ("day", c_uint8),
        ("hour", c_uint8),
        ("minute", c_uint8),
    ]


class RawSpan(Structure):
    _fields_ = [("start", c_size_t), ("stop", c_size_t)]


class RawEvent(Structure):
    _fields_ = [
        ("number", c_uint16),
        ("year", c_uint16),
        ("phenomenon", c_uint8 * 2),
        ("significance", c_uint8),
    ]


class RawRow(Structure):
    _fields_ = [
        ("product", c_uint32),
        ("issue", c_uint32),
        ("begin", c_uint32),
        ("end", c_uint32),
        ("hvtec", RawHvtec),
        ("event", RawEvent),
        ("zone", RawZone),
        ("wanted", c_uint16),
        ("action", c_uint8 * 3),
        ("breach", c_uint8),
        ("has_hvtec", c_uint8),
        ("kind", c_uint8),
    ]


class RawReader(Structure):
    _fields_ = [("at", c_void_p), ("is_open", c_uint32)]


def _path() -> str:
    """The shared object: that which WARN_CODES_SO names, or else the one where install.sh or
    bindings/build leaves it."""
    named = os.environ.get("WARN_CODES_SO")
    if named:
        return named
    above = Path(__file__).resolve().parents
    places = [folder / "libwarn_codes.so" for folder in (above[0], above[2], above[2] / "out")]
    for place in places:
        if place.is_file():
            return str(place)
    raise ImportError(
        f"there is no {' nor '.join(map(str, places))}: WARN_CODES_SO names libwarn_codes.so"
    )


def _library() -> ctypes.CDLL:
    library = ctypes.CDLL(_path())
    text = [c_char_p, c_size_t]
    for name, rest in {
        "read_vtec": text + [POINTER(RawVtec)],
        "write_vtec": [POINTER(RawVtec), POINTER(c_char)],
        "read_hvtec": text + [POINTER(RawHvtec)],
        "write_hvtec": [POINTER(RawHvtec), POINTER(c_char)],
        "read_ugc": text + [POINTER(RawZone), c_size_t, POINTER(RawUgc)],
        "read_frame": text
        + [POINTER(RawSegment), c_size_t, POINTER(RawZone), c_size_t, POINTER(RawLine), c_size_t]
        + [POINTER(RawFrame)],
        "split": text + [POINTER(RawSpan), c_size_t, POINTER(c_size_t)],
        "open": [POINTER(RawReader), c_char_p, c_uint8],
        "take": [POINTER(RawReader), c_char_p, c_size_t],
        "end": [POINTER(RawReader)],
        "tell": [POINTER(RawReader), c_uint32, c_uint32, POINTER(RawRow), c_size_t]
        + [POINTER(c_size_t)],
        "close": [POINTER(RawReader)],
    }.items():
        function = getattr(library, "warn_codes_c_" + name)
        function.argtypes = rest
        function.restype = c_uint32
    return library


_LIBRARY = _library()


def letters(code: ctypes.Array) -> str:
    """The characters of a code."""
    return bytes(code).decode("ascii")


def read_vtec(text: bytes) -> RawVtec:
    out = RawVtec()
    status = _LIBRARY.warn_codes_c_read_vtec(text, len(text), byref(out))
    if status:
        raise error_of(status)
    return out


def write_vtec(fields: RawVtec) -> str:
    out = ctypes.create_string_buffer(48)
    status = _LIBRARY.warn_codes_c_write_vtec(byref(fields), out)
    if status:
        raise error_of(status)
    return out.raw.decode("ascii")


def read_hvtec(text: bytes) -> RawHvtec:
    out = RawHvtec()
    status = _LIBRARY.warn_codes_c_read_hvtec(text, len(text), byref(out))
    if status:
        raise error_of(status)
    return out


def write_hvtec(fields: RawHvtec) -> str:
    out = ctypes.create_string_buffer(54)
    status = _LIBRARY.warn_codes_c_write_hvtec(byref(fields), out)
    if status:
        raise error_of(status)
    return out.raw.decode("ascii")


def read_ugc(text: bytes) -> Tuple[RawUgc, List[RawZone]]:
    room = 16
    while True:
        zones = (RawZone * room)()
        out = RawUgc()
        status = _LIBRARY.warn_codes_c_read_ugc(text, len(text), zones, room, byref(out))
        if status == 0:
            return out, zones[: out.zones]
        if status != _TOO_SMALL:
            raise error_of(status, out.fault_at)
        room = out.zones


def read_frame(text: bytes) -> Tuple[RawFrame, List[RawSegment], List[RawZone], List[RawLine]]:
    rooms = (4, 64, 8)
    while True:
        segments = (RawSegment * rooms[0])()
        zones = (RawZone * rooms[1])()
        lines = (RawLine * rooms[2])()
        out = RawFrame()
        status = _LIBRARY.warn_codes_c_read_frame(
            text, len(text), segments, rooms[0], zones, rooms[1], lines, rooms[2], byref(out)
        )
        if status == 0:
            return out, segments[: out.segments], zones[: out.zones], lines[: out.lines]
        if status != _TOO_SMALL:
            raise error_of(status, out.fault_line)
        rooms = (max(out.segments, 1), max(out.zones, 1), max(out.lines, 1))


_Row = TypeVar("_Row", bound=Structure)


def _rows(
    kind: Type[_Row], room: int, call: Callable[[ctypes.Array, int, c_size_t], int]
) -> List[_Row]:
    """The rows that a call writes, which is made again where there is too little room."""
    while True:
        rows = (kind * room)()
        needed = c_size_t()
        status = call(rows, room, needed)
        if status == 0:
            return rows[: needed.value]
        if status != _TOO_SMALL:
            raise error_of(status)
        room = needed.value


def split(text: bytes) -> List[RawSpan]:
    return _rows(
        RawSpan,
        64,
        lambda rows, room, needed: _LIBRARY.warn_codes_c_split(
            text, len(text), rows, room, byref(needed)
        ),
    )


class OpenReader:
    """An open reader of the library, which is closed when nobody has it any more. Calls wait for
    each other, so that threads may share it."""

    def __init__(self, office: bytes, vtec_class: int):
        self._raw = RawReader()
        self._lock = Lock()
        status = _LIBRARY.warn_codes_c_open(byref(self._raw), office, vtec_class)
        if status:
            raise error_of(status)

    def take(self, piece: bytes, whole: bool) -> None:
        """Takes a piece of a stream; whole says that the stream ends with it."""
        with self._lock:
            self._went_well(_LIBRARY.warn_codes_c_take(byref(self._raw), piece, len(piece)))
            if whole:
                self._went_well(_LIBRARY.warn_codes_c_end(byref(self._raw)))

    def tell(self, question: int, minute: int) -> List[RawRow]:
        with self._lock:
            if not self._raw.is_open:
                raise ReaderClosed("the reader is closed")
            return _rows(
                RawRow,
                64,
                lambda rows, room, needed: _LIBRARY.warn_codes_c_tell(
                    byref(self._raw), question, minute, rows, room, byref(needed)
                ),
            )

    def close(self) -> None:
        with self._lock:
            _LIBRARY.warn_codes_c_close(byref(self._raw))

    def __del__(self) -> None:
        if hasattr(self, "_lock"):
            self.close()

    def _went_well(self, status: int) -> None:
        if status == _BAD_ARGUMENT:
            raise ReaderClosed("the reader is closed")
        if status:
            raise error_of(status)
