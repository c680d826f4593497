"""P-VTEC, H-VTEC and UGC texts."""

from __future__ import annotations

from dataclasses import dataclass
from datetime import datetime, timedelta, timezone
from typing import Optional, Tuple, Union

from . import calls
from .errors import ValueOutOfRange

Text = Union[str, bytes, bytearray, memoryview]

_START = datetime(2000, 1, 1, tzinfo=timezone.utc)

_COUNT = 52_596_000


def bytes_of(text: Text) -> bytes:
    """The bytes of a text. What is no byte in Latin-1 is no byte of a product, and stands as a
    question mark."""
    return text.encode("latin-1", "replace") if isinstance(text, str) else bytes(memoryview(text))


@dataclass(frozen=True, order=True)
class Minute:
    """A minute of the years 2000 to 2099, in UTC: how many since 2000-01-01T00:00Z. As a text its
    stamp."""

    count: int

    def __post_init__(self) -> None:
        if not 0 <= self.count < _COUNT:
            raise ValueOutOfRange("no minute of the years 2000 to 2099")

    @classmethod
    def of_stamp(cls, stamp: str) -> "Minute":
        """The minute of a stamp such as 180103T1530Z."""
        try:
            found = Vtec.read(f"/O.NEW.KLWX.WS.W.0001.{stamp}-000000T0000Z/").begin
        except ValueError:
            found = None
        if found is None:
            raise ValueOutOfRange(f"no stamp of a minute: {stamp}")
        return found

    @classmethod
    def of_datetime(cls, moment: datetime) -> "Minute":
        """The minute in which a moment lies, whose time zone must be known."""
        return cls((moment - _START) // timedelta(minutes=1))

    def datetime(self) -> datetime:
        """The moment at which the minute begins."""
        return _START + timedelta(minutes=self.count)

    def __str__(self) -> str:
        return self.datetime().strftime("%y%m%dT%H%MZ")


def minute_of(raw: int) -> Optional[Minute]:
    """The minute of a number of the library; None is zeros."""
    return None if raw == calls.NO_TIME else Minute(raw)


def raw_of(minute: Optional[Minute]) -> int:
    """The number of a minute for the library."""
    return calls.NO_TIME if minute is None else minute.count


def _code(text: str, count: int) -> bytes:
    code = bytes_of(text)
    if len(code) != count:
        raise ValueOutOfRange(f"{text!r} has not {count} characters")
    return code


def _put(field, code: bytes) -> None:
    field[:] = list(code)


@dataclass(frozen=True)
class Vtec:
    """The values of a P-VTEC text (10-1703). A begin of None has begun; an end of None is until
    further notice."""

    vtec_class: str
    action: str
    office: str
    phenomenon: str
    significance: str
    number: int
    begin: Optional[Minute]
    end: Optional[Minute]

    @classmethod
    def read(cls, text: Text) -> "Vtec":
        """Reads 48 characters, from slash to slash. NotVtec for any others."""
        return cls._of(calls.read_vtec(bytes_of(text)))

    @classmethod
    def _of(cls, raw: calls.RawVtec) -> "Vtec":
        return cls(
            vtec_class=chr(raw.vtec_class),
            action=calls.letters(raw.action),
            office=calls.letters(raw.office),
            phenomenon=calls.letters(raw.phenomenon),
            significance=chr(raw.significance),
            number=raw.number,
            begin=minute_of(raw.begin),
            end=minute_of(raw.end),
        )

    @property
    def hazard(self) -> str:
        """Phenomenon and significance, as WS.W."""
        return f"{self.phenomenon}.{self.significance}"

    def write(self) -> str:
        """The one text of these values. ValueOutOfRange where there is none."""
        if not 0 <= self.number <= 0xFFFF:
            raise ValueOutOfRange("no text has these values")
        raw = calls.RawVtec(begin=raw_of(self.begin), end=raw_of(self.end), number=self.number)
        _put(raw.phenomenon, _code(self.phenomenon, 2))
        _put(raw.office, _code(self.office, 4))
        _put(raw.action, _code(self.action, 3))
        raw.vtec_class = _code(self.vtec_class, 1)[0]
        raw.significance = _code(self.significance, 1)[0]
        return calls.write_vtec(raw)

    def __str__(self) -> str:
        return self.write()


@dataclass(frozen=True)
class Hvtec:
    """The values of an H-VTEC text (10-1703). A time of None is zeros."""

    location: str
    severity: str
    cause: str
    begin: Optional[Minute]
    crest: Optional[Minute]
    end: Optional[Minute]
    record_status: str

    @classmethod
    def read(cls, text: Text) -> "Hvtec":
        """Reads 54 characters, from slash to slash. NotHvtec for any others."""
        return cls._of(calls.read_hvtec(bytes_of(text)))

    @classmethod
    def _of(cls, raw: calls.RawHvtec) -> "Hvtec":
        return cls(
            location=calls.letters(raw.location),
            severity=chr(raw.severity),
            cause=calls.letters(raw.cause),
            begin=minute_of(raw.begin),
            crest=minute_of(raw.crest),
            end=minute_of(raw.end),
            record_status=calls.letters(raw.record_status),
        )

    def write(self) -> str:
        """The one text of these values. ValueOutOfRange where there is none."""
        raw = calls.RawHvtec(
            begin=raw_of(self.begin), crest=raw_of(self.crest), end=raw_of(self.end)
        )
        _put(raw.location, _code(self.location, 5))
        raw.severity = _code(self.severity, 1)[0]
        _put(raw.cause, _code(self.cause, 2))
        _put(raw.record_status, _code(self.record_status, 2))
        return calls.write_hvtec(raw)

    def __str__(self) -> str:
        return self.write()


@dataclass(frozen=True, order=True)
class Zone:
    """A public zone (kind Z) or a county (kind C) of a state (10-1702). In order by state, kind,
    number."""

    state: str
    kind: str
    number: int

    @classmethod
    def _of(cls, raw: calls.RawZone) -> "Zone":
        return cls(calls.letters(raw.state), chr(raw.kind), raw.number)

    def __str__(self) -> str:
        return f"{self.state}{self.kind}{self.number:03}"


@dataclass(frozen=True)
class DayTime:
    """A day of a month, an hour and a minute, in UTC."""

    day: int
    hour: int
    minute: int

    def __str__(self) -> str:
        return f"{self.day:02}{self.hour:02}{self.minute:02}"


@dataclass(frozen=True)
class Ugc:
    """What a UGC text says (10-1702): its zones in order, each once; when it expires; how many
    bytes it has."""

    zones: Tuple[Zone, ...]
    expires: DayTime
    used: int

    @classmethod
    def read(cls, text: Text) -> "Ugc":
        """Reads the UGC text that bytes begin with, and passes over what follows. UgcError with the
        first fault."""
        raw, zones = calls.read_ugc(bytes_of(text))
        return cls(tuple(map(Zone._of, zones)), DayTime(raw.day, raw.hour, raw.minute), raw.used)
