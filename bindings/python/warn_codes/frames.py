"""Products and their frames."""

from __future__ import annotations

from dataclasses import dataclass
from os import PathLike
from pathlib import Path
from typing import Iterator, Optional, Tuple, Union

from . import calls
from .codes import DayTime, Hvtec, Minute, Text, Ugc, Vtec, Zone, bytes_of

__all__ = ["Frame", "Line", "Segment", "Ugc", "products", "products_of_file"]


@dataclass(frozen=True)
class Line:
    """A P-VTEC line, and the H-VTEC line behind it if there is one."""

    vtec: Vtec
    hvtec: Optional[Hvtec]


@dataclass(frozen=True)
class Segment:
    """A segment (10-1701): its zones in order, each once; when it expires; its P-VTEC lines as they
    stand."""

    zones: Tuple[Zone, ...]
    expires: DayTime
    lines: Tuple[Line, ...]


@dataclass(frozen=True)
class Frame:
    """What a reader takes from a product (10-1701): TTAAii, CCCC, day and time and BBB of its
    heading; its identifier; its time of issue; and its segments."""

    heading: str
    office: str
    day: DayTime
    bbb: Optional[str]
    identifier: str
    issue: Minute
    segments: Tuple[Segment, ...]

    @classmethod
    def read(cls, text: Text) -> "Frame":
        """Reads the first product of a text. FrameError with the first fault."""
        raw, segments, zones, lines = calls.read_frame(bytes_of(text))
        some_zones, some_lines = iter(zones), iter(lines)
        return cls(
            heading=calls.letters(raw.heading),
            office=calls.letters(raw.office),
            day=DayTime(raw.day, raw.hour, raw.minute),
            bbb=calls.letters(raw.bbb) if any(raw.bbb) else None,
            identifier=calls.letters(raw.identifier).rstrip("\0"),
            issue=Minute(raw.issue),
            segments=tuple(
                Segment(
                    zones=tuple(Zone._of(next(some_zones)) for _ in range(segment.zones)),
                    expires=DayTime(segment.day, segment.hour, segment.minute),
                    lines=tuple(_line(next(some_lines)) for _ in range(segment.lines)),
                )
                for segment in segments
            ),
        )


def _line(raw: calls.RawLine) -> Line:
    return Line(Vtec._of(raw.vtec), Hvtec._of(raw.hvtec) if raw.has_hvtec else None)


def products(text: Text) -> Iterator[bytes]:
    """The products of a text: one for each heading line, up to the next one or the end."""
    whole = bytes_of(text)
    for span in calls.split(whole):
        yield whole[span.start : span.stop]


def products_of_file(path: Union[str, "PathLike[str]"]) -> Iterator[bytes]:
    """The products of a file."""
    return products(Path(path).read_bytes())
