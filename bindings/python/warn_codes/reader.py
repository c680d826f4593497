"""What the products of an archive say of each event."""

from __future__ import annotations

from dataclasses import dataclass, field
from typing import List, Optional, Tuple

from . import calls
from .codes import Hvtec, Minute, Text, Zone, bytes_of, minute_of
from .errors import ArgumentError

BREACHES = (
    "",
    "Reopened",
    "NotOpening",
    "NumberHeld",
    "ZeroBegin",
    "TooEarly",
    "NoLength",
    "PeriodMoved",
    "PeriodSame",
    "NotLive",
    "BegunMoved",
    "TooLate",
    "NoHigher",
    "Twice",
)


@dataclass(frozen=True)
class Event:
    """An event: its hazard, its number, and the year in which it was opened. As a text
    WS.W.0001.2018."""

    phenomenon: str
    significance: str
    number: int
    year: int

    @classmethod
    def _of(cls, raw: calls.RawEvent) -> "Event":
        return cls(calls.letters(raw.phenomenon), chr(raw.significance), raw.number, raw.year)

    @property
    def hazard(self) -> str:
        """Phenomenon and significance, as WS.W."""
        return f"{self.phenomenon}.{self.significance}"

    def __str__(self) -> str:
        return f"{self.hazard}.{self.number:04}.{self.year}"


@dataclass(frozen=True)
class Step:
    """A lawful line: its action, and the time of issue of its product."""

    action: str
    issue: Minute

    def __str__(self) -> str:
        return f"{self.action}@{self.issue}"


@dataclass(frozen=True)
class Life:
    """What the lawful lines did to an event in a zone, in the order of the products."""

    event: Event
    zone: Zone
    steps: Tuple[Step, ...]

    def __str__(self) -> str:
        return " ".join([str(self.event), str(self.zone), *map(str, self.steps)])


@dataclass(frozen=True)
class Found:
    """A line in breach of a rule, and the number of its product among all, from 1. docs/ARCHIVE.md
    describes the rules."""

    product: int
    event: Event
    zone: Zone
    breach: str

    def __str__(self) -> str:
        return f"{self.product} {self.event} {self.zone} {self.breach}"


@dataclass(frozen=True)
class Gap:
    """An event that was opened with another number than the next of its hazard and year."""

    event: Event
    wanted: int


@dataclass(frozen=True)
class Shown:
    """An event that is live in a zone. An end of None is until further notice. As a text
    MDZ003 WS.W.0001.2018 180103T1530Z-180104T0000Z, with its H-VTEC text behind if it has one."""

    event: Event
    zone: Zone
    begin: Minute
    end: Optional[Minute]
    hvtec: Optional[Hvtec]

    def __str__(self) -> str:
        end = "000000T0000Z" if self.end is None else str(self.end)
        line = f"{self.zone} {self.event} {self.begin}-{end}"
        return line if self.hvtec is None else f"{line} {self.hvtec}"


@dataclass
class Findings:
    """The answers to all questions."""

    lives: List[Life] = field(default_factory=list)
    breaches: List[Found] = field(default_factory=list)
    gaps: List[Gap] = field(default_factory=list)
    shown: List[Shown] = field(default_factory=list)


def _findings(rows: List[calls.RawRow]) -> Findings:
    found = Findings()
    steps: List[Tuple[Event, Zone, Step]] = []
    for row in rows:
        event = Event._of(row.event)
        if row.kind == 1:
            steps.append(
                (event, Zone._of(row.zone), Step(calls.letters(row.action), Minute(row.issue)))
            )
        elif row.kind == 2:
            found.breaches.append(
                Found(row.product, event, Zone._of(row.zone), BREACHES[row.breach])
            )
        elif row.kind == 3:
            found.gaps.append(Gap(event, row.wanted))
        else:
            hvtec = Hvtec._of(row.hvtec) if row.has_hvtec else None
            end = minute_of(row.end)
            found.shown.append(Shown(event, Zone._of(row.zone), Minute(row.begin), end, hvtec))
    at = 0
    while at < len(steps):
        event, zone, _ = steps[at]
        until = at
        while until < len(steps) and steps[until][:2] == (event, zone):
            until += 1
        found.lives.append(Life(event, zone, tuple(step for _, _, step in steps[at:until])))
        at = until
    return found


class Reader:
    """Takes the products of an office in the order in which they were sent, in whatever pieces
    their bytes come, and says what became of each event of a class (O, T, E or X). Lines of others
    are passed over, and products that have a fault.

    The answers speak of the products that have ended: those behind which another one's heading
    line has come, and all of them where `end` said so. Where memory runs out while it takes, the
    reader is closed. It may be used in a with statement, which closes it.

    >>> with Reader("KLWX") as reader:
    ...     reader.push("WWUS41 KLWX 031530\\nWSWLWX\\n1030 AM EST Wed Jan 3 2018\\n\\nMDZ003-")
    ...     reader.push("032330-\\n/O.NEW.KLWX.WS.W.0001.180103T1530Z-180104T0000Z/\\n\\n$$\\n")
    ...     reader.end()
    ...     [str(life) for life in reader.lives()]
    ['WS.W.0001.2018 MDZ003 NEW@180103T1530Z']
    """

    def __init__(self, office: str, vtec_class: str = "O"):
        code = bytes_of(office)
        letter = bytes_of(vtec_class)
        if len(code) != 4 or len(letter) != 1:
            raise ArgumentError("no such office or class")
        self._open = calls.OpenReader(code, letter[0])

    def push(self, piece: Text) -> None:
        """Takes the next bytes of the stream, which may end anywhere."""
        self._open.take(bytes_of(piece), False)

    def end(self) -> None:
        """Says that what was taken is whole: its last product has ended. The next bytes begin with
        another."""
        self._open.take(b"", True)

    def take(self, products: Text) -> None:
        """Takes products that are whole."""
        self._open.take(bytes_of(products), True)

    def close(self) -> None:
        """Frees what the reader holds."""
        self._open.close()

    def __enter__(self) -> "Reader":
        return self

    def __exit__(self, *_: object) -> None:
        self.close()

    def _tell(self, question: int, minute: int = 0) -> Findings:
        return _findings(self._open.tell(question, minute))

    def lives(self) -> List[Life]:
        """What the lawful lines did to each event in each zone, by event, then zone."""
        return self._tell(1).lives

    def breaches(self) -> List[Found]:
        """The lines that break a rule, in the order of the text."""
        return self._tell(2).breaches

    def gaps(self) -> List[Gap]:
        """Where the numbers of a hazard's events are not 1, 2, 3 and so on."""
        return self._tell(3).gaps

    def shown(self, minute: Minute) -> List[Shown]:
        """The events that are live at a minute, by zone, then event."""
        return self._tell(4, minute.count).shown

    def all(self, minute: Minute) -> Findings:
        """The answers to all questions."""
        return self._tell(5, minute.count)
