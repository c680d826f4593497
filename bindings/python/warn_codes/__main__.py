"""python3 -m warn_codes FILE [OFFICE CLASS STAMP]

Of a file alone, what each of its products says, or its first fault. With an office, a class and a
minute, the report that docs/ARCHIVE.md describes, with its exit status: 0, or 3 where it lists
something. FILE of - is standard input."""

from __future__ import annotations

import sys
from pathlib import Path
from typing import Iterator, List

from .codes import Minute
from .errors import FrameError
from .frames import Frame, products
from .reader import Reader


def _fault(fault: FrameError) -> str:
    return fault.reason if fault.line is None else f"{fault.reason} {fault.line}"


def _described(text: bytes) -> Iterator[str]:
    for number, product in enumerate(products(text), 1):
        try:
            frame = Frame.read(product)
        except FrameError as fault:
            yield f"product {number} fault {_fault(fault)}"
            continue
        yield f"product {number} {frame.identifier} {frame.issue}"
        for segment in frame.segments:
            yield f"  {' '.join(map(str, segment.zones))} until {segment.expires}"
            for line in segment.lines:
                yield f"    {line.vtec}"
                if line.hvtec:
                    yield f"    {line.hvtec}"


def _product_lines(text: bytes, office: str, vtec_class: str) -> Iterator[str]:
    for number, product in enumerate(products(text), 1):
        try:
            frame = Frame.read(product)
        except FrameError as fault:
            yield f"product {number} fault {_fault(fault)}"
            continue
        count = sum(
            len(segment.zones)
            * sum(
                line.vtec.office == office and line.vtec.vtec_class == vtec_class
                for line in segment.lines
            )
            for segment in frame.segments
        )
        yield f"product {number} {frame.identifier} {frame.issue} {count}"


def report(text: bytes, office: str, vtec_class: str, stamp: str) -> List[str]:
    """The lines of the report that docs/ARCHIVE.md describes."""
    minute = Minute.of_stamp(stamp)
    reader = Reader(office, vtec_class)
    reader.take(text)
    found = reader.all(minute)
    lines = list(_product_lines(text, office, vtec_class))
    faults = sum(line.split(" ")[2] == "fault" for line in lines)
    lines += [f"life {life}" for life in found.lives]
    lines += [f"breach {breach}" for breach in found.breaches]
    lines += [
        f"gap {gap.event.hazard} {gap.event.year} {gap.wanted:04} {gap.event.number:04}"
        for gap in found.gaps
    ]
    lines.append(f"shown {minute} {len(found.shown)}")
    lines += map(str, found.shown)
    lines.append(f"breaches {faults + len(found.breaches) + len(found.gaps)}")
    return lines


def main(words: List[str]) -> int:
    if len(words) not in (1, 4):
        print(__doc__, file=sys.stderr)
        return 2
    text = sys.stdin.buffer.read() if words[0] == "-" else Path(words[0]).read_bytes()
    if len(words) == 1:
        for line in _described(text):
            print(line)
        return 0
    try:
        lines = report(text, *words[1:])
    except ValueError as error:
        print(error, file=sys.stderr)
        return 2
    print("\n".join(lines))
    return 0 if lines[-1] == "breaches 0" else 3


if __name__ == "__main__":
    sys.exit(main(sys.argv[1:]))
