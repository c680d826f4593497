"""Why a text is not read or written: the reason, and the place of the first fault. Want of memory
is a MemoryError."""

from __future__ import annotations

from typing import Optional

_REASONS = {
    10: ("NotACode", "no zone, run of zones or expiry begins here"),
    11: ("BadRange", "a range must run upwards"),
    12: ("CutShort", "the bytes end before the expiry does"),
    20: ("NoHeading", "no line is a heading, such as WWUS41 KLWX 031530"),
    21: ("NoIdentifier", "the line after the heading is no identifier, such as WSWLWX"),
    22: ("NoIssueTime", "no line is the time of issue, such as 1030 AM EST Wed Jan 3 2018"),
    23: ("IssueDisagrees", "the heading's time is not within twelve hours of the time of issue"),
    24: ("NoSegmentEnd", "the segment that begins here has no end"),
    25: ("BadUgc", "no zone codes (UGC), or text behind them"),
    26: ("BadVtec", "neither a P-VTEC text nor the one H-VTEC text behind it"),
}


class CodeError(ValueError):
    """A text or a value that the library refuses."""

    reason: str = ""


class NotVtec(CodeError):
    """The bytes are no P-VTEC text."""

    reason = "NotVtec"


class NotHvtec(CodeError):
    """The bytes are no H-VTEC text."""

    reason = "NotHvtec"


class ValueOutOfRange(CodeError):
    """No text has these values."""

    reason = "BadValue"


class ArgumentError(CodeError):
    """No reader has this office or class."""

    reason = "BadArgument"


class ReaderClosed(CodeError):
    """The reader was closed, by its user or since memory ran out."""

    reason = "ReaderClosed"


class UgcError(CodeError):
    """The first fault of a UGC text; `at` is its byte, from 0, or None where the bytes end too
    early."""

    def __init__(self, reason: str, words: str, at: Optional[int]):
        super().__init__(words if at is None else f"byte {at}: {words}")
        self.reason = reason
        self.at = at


class FrameError(CodeError):
    """The first fault of a product's frame; `line` counts from the heading as line 1, or is None
    where no line is at fault."""

    def __init__(self, reason: str, words: str, line: Optional[int]):
        super().__init__(words if line is None else f"line {line}: {words}")
        self.reason = reason
        self.line = line


def error_of(status: int, place: int = 0) -> Exception:
    """The exception of a status, and the byte or line of the fault."""
    if status == 1:
        return MemoryError("out of memory")
    if status == 4:
        return NotVtec("no P-VTEC text")
    if status == 5:
        return NotHvtec("no H-VTEC text")
    if status == 6:
        return ValueOutOfRange("no text has these values")
    if status in _REASONS:
        reason, words = _REASONS[status]
        if status < 20:
            return UgcError(reason, words, None if status == 12 else place)
        return FrameError(reason, words, place if status >= 24 else None)
    return ArgumentError("no such office or class")
