"""The rows of crates/worked_codes, whose answers were worked by hand: those of P-VTEC, H-VTEC and
UGC texts and of frames."""

import unittest
from pathlib import Path
from typing import List, Optional

from warn_codes import Frame, FrameError, Hvtec, Minute, NotHvtec, NotVtec, Ugc, UgcError, Vtec

ROWS = Path(__file__).resolve().parents[3] / "crates" / "worked_codes"

SEVERITIES = {"N": "N", "0": "Zero", "1": "One", "2": "Two", "3": "Three", "U": "U"}


def unescaped(text: str) -> bytes:
    return text.replace("\\n", "\n").replace("\\r", "\r").replace("\\t", "\t").encode()


def count_of(minute: Optional[Minute]) -> str:
    return "-" if minute is None else str(minute.count)


def vtec_lines(text: bytes) -> List[str]:
    try:
        v = Vtec.read(text)
    except NotVtec:
        return ["no P-VTEC text"]
    action = v.action.capitalize()
    times = f"{count_of(v.begin)} {count_of(v.end)}"
    return [
        f"{v.vtec_class} {action} {v.office} {v.phenomenon} {v.significance} {v.number} {times}",
        str(v),
    ]


def hvtec_lines(text: bytes) -> List[str]:
    try:
        h = Hvtec.read(text)
    except NotHvtec:
        return ["no H-VTEC text"]
    times = " ".join(map(count_of, (h.begin, h.crest, h.end)))
    return [
        f"{h.location} {SEVERITIES[h.severity]} {h.cause} {times} {h.record_status.capitalize()}",
        str(h),
    ]


def frame_lines(text: bytes) -> List[str]:
    try:
        frame = Frame.read(text)
    except FrameError as fault:
        return [" ".join(["fault", fault.reason] + ([str(fault.line)] if fault.line else []))]
    day = frame.day
    head = f"frame {frame.heading} {frame.office} {day.day} {day.hour} {day.minute}"
    lines = [f"{head} {frame.bbb or '-'} {frame.identifier} {frame.issue.count}"]
    for segment in frame.segments:
        day = segment.expires
        lines.append(
            f"segment {day.day} {day.hour} {day.minute} {' '.join(map(str, segment.zones))}"
        )
        for line in segment.lines:
            lines.append(str(line.vtec))
            lines += [str(line.hvtec)] if line.hvtec else []
    return lines


def ugc_lines(text: bytes) -> List[str]:
    try:
        ugc = Ugc.read(text)
    except UgcError as fault:
        return [fault.reason if fault.at is None else f"{fault.reason} {fault.at}"]
    return [f"used {ugc.used} {' '.join(map(str, ugc.zones))}"]


def rows_of_codes(file: str) -> List[str]:
    """The lines of `file` from 'rows of codes' to the next such line, without both."""
    lines = (ROWS / file).read_bytes().decode().split("\n")
    first = lines.index("rows of codes") + 1
    following = (at for at in range(first, len(lines)) if lines[at].startswith("rows of "))
    return lines[first : next(following, len(lines))]


class Rows(unittest.TestCase):
    def setUp(self):
        self.asked = rows_of_codes("stdin")
        self.answered = rows_of_codes("stdout")

    def test_first_rows(self):
        found = []
        answers = {"vtec": vtec_lines, "hvtec": hvtec_lines, "frame": frame_lines}
        count = 0
        for row in self.asked:
            kind, _, text = row.partition(" ")
            if kind not in answers:
                break
            found += answers[kind](unescaped(text))
            count += 1
        self.assertGreater(count, 100)
        self.assertEqual(found, self.answered[: len(found)])

    def test_ugc_rows(self):
        found = [
            line
            for row in self.asked
            if row.startswith("ugc ")
            for line in ugc_lines(unescaped(row[4:]))
        ]
        self.assertGreater(len(found), 40)
        starts = ("used ", "NotACode", "BadRange", "CutShort")
        self.assertEqual(found, [line for line in self.answered if line.startswith(starts)])


if __name__ == "__main__":
    unittest.main()
