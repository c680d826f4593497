"""Compares what C, Rust and Python say of archives with what warn_archive says of them.

compare.py WARN_ARCHIVE C_LIVES RUST_LIVES COUNT

The archives are drawn: products of an office that open, go on with, change and end events in
several zones, lawfully or not, of which some are cut or damaged. COUNT products are tried, 100 in
an archive."""

from __future__ import annotations

import multiprocessing
import os
import random
import subprocess
import sys
import tempfile
from datetime import timedelta
from typing import List, Optional, Tuple

from warn_codes import Minute
from warn_codes.__main__ import report

PRODUCTS = 100

ZONES = ["MDZ003", "MDZ004", "MDZ005", "MDZ006", "VAZ028", "VAC013", "DCZ001"]

HAZARDS = ["WS.W", "WS.A", "WW.Y", "BZ.W", "FG.Y", "FL.W", "FL.Y", "HW.A", "XX.W"]

ACTIONS = [
    "NEW",
    "NEW",
    "NEW",
    "CON",
    "CON",
    "CAN",
    "EXP",
    "EXT",
    "EXA",
    "EXB",
    "UPG",
    "COR",
    "ROU",
]

PLACES = b"\n\r -/>$0129AZ.T"


class Events:
    """The events that an archive has opened, with their periods, so that some lines are lawful."""

    def __init__(self, drawn: random.Random):
        self.drawn = drawn
        self.numbers = {hazard: 0 for hazard in HAZARDS}
        self.open: List[Tuple[str, int, int, Optional[int]]] = []

    def stamp(self, minute: Optional[int]) -> str:
        return "000000T0000Z" if minute is None else str(Minute(minute))

    def line(self, now: int) -> str:
        drawn = self.drawn
        action = drawn.choice(ACTIONS)
        if action == "NEW" or not self.open:
            action = "NEW" if drawn.random() < 0.95 else action
            hazard = drawn.choice(HAZARDS)
            self.numbers[hazard] += 1 if drawn.random() < 0.9 else 2
            begin = now + drawn.choice([0, 0, 0, 60, 600, -30])
            end = drawn.choice(
                [begin + 120, begin + 600, begin + 1440, begin + 1440, None, begin]
            )
            self.open.append((hazard, self.numbers[hazard], begin, end))
            event = self.open[-1]
        else:
            event = drawn.choice(self.open[-12:])
        hazard, number, begin, end = event
        if action != "NEW" and drawn.random() < 0.9 and begin <= now:
            shown: Optional[int] = None
        else:
            shown = begin
        if action in ("EXT", "EXB") or drawn.random() < 0.03:
            end = drawn.choice([None, now + 300, now + 3000])
            self.open.append((hazard, number, begin, end))
        office = "KLWX" if drawn.random() < 0.97 else "KAKQ"
        vtec_class = "O" if drawn.random() < 0.97 else "T"
        period = f"{self.stamp(shown)}-{self.stamp(end)}"
        text = f"/{vtec_class}.{action}.{office}.{hazard}.{number:04}.{period}/\n"
        if hazard.startswith("FL") and drawn.random() < 0.8:
            crest, last = self.stamp(begin + 60), self.stamp(end)
            severity, cause = drawn.choice("N0123U"), drawn.choice(["ER", "SM", "ZZ"])
            text += f"/FREV2.{severity}.{cause}.{self.stamp(begin)}.{crest}.{last}.NO/\n"
        return text


def ugc_of(zones: List[str], expiry: str) -> str:
    return "-".join(zones) + f"-{expiry}-\n"


def product(drawn: random.Random, events: Events, now: int) -> str:
    local = Minute(now).datetime() - timedelta(hours=5)
    heading = Minute(now).datetime().strftime("%d%H%M")
    hour = f"{local.hour % 12 or 12}{local.minute:02} {'AM' if local.hour < 12 else 'PM'}"
    time = f"{hour} EST {local.strftime('%a %b')} {local.day} {local.year}"
    end = drawn.choice(["\n", "\n", "\n", "\r\n", "\r\r\n"])
    bbb = drawn.choice(["", "", "", " COR", " AAB"])
    text = f"WWUS41 KLWX {heading}{bbb}\nWSWLWX\n\nURGENT\nOffice\n{time}\n\n"
    for _ in range(drawn.choice([1, 1, 2])):
        zones = drawn.sample(ZONES, drawn.randint(1, 4))
        if drawn.random() < 0.1:
            zones.append("MDZ010>014")
        text += ugc_of(zones, Minute(now + 480).datetime().strftime("%d%H%M"))
        text += "".join(events.line(now) for _ in range(drawn.choice([0, 1, 1, 1, 2, 3])))
        text += f"Washington-\n{time}\n\n* WHAT...Snow.\n\n$$\n\n"
    return text.replace("\n", end)


def damaged(drawn: random.Random, text: bytes) -> bytes:
    kind = drawn.random()
    if kind < 0.75:
        return text
    bytes_ = bytearray(text)
    if kind < 0.80:
        return bytes(bytes_[: drawn.randrange(len(bytes_))])
    for _ in range(drawn.randint(1, 3)):
        at = drawn.randrange(len(bytes_))
        if kind < 0.95:
            bytes_[at] = drawn.choice(PLACES) if drawn.random() < 0.7 else drawn.randrange(256)
        elif kind < 0.97:
            del bytes_[at : at + drawn.randint(1, 30)]
        else:
            bytes_[at:at] = bytes_[drawn.randrange(len(bytes_)) :][:60]
    return bytes(bytes_)


def archive(seed: int) -> Tuple[bytes, str]:
    """The bytes of an archive, and the minute of which its rows are asked."""
    drawn = random.Random(seed)
    events = Events(drawn)
    start = now = drawn.randrange(9_000_000, 9_900_000)
    text = bytearray(drawn.choice([b"", b"ABC\n\n"]))
    for number in range(PRODUCTS):
        now += drawn.choice([0, 5, 30, 90])
        text += f"{number + 1:03}\n".encode()
        text += damaged(drawn, product(drawn, events, now).encode())
    return bytes(text), str(Minute(drawn.randrange(start, now + 600)))


def lines_of(command: List[str]) -> List[str]:
    return subprocess.run(command, capture_output=True, text=True, check=True).stdout.splitlines()


def compare(words: Tuple[str, str, str, int]) -> Tuple[int, int, int]:
    """How many products, lives and breaches were compared."""
    program, c_lives, rust_lives, seed = words
    text, stamp = archive(seed)
    wanted = subprocess.run([program, "KLWX", "O", stamp], input=text, capture_output=True)
    lines = wanted.stdout.decode("ascii").splitlines()
    found = report(text, "KLWX", "O", stamp)
    status = 0 if found[-1] == "breaches 0" else 3
    if found != lines or status != wanted.returncode:
        differs = next((a, b) for a, b in zip(found + ["no line"], lines + ["no line"]) if a != b)
        raise AssertionError(
            f"Python, archive {seed}: {differs[0]!r}, and warn_archive: {differs[1]!r}"
        )
    lives = [line for line in lines if line.startswith("life ")]
    with tempfile.NamedTemporaryFile() as file:
        file.write(text)
        file.flush()
        for name, lister in (("C", c_lives), ("Rust", rust_lives)):
            if lines_of([lister, file.name, "KLWX", "O"]) != lives:
                raise AssertionError(f"{name}, archive {seed}: other lives than warn_archive")
    products = sum(line.startswith("product ") for line in lines)
    return products, len(lives), sum(line.startswith("breach ") for line in lines)


def main(program: str, c_lives: str, rust_lives: str, count: str) -> None:
    archives = (int(count) + PRODUCTS - 1) // PRODUCTS
    tasks = [(program, c_lives, rust_lives, seed) for seed in range(archives)]
    with multiprocessing.Pool(os.cpu_count()) as pool:
        sums = [sum(column) for column in zip(*pool.imap_unordered(compare, tasks, chunksize=4))]
    print(
        f"{archives * PRODUCTS} texts as {sums[0]} products:"
        f" {sums[1]} lives and {sums[2]} breaches as warn_archive has them"
    )


if __name__ == "__main__":
    main(*sys.argv[1:])
