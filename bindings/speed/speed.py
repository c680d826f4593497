"""How long Python takes for a P-VTEC text and for a product, by the library and by a plain reader
with `re`: speed.py"""

import re
import time
from datetime import datetime

from warn_codes import Frame, Reader, Vtec

TEXT = "/O.NEW.KLWX.WS.W.0001.180103T1530Z-180104T0000Z/"

PRODUCT = f"""WWUS41 KLWX 031530
WSWLWX

URGENT - WINTER WEATHER MESSAGE
National Weather Service Baltimore MD/Washington DC
1030 AM EST Wed Jan 3 2018

MDZ003>006-VAZ028-032330-
{TEXT}
Washington-Frederick-
1030 AM EST Wed Jan 3 2018

* WHAT...Heavy snow.

$$
"""

VTEC = re.compile(
    r"/([OTEX])\.(NEW|CON|EXA|EXT|EXB|UPG|CAN|EXP|COR|ROU)"
    r"\.([A-Z0-9]{4})\.([A-Z]{2})\.([WAYSFON])\.(\d{4})"
    r"\.(\d{6}T\d{4}Z)-(\d{6}T\d{4}Z)/"
)

UGC = re.compile(
    r"^((?:[A-Z]{2}[CZ])?\d{3}(?:>\d{3})?-(?:(?:[A-Z]{2}[CZ])?\d{3}(?:>\d{3})?-)*)(\d{6})-", re.M
)


HEADING = re.compile(r"^[A-Z]{4}\d\d [A-Z]{4} \d{6}.*\n", re.M)

ARCHIVE = "".join(PRODUCT.replace("W.0001", f"W.{number:04}") for number in range(1, 201))


def plain_time(text):
    return None if text == "000000T0000Z" else datetime.strptime(text, "%y%m%dT%H%MZ")


def plain_vtec(text):
    found = VTEC.fullmatch(text)
    *codes, begin, end = found.groups()
    return codes, plain_time(begin), plain_time(end)


def plain_zones(text):
    zones, state = [], ""
    for group in text.strip("-").split("-"):
        state = group[:3] if group[0].isalpha() else state
        first, _, last = group[-len(group) + 3 * group[0].isalpha() :].partition(">")
        zones += [f"{state}{number:03}" for number in range(int(first), int(last or first) + 1)]
    return sorted(set(zones))


def plain_product(text):
    return [
        (
            plain_zones(found[1]),
            found[2],
            [plain_vtec(line[0]) for line in VTEC.finditer(text, found.end())],
        )
        for found in UGC.finditer(text)
    ]


def plain_lives(text):
    """What each line does to each zone of its event; no line is judged."""
    lives = {}
    for part in HEADING.split(text)[1:]:
        for found in UGC.finditer(part):
            stop = part.find("\n$$", found.end())
            for line in VTEC.finditer(part, found.end(), stop):
                codes, begin, end = plain_vtec(line[0])
                for zone in plain_zones(found[1]):
                    lives.setdefault((*codes[3:6], zone), []).append((codes[1], begin, end))
    return sorted(lives.items())


def library_lives(text):
    with Reader("KLWX") as reader:
        reader.take(text)
        return reader.lives()


def microseconds(call, argument, count):
    best = min(_once(call, argument, count) for _ in range(7))
    return 1e6 * best / count


def _once(call, argument, count):
    start = time.process_time()
    for _ in range(count):
        call(argument)
    return time.process_time() - start


assert len(plain_lives(ARCHIVE)) == len(library_lives(ARCHIVE)) == 1000

for name, argument, library, plain, count in (
    ("P-VTEC text", TEXT, Vtec.read, plain_vtec, 2000),
    ("product of one segment", PRODUCT, Frame.read, plain_product, 2000),
    ("lives of 200 products", ARCHIVE, library_lives, plain_lives, 10),
):
    print(
        f"{name}: {microseconds(library, argument, count):.1f} us by the library,"
        f" {microseconds(plain, argument, count):.1f} us with re"
    )
