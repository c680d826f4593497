"""Measures the archive report, outside the gate, on archives that it makes: an office's products in order of time, one event every
forty minutes in 60 zones, each with a NEW, a CON and an EXT product, and then a CAN, an EXP or none, so that it lapses.
The mixed archive has two segments a product, of which the second goes on where the first ends the event, zones that join by EXA,
advisories that a warning takes over by UPG, and each twentieth product cut off.
Seconds are of processor time; the exponent is that of the growth of time from one size to the next. With `--beside FOLDER` the
program of the same name in that folder runs over the same files, and the ratios are printed.

    python3 bench/archive.py [--beside FOLDER] [MEGABYTES ..]      the sizes, 8 and 32 where none is given
"""
import datetime
import math
import os
import sys
import tempfile

from measure import beside, kilobytes, program, ratio, run

HAZARDS = ["WW.Y", "WI.Y", "FG.Y", "WS.W", "HW.W", "FZ.W", "SC.Y", "GL.W"]
BODY = "\r\r\n".join(["* ADDITIONAL DETAILS...Conditions are to be watched, line %02d of the text." % n for n in range(1, 21)])
START = datetime.datetime(2017, 1, 1)


def stamp(minute):
    return (START + datetime.timedelta(minutes=minute)).strftime("%y%m%dT%H%MZ")


def text(minute, action, hazard, number, begin, end):
    utc = START + datetime.timedelta(minutes=minute)
    local = utc - datetime.timedelta(hours=6)
    line = "%d%02d %s CST %s %d %d" % (local.hour % 12 or 12, local.minute, "AM" if local.hour < 12 else "PM",
                                       local.strftime("%a %b"), local.day, local.year)
    expiry = (utc + datetime.timedelta(hours=6)).strftime("%d%H%M")
    first = "000000T0000Z" if begin <= minute and action != "NEW" else stamp(begin)
    return "\r\r\n".join([
        "000", "WWUS43 KDMX %s" % utc.strftime("%d%H%M"), "WSWDMX", "", "URGENT - WEATHER MESSAGE",
        "National Weather Service Des Moines IA", line, "", "IAZ001>060-%s-" % expiry,
        "/O.%s.KDMX.%s.%04d.%s-%s/" % (action, hazard, number, first, stamp(end)),
        "Emmet-Kossuth-Winnebago-", line, "", "* WHAT...Hazardous weather is expected in these counties.", "",
        "* WHERE...Portions of northern and central Iowa.", "",
        "* IMPACTS...Travel could be difficult. The hazardous conditions", "could impact the morning or evening commute.", "",
        BODY, "",
        "LAT...LON 4330 9600 4330 9500", "", "$$", "AB", "", ""])


def products():
    """Texts in order of time, without end but for the four digits of the numbers."""
    numbers = {}
    waiting = []
    for k in range(10 ** 9):
        minute = 40 * k
        hazard = HAZARDS[k % len(HAZARDS)]
        year = (START + datetime.timedelta(minutes=minute)).year
        number = numbers[hazard, year] = numbers.get((hazard, year), 0) + 1
        end = minute + 360
        waiting.append((minute, k, "NEW", hazard, number, minute, end))
        waiting.append((minute + 61, k, "CON", hazard, number, minute, end))
        waiting.append((minute + 122, k, "EXT", hazard, number, minute, end + 60))
        if k % 3 == 0:
            waiting.append((minute + 303, k, "CAN", hazard, number, minute, end + 60))
        elif k % 3 == 1:
            waiting.append((minute + 424, k, "EXP", hazard, number, minute, end + 60))
        waiting.sort()
        while waiting and waiting[0][0] <= minute:
            at, _, action, name, etn, begin, until = waiting.pop(0)
            yield text(at, action, name, etn, begin, until)


def segment(zones, minute, pairs):
    utc = START + datetime.timedelta(minutes=minute)
    expiry = (utc + datetime.timedelta(hours=6)).strftime("%d%H%M")
    lines = ["%s-%s-" % (zones, expiry)]
    for action, hazard, number, begin, end in pairs:
        first = "000000T0000Z" if begin <= minute and action not in ("NEW",) else stamp(begin)
        lines.append("/O.%s.KDMX.%s.%04d.%s-%s/" % (action, hazard, number, first, stamp(end)))
    return lines + ["Emmet-Kossuth-Winnebago-", "", "* WHAT...Hazardous weather is expected in these counties.", "", BODY, "", "$$"]


def product(minute, segments, whole):
    utc = START + datetime.timedelta(minutes=minute)
    local = utc - datetime.timedelta(hours=6)
    line = "%d%02d %s CST %s %d %d" % (local.hour % 12 or 12, local.minute, "AM" if local.hour < 12 else "PM",
                                       local.strftime("%a %b"), local.day, local.year)
    lines = ["000", "WWUS43 KDMX %s" % utc.strftime("%d%H%M"), "WSWDMX", "", "URGENT - WEATHER MESSAGE",
             "National Weather Service Des Moines IA", line, ""]
    for part in segments:
        lines += segment(part[0], minute, part[1])
    if not whole:
        lines.pop()
    return "\r\n".join(lines + ["AB", "", ""])


def mixed():
    """Each event: NEW, EXA for more zones, a product of two segments, and where it is an advisory, UPG under a warning."""
    numbers = {}

    def next_number(hazard, minute):
        year = (START + datetime.timedelta(minutes=minute)).year
        numbers[hazard, year] = numbers.get((hazard, year), 0) + 1
        return numbers[hazard, year]

    count = 0
    for k in range(10 ** 9):
        minute = 240 * k
        end = minute + 720
        low = next_number("WW.Y", minute)
        high = next_number("WS.W", minute)
        parts = [
            (minute, [("IAZ001>060", [("NEW", "WW.Y", low, minute, end)])]),
            (minute + 20, [("IAZ061>070", [("EXA", "WW.Y", low, minute, end)])]),
            (minute + 40, [("IAZ001>020", [("CAN", "WW.Y", low, minute, end)]), ("IAZ021>070", [("CON", "WW.Y", low, minute, end)])]),
            (minute + 60, [("IAZ021>040", [("UPG", "WW.Y", low, minute, end), ("NEW", "WS.W", high, minute + 60, end)]),
                           ("IAZ041>070", [("EXT", "WW.Y", low, minute, end + 60)])]),
            (minute + 80, [("IAZ041>070", [("CAN", "WW.Y", low, minute, end + 60)]), ("IAZ021>040", [("CAN", "WS.W", high, minute + 60, end)])]),
        ]
        for at, segments in parts:
            count += 1
            yield product(at, segments, count % 20 != 0)


def make(path, megabytes, texts):
    count = written = 0
    with open(path, "w", newline="") as out:
        for product in texts:
            if written >= megabytes * 1048576:
                return count
            out.write(product)
            written += len(product)
            count += 1


words, folder = beside(sys.argv[1:])
sizes = [int(word) for word in words] or [8, 32]
report = [program("warn_archive"), "KDMX", "O", "180103T1700Z"]
with tempfile.TemporaryDirectory() as place:
    path = os.path.join(place, "archive")
    for name, texts in ("plain", products), ("mixed", mixed):
        before = None
        for size in sizes:
            count = make(path, size, texts())
            seconds, written, memory, status = run(report, path)
            growth = ""
            if before:
                growth = ", exponent %.2f" % (math.log(seconds / before[1]) / math.log(size / before[0]))
            print("%s, %d MB, %d products: %.2f s, %.1f MB/s%s, %d bytes of report, peak %s, status %d%s"
                  % (name, size, count, seconds, size / seconds, growth, written, kilobytes(memory), status,
                     ratio((seconds, written, memory, status), folder, report, path)))
            before = size, seconds
