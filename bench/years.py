"""Prints rows of crates/worked_rows, behind its line `rows of archive`: two years of an office's products, and an event of 100,000 zones, a product a row; with
`--beside FOLDER` what these rows must be answered, as the programs `warn_archive` and `warn_stats` of that folder tell it.

    python3 bench/years.py [--seed S]                       the rows, for that part of its stdin (seed 1 where none is given)
    python3 bench/years.py [--seed S] --beside FOLDER       their answers, for that part of its stdout

Most lines go on with an event as they may. Some come too late or for zones that the event has not, print another begin or end,
give a number again or leave numbers out; some products have a fault, come out of order or are another office's.
"""
import argparse
import datetime
import hashlib
import os
import random
import subprocess
import tempfile

HAZARDS = ["WW.Y", "WI.Y", "FG.Y", "WS.W", "WS.A", "HW.W", "FZ.W", "FL.W", "FL.Y"]
ABOVE = {"WW.Y": "WS.W", "WI.Y": "HW.W", "WS.A": "WS.W"}
START = datetime.datetime(2016, 12, 20)
EVENTS = 150
HOURS = 24 * 31 * 24
UNTIL = "181226T0000Z"
LETTERS = "ABCDEFGHIJKLMNOPQRSTUVWXYZ"
STATES = [a + b for a in LETTERS for b in LETTERS][:100]


def utc(minute):
    return START + datetime.timedelta(minutes=minute)


def stamp(minute):
    return "000000T0000Z" if minute is None else utc(minute).strftime("%y%m%dT%H%MZ")


def local_line(minute):
    local = utc(minute) - datetime.timedelta(hours=6)
    return "%d%02d %s CST %s %d %d" % (local.hour % 12 or 12, local.minute, "AM" if local.hour < 12 else "PM",
                                       local.strftime("%a %b"), local.day, local.year)


def ugc_of(zones):
    """Zones of one state by their numbers: runs, then numbers."""
    groups, zones = [], sorted(zones)
    while zones:
        size = 1
        while size < len(zones) and zones[size] == zones[0] + size:
            size += 1
        groups.append("%03d" % zones[0] if size == 1 else "%03d>%03d" % (zones[0], zones[size - 1]))
        zones = zones[size:]
    return "IAZ" + "-".join(groups)


def vtec(action, hazard, number, begin, end, office="KDMX"):
    lines = ["/O.%s.%s.%s.%04d.%s-%s/" % (action, office, hazard, number, stamp(begin), stamp(end))]
    if hazard.startswith("FL"):
        lines.append("/00000.0.ER.000000T0000Z.000000T0000Z.000000T0000Z.OO/")
    return lines


def product(minute, segments):
    """A row of the script."""
    lines = ["WWUS43 KDMX %s" % utc(minute).strftime("%d%H%M"), "WSWDMX", local_line(minute)]
    for ugc, pairs in segments:
        lines += ["%s-%s-" % (ugc, utc(minute + 360).strftime("%d%H%M"))] + pairs + ["$$"]
    return "lines " + "|".join(lines)


class Event:
    """An event as its office would keep it."""

    def __init__(self, hazard, number, begin, end, zones):
        self.hazard, self.number, self.begin, self.end, self.zones = hazard, number, begin, end, set(zones)

    def line(self, chance, action, minute, end):
        begin = self.begin if action == "NEW" or self.begin > minute else None
        if chance.random() < 0.03:
            begin = chance.choice((None, self.begin, self.begin + 30))
        if chance.random() < 0.02:
            end += 60
        number = self.number + (chance.random() < 0.02)
        office = "KDVN" if chance.random() < 0.02 else "KDMX"
        return vtec(action, self.hazard, number, begin, end, office)


class Year:
    """The numbers that an office gives, and the products of its events."""

    def __init__(self, chance):
        self.chance, self.numbers, self.rows = chance, {}, []

    def opened(self, hazard, minute, begin, end, zones):
        key = hazard, utc(minute).year
        self.numbers[key] = self.numbers.get(key, 0) + self.chance.choice((1,) * 30 + (2, 0))
        return Event(hazard, max(self.numbers[key], 1), begin, end, zones)

    def put(self, minute, segments):
        row = product(minute, segments)
        if self.chance.random() < 0.02:
            at = self.chance.randrange(len(row) - 1) + 1
            row = row[:at] + self.chance.choice("?0Z-") + row[at + 1:]
        self.rows.append((minute + (self.chance.random() < 0.02) * 300, len(self.rows), row))

    def part(self, event):
        zones = sorted(event.zones)
        return set(zones[:self.chance.randint(1, len(zones))]) if zones else {1}

    def go_on(self, event, minute):
        """The next product of an event."""
        chance, end = self.chance, event.end
        part = self.part(event)
        rest = event.zones - part
        match chance.choice(("CON", "CON", "EXT", "EXA", "EXB", "CAN", "UPG")):
            case "CON":
                segments = [(part, "CON", end)] + [(rest, "CON", end)] * bool(rest)
            case "EXT":
                event.end = end + 120
                segments = [(part, "EXT", event.end)] + [(rest, "EXT", event.end)] * bool(rest)
            case "EXA" | "EXB" as action:
                more = {zone + 10 for zone in part} - event.zones or {99}
                segments = [(more, action, end + 120 * (action == "EXB")), (event.zones, "CON", end)]
                event.zones = event.zones | more
            case "UPG" if event.hazard in ABOVE:
                high = self.opened(ABOVE[event.hazard], minute, minute, end, part)
                pairs = event.line(chance, "UPG", minute, end) + high.line(chance, "NEW", minute, end)
                self.put(minute, [(ugc_of(part), pairs)] + [(ugc_of(rest), event.line(chance, "CON", minute, end))] * bool(rest))
                event.zones = rest
                return
            case _:
                segments = [(part, "CAN", end)] + [(rest, "CON", end)] * bool(rest)
                event.zones = rest
        self.put(minute, [(ugc_of(zones), event.line(chance, action, minute, until)) for zones, action, until in segments])

    def work(self, minute):
        """An event's products."""
        chance = self.chance
        begin = minute + chance.choice((0, 0, 60, 600))
        first = chance.randint(1, 40)
        zones = chance.sample(range(first, first + 8), chance.randint(1, 6))
        event = self.opened(chance.choice(HAZARDS), minute, begin, begin + chance.choice((180, 600, 1440)), zones)
        self.put(minute, [(ugc_of(event.zones), event.line(chance, "NEW", minute, event.end))])
        for _ in range(chance.randint(0, 5)):
            minute += chance.choice((20, 45, 120))
            if event.zones and (minute < event.end or chance.random() < 0.1):
                self.go_on(event, minute)
        if event.zones and chance.random() < 0.5:
            at = event.end + chance.choice((-5, 0, 10, 40))
            self.put(at, [(ugc_of(event.zones), event.line(chance, "EXP", at, event.end))])


def two_years(seed):
    year = Year(random.Random(seed))
    for minute in sorted(year.chance.sample(range(HOURS * 60), EVENTS)):
        year.work(minute)
    return [row for _, _, row in sorted(year.rows)]


def wide(states):
    """A UGC of whole states, in lines of at most 66 columns, which ends before its expiry."""
    groups = ["%sZ001>999" % state for state in states]
    return "|".join("-".join(groups[at:at + 5]) + "-" for at in range(0, len(groups), 5))[:-1]


def great_event():
    """An event whose 99,900 zones join it state by state, in falling order, and of which each second state is ended early."""
    begin, end = 549600, 550320
    new = [product(begin, [("IAZ001>100", vtec("NEW", "WS.W", 1, begin, end))])]
    joins = [product(begin + 1, [(wide([state]), vtec("EXA", "WS.W", 1, None, end))]) for state in reversed(STATES)]
    goes_on = [product(begin + 2, [(wide(STATES), vtec("CON", "WS.W", 1, None, end))])]
    ends = [product(begin + 3, [(wide(STATES[::2]), vtec("CAN", "WS.W", 1, None, end)),
                                (wide(STATES[1::2]), vtec("EXT", "WS.W", 1, None, end + 60))])]
    return new + joins + goes_on + ends, stamp(begin + 4)


def script(seed):
    rows, at = great_event()
    return (["# two years of products", "no text"] + two_years(seed)
            + ["piece 1000", "short KDMX O " + UNTIL, "short KDMX O 171231T2359Z",
               "reader 1 KDMX O " + UNTIL, "reader 1000 KDMX O " + UNTIL, "reader 1000 KDMX O 171231T2359Z", "stats KDMX O " + UNTIL]
            + ["# an event of 100,000 zones", "no text"] + rows
            + ["short KDMX O " + at, "reader 1000 KDMX O " + at])


def told(folder, name, words, given):
    done = subprocess.run([os.path.join(folder, name)] + words, input=given, stdout=subprocess.PIPE)
    return done.returncode, done.stdout


def in_short(status, report):
    return "status %d, %d lines, %d bytes, SHA-256 %s" % (status, report.count(b"\n"), len(report), hashlib.sha256(report).hexdigest())


def counted(report):
    """What a report lists."""
    lines = [line.split() for line in report.decode().splitlines()]
    shown = next(line[2] for line in lines if line[0] == "shown")
    products = [line for line in lines if line[0] == "product"]
    faults = sum(line[2] == "fault" for line in products)
    kinds = [sum(line[0] == kind for line in lines) for kind in ("life", "breach", "gap")]
    return "products %d, faults %d, lives %d, breaches %d, gaps %d, shown %s" % (len(products) - faults, faults, *kinds, shown)


def answers(rows, folder):
    given, out = b"", []
    for row in rows:
        match row.split(" "):
            case ["no", "text"]:
                given = b""
            case ["lines", *_]:
                given += row.removeprefix("lines ").replace("|", "\r\r\n").encode() + b"\r\r\n"
            case ["short", *words]:
                out.append(in_short(*told(folder, "warn_archive", words, given)))
            case ["reader", _, *words]:
                out.append(counted(told(folder, "warn_archive", words, given)[1]))
            case ["stats", *words]:
                status, text = told(folder, "warn_stats", words, given)
                out += text.decode().splitlines() + ["status %d" % status]
    return out


asked = argparse.ArgumentParser(description=__doc__.splitlines()[0])
asked.add_argument("--seed", type=int, default=1)
asked.add_argument("--beside", metavar="FOLDER")
asked = asked.parse_args()
rows = script(asked.seed)
print("\n".join(answers(rows, asked.beside) if asked.beside else rows))
