"""Measures what a request costs where offices are old, zones are full, or hazards come in any order; outside the gate.

    python3 bench/costs.py [NAMES..] [--beside FOLDER]

NAMES are those of the measurements below (all where none is given): live, random, drill, year, script, long, counties, joins,
single, look, links.
FOLDER has another `warn_main` and `watch_notice`, which are given the same words, and for `year` a program
`year PRODUCTS ZONES SEED`, which writes a journal.
Seconds are of processor time, the least of three runs. Growth is the exponent between the two largest sizes. `links` is
bench/links.py, over crates/worked_serve as built last.
"""
import datetime
import json
import math
import os
import random
import shutil
import socket
import subprocess
import sys
import tempfile
import time

import links
from measure import beside, program, run
from serve import call, free_port, get

STAMP = "180103T1530Z"
START = datetime.datetime(2018, 1, 3, 15, 30)
ZONAL = ["WS.W", "BZ.W", "IS.W", "LE.W", "WW.Y", "WS.A", "HW.W", "WI.Y", "HW.A", "FZ.W", "FR.Y", "FZ.A", "FG.Y", "FW.W", "FW.A",
         "CF.W", "CF.Y", "CF.A", "SU.W", "SU.Y", "SR.W", "GL.W", "SC.Y", "SR.A", "GL.A"]


def stamp(minutes):
    return (START + datetime.timedelta(minutes=minutes)).strftime("%y%m%dT%H%MZ")


def zone(number):
    return "A%sZ%03d" % (chr(ord("A") + number // 999), number % 999 + 1)


def issue(hazard, zones, begin, end, **more):
    return dict({"do": "issue", "hazard": hazard, "zones": zones, "begin": begin, "end": end}, **more)


def lines_of(requests):
    return "".join(json.dumps(it, separators=(",", ":")) + "\n" for it in requests).encode()


def live(count):
    """Warnings of one zone, each for a minute of its own still to come, so that all live side by side."""
    return lines_of(issue("WS.W", ["MDZ003"], stamp(10 + n), stamp(11 + n)) for n in range(count))


def scattered(count):
    """Issues of hazards and zones at random."""
    made = random.Random(7)
    return lines_of(issue(made.choice(ZONAL), sorted(zone(made.randrange(2000)) for _ in range(1)), "now", stamp(made.randrange(60, 2000)))
                    for _ in range(count))


class Measured:
    """What was measured of one kind: a row for each size, and the growth."""

    def __init__(self, mine, other):
        self.mine, self.other, self.sizes = mine, other, []

    def row(self, name, size, words, given, before=None):
        own = least(self.mine, words, given, before)
        told = ""
        if self.other:
            theirs = least(self.other, words, given, before)
            same = "" if own[1:] == theirs[1:] else ", ANOTHER ANSWER"
            told = ", %.1f times the other's %.3f s%s" % (own[0] / max(theirs[0], 0.001), theirs[0], same)
        print("%s: %.3f s%s" % (name, own[0], told), flush=True)
        self.sizes.append((size, own[0]))

    def growth(self):
        (small, before), (large, after) = self.sizes[-2:]
        print("  growth %.2f" % (math.log(max(after, 0.001) / max(before, 0.001)) / math.log(large / small)), flush=True)


def least(path, words, given, before):
    """Seconds, bytes written and status, the least of three runs, each with what is done before it."""
    best = None
    for _ in range(3):
        with tempfile.NamedTemporaryFile(dir="/dev/shm") as source:
            source.write(given)
            source.flush()
            found = run([path] + (before(path) if before else []) + words, source.name)
        done = (found[0], found[1], found[3])
        best = done if best is None or done[0] < best[0] else best
    return best


def dry(measured, make, sizes, name):
    for size in sizes:
        measured.row("%d %s" % (size, name), size, ["-", "dry", "KLWX", STAMP], make(size))
    measured.growth()


def drill(measured):
    for count in (1024, 4096, 8192):
        measured.row("drill of %d requests" % count, count, ["-", "drill", "7", str(count)], b"")
    measured.growth()


def year(measured, folder):
    """Opening, `export` and one more request over the journal of an office of sixty zones that worked for about a year."""
    if not measured.other:
        print("year: wants --beside FOLDER with its program `year`")
        return
    for command in (["board", "--at", "190101T0000Z"], ["export"]):
        for count in (2000, 4000, 8000):
            journal = os.path.join(folder, "year%d" % count)
            if not os.path.exists(journal):
                with open(journal, "wb") as out:
                    subprocess.run([os.path.join(os.path.dirname(measured.other), "year"), str(count), "60", "7"], stdout=out, check=True)
            measured.row("%s after %d products" % (command[0], count), count, command, b"", copies_of(journal, folder))
        measured.growth()
    more = lines_of([dict(issue("FA.A", ["MDZ001"], "now", "991231T0000Z"), desk="C", seq=1000000)])
    measured.row("one request more after 8000 products", 8000, ["script"], more, copies_of(os.path.join(folder, "year8000"), folder))


def copies_of(journal, folder):
    def copied(_):
        place = os.path.join(folder, "journal")
        shutil.copyfile(journal, place)
        return [place]
    return copied


SETTINGS = "\n".join(['office = "KLWX"', 'site = "LWX"', 'office_line = "National Weather Service"', 'zone = "Eastern"', 'desks = ["A"]', "[headings]"]
                     + ['%s = "WWUS4%d"' % (code, place) for place, code in enumerate(("WSW", "NPW", "RFW", "CFW", "MWW", "FFA", "FLW", "FLS"))]
                     + ["[zones]"] + ['%s = "Z"' % zone(n) for n in range(2000)]) + "\n"


def fresh(folder):
    """A new journal for each run, made by the program itself."""
    def made(path):
        place = os.path.join(folder, "fresh")
        if os.path.exists(place):
            os.remove(place)
        subprocess.run([path, place, "init"], input=SETTINGS.encode(), stdout=subprocess.DEVNULL, check=True)
        return [place]
    return made


def script(measured, folder):
    """Accepted and refused issues of hazards and zones at random, over a journal in memory."""
    for count in (2000, 4000, 8000):
        made = random.Random(7)
        now = datetime.datetime.now(datetime.timezone.utc)
        ends = [(now + datetime.timedelta(minutes=made.randrange(600, 2000))).strftime("%y%m%dT%H%MZ") for _ in range(count)]
        asked, seq = [], 0
        free = [(hazard, n) for hazard in ("WS.W", "WI.Y", "FG.Y", "FW.W", "FZ.W", "CF.W") for n in range(2000)]
        made.shuffle(free)
        for hazard, number in free[:count]:
            seq += 1
            asked.append(dict(issue(hazard, [zone(number)], "now", ends[seq - 1]), desk="A", seq=seq))
        measured.row("script of %d products at random" % count, count, ["script"], lines_of(asked), fresh(folder))
    measured.growth()


def long_draft(measured, folder):
    """A draft of sixty-four puts with full texts over thirty-one zones, whose product is too long."""
    now = datetime.datetime.now(datetime.timezone.utc)

    def at(hours):
        return (now + datetime.timedelta(hours=hours)).strftime("%y%m%dT%H%MZ")
    texts = {name: ("word " * 900)[:4096] for name in ("what", "area", "impacts", "details")}
    asked = [{"desk": "A", "seq": 1, "do": "open", "category": "WSW"}]
    for n in range(64):
        zones = [zone(k) for k in range(31) if k != n % 31]
        asked.append({"desk": "A", "seq": n + 2, "do": "put", "draft": 1, "hazard": "WS.W", "zones": zones, "begin": at(10 + 3 * n), "end": at(12 + 3 * n), "texts": texts})
    measured.row("64 puts with full texts", 64, ["script"], lines_of(asked), fresh(folder))
    measured.row("the same and 20 sends that are too long", 64, ["script"],
                 lines_of(asked + [{"desk": "A", "seq": 66, "do": "send", "draft": 1}] * 20), fresh(folder))


def office_of(path, folder, products):
    """The journal of an office with so many products. The last ten have ten zones each and stand, so that its board has a hundred
    lines; each event before them was cancelled by the product behind its own."""
    journal = fresh(folder)(path)[0]
    ends = (datetime.datetime.now(datetime.timezone.utc) + datetime.timedelta(hours=20)).strftime("%y%m%dT%H%MZ")
    year = datetime.datetime.now(datetime.timezone.utc).year
    asked = []
    for number in range((products - 10) // 2):
        zones = [zone(number % 1800)]
        asked.append(issue("WS.W", zones, "now", ends))
        asked.append({"do": "open", "category": "WSW"})
        asked.append({"do": "end", "draft": number + 1, "event": "WS.W.%04d.%04d" % (number + 1, year), "zones": zones})
        asked.append({"do": "send", "draft": number + 1})
    for number in range(10):
        asked.append(issue("WI.Y", [zone(1800 + 10 * number + n) for n in range(10)], "now", ends))
    given = lines_of([dict(it, desk="A", seq=n + 1) for n, it in enumerate(asked)])
    told = subprocess.run([path, journal, "script"], input=given, stdout=subprocess.PIPE, check=True).stdout
    if told.count(b'"ok"') != len(asked):
        raise SystemExit("of %d requests %d were accepted" % (len(asked), told.count(b'"ok"')))
    return journal


def served(path, journal, calls):
    """Seconds of the processor that a server takes from its start over so many boards that one link asks for, and their lines."""
    port = free_port()
    words = ["serve", "--port", str(port), "--workers", "1", "--connections", "1"]
    work = subprocess.Popen([path, journal] + words, stdin=subprocess.DEVNULL, stdout=subprocess.DEVNULL)
    link, held, lines = None, b"", 0
    while link is None:
        try:
            link = socket.create_connection(("127.0.0.1", port))
        except OSError:
            time.sleep(0.02)
    for _ in range(calls):
        status, body, held = call(link, held, get("/board"))
        lines = body.count(b"\n") if status == 200 else -1
    link.close()
    _, ended, usage = os.wait4(work.pid, 0)
    work.returncode = os.waitstatus_to_exitcode(ended)
    return usage.ru_utime + usage.ru_stime, lines


def look(paths, folder, calls=4000):
    """`GET /board` of a hundred lines, on an office of ten products and on one of eight thousand."""
    for path in paths:
        each = []
        for products in (10, 8000):
            journal = office_of(path, folder, products)
            none = min(served(path, journal, 0)[0] for _ in range(3))
            taken, lines = min(served(path, journal, calls) for _ in range(5))
            each.append((taken - none) / calls)
            print("%s: GET /board of %d lines after %d products: %.4f ms" % (path, lines, products, each[-1] * 1000), flush=True)
        print("  the old office's over the young one's: %.2f" % (each[1] / each[0]), flush=True)


def county(number):
    return "A%sC%03d" % (chr(ord("A") + number // 999), number % 999 + 1)


def watch(at, do, number, counties, end):
    return {"at": stamp(at), "do": do, "hazard": "TO.A", "number": number, "zones": [county(n) for n in counties], "end": stamp(end)}


def counties(count):
    """Watches that stand side by side, each in as many counties as there are watches."""
    return lines_of(watch(n, "open", n + 1, range(count), n + 2000) for n in range(count))


def joins(count):
    """Watches of three hundred counties, each joined five times by sixty more for another time."""
    asked = []
    for n in range(count // 6):
        asked.append(watch(60 * n, "open", n + 1, range(300), 60 * n + 600))
        for more in range(5):
            asked.append(watch(60 * n + more + 1, "join", n + 1, range(300 + 60 * more, 360 + 60 * more), 60 * n + 700 + more))
    return lines_of(asked)


def single(count):
    """A watch that single counties join, a line each."""
    asked = [watch(0, "open", 1, [0], 2000)]
    asked += [watch(n * 59 // count, "join", 1, [n + 1], 2000) for n in range(count)]
    return lines_of(asked)


def notices(make, sizes, name, folder):
    measured = Measured(program("watch_notice"), os.path.join(folder, "watch_notice") if folder else None)
    for size in sizes:
        measured.row("%d %s" % (size, name), size, ["KLWX", "Eastern"], make(size))
    measured.growth()


def main():
    words, there = beside(sys.argv[1:])
    mine = program("warn_main")
    other = os.path.join(there, "warn_main") if there else None
    with tempfile.TemporaryDirectory(dir="/dev/shm") as folder:
        kinds = {
            "live": lambda: dry(Measured(mine, other), live, (125, 250, 500, 1000), "warnings live side by side in one zone"),
            "random": lambda: dry(Measured(mine, other), scattered, (2500, 5000, 10000), "issues of hazards and zones at random"),
            "drill": lambda: drill(Measured(mine, other)),
            "year": lambda: year(Measured(mine, other), folder),
            "script": lambda: script(Measured(mine, other), folder),
            "long": lambda: long_draft(Measured(mine, other), folder),
            "counties": lambda: notices(counties, (150, 300, 600), "watches in as many counties", there),
            "joins": lambda: notices(joins, (90, 180, 360), "lines that open and join watches", there),
            "single": lambda: notices(single, (1900, 7600), "counties that join one watch, a line each", there),
            "look": lambda: look([it for it in (mine, other) if it], folder),
            "links": lambda: links.measure(100),
        }
        for name in words or kinds:
            kinds[name]()


if __name__ == "__main__":
    main()
