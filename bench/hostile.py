"""Measures the archive report, outside the gate, on small inputs that name very much: two products whose UGC names so many states of
999 zones each; a UGC that names one state's zones again and again; very many products of an event each; one event of very many
zones of which very many products name one each; one whose zones come in falling order, a segment each; one that very many zones
join by EXB lines; very many warnings of a zone each, then products that upgrade an advisory of whole states, or of a zone each; and
very many events in one zone, opened in falling order, or upgraded together, under as many higher events or beside them. Seconds are
of processor time; the exponent is that of the growth of time.
With `--beside FOLDER` the program of the same name in that folder runs over the same files, and the ratios are printed.

    python3 bench/hostile.py [--beside FOLDER]
"""
import math
import os
import sys
import tempfile

from measure import beside, kilobytes, program, ratio, run

LETTERS = "ABCDEFGHIJKLMNOPQRSTUVWXYZ"
HAZARDS = ["WW.Y", "WI.Y", "FG.Y", "WS.W", "HW.W", "FZ.W", "SC.Y", "GL.W", "DS.W", "DU.Y", "EH.W"]


def ugc(groups):
    """Lines of at most 66 columns."""
    lines, line = [], ""
    for group in groups + ["032300"]:
        if len(line) + len(group) + 1 > 66:
            lines.append(line)
            line = ""
        line += group + "-"
    return lines + [line]


def segment(groups, action, hazard, number, begin="180103T1800Z", end="180104T0600Z"):
    return ugc(groups) + ["/O.%s.KDMX.%s.%04d.%s-%s/" % (action, hazard, number, begin, end), "$$"]


def framed(segments):
    return "\r\n".join(["WWUS43 KDMX 031630", "WSWDMX", "1030 AM CST Wed Jan 3 2018"] + [line for lines in segments for line in lines] + [""])


def product(*words, **times):
    return framed([segment(*words, **times)])


def letters(k):
    return LETTERS[k // 26] + LETTERS[k % 26]


def states(count):
    groups = [letters(k) + "Z001>999" for k in range(count)]
    return product(groups, "NEW", "WW.Y", 3) + product(groups, "CON", "WW.Y", 3)


def repeated(count):
    groups = ["IAZ001>999"] + ["001>999"] * (count - 1)
    return product(groups, "NEW", "WW.Y", 3) + product(groups, "CON", "WW.Y", 3)


def tiny(count):
    return "".join(product(["IAZ%03d" % (k % 999 + 1)], "NEW", HAZARDS[k // 9999], k % 9999 + 1) for k in range(count))


def named_again(count):
    groups = [letters(k) + "Z001>999" for k in range(26)]
    return product(groups, "NEW", "WW.Y", 3) + "".join(product(["AAZ%03d" % (k % 999 + 1)], "CON", "WW.Y", 3) for k in range(count))


def falling(count):
    return framed([segment([letters(k) + "Z%03d" % number], "NEW", "WW.Y", 3) for k in reversed(range(count)) for number in range(999, 0, -1)])


def joined(count):
    groups = [letters(k) + "Z001>999" for k in range(count)]
    return product(groups[::2], "NEW", "WW.Y", 3) + product(groups[1::2], "EXB", "WW.Y", 3, end="180104T0900Z")


def upgraded(count):
    groups = [letters(k) + "Z001>999" for k in range(20)]
    warnings = [product([letters(k // 999) + "Z%03d" % (k % 999 + 1)], "NEW", "WS.W", k + 1) for k in range(count)]
    return product(groups, "NEW", "WW.Y", 3) + "".join(warnings) + "".join(product([group], "UPG", "WW.Y", 3) for group in groups)


def upgraded_one_by_one(count):
    zones = [letters(k // 999) + "Z%03d" % (k % 999 + 1) for k in range(count)]
    groups = [letters(k) + "Z001>999" for k in range((count + 998) // 999)]
    warnings = [product([zone], "NEW", "WS.W", k + 1) for k, zone in enumerate(zones)]
    return product(groups, "NEW", "WW.Y", 3) + "".join(warnings) + "".join(product([zone], "UPG", "WW.Y", 3) for zone in zones)


def lines_of(action, hazard, numbers, hours="1800-0600"):
    begin, end = hours.split("-")
    days = "180103T%sZ" % begin, "1801%02dT%sZ" % (3 + (end < begin), end)
    return ["/O.%s.KDMX.%s.%04d.%s-%s/" % (action, hazard, number, *days) for number in numbers]


def one_zone(*lines):
    return framed([ugc(["IAZ001"]) + [line for some in lines for line in some] + ["$$"]])


def falling_numbers(count):
    return one_zone(lines_of("NEW", "WW.Y", range(count, 0, -1)))


def all_upgraded(count):
    numbers = range(1, count + 1)
    return one_zone(lines_of("NEW", "WW.Y", numbers)) + one_zone(lines_of("UPG", "WW.Y", numbers))


def under_as_many(count):
    numbers = range(1, count + 1)
    return one_zone(lines_of("NEW", "WS.W", numbers), lines_of("NEW", "WW.Y", numbers)) + one_zone(lines_of("UPG", "WW.Y", numbers))


def beside_as_many(count):
    numbers = range(1, count + 1)
    opened = one_zone(lines_of("NEW", "WS.W", numbers, "1700-1800"), lines_of("NEW", "WW.Y", numbers, "1900-0600"))
    return opened + "".join(one_zone(lines_of("UPG", "WW.Y", [number], "1900-0600")) for number in numbers)


def under_upgraded(count):
    numbers = range(1, count + 1)
    opened = one_zone(lines_of("NEW", "WS.A", numbers), lines_of("NEW", "WW.Y", numbers))
    return opened + one_zone(lines_of("UPG", "WW.Y", numbers), lines_of("UPG", "WS.A", numbers))


def upgraded_together(count):
    numbers = range(1, count + 1)
    opened = one_zone(lines_of("NEW", "WS.A", numbers), lines_of("NEW", "WW.Y", numbers))
    return opened + one_zone(lines_of("UPG", "WW.Y", numbers), lines_of("UPG", "WS.A", numbers), lines_of("NEW", "WS.W", numbers))


words, folder = beside(sys.argv[1:])
report = [program("warn_archive"), "KDMX", "O", "180103T1700Z"]
with tempfile.TemporaryDirectory() as place:
    path = os.path.join(place, "archive")
    for name, make, sizes in (("states of 999 zones, twice", states, (16, 64, 676)), ("runs 001>999 of one state, twice", repeated, (16, 64, 676)),
                              ("products of an event each", tiny, (10000, 100000)), ("products of a zone each of one great event", named_again, (1000, 10000)),
                              ("states of 999 zones of one event in falling order, a segment each", falling, (4, 16, 64)),
                              ("states of 999 zones of one event, each second one by EXB lines", joined, (16, 64, 676)),
                              ("warnings of a zone each, then an upgrade of each of 20 states of 999 zones", upgraded, (2000, 8000)),
                              ("warnings of a zone each, then an upgrade of a zone each", upgraded_one_by_one, (2000, 8000)),
                              ("events that one product opens in one zone, in falling order", falling_numbers, (2475, 9900)),
                              ("events of one zone that one product opens and one upgrades", all_upgraded, (2475, 9900)),
                              ("events of one zone that one product upgrades under as many warnings", under_as_many, (1200, 4800)),
                              ("events of one zone that a product each upgrades beside as many warnings", beside_as_many, (1200, 4800)),
                              ("events of two ranks of one zone that one product upgrades and takes over", upgraded_together, (1200, 4800)),
                              ("events of two ranks of one zone that one product upgrades", under_upgraded, (600, 2400))):
        before = None
        for size in sizes:
            with open(path, "w", newline="") as out:
                out.write(make(size))
            seconds, written, memory, status = run(report, path)
            growth = ""
            if before:
                growth = ", exponent %.2f" % (math.log(max(seconds, 0.001) / before[1]) / math.log(size / before[0]))
            print("%d %s, %d bytes: %.3f s%s, peak %s, status %d%s"
                  % (size, name, os.path.getsize(path), seconds, growth, kilobytes(memory), status,
                     ratio((seconds, written, memory, status), folder, report, path)))
            before = size, max(seconds, 0.001)
