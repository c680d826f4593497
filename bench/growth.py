"""Looks for inputs on which the archive report takes more than its share of time, outside the gate. Each action of P-VTEC lines in
turn: so many lines of it, for events that stand in one zone, or for one event in a zone each; their events or zones in rising, falling
or mixed order; all in one product, a segment each, or a product each. Each input runs at N and at 4 N lines, N being 2,000 where it
is not given. Printed are seconds of processor time, the least of three runs, and the exponent of their growth; beside them those of
OTHER, a program with the same words, where it is given, and the ratios. At the end stand the inputs that grow most.

    python3 bench/growth.py WARN_ARCHIVE [OTHER] [--lines N] [--only ACTION]
"""
import math
import os
import sys
import tempfile

from measure import run

LETTERS = "ABCDEFGHIJKLMNOPQRSTUVWXYZ"
ACTIONS = ["NEW", "CON", "EXT", "EXA", "EXB", "UPG", "CAN", "EXP", "COR", "ROU"]
ORDERS = ["rising", "falling", "mixed"]
PLACES = ["events of one zone", "zones of one event"]
SPREADS = ["in one product", "in a product each"]
OPENED = "180103T1800Z-180104T0600Z"
LATER = "180103T1800Z-180104T0900Z"
FIRST = "1030 AM CST Wed Jan 3 2018", "031630"
LAST = "1155 PM CST Wed Jan 3 2018", "040555"


def zone(k):
    state, number = divmod(k, 999)
    return "%s%sZ%03d" % (LETTERS[state // 26], LETTERS[state % 26], number + 1)


def line(action, hazard, number, times=OPENED):
    return "/O.%s.KDMX.%s.%04d.%s/" % (action, hazard, number, times)


def product(segments, when=FIRST):
    """The text of a product. A segment is a zone, or more of them by their UGC, and its lines."""
    lines = ["WWUS43 KDMX %s" % when[1], "WSWDMX", when[0]]
    for zones, said in segments:
        lines += ["%s-040600-" % zones] + said + ["$$"]
    return "\r\n".join(lines + [""])


def ordered(count, order):
    numbers = list(range(count))
    if order == "falling":
        return numbers[::-1]
    if order == "rising":
        return numbers
    step = int(count * 0.618)
    while math.gcd(step, count) != 1:
        step += 1
    return [k * step % count for k in numbers]


def openings(hazard, place, count):
    """What stands before the lines: the events, opened in rising order, in one product."""
    if place == PLACES[0]:
        return product([("IAZ001", [line("NEW", hazard, k + 1) for k in range(count)])])
    states = ["%s001>999" % zone(999 * k)[:3] for k in range((count + 998) // 999)]
    return product([(state, [line("NEW", hazard, 1)]) for state in states])


def begun(action, place, count):
    if action in ("NEW", "ROU"):
        return ""
    if action in ("EXA", "EXB"):
        numbers = range(count) if place == PLACES[0] else range(1)
        return product([("ZZZ999", [line("NEW", "WW.Y", k + 1) for k in numbers])])
    if action == "UPG":
        return openings("WW.Y", place, count) + openings("WS.W", place, 1 if place == PLACES[0] else count)
    return openings("WW.Y", place, count)


def text(action, place, order, spread, count):
    times = LATER if action in ("EXT", "EXB") else OPENED
    when = LAST if action == "EXP" else FIRST
    segments = []
    for k in ordered(count, order):
        at, number = ("IAZ001", k + 1) if place == PLACES[0] else (zone(k), 1)
        segments.append((at, [line(action, "WW.Y", number, times)]))
    before = begun(action, place, count)
    if spread == SPREADS[1]:
        return before + "".join(product([one], when) for one in segments)
    return before + product(segments, when)


def least(program, path):
    """The least seconds of three runs, with what the runs answered."""
    runs = [run([program, "KDMX", "O", "180103T1700Z"], path) for _ in range(3)]
    return max(0.001, min(seconds for seconds, *_ in runs)), (runs[0][1], runs[0][3])


def growth(pair):
    return math.log(pair[1] / pair[0]) / math.log(4)


def told(name, programs, path, make, count):
    """Runs an input at both sizes through the programs, and prints a line. Returns the growth and the ratio at the larger size."""
    seconds = [[], []]
    same = ""
    for size in (count, 4 * count):
        with open(path, "w", newline="") as out:
            out.write(make(size))
        answers = []
        for k, each in enumerate(programs):
            took, answer = least(each, path)
            seconds[k].append(took)
            answers.append(answer)
        if answers.count(answers[0]) != len(answers):
            same = ", ANOTHER ANSWER"
    mine = "%.3f and %.3f s, exponent %.2f" % (*seconds[0], growth(seconds[0]))
    if len(programs) == 1:
        print("%s: %s" % (name, mine), flush=True)
        return growth(seconds[0]), 0.0
    ratio = seconds[0][1] / seconds[1][1]
    print("%s: %s; the other's %.3f and %.3f s, exponent %.2f; %.1f and %.1f times%s"
          % (name, mine, *seconds[1], growth(seconds[1]), seconds[0][0] / seconds[1][0], ratio, same), flush=True)
    return growth(seconds[0]), ratio


def main(words):
    count, only = 2000, ACTIONS
    while len(words) > 2 and words[-2] in ("--lines", "--only"):
        if words[-2] == "--lines":
            count = int(words[-1])
        else:
            only = [words[-1]]
        words = words[:-2]
    if not 1 <= len(words) <= 2 or count > 2499 or not set(only) <= set(ACTIONS):
        raise SystemExit(__doc__)
    found = []
    with tempfile.TemporaryDirectory() as folder:
        path = os.path.join(folder, "archive")
        for action in only:
            for place in PLACES:
                for spread in SPREADS:
                    for order in ORDERS:
                        name = "%s, %s, %s, %s" % (action, place, order, spread)
                        grows, ratio = told(name, words, path, lambda size: text(action, place, order, spread, size), count)
                        found.append((grows, ratio, name))
    print("\nThose that grow most:")
    for grows, ratio, name in sorted(found, reverse=True)[:8]:
        print("%.2f: %s%s" % (grows, name, ", %.1f times" % ratio if ratio else ""))


main(sys.argv[1:])
