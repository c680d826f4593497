"""Measures plans over a board of 2,000 zones with many rows: previews of a draft of 6 and of 600 zones.

usage: python3 bench/plans.py [PREVIEWS]    over crates/worked_rows as built last (PROGRAM names another program)

Each board has five events in each of 2,000 zones at a time, four hours long, one set after another: 10,000 rows for each set.
The time of a preview is the difference of two runs of one script, with and without the previews.
"""
import datetime
import os
import sys
import tempfile

from measure import program, run

HAZARDS = ["WS.W", "HW.W", "FG.Y", "FW.W", "CF.W"]
CATEGORIES = ["WSW", "NPW", "NPW", "RFW", "CFW"]
START = datetime.datetime(2018, 1, 3)
STATES = ["AA", "AB", "AC"]


def stamp(minutes):
    return (START + datetime.timedelta(minutes=minutes)).strftime("%y%m%dT%H%MZ")


def zones(first, count):
    """So many zones from one on, 999 in a state, in runs of one state."""
    runs = []
    while count:
        state, number = STATES[first // 999], first % 999 + 1
        here = min(count, 999 - number + 1)
        runs.append("%sZ%03d>%03d" % (state, number, number + here - 1) if here > 1 else "%sZ%03d" % (state, number))
        first, count = first + here, count - here
    return ",".join(runs)


def board(sets):
    """The lines of a script that fill a board, and the minute after them."""
    lines = ["day"]
    minute = 0
    for _ in range(sets):
        for hazard, category in zip(HAZARDS, CATEGORIES):
            for first in range(0, 2000, 500):
                lines += ["at %s %s" % (stamp(minute), category),
                          "put %s %s now %s" % (hazard, zones(first, 500), stamp(minute + 240)),
                          "send"]
        minute += 300
    # Of the last set the rows are live for the previews: they are sent four minutes behind it.
    return lines, minute - 296


def seconds(lines):
    with tempfile.NamedTemporaryFile("w", delete=False) as script:
        script.write("rows of board\n" + "\n".join(lines) + "\n")
    try:
        used, _, peak, status = run([program("worked_rows")], script.name)
    finally:
        os.unlink(script.name)
    if status != 0:
        raise SystemExit("the program ended with status %d" % status)
    return used, peak


def main():
    previews = int(sys.argv[1]) if len(sys.argv) > 1 else 50
    for sets in (1, 4):
        lines, minute = board(sets)
        base, peak = seconds(lines)
        print("%6d rows: %.2f s to fill the board, %d kB" % (10000 * sets, base, peak))
        for count in (6, 600):
            draft = ["at %s NPW" % stamp(minute), "put WI.Y %s %s %s" % (zones(1000, count), stamp(minute + 300), stamp(minute + 400))]
            used, _ = seconds(lines + draft + ["preview"] * previews)
            print("%6d rows: %8.3f ms for a plan of %3d zones" % (10000 * sets, 1000 * (used - base) / previews, count))


if __name__ == "__main__":
    main()
