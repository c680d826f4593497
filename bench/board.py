"""Measures an office that grows: 8,192 products of six zones each over 2,000 zones, one after another.

usage: python3 bench/board.py [PRODUCTS]    over crates/worked_rows as built last (PROGRAM names another program)

Each product is a new winter storm warning for six zones and four hours, sent half an hour behind the one before; one in two is
cancelled half an hour later by a product of its own, so that half the events that began stand on. The program answers each
product as it is sent; the time for each thousand is that between its answers. Growth is the time of the last thousand over
that of the first.
"""
import datetime
import subprocess
import sys
import time

from measure import program

START = datetime.datetime(2018, 1, 3)
STATES = ["AA", "AB", "AC"]
ZONES = 2000


def stamp(minutes):
    return (START + datetime.timedelta(minutes=minutes)).strftime("%y%m%dT%H%MZ")


def zone(number):
    number %= ZONES
    return "%sZ%03d" % (STATES[number // 999], number % 999 + 1)


def six(first):
    return ",".join(sorted(zone(first + n) for n in range(6)))


def script(products):
    """The lines of the products, and of what they open and cancel."""
    yield "day"
    minute, number, year, opened = 0, 0, 2018, None
    for place in range(products):
        now = START + datetime.timedelta(minutes=minute)
        if now.year != year:
            year, number = now.year, 0
        if opened and place % 3 == 2:
            event, zones = opened
            yield "at %s WSW" % stamp(minute)
            yield "end %s %s" % (event, zones)
            opened = None
        else:
            number += 1
            zones = six(place * 7)
            opened = ("WS.W.%04d.%04d" % (number, year), zones)
            yield "at %s WSW" % stamp(minute)
            yield "put WS.W %s now %s" % (zones, stamp(minute + 240))
        yield "send"
        minute += 30


def main():
    products = int(sys.argv[1]) if len(sys.argv) > 1 else 8192
    work = subprocess.Popen([program("worked_rows")], stdin=subprocess.PIPE, stdout=subprocess.PIPE, text=True)
    work.stdin.write("rows of board\n" + "\n".join(script(products)) + "\n")
    work.stdin.close()
    done, began, times = 0, None, []
    for line in work.stdout:
        if began is None:
            began = time.perf_counter()
        if line.startswith("{") or line.startswith("no ") or line.startswith("unread"):
            raise SystemExit("product %d: %s" % (done + 1, line.strip()))
        if line.startswith("$$"):
            done += 1
            if done % 1000 == 0:
                now = time.perf_counter()
                times.append(now - began)
                began = now
                print("%5d products: %7.2f ms each" % (done, times[-1]))
    if work.wait() != 0:
        raise SystemExit("the program ended with status %d" % work.returncode)
    print("%d products; growth from the first to the last thousand: %.1f" % (done, times[-1] / times[0]))


if __name__ == "__main__":
    main()
