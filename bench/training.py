"""Measures the training office, outside the gate: 1,000 to 8,000 accepted lines, as many that a rule refuses, then growing inputs
of lines that are no issues, with the peak memory beside `cat` of the same file. Seconds are of processor time, ratios of one run.

    python3 bench/training.py [MEGABYTES] [--beside FOLDER]     the largest input, 256 where it is not given; FOLDER has another
                                                                program of the same name, which is given the same words
"""
import os
import sys
import tempfile

from measure import beside, kilobytes, program, ratio, run

words, folder = beside(sys.argv[1:])
desk = [program("warn_main"), "-", "dry", "KLWX", "180103T1530Z"]
largest = int(words[0]) if words else 256


def line(zone):
    return ('{"do":"issue","hazard":"WS.W","zones":["%s"],"begin":"now","end":"180104T0000Z"}\n' % zone).encode()


def zones(count):
    """So many zones, 999 of each of some made-up states."""
    for number in range(count):
        yield "A%sZ%03d" % (chr(ord("A") + number // 999), number % 999 + 1)


def measure(told, count, path):
    mine = run(desk, path)
    seconds, written, memory, status = mine
    print("%d %s lines: %.3f s, %d lines a second, %d bytes written, peak %s, status %d%s"
          % (count, told, seconds, count / max(seconds, 0.001), written, kilobytes(memory), status, ratio(mine, folder, desk, path)))


with tempfile.TemporaryDirectory() as temporary:
    path = os.path.join(temporary, "lines")
    for count in (1000, 2000, 4000, 8000):
        with open(path, "wb") as out:
            for zone in zones(count):
                out.write(line(zone))
        measure("accepted", count, path)
    with open(path, "wb") as out:
        for _ in range(8001):
            out.write(line("MDZ003"))
    measure("conflicting", 8000, path)
    wrong = line("MDZ000")
    block = wrong * (1048576 // len(wrong))
    smallest = size = max(largest // 16, 1)
    first = None
    while size <= largest:
        with open(path, "wb") as out:
            for _ in range(size):
                out.write(block)
        mine = run(desk, path)
        seconds, written, memory, status = mine
        plain = run(["cat"], path)
        first = first or seconds
        print("%d MB of lines that are no issues: %.2f s (%.1f times that of %d MB), peak %s (cat %s), status %d%s"
              % (size, seconds, seconds / first, smallest, kilobytes(memory), kilobytes(plain[2]), status, ratio(mine, folder, desk, path)))
        size *= 4
