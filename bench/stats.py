"""Measures the statistics, outside the gate, on the archives of `archive.py`, on products that come in falling order of time, and on
10,000 events in one zone. Seconds are of processor time; each is told beside the time of `warn_archive` on the same file, and
with `--beside FOLDER` beside the time of the program of the same name in that folder.

    python3 bench/stats.py [--beside FOLDER] [MEGABYTES ..]      the sizes, 8 and 32 where none is given

The programs are those of crates/warn_stats/out and crates/warn_archive/out; STATS and ARCHIVE name others.
"""
import math
import os
import sys
import tempfile

from measure import beside, kilobytes, ratio, run

HERE = os.path.dirname(os.path.abspath(__file__))


def built(name, variable):
    path = os.environ.get(variable, os.path.join(HERE, "..", "crates", name, "out", name))
    if not os.path.exists(path):
        raise SystemExit("no program at %s: build it with `rt run` in crates/%s" % (path, name))
    return path


def archives():
    """The generators of `archive.py`, without its measurements, which follow them."""
    with open(os.path.join(HERE, "archive.py")) as source:
        text = source.read().split("\nwords, folder = ")[0]
    names = {"__name__": "archives", "__doc__": ""}
    exec(compile(text, "archive.py", "exec"), names)
    return names


def falling(names):
    """Single NEW products, each issued forty minutes before the one that it follows."""
    for k in range(12000):
        minute = 40 * (12000 - k)
        year = (names["START"] + names["datetime"].timedelta(minutes=minute)).year
        yield names["text"](minute, "NEW", "WW.Y", k % 9999 + 1, minute + 30, minute + 300) if year else ""


def crowded(names):
    """10,000 openings in one zone, of as many events."""
    hazards = names["HAZARDS"]
    for k in range(10000):
        minute = 30 * k
        yield names["product"](minute, [("IAZ001", [("NEW", hazards[k % 8], k // 8 + 1, minute, minute + 600000)])], True)


names = archives()
words, folder = beside(sys.argv[1:])
sizes = [int(word) for word in words] or [8, 32]
asked = ["KDMX", "O", "180103T1700Z"]
stats = [built("warn_stats", "STATS")] + asked
report = [built("warn_archive", "ARCHIVE")] + asked
kinds = [("plain", names["products"], sizes), ("mixed", names["mixed"], sizes),
         ("falling", lambda: falling(names), [1 << 20]), ("crowded", lambda: crowded(names), [1 << 20])]
with tempfile.TemporaryDirectory() as place:
    path = os.path.join(place, "archive")
    for name, texts, steps in kinds:
        before = None
        for size in steps:
            count = names["make"](path, size, texts())
            bytes_in = os.path.getsize(path)
            seconds, written, memory, status = run(stats, path)
            other = run(report, path)[0]
            growth = ""
            if before:
                growth = ", exponent %.2f" % (math.log(seconds / before[1]) / math.log(bytes_in / before[0]))
            print("%s, %.1f MB, %s products: %.2f s%s, %.2f times warn_archive, peak %s, status %d%s"
                  % (name, bytes_in / 1048576, count or "all its", seconds, growth, seconds / max(other, 0.001), kilobytes(memory), status,
                     ratio((seconds, written, memory, status), folder, stats, path)))
            before = bytes_in, seconds
