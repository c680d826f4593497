"""Measures the kept office, outside the gate: accepted requests a second, `export`, and the opening of a journal.

usage: python3 bench/kept.py [--most COUNT] [--beside FOLDER] [FOLDERS..]

COUNT is the most products, at most 8,000, which it is where none is given; on a disk each takes two syncs. The journals stand in each of the folders: on /dev/shm and in the current folder where none is given, so in memory and on a disk. FOLDER of
--beside has another program of the same name, which does the same. Seconds are elapsed ones, the least of three runs.
"""
import datetime
import json
import os
import subprocess
import sys
import tempfile
import time

from measure import beside, program

SETTINGS = """office = "KLWX"
site = "LWX"
office_line = "National Weather Service Baltimore MD/Washington DC"
zone = "Eastern"
desks = ["A"]
[headings]
WSW = "WWUS41"
NPW = "WWUS71"
RFW = "WWUS81"
CFW = "WHUS41"
MWW = "WHUS71"
FFA = "WGUS61"
FLW = "WGUS41"
FLS = "WGUS81"
[zones]
"""


# Of four families, so that none of them clash; settings have at most 2,000 zones.
HAZARDS = ["WS.W", "WI.Y", "FG.Y", "FW.W"]
ZONES = 2000


def zone(number):
    return "A%sZ%03d" % (chr(ord("A") + number // 999), number % 999 + 1)


def settings():
    return (SETTINGS + "".join('%s = "Z"\n' % zone(number) for number in range(ZONES))).encode()


def issues(count):
    """So many products, of a zone each."""
    end = datetime.datetime.now(datetime.timezone.utc) + datetime.timedelta(hours=6)
    stamp = end.strftime("%y%m%dT%H%MZ")
    asked = ({"desk": "A", "seq": seq, "do": "issue", "hazard": HAZARDS[(seq - 1) // ZONES], "begin": "now", "end": stamp, "zones": [zone((seq - 1) % ZONES)]}
             for seq in range(1, count + 1))
    return "".join(json.dumps(it) + "\n" for it in asked).encode()


def drafts(count):
    """So many requests that open drafts and discard them: entries without texts."""
    asked = ({"desk": "A", "seq": seq, "do": "open", "category": "WSW"} if seq % 2 else {"desk": "A", "seq": seq, "do": "discard", "draft": seq // 2}
             for seq in range(1, count + 1))
    return "".join(json.dumps(it) + "\n" for it in asked).encode()


def run(program_path, words, given):
    """Elapsed seconds and the output of a run that ends well."""
    began = time.perf_counter()
    done = subprocess.run([program_path] + words, input=given, stdout=subprocess.PIPE)
    took = time.perf_counter() - began
    if done.returncode != 0:
        raise SystemExit("%s %s ended with status %d: %s" % (program_path, words, done.returncode, done.stdout[-100:]))
    return took, done.stdout


def made(program_path, path, lines):
    """A journal with these lines in it: seconds of `script`, whose lines are all accepted."""
    if os.path.exists(path):
        os.remove(path)
    run(program_path, [path, "init"], settings())
    took, told = run(program_path, [path, "script"], lines)
    if b'"no"' in told:
        raise SystemExit("refused: %s" % [it for it in told.split(b"\n") if b'"no"' in it][0])
    return took


def measures(program_path, folder, most):
    """What is measured, as pairs of a name and a count, with its seconds."""
    path = os.path.join(folder, "journal")
    rows = {}
    for count in (most // 8, most // 4, most // 2, most):
        rows["script of %d products" % count, count] = min(made(program_path, path, issues(count)) for _ in range(3))
    rows["export of %d products" % most, most] = min(run(program_path, [path, "export"], b"")[0] for _ in range(3))
    rows["opening %d products (board of a minute with none)" % most, most] = min(run(program_path, [path, "board", "--at", "180103T1530Z"], b"")[0] for _ in range(3))
    for count in (most // 4, most):
        rows["script of %d drafts opened and discarded" % count, count] = min(made(program_path, path, drafts(count)) for _ in range(3))
    return rows


def main():
    words, other = beside(sys.argv[1:])
    most = 8000
    if "--most" in words:
        at = words.index("--most")
        most = int(words[at + 1])
        words = words[:at] + words[at + 2:]
    mine = program("warn_main")
    for where in words or ["/dev/shm", "."]:
        with tempfile.TemporaryDirectory(dir=where) as folder:
            rows = measures(mine, folder, most)
            others = measures(os.path.join(other, "warn_main"), folder, most) if other else {}
        print("in %s:" % where)
        for (name, count), seconds in rows.items():
            told = ""
            if (name, count) in others:
                told = ", %.1f times the other's %.3f s" % (seconds / others[name, count], others[name, count])
            print("  %s: %.3f s, %d a second%s" % (name, seconds, count / seconds, told))


if __name__ == "__main__":
    main()
