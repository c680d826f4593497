"""Measures a follower of a served board over loopback, outside the gate.

usage: python3 bench/follow.py [--beside FOLDER] [--products COUNT] [--runs COUNT]

Over crates/warn_main and crates/warn_follow as built last; MAIN and FOLLOW name others. An office of 8,000 products is made in
/dev/shm and served by `serve` with one worker, and each run follows all of them on one link: the seconds from the start of the
follower to its end, the server's part among them. FOLDER behind --beside has another `warn_follow`, which follows the same server
in turn with this one; what both write must be the same. Of each the least of the runs is told.
"""
import json
import os
import subprocess
import sys
import tempfile
import time

from measure import kilobytes, peak_of
from serve import free_port, option, request, settings

HERE = os.path.dirname(os.path.abspath(__file__))
STAMP = time.strftime("%y%m%dT%H%MZ", time.gmtime())


def built(name, variable):
    path = os.environ.get(variable, os.path.join(HERE, "..", "crates", name, "out", name))
    if not os.path.exists(path):
        raise SystemExit("no program at %s: build it with `rt run` in crates/%s" % (path, name))
    return path


def office_of(path, folder, products):
    """The journal of an office with so many products, each an issue in a zone."""
    journal = os.path.join(folder, "office.journal")
    subprocess.run([path, journal, "init"], input=settings(), stdout=subprocess.DEVNULL, check=True)
    lines = b"".join(request("D0", n + 1, n) + b"\n" for n in range(products))
    told = subprocess.run([path, journal, "script"], input=lines, stdout=subprocess.PIPE, check=True).stdout
    accepted = sum("ok" in json.loads(line) for line in told.splitlines())
    if accepted != products:
        raise SystemExit("%d of %d requests were accepted" % (accepted, products))
    return journal


def follow(path, port, rounds):
    """Seconds, seconds of processor time, the peak memory in kB, and what was written."""
    words = [path, "KLWX", "O", STAMP, str(port), str(rounds)]
    with tempfile.TemporaryFile() as sink:
        began = time.perf_counter()
        child = subprocess.Popen(words, stdout=sink)
        peak = 0
        while True:
            peak = max(peak, peak_of(child.pid))
            ended, status, usage = os.wait4(child.pid, os.WNOHANG)
            if ended:
                break
            time.sleep(0.001)
        seconds = time.perf_counter() - began
        child.returncode = os.waitstatus_to_exitcode(status)
        sink.seek(0)
        if child.returncode:
            raise SystemExit("%s ended with %d" % (path, child.returncode))
        return seconds, usage.ru_utime + usage.ru_stime, peak, sink.read()


def main():
    other = option("--beside", None)
    products, runs = int(option("--products", 8000)), int(option("--runs", 5))
    desk = built("warn_main", "MAIN")
    paths = [built("warn_follow", "FOLLOW")] + ([os.path.join(other, "warn_follow")] if other else [])
    with tempfile.TemporaryDirectory(dir="/dev/shm") as folder:
        journal, port = office_of(desk, folder, products), free_port()
        words = ["serve", "--port", str(port), "--workers", "1", "--connections", str(1 + runs * len(paths))]
        work = subprocess.Popen([desk, journal, *words], stdin=subprocess.DEVNULL, stdout=subprocess.PIPE)
        # A follower that gives up after one round tells whether the server listens.
        while subprocess.run([paths[0], "KLWX", "O", STAMP, str(port), "1"], stdout=subprocess.PIPE).stdout[:8] == b"place 0\n":
            time.sleep(0.02)
        found = [[] for _ in paths]
        for _ in range(runs):
            for at, path in enumerate(paths):
                found[at].append(follow(path, port, products + 100))
        work.communicate(timeout=60)
    if len({run[3] for runs_of in found for run in runs_of}) != 1:
        raise SystemExit("the followers wrote different boards")
    least = [min(it) for it in found]
    mine = least[0]
    print("%d products: %.3f s, %.3f s of the follower's processor time, peak %s, %s"
          % (products, mine[0], mine[1], kilobytes(mine[2]), mine[3].split(b"\n", 1)[0].decode()))
    if other:
        print("  %.2f times the other's %.3f s, %.1f times its %.3f s of processor time, %.1f times its memory"
              % (mine[0] / least[1][0], least[1][0], mine[1] / max(least[1][1], 0.001), least[1][1], mine[2] / max(least[1][2], 1)))


if __name__ == "__main__":
    main()
