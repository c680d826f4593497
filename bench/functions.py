"""Checks a crate as the gate does, with one job, and tells what each function took to be proved.

usage: python3 bench/functions.py CRATE [FLAG..]    as in `python3 bench/functions.py worked_codes`
                                                    or `.. worked_codes --only texts`

The libraries below the crate are taken as `rt check` left them. A row is the seconds of a processor
since the row before, all of them so far, and the function that was ended then: the first one bears
what it takes to read the sources, and each the parts of `std` that no one before it needed, and
what is begun of the functions that call it. So try a dear row again by `--only`. Rows above a
second alone. Linux, and beside other work up to twice what it takes alone.
"""
import os
import shutil
import subprocess
import sys

TICKS = os.sysconf("SC_CLK_TCK")


def crate_named(name):
    """The kit's own view of a crate of this repository."""
    sys.path.insert(0, os.path.dirname(os.path.realpath(shutil.which("rt"))))
    import rtlib
    for crate in rtlib.crates_below(os.getcwd()):
        if crate.name == name:
            return rtlib, crate
    raise SystemExit("no crate " + name)


def processes():
    """Each process: its parent, and what it and those that it has waited for have used."""
    found = {}
    for entry in filter(str.isdigit, os.listdir("/proc")):
        try:
            with open("/proc/%s/stat" % entry) as file:
                text = file.read()
        except OSError:
            continue
        fields = text[text.rindex(")") + 2:].split()
        found[int(entry)] = int(fields[1]), sum(map(int, fields[11:15])) / TICKS
    return found


def seconds_of(root):
    """What a process and all below it have used. The checker works in copies of itself, and one
    that is still at work counts too."""
    found = processes()
    family, grows = {root}, True
    while grows:
        below = {pid for pid, (parent, _) in found.items() if parent in family} - family
        family |= below
        grows = bool(below)
    return sum(found[pid][1] for pid in family if pid in found)


def main():
    if len(sys.argv) < 2:
        raise SystemExit(__doc__.strip())
    rtlib, crate = crate_named(sys.argv[1])
    words = crate.words(["--jobs", "1"], keeps=False)
    command = [rtlib.RATTLE, "check", *words, "--empty-contracts", "--progress", *sys.argv[2:]]
    how = {"stdout": subprocess.PIPE, "stderr": subprocess.STDOUT, "text": True}
    child, before, last = subprocess.Popen(command, cwd=crate.folder, **how), 0, ""
    for line in child.stdout:
        if line.startswith("checked "):
            now = seconds_of(child.pid)
            if now - before >= 1:
                print("%7.1f %7.1f  %s" % (now - before, now, line[8:].strip()), flush=True)
            before = now
        elif line.strip():
            last = line.strip()
    status = child.wait()
    print(last)
    return status


if __name__ == "__main__":
    sys.exit(main())
