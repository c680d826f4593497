"""Runs a command, as a rule the gate, and samples the processor time of all that it starts.

usage: python3 bench/gate.py TABLE COMMAND..    as in `python3 bench/gate.py /tmp/gate.json rt ci`

Once it ends, TABLE has the seconds as JSON, and standard error a row a crate: its proof, its
edits, its builds. What a process uses in its last second may be missed, so the sum is a little
below that of `times`. Linux alone.
"""
import json
import os
import re
import subprocess
import sys
import time

TICKS = os.sysconf("SC_CLK_TCK")


def processes():
    """Each process: its name, its parent, its seconds of processor time and when it began."""
    found = {}
    for entry in filter(str.isdigit, os.listdir("/proc")):
        try:
            with open("/proc/%s/stat" % entry) as file:
                text = file.read()
        except OSError:
            continue
        end = text.rindex(")")
        fields = text[end + 2:].split()
        used = (int(fields[11]) + int(fields[12])) / TICKS
        found[int(entry)] = text[text.index("(") + 1:end], int(fields[1]), used, fields[19]
    return found


def below(root, found):
    """The processes that a process started, and itself."""
    children = {}
    for pid, (_, parent, _, _) in found.items():
        children.setdefault(parent, []).append(pid)
    family, left = [], [root]
    while left:
        pid = left.pop()
        family.append(pid)
        left += children.get(pid, [])
    return family


def words_of(pid):
    try:
        with open("/proc/%d/cmdline" % pid, "rb") as file:
            return file.read().decode(errors="replace").split("\0")
    except OSError:
        return []


def folder_of(pid):
    try:
        return os.readlink("/proc/%d/cwd" % pid)
    except OSError:
        return ""


def work_of(pid, found):
    """The crate that a process works at, and whether it proves it, tries an edit or builds."""
    at = pid
    while at in found:
        words = words_of(at)
        if "--crate-name" in words:
            crate = words[words.index("--crate-name") + 1]
            if "/rt-edit-" in folder_of(at):
                return crate, "edits"
            return crate, "builds" if "--crate-checked" in words else "proof"
        at = found[at][1]
    inside = re.search(r"/crates/(\w+)", folder_of(pid))
    return (inside.group(1), "builds") if inside else ("", found[pid][0])


def sample(root, seen):
    """Notes what each process below the root has used so far."""
    found = processes()
    for pid in below(root, found):
        if pid in found:
            key = pid, found[pid][3]
            work = seen[key][0] if key in seen and seen[key][0][0] else work_of(pid, found)
            seen[key] = work, found[pid][2]


def table_of(seen):
    table = {}
    for (crate, kind), used in seen.values():
        row = table.setdefault(crate, {})
        row[kind] = row.get(kind, 0) + used
    return table


def main():
    if len(sys.argv) < 3:
        raise SystemExit(__doc__.strip())
    child, seen = subprocess.Popen(sys.argv[2:]), {}
    while child.poll() is None:
        sample(child.pid, seen)
        time.sleep(1)
    table = table_of(seen)
    with open(sys.argv[1], "w") as out:
        json.dump(table, out, indent=1, sort_keys=True)
    for crate, row in sorted(table.items(), key=lambda it: -sum(it[1].values())):
        shares = ", ".join("%s %.0f s" % it for it in sorted(row.items()))
        told = crate or "(no crate)", sum(row.values()), shares
        print("%-20s %6.0f s: %s" % told, file=sys.stderr)
    used = sum(sum(row.values()) for row in table.values())
    print("in all %.0f processor minutes" % (used / 60), file=sys.stderr)
    return child.returncode


if __name__ == "__main__":
    sys.exit(main())
