"""Runs a program over a file, and measures it. Linux alone: the peak memory is read from /proc."""
import os
import re
import subprocess
import tempfile
import time


def peak_of(process):
    """The peak memory in kB so far, or 0 once the process has ended."""
    with open("/proc/%d/status" % process) as lines:
        found = re.search(r"VmHWM:\s+(\d+) kB", lines.read())
    return int(found.group(1)) if found else 0


def run(words, path):
    """Seconds of processor time, bytes of output, the peak memory in kB as last looked at, and the exit status."""
    with open(path, "rb") as source, tempfile.TemporaryFile() as sink:
        child = subprocess.Popen(words, stdin=source, stdout=sink)
        peak = 0
        while True:
            peak = max(peak, peak_of(child.pid))
            ended, status, usage = os.wait4(child.pid, os.WNOHANG)
            if ended:
                break
            time.sleep(0.001)
        child.returncode = os.waitstatus_to_exitcode(status)
        return usage.ru_utime + usage.ru_stime, sink.seek(0, 2), peak, child.returncode


def kilobytes(peak):
    return "%d kB" % peak if peak else "not seen"


def program(name):
    """The path of a built program of this repository."""
    path = os.path.join(os.path.dirname(os.path.abspath(__file__)), "..", "crates", name, "out", name)
    path = os.environ.get("PROGRAM", path)
    if not os.path.exists(path):
        raise SystemExit("no program at %s: build it with `rt run` in crates/%s" % (path, name))
    return path


def beside(words):
    """The words without `--beside FOLDER`, and the folder, which has other programs of the same names, or None."""
    if "--beside" in words:
        at = words.index("--beside")
        return words[:at] + words[at + 2:], words[at + 1]
    return words, None


def ratio(mine, folder, words, path):
    """What the other program of that name takes on the same file, as ratios, or nothing where there is none."""
    if folder is None:
        return ""
    seconds, written, memory, status = run([os.path.join(folder, os.path.basename(words[0]))] + words[1:], path)
    same = "" if (written, status) == (mine[1], mine[3]) else ", ANOTHER ANSWER"
    return ", %.1f times the other's %.3f s, %.1f times its memory%s" % (
        mine[0] / max(seconds, 0.001), seconds, mine[2] / max(memory, 1), same)
