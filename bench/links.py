"""Measures how the bytes of a call come: a head of 8 KiB and a body of 64 KiB in one piece, and byte by byte, outside the gate.

usage: python3 bench/links.py [CALLS]    over crates/worked_serve as built last (PROGRAM names another program); 100 calls

The link stands in memory, so that no call of the system is measured. Each call posts a body that is no JSON, and is answered
400. Seconds are of the processor; what the program takes to write the calls out and to serve none of them is taken off.
"""
import os
import subprocess
import sys
import tempfile

from measure import program, run

HEAD, BODY = 8192, 65536
SAMPLE = os.path.join(os.path.dirname(os.path.abspath(__file__)), "..", "samples", "office.toml")


def script(calls, runs):
    """The rows of an office, of so many calls on a link, and of what is done with them."""
    front = "POST /requests HTTP/1.1\r\nContent-Length: %d\r\n" % BODY
    padding = "x" * (HEAD - len(front) - len("X-Pad: \r\n\r\n"))
    call = ["head POST /requests HTTP/1.1", "head Content-Length: %d" % BODY, "head X-Pad: " + padding, "head",
            "bytes " + "{" * BODY]
    with open(SAMPLE) as settings:
        rows = ["settings " + line.rstrip("\n") for line in settings]
    rows += ["init", "at 180103T1000Z"] + call * calls + runs
    return "".join(row + "\n" for row in rows)


def seconds(path, calls, runs):
    """The processor's seconds of a script, and what it is answered."""
    with tempfile.NamedTemporaryFile("w", suffix=".rows", newline="") as rows:
        rows.write("rows of serve\n" + script(calls, runs))
        rows.flush()
        taken = min(run([path], rows.name)[0] for _ in range(3))
        answer = subprocess.run([path], stdin=open(rows.name), capture_output=True, check=True).stdout
    return taken, answer.decode().splitlines()[-1]


def measure(calls):
    path = program("worked_serve")
    none, _ = seconds(path, calls, ["words"])
    whole, answer = seconds(path, calls, ["tally"])
    bytewise, same = seconds(path, calls, ["tally 1"])
    if answer != same or not answer.startswith("answers "):
        raise SystemExit("other answers: %s / %s" % (answer, same))
    one, each = (whole - none) / calls, (bytewise - none) / calls
    print("%s\nin one piece: %.3f ms a call; byte by byte: %.3f ms; %.1f times" % (answer, one * 1000, each * 1000, each / one))


if __name__ == "__main__":
    measure(int(sys.argv[1]) if len(sys.argv) > 1 else 100)
