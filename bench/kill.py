"""Kills the program while it answers a script over a real file, at random moments, and looks at what is left, outside the gate.

usage: python3 bench/kill.py [TIMES] [SEED]    over crates/warn_main as built last (PROGRAM names another program); 200 times

A desk goes round and round: it opens a draft, fills and sends it, issues a second event, corrects that product, ends both events,
and discards a draft. Each run of `script` is killed a random moment after it began. What the desk had read as accepted by then is
acknowledged. After each kill the journal must be whole (`export` ends with status 0, with a text for each send, issue and
correction), its entries must begin with the acknowledged ones, in order and each once, and there may be one more: the line in hand.
The next run begins with the first line that was not acknowledged, which must be accepted, or get its kept reply. A journal that
has no room for another run's products gives way to a new one. A killed process leaves what it wrote to the system, synced or not:
what a machine that stops leaves is not tried here.
"""
import collections
import datetime
import json
import os
import random
import re
import subprocess
import sys
import tempfile
import threading
import time

from measure import program

SETTINGS = os.path.join(os.path.dirname(os.path.abspath(__file__)), "..", "samples", "office.toml")
ZONES = ["MDZ003", "MDZ004", "MDZ005", "MDZ006", "VAZ028"]

# A request that is sent again must be the same, so the times of all requests are those of the start of this program.
START = datetime.datetime.now(datetime.timezone.utc)
END = (START + datetime.timedelta(days=1)).strftime("%y%m%dT%H%MZ")

LINES = 200              # of a run
PRODUCTS = 8192          # of a journal
ROUND = 14               # requests of a round
DRAFTS, SENT = 4, 5      # of a round: the drafts that it opens, the products that it sends
MAKERS = {2: 1, 3: 2, 4: 3, 7: 4, 10: 5}   # which requests of a round send its first product, its second, ..
HEADING = re.compile(rb"^[A-Z]{4}[0-9]{2} KLWX [0-9]{6}( CC[A-X])?$", re.M)


def bodies(file):
    """The bodies of a journal's records."""
    at, found = 0, []
    while file[at:at + 1] == b"G":
        size = int.from_bytes(file[at + 1:at + 5], "big")
        found.append(file[at + 5:at + 5 + size])
        at += 5 + size
    return found


def asked(path):
    """The request of each entry, without settings and mark."""
    with open(path, "rb") as file:
        found = bodies(file.read())
    return [json.loads(re.sub(rb"^\S+ ", b"", body.split(b"\n")[0])) for body in found[2:]]


def entries(path):
    """Number and word of each entry."""
    return [(it["seq"], it["do"]) for it in asked(path)]


def entry_desks(path):
    """Desk and number of each entry."""
    return [(it["desk"], it["seq"]) for it in asked(path)]


def parts(step, turn):
    """What the request of this step of a round asks for. In a round each hazard opens one event, and ends it."""
    zones, drafts, products = [ZONES[turn % len(ZONES)]], turn * DRAFTS, turn * SENT
    snow, wind = ["%s.%04d.%d" % (hazard, turn + 1, START.year) for hazard in ("WS.W", "WI.Y")]
    return [
        {"do": "open", "category": "WSW"},
        {"do": "put", "draft": drafts + 1, "hazard": "WS.W", "zones": zones, "begin": "now", "end": END, "texts": {"what": "Heavy snow."}},
        {"do": "send", "draft": drafts + 1},
        {"do": "issue", "hazard": "WI.Y", "zones": zones, "begin": "now", "end": END, "texts": {"what": "Gusts up to 40 mph."}},
        {"do": "correct", "product": products + 2, "texts": [{"event": wind, "texts": {"what": "Gusts up to 50 mph."}}]},
        {"do": "open", "category": "WSW"},
        {"do": "end", "draft": drafts + 2, "event": snow, "zones": zones},
        {"do": "send", "draft": drafts + 2},
        {"do": "open", "category": "NPW"},
        {"do": "end", "draft": drafts + 3, "event": wind, "zones": zones},
        {"do": "send", "draft": drafts + 3},
        {"do": "open", "category": "WSW"},
        {"do": "put", "draft": drafts + 4, "hazard": "WW.Y", "zones": zones, "begin": "now", "end": END},
        {"do": "discard", "draft": drafts + 4},
    ][step]


def request(seq):
    """The request of this number."""
    turn, step = divmod(seq - 1, ROUND)
    return {"desk": "A", "seq": seq, **parts(step, turn)}


def product(seq):
    """The product that the request of this number sends, or None."""
    turn, step = divmod(seq - 1, ROUND)
    return turn * SENT + MAKERS[step] if step in MAKERS else None


class Reader(threading.Thread):
    """Reads the replies of a run."""

    def __init__(self, stream):
        super().__init__()
        self.stream, self.replies = stream, []
        self.start()

    def run(self):
        for line in self.stream:
            if line.endswith(b"\n"):
                self.replies.append(json.loads(line))


def killed_run(path, first, lines, moment):
    """Starts a run over the lines, kills it at the moment, and gives the replies that were read."""
    work = subprocess.Popen([program("warn_main"), path, "script"], stdin=subprocess.PIPE, stdout=subprocess.PIPE)
    reader = Reader(work.stdout)

    def feed():
        try:
            for seq in range(first, first + lines):
                work.stdin.write(json.dumps(request(seq)).encode() + b"\n")
                work.stdin.flush()
        except BrokenPipeError:
            pass

    feeder = threading.Thread(target=feed)
    feeder.start()
    time.sleep(moment)
    work.kill()
    feeder.join()
    work.wait()
    reader.join()
    try:
        work.stdin.close()
    except BrokenPipeError:
        pass
    return reader.replies


def check_replies(first, replies):
    """Each reply accepts its request, and names the product that it sends."""
    for seq, reply in enumerate(replies, first):
        if "ok" not in reply:
            raise SystemExit("request %d was refused: %s" % (seq, reply))
        if reply.get("product") != product(seq):
            raise SystemExit("request %d should send product %s: %s" % (seq, product(seq), reply))


def check_journal(path, acknowledged):
    """The journal is whole, and has each acknowledged entry once, in order, and at most one more. How many more."""
    export = subprocess.run([program("warn_main"), path, "export"], stdout=subprocess.PIPE)
    if export.returncode != 0:
        raise SystemExit("export ended with status %d" % export.returncode)
    found = entries(path)
    numbers = [seq for seq, _ in found]
    if numbers not in (list(range(1, acknowledged + 1)), list(range(1, acknowledged + 2))):
        raise SystemExit("%d were acknowledged, and the journal has %s.." % (acknowledged, numbers[-5:]))
    texts, wanted = len(HEADING.findall(export.stdout)), sum(do in ("send", "issue", "correct") for _, do in found)
    if texts != wanted:
        raise SystemExit("%d texts are exported, and %d entries send one" % (texts, wanted))
    return len(found) - acknowledged


def new_journal(folder, number):
    path = os.path.join(folder, "journal%d" % number)
    with open(SETTINGS, "rb") as settings:
        subprocess.run([program("warn_main"), path, "init"], stdin=settings, check=True, stdout=subprocess.DEVNULL)
    return path


def main():
    times = int(sys.argv[1]) if len(sys.argv) > 1 else 200
    chance = random.Random(int(sys.argv[2]) if len(sys.argv) > 2 else 1)
    # The requests of a journal: those of whole rounds, as many as it has room for.
    most = PRODUCTS // SENT * ROUND
    asked, journals, pending, early = collections.Counter(), 1, 0, 0
    with tempfile.TemporaryDirectory() as folder:
        path, acknowledged = new_journal(folder, journals), 0
        for _ in range(times):
            if acknowledged + LINES > most:
                journals += 1
                path, acknowledged = new_journal(folder, journals), 0
            replies = killed_run(path, acknowledged + 1, LINES, chance.expovariate(20))
            check_replies(acknowledged + 1, replies)
            asked.update(request(seq)["do"] for seq in range(acknowledged + 1, acknowledged + len(replies) + 1))
            acknowledged += len(replies)
            early += not replies
            pending += check_journal(path, acknowledged)
        sent = asked["send"] + asked["issue"] + asked["correct"]
        print("%d kills: %d requests acknowledged, %d of them products (%d sends, %d issues, %d corrections), each in the journal once, in order;"
              " %d times one more was there; %d runs were killed before a reply; %d journals"
              % (times, sum(asked.values()), sent, asked["send"], asked["issue"], asked["correct"], pending, early, journals))


if __name__ == "__main__":
    main()
