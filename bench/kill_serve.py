"""Kills a served board under load, at random moments, and looks at what is left, outside the gate.

usage: python3 bench/kill_serve.py [TIMES] [SEED]    over crates/warn_main as built last (PROGRAM names another program); 300 times

Four desks post issues over links of their own, each a new one when the last is answered. The server is killed a random moment
after it began. What a desk was told as accepted by then is acknowledged. After each kill the journal must be whole (`export`
ends with status 0, with a text for each entry), and of each desk it must have the entries 1, 2, .. once and in order: all that
are acknowledged, and at most one more, the request in hand. In the next run each desk first sends its last acknowledged request
again, which must be answered with the reply of before, and then goes on with the first that was not acknowledged: it is accepted,
or gets the reply that was kept. A journal without room for another run's products gives way to a new one. A killed process leaves
what it wrote to the system, synced or not: what a machine that stops leaves is not tried here.
"""
import collections
import json
import os
import random
import socket
import subprocess
import sys
import tempfile
import threading
import time

from kill import entry_desks
from measure import program
from serve import DESKS, ZONES, NEXT_YEAR, call, free_port, post, settings

PRODUCTS = 8192          # of a journal
SPARE = 1500             # more than the products of a run


class Desk:
    """One desk: its requests, and what became of them."""

    def __init__(self, index):
        self.name, self.zones, self.replies, self.more = DESKS[index], ZONES[index * 50:index * 50 + 50], [], 0

    def request(self, seq):
        """The request of this number, the same each time."""
        zone, day = self.zones[seq % 50], seq // 50 % 300
        begin = time.strftime(NEXT_YEAR + "%m%dT0000Z", time.gmtime(86400 * day))
        end = time.strftime(NEXT_YEAR + "%m%dT2300Z", time.gmtime(86400 * day))
        return json.dumps({"desk": self.name, "seq": seq, "do": "issue", "hazard": "WI.Y", "zones": [zone], "begin": begin, "end": end}).encode()

    def work(self, link, failed):
        """Sends until the link breaks."""
        held = b""
        try:
            if self.replies and not self.more:
                _, body, held = call(link, held, post(self.request(len(self.replies))))
                if body != self.replies[-1]:
                    failed.append("%s, sent again: %s, and before %s" % (self.name, body, self.replies[-1]))
            while not failed:
                status, body, held = call(link, held, post(self.request(len(self.replies) + 1)))
                if status != 200:
                    failed.append("%s: %d %s" % (self.name, status, body))
                    return
                self.replies.append(body)
        except (OSError, SystemExit):
            pass


def killed_run(journal, desks, moment):
    """Serves the journal under load, and kills it at the moment."""
    port, failed = free_port(), []
    words = ["serve", "--port", str(port), "--workers", "4", "--connections", "100000"]
    work = subprocess.Popen([program("warn_main"), journal, *words], stdin=subprocess.DEVNULL, stdout=subprocess.DEVNULL)
    links = [link_to(port) for _ in desks]
    threads = [threading.Thread(target=desk.work, args=(link, failed)) for desk, link in zip(desks, links)]
    for it in threads:
        it.start()
    time.sleep(moment)
    work.kill()
    work.wait()
    for it in threads:
        it.join()
    for it in links:
        it.close()
    if failed:
        raise SystemExit(failed[0])


def link_to(port):
    for _ in range(500):
        try:
            it = socket.create_connection(("127.0.0.1", port))
            it.setsockopt(socket.IPPROTO_TCP, socket.TCP_NODELAY, 1)
            return it
        except OSError:
            time.sleep(0.01)
    raise SystemExit("nobody listens")


def check(journal, desks):
    """The journal is whole, and has each desk's entries in order. How many more than were acknowledged."""
    export = subprocess.run([program("warn_main"), journal, "export"], stdout=subprocess.PIPE)
    found = entry_desks(journal)
    if export.returncode != 0 or export.stdout.count(b"\n$$\n") != len(found):
        raise SystemExit("export ended with status %d, %d texts of %d entries" % (export.returncode, export.stdout.count(b"\n$$\n"), len(found)))
    more = 0
    for desk in desks:
        numbers = [seq for name, seq in found if name == desk.name]
        if numbers != list(range(1, len(numbers) + 1)):
            raise SystemExit("the entries of %s are not 1, 2, .." % desk.name)
        if not len(desk.replies) <= len(numbers) <= len(desk.replies) + 1:
            raise SystemExit("%s: %d acknowledged, %d entries" % (desk.name, len(desk.replies), len(numbers)))
        desk.more = len(numbers) - len(desk.replies)
    return sum(desk.more for desk in desks), len(found)


def main():
    times = int(sys.argv[1]) if len(sys.argv) > 1 else 300
    chance = random.Random(int(sys.argv[2]) if len(sys.argv) > 2 else 1)
    told, entries = collections.Counter(), PRODUCTS
    with tempfile.TemporaryDirectory(dir=os.environ.get("FOLDER")) as folder:
        journal = os.path.join(folder, "office.journal")
        acknowledged = 0
        for _ in range(times):
            if entries > PRODUCTS - SPARE:
                if os.path.exists(journal):
                    os.remove(journal)
                subprocess.run([program("warn_main"), journal, "init"], input=settings(), stdout=subprocess.DEVNULL, check=True)
                desks = [Desk(index) for index in range(4)]
            before = sum(len(desk.replies) for desk in desks)
            killed_run(journal, desks, chance.uniform(0.01, 0.15))
            more, entries = check(journal, desks)
            acknowledged += sum(len(desk.replies) for desk in desks) - before
            told[more] += 1
    print("%d kills, %d requests acknowledged, none lost and none twice" % (times, acknowledged))
    for more in sorted(told):
        print("%d entries more than were acknowledged: %d times" % (more, told[more]))


if __name__ == "__main__":
    main()
