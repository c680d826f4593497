"""Slow clients before a served board: how long an honest one waits beside them, outside the gate.

usage: python3 bench/slow.py [--program PATH] [--workers W] [--seconds S] [--port N] [--only WORD] [--nginx]

PATH is a built warn_main, else that of crates/warn_main as built last. For each attack a server with W workers (4) is started,
and W and then twice W slow links are kept up for S seconds (25): a link that the other side ends is opened again at once. Beside
them one honest client asks for the board twenty times a second, each time on a link of its own. Printed are how many calls it
made, how many of them were refused or broken off, its longest wait and how often slow links were ended. Then 200 honest clients
come at once, and clients that go on sending are refused: printed is how many heard their answer. With --nginx the same goes
through nginx (`apt-get install nginx-light`) with samples/nginx.conf, without its TLS and its passwords. Ports N to N+2 (8600)
are used. The slow clients come from 127.0.0.2, the honest one from 127.0.0.1,
and those that come at once from an address each, since samples/nginx.conf limits what one address may ask.
"""
import argparse
import os
import re
import selectors
import socket
import subprocess
import sys
import tempfile
import threading
import time

HERE = os.path.dirname(os.path.abspath(__file__))
SAMPLES = os.path.join(HERE, "..", "samples")
PROGRAM = os.path.join(HERE, "..", "crates", "warn_main", "out", "warn_main")
BOARD = b"GET /board HTTP/1.1\r\nHost: desk\r\nConnection: close\r\n\r\n"
OPEN = b"GET /board HTTP/1.1\r\nHost: desk\r\n\r\n"
POSTED = b"POST /requests HTTP/1.1\r\nHost: desk\r\nContent-Length: 60000\r\n\r\n"
TEXT = ('{"desk":"%s","seq":1,"do":"issue","hazard":"WS.W","zones":["%s"],"begin":"now","end":"%s","texts":{"what":"%s"}}')
# The most calls that the honest client makes beside one attack, and the longest that it waits for one.
MOST_CALLS, MOST_WAIT = 2_000, 100


class Server:
    """A running `serve` with one product, over a journal of its own."""

    def __init__(self, program, workers, port):
        self.folder = tempfile.TemporaryDirectory(dir="/dev/shm" if os.path.isdir("/dev/shm") else None)
        journal = os.path.join(self.folder.name, "office.journal")
        with open(os.path.join(SAMPLES, "office.toml"), "rb") as file:
            settings = file.read()
        subprocess.run([program, journal, "init"], input=settings, stdout=subprocess.DEVNULL, check=True)
        words = ["serve", "--port", str(port), "--workers", str(workers), "--connections", "1000000"]
        self.work = subprocess.Popen([program, journal, *words], stdin=subprocess.DEVNULL, stdout=subprocess.DEVNULL)
        desk = re.search(rb'desks *= *\["([^"]*)"', settings).group(1).decode()
        zone = re.search(rb"(?m)^([A-Z]{2}Z\d{3}) *=", settings).group(1).decode()
        end = time.strftime("%y%m%dT%H00Z", time.gmtime(time.time() + 36_000))
        body = (TEXT % (desk, zone, end, "Heavy snow. " * 80)).encode()
        head = b"POST /requests HTTP/1.1\r\nContent-Length: %d\r\nConnection: close\r\n\r\n" % len(body)
        for _ in range(100):
            try:
                if b" 200 " in call(port, head + body)[:20]:
                    return
            except OSError:
                time.sleep(0.05)
        self.end()
        raise SystemExit("the server does not answer")

    def end(self):
        self.work.kill()
        self.work.wait()
        self.folder.cleanup()


class Proxy:
    """nginx with the sample, without its TLS and its passwords, before the server."""

    def __init__(self, port, behind):
        self.folder = tempfile.TemporaryDirectory()
        room = self.folder.name
        os.chmod(room, 0o777)
        with open(os.path.join(SAMPLES, "nginx.conf")) as file:
            text = file.read()
        text = re.sub(r"(?m)^\s*(ssl_|auth_basic|access_log|root ).*$", "", text)
        text = re.sub(r"listen\s+(\[::\]:)?443[^;]*;", "listen 127.0.0.1:%d;" % port, text, count=1)
        text = re.sub(r"listen\s+[^1;][^;]*;", "", text)
        text = re.sub(r"server 127\.0\.0\.1:\d+", "server 127.0.0.1:%d" % behind, text)
        text = text.replace("/var/cache/nginx", room)
        conf = os.path.join(room, "nginx.conf")
        with open(conf, "w") as file:
            file.write("daemon off;\npid %s/pid;\nerror_log %s/error.log;\nworker_processes 2;\nevents { worker_connections 2048; }\n" % (room, room))
            file.write("http {\nclient_body_temp_path %s/body;\nproxy_temp_path %s/proxy;\n%s\n}\n" % (room, room, text))
        self.work = subprocess.Popen(["nginx", "-p", room, "-e", room + "/error.log", "-c", conf], stderr=subprocess.DEVNULL)
        for _ in range(100):
            try:
                call(port, BOARD)
                return
            except OSError:
                time.sleep(0.05)
        self.end()
        raise SystemExit("nginx does not answer")

    def end(self):
        self.work.terminate()
        self.work.wait()
        self.folder.cleanup()


def dial(port, source="127.0.0.1", room=0):
    it = socket.socket()
    if room:
        it.setsockopt(socket.SOL_SOCKET, socket.SO_RCVBUF, room)
    it.settimeout(MOST_WAIT)
    it.bind((source, 0))
    it.connect(("127.0.0.1", port))
    return it


def heard(it):
    """All that comes, to the end."""
    parts = []
    while True:
        part = it.recv(65536)
        if not part:
            return b"".join(parts)
        parts.append(part)


def call(port, said, address="127.0.0.1"):
    """One call on a link of its own."""
    with dial(port, address) as it:
        it.sendall(said)
        return heard(it)


class Attack:
    """Slow links, each kept up until the end."""

    def __init__(self, name, first, more, pause, reads=True):
        # What a link says at first, and what again and again after so many seconds; whether it reads what it hears.
        self.name, self.first, self.more, self.pause, self.reads = name, first, more, pause, reads

    def start(self, port, stop, ended):
        try:
            it = dial(port, "127.0.0.2", 0 if self.reads else 4096)
        except OSError:
            return None
        it.setblocking(False)
        link = {"socket": it, "at": time.monotonic(), "left": self.first, "half": self.name == "half-closed"}
        return link

    def push(self, link):
        """Says what is left to say, as far as it is taken; False where the link has ended."""
        try:
            while link["left"]:
                link["left"] = link["left"][link["socket"].send(link["left"][:65536]):]
            if link["half"]:
                link["half"] = False
                link["socket"].shutdown(socket.SHUT_WR)
        except BlockingIOError:
            pass
        except OSError:
            return False
        return True

    def run(self, port, count, stop, ended):
        chosen = selectors.DefaultSelector()
        links = []
        while not stop.is_set():
            while len(links) < count:
                link = self.start(port, stop, ended)
                if link is None:
                    break
                links.append(link)
                if self.reads:
                    chosen.register(link["socket"], selectors.EVENT_READ, link)
            gone = []
            for key, _ in chosen.select(0.02) if self.reads else []:
                try:
                    if not key.data["socket"].recv(65536):
                        gone.append(key.data)
                except BlockingIOError:
                    pass
                except OSError:
                    gone.append(key.data)
            if not self.reads:
                time.sleep(0.02)
            now = time.monotonic()
            for link in links:
                if now - link["at"] >= self.pause:
                    link["at"] = now
                    link["left"] = link["left"] or self.more
                if self.name == "flood" and now - link["at"] >= 0.01 or not self.push(link):
                    gone.append(link)
            for link in gone:
                if link in links:
                    links.remove(link)
                    if self.reads:
                        chosen.unregister(link["socket"])
                    link["socket"].close()
                    ended.append(now)
        for link in links:
            link["socket"].close()


ATTACKS = [
    Attack("idle", b"", b"", 1e9),
    Attack("idle behind a call", OPEN, b"", 1e9),
    Attack("trickled heads", b"GET /board HTTP/1.1\r\nX: ", b"x", 1.0),
    Attack("trickled bodies", POSTED, b" ", 0.5),
    Attack("no reading", b"GET /products/1 HTTP/1.1\r\n\r\n" * 9_000, b"", 1e9, reads=False),
    Attack("half-closed", OPEN + b"GET /bo", b"", 1e9, reads=False),
    Attack("flood", b"", b"", 1e9),
]


def ask_on(port, seconds):
    """The honest client's calls: how many, how many failed, and the longest wait."""
    count, failed, longest = 0, 0, 0.0
    end = time.monotonic() + seconds
    while time.monotonic() < end and count < MOST_CALLS:
        start = time.monotonic()
        try:
            if not call(port, BOARD).startswith(b"HTTP/1.1 200"):
                failed += 1
        except OSError:
            failed += 1
        longest = max(longest, time.monotonic() - start)
        count += 1
        time.sleep(0.05)
    return count, failed, longest


def beside(attack, port, count, seconds):
    stop, ended = threading.Event(), []
    work = threading.Thread(target=attack.run, args=(port, count, stop, ended))
    work.start()
    time.sleep(0.5)
    made = ask_on(port, seconds)
    stop.set()
    work.join()
    return (*made, len(ended))


def at_once(port, clients):
    """So many clients of one call each, at once, each with an address of its own: how many failed,
    and the longest wait."""
    failed, waits = [], []

    def one(number):
        start = time.monotonic()
        try:
            if not call(port, BOARD, "127.0.1.%d" % number).startswith(b"HTTP/1.1 200"):
                failed.append("answer")
        except OSError as error:
            failed.append(error)
        waits.append(time.monotonic() - start)

    threads = [threading.Thread(target=one, args=(k + 1,)) for k in range(clients)]
    for thread in threads:
        thread.start()
    for thread in threads:
        thread.join()
    return len(failed), max(waits)


def refused(port, said, status, tries=20):
    """Clients that say this, and then 2 MB more, and listen only then: how many heard the status."""
    good = 0
    for _ in range(tries):
        try:
            with dial(port) as it:
                it.sendall(said)
                for _ in range(32):
                    it.sendall(b"x" * 65536)
                good += b" %d " % status in heard(it)[:20]
        except OSError:
            pass
    return good


REFUSALS = [
    ("a body too long", b"POST /requests HTTP/1.1\r\nContent-Length: 2097152\r\n\r\n", 413),
    ("no call", b"POST\r\n\r\n", 400),
    ("no route", b"POST /nowhere HTTP/1.1\r\nContent-Length: 2097152\r\n\r\n", 404),
]


def main():
    words = argparse.ArgumentParser()
    words.add_argument("--program", default=PROGRAM)
    words.add_argument("--workers", type=int, default=4)
    words.add_argument("--seconds", type=float, default=25)
    words.add_argument("--port", type=int, default=8600)
    words.add_argument("--only", default="")
    words.add_argument("--nginx", action="store_true")
    given = words.parse_args()
    print("load %.1f, %d workers, %s" % (os.getloadavg()[0], given.workers, "behind nginx" if given.nginx else "alone"))
    for attack in ATTACKS:
        if given.only not in attack.name:
            continue
        for count in (given.workers, 2 * given.workers):
            server = Server(given.program, given.workers, given.port)
            proxy = Proxy(given.port + 1, given.port) if given.nginx else None
            try:
                port = given.port + 1 if given.nginx else given.port
                made = beside(attack, port, count, given.seconds)
                print("%-20s %3d links: %4d calls, %d failed, longest wait %6.2f s, %d slow links ended" % (attack.name, count, *made), flush=True)
            finally:
                if proxy:
                    proxy.end()
                server.end()
    if given.only:
        return 0
    server = Server(given.program, given.workers, given.port)
    proxy = Proxy(given.port + 1, given.port) if given.nginx else None
    port = given.port + 1 if given.nginx else given.port
    try:
        print("200 clients at once: %d failed, longest wait %.2f s" % at_once(port, 200), flush=True)
        if not given.nginx:
            for name, said, status in REFUSALS:
                print("%-20s %d of 20 heard %d while they were still sending" % (name, refused(port, said, status), status), flush=True)
    finally:
        if proxy:
            proxy.end()
        server.end()
    return 0


if __name__ == "__main__":
    sys.exit(main())
