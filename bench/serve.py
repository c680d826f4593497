"""Measures a served board: requests and pages a second over real links, outside the gate.

usage: python3 bench/serve.py [--beside FOLDER] [--disk FOLDER] [--requests COUNT] [--pages COUNT]

Over crates/warn_main as built last. A server is started over a fresh journal in /dev/shm, and links post requests to it side
by side: 1, 4 and 16 of them, each an issue in a zone of its own. Then links ask for the board and for products, with 1, 4 and
16 workers. Each link sends a call when it has the answer to the last. FOLDER behind --beside has another `warn_main`, which is
measured in the same run; the one behind --disk is where journals are made beside those in /dev/shm. A link's memory is the
difference of the server's peak with 16 workers and with 1, over 15.
"""
import json
import multiprocessing
import os
import socket
import subprocess
import sys
import tempfile
import time

from measure import peak_of, program

SAMPLE = os.path.join(os.path.dirname(os.path.abspath(__file__)), "..", "samples", "office.toml")
DESKS = ["D%d" % n for n in range(16)]
ZONES = ["MDZ%03d" % n for n in range(101, 301)]
NEXT_YEAR = str(time.gmtime().tm_year + 1)[2:]


def settings():
    """The sample's settings, with a desk for each link and two hundred zones more."""
    with open(SAMPLE) as file:
        lines = ["desks = %s\n" % json.dumps(DESKS) if line.startswith("desks") else line for line in file]
    return ("".join(lines).rstrip("\n") + "\n" + "".join('%s = "Ridge"\n' % zone for zone in ZONES)).encode()


def free_port():
    with socket.socket() as it:
        it.bind(("127.0.0.1", 0))
        return it.getsockname()[1]


class Server:
    """A running `serve` over a journal of its own."""

    def __init__(self, path, folder, workers, connections):
        self.folder = tempfile.TemporaryDirectory(dir=folder)
        journal = os.path.join(self.folder.name, "office.journal")
        subprocess.run([path, journal, "init"], input=settings(), stdout=subprocess.DEVNULL, check=True)
        self.port = free_port()
        words = ["serve", "--port", str(self.port), "--workers", str(workers), "--connections", str(connections)]
        self.work = subprocess.Popen([path, journal, *words], stdin=subprocess.DEVNULL, stdout=subprocess.PIPE)

    def link(self):
        for _ in range(200):
            try:
                it = socket.create_connection(("127.0.0.1", self.port))
                it.setsockopt(socket.IPPROTO_TCP, socket.TCP_NODELAY, 1)
                return it
            except OSError:
                time.sleep(0.02)
        raise SystemExit("nobody listens")

    def check(self, wanted):
        """The server has ended by itself, with this line."""
        told = self.work.communicate(timeout=60)[0].decode().strip()
        self.folder.cleanup()
        if (told, self.work.returncode) != (wanted, 0):
            raise SystemExit("the server ended with %d: %s" % (self.work.returncode, told))


def call(link, held, bytes_sent):
    """Sends a call, and returns status and body of its answer, and what was read behind it."""
    link.sendall(bytes_sent)
    while b"\r\n\r\n" not in held:
        held += more(link)
    head, held = held.split(b"\r\n\r\n", 1)
    lines = head.decode().split("\r\n")
    length = next(int(line.split(":")[1]) for line in lines if line.lower().startswith("content-length"))
    while len(held) < length:
        held += more(link)
    return int(lines[0].split()[1]), held[:length], held[length:]


def more(link):
    piece = link.recv(65536)
    if not piece:
        raise SystemExit("the link was closed")
    return piece


def post(body):
    return b"POST /requests HTTP/1.1\r\nContent-Length: %d\r\n\r\n%s" % (len(body), body)


def get(path):
    return b"GET %s HTTP/1.1\r\n\r\n" % path.encode()


def request(desk, seq, index):
    """An issue in one of the zones, for a day of its own in the next year, so that none stands in the way of another."""
    zone, day = ZONES[index % len(ZONES)], index // len(ZONES) % 300
    begin = time.strftime(NEXT_YEAR + "%m%dT0000Z", time.gmtime(86400 * day))
    end = time.strftime(NEXT_YEAR + "%m%dT2300Z", time.gmtime(86400 * day))
    return json.dumps({"desk": desk, "seq": seq, "do": "issue", "hazard": "WI.Y", "zones": [zone], "begin": begin, "end": end}).encode()


def side_by_side(jobs):
    """Runs the jobs in processes of their own, and returns the seconds until all have ended."""
    work = [multiprocessing.Process(target=job) for job in jobs]
    began = time.perf_counter()
    for it in work:
        it.start()
    for it in work:
        it.join()
    seconds = time.perf_counter() - began
    if any(it.exitcode for it in work):
        raise SystemExit("a link was answered otherwise than it should be")
    return seconds


def posted(path, folder, links, count):
    """Requests a second, posted over that many links, each of a desk of its own."""
    server = Server(path, folder, links, links)

    def job(desk):
        link, held = server.link(), b""
        for turn in range(count // links):
            status, body, held = call(link, held, post(request(DESKS[desk], turn + 1, turn * links + desk)))
            if status != 200:
                raise SystemExit("request %d of %s: %s" % (turn + 1, DESKS[desk], body))
        link.close()

    seconds = side_by_side([lambda desk=desk: job(desk) for desk in range(links)])
    server.check("requests %d products %d" % (count // links * links, count // links * links))
    return count / seconds


def asked(path, target, workers, count):
    """Pages a second over as many links as workers, of an office with twenty rows; and the server's peak in kB."""
    server = Server(path, "/dev/shm", workers, workers + 2)
    link, held = server.link(), b""
    for n in range(20):
        status, body, held = call(link, held, post(request("D0", n + 1, n)))
        if status != 200:
            raise SystemExit("request %d: %s" % (n + 1, body))
    link.close()
    links = [server.link() for _ in range(workers)]
    # It is taken once another link has ended, and keeps the server running until its memory was looked at.
    last = server.link()

    def job(link):
        held = b""
        for _ in range(count // workers):
            status, _, held = call(link, held, get(target))
            if status != 200:
                raise SystemExit("%s: %d" % (target, status))
        # The parent has this link too, so closing it alone would not end it.
        link.shutdown(socket.SHUT_RDWR)

    seconds = side_by_side([lambda link=link: job(link) for link in links])
    peak = peak_of(server.work.pid)
    last.close()
    server.check("requests 20 products 20")
    return count / seconds, peak


def option(name, other):
    words = sys.argv[1:]
    return words[words.index(name) + 1] if name in words else other


def told(rates):
    """The rate, and how many times the other's time a call takes."""
    ratio = ", %.2f times the other's time (%.0f)" % (rates[1] / rates[0], rates[1]) if len(rates) > 1 else ""
    return "%.0f%s" % (rates[0], ratio)


def main():
    other = option("--beside", None)
    paths = [program("warn_main")] + ([os.path.join(other, "warn_main")] if other else [])
    count, pages = int(option("--requests", 1600)), int(option("--pages", 8000))
    disk = option("--disk", None)
    for folder in ["/dev/shm"] + ([disk] if disk else []):
        for links in (1, 4, 16):
            rates = [posted(path, folder, links, count) for path in paths]
            print("%d links post in %s: %s a second" % (links, folder, told(rates)), flush=True)
    for target in ("/board", "/products/1"):
        peaks = []
        for workers in (1, 4, 16):
            found = [asked(path, target, workers, pages) for path in paths]
            print("%s with %d workers: %s a second" % (target, workers, told([rate for rate, _ in found])), flush=True)
            peaks.append(found[0][1])
        print("  a link's memory: %d kB" % ((peaks[-1] - peaks[0]) // 15), flush=True)


if __name__ == "__main__":
    main()
