"""Refuses a program one allocation after another, and looks whether each run ends with an answer that is defined, outside the gate.

    python3 bench/no_memory.py [CASES..]

CASES are those of `CASES` below (all where none is given), over crates/NAME/out/NAME as built last (PROGRAMS names another folder
that has the programs). Each case runs once for each allocation that its whole run makes, and in run N the Nth allocation is refused.
The table says what came at which numbers. A run that ends otherwise than it may (killed, another status, other bytes, another
journal) ends the table with status 1.

The programs take their memory by `malloc` and `realloc` of the C library, so a small library that is loaded before it counts the
calls and refuses one; `cc` compiles it. (`rt try --fail-alloc N` refuses one without the library, but builds anew for each N.)
"""
import datetime
import json
import os
import socket
import subprocess
import sys
import tempfile
import textwrap
import time

TOP = os.path.join(os.path.dirname(os.path.abspath(__file__)), "..")
SECONDS = 60                # that a run may take
LINKS = 2                   # that a served run takes
SPANS = 12                  # of numbers that a line of the table names
MEMORY = b"fault OutOfMemory\n"
NO_ROOM = b'{"no":"M1","rule":"OutOfMemory"}\n'
NO_ROOM_AT_A_LINK = b"HTTP/1.1 503 Service Unavailable\r\nContent-Type: application/json\r\nContent-Length: 32\r\n\r\n" + NO_ROOM[:-1]

LIBRARY = r"""
#include <errno.h>
#include <fcntl.h>
#include <stdio.h>
#include <stdlib.h>
#include <sys/syscall.h>
#include <unistd.h>

extern void *__libc_malloc(size_t);
extern void *__libc_calloc(size_t, size_t);
extern void *__libc_realloc(void *, size_t);
extern void *__libc_memalign(size_t, size_t);

static unsigned long calls, refused;

static int is_refused(void) {
    calls += 1;
    if (calls != refused) return 0;
    errno = ENOMEM;
    return 1;
}

void *malloc(size_t n) { return is_refused() ? NULL : __libc_malloc(n); }
void *calloc(size_t n, size_t m) { return is_refused() ? NULL : __libc_calloc(n, m); }
void *realloc(void *p, size_t n) { return is_refused() ? NULL : __libc_realloc(p, n); }
void *memalign(size_t a, size_t n) { return is_refused() ? NULL : __libc_memalign(a, n); }
void *aligned_alloc(size_t a, size_t n) { return memalign(a, n); }
int posix_memalign(void **p, size_t a, size_t n) { return (*p = memalign(a, n)) ? 0 : ENOMEM; }

__attribute__((constructor)) static void begin(void) {
    const char *number = getenv("REFUSED_CALL");
    refused = number ? strtoul(number, NULL, 10) : 0;
    calls = 0;
}

__attribute__((destructor)) static void end(void) {
    const char *path = getenv("CALLS_FILE");
    char text[32];
    int file = path ? open(path, O_WRONLY | O_CREAT | O_TRUNC, 0600) : -1;
    if (file >= 0) {
        int size = snprintf(text, sizeof text, "%lu", calls);
        if (write(file, text, size) != size) syscall(SYS_exit_group, 99);
        close(file);
    }
}

/* the programs end by it, at which no destructor runs */
void _exit(int status) {
    end();
    syscall(SYS_exit_group, status);
    __builtin_unreachable();
}
"""


def sample(*path):
    with open(os.path.join(TOP, *path), "rb") as file:
        return file.read()


def program(name):
    folder = os.environ.get("PROGRAMS")
    path = os.path.join(folder, name) if folder else os.path.join(TOP, "crates", name, "out", name)
    if not os.path.exists(path):
        raise SystemExit("no program at %s: build it with `rt run` in crates/%s" % (path, name))
    return path


class Runs:
    """Runs of one program over one input, each with one allocation refused."""

    def __init__(self, folder, name, words, given, journal=None):
        self.folder, self.name, self.words, self.given, self.journal = folder, name, words, given, journal

    def run(self, refused=0, given=None):
        """Status, bytes written and journal left."""
        path, words = os.path.join(self.folder, "journal"), list(self.words)
        if self.journal is not None:
            with open(path, "wb") as out:
                out.write(self.journal)
            words.insert(0, path)
        done = subprocess.run([program(self.name)] + words, input=self.given if given is None else given, stdout=subprocess.PIPE,
                              stderr=subprocess.DEVNULL, env=self.refusing(refused), timeout=SECONDS)
        left = None
        if self.journal is not None:
            with open(path, "rb") as file:
                left = file.read()
        return done.returncode, done.stdout, left

    def refusing(self, refused):
        """The environment of a program whose allocation of that number is refused."""
        return dict(os.environ, LD_PRELOAD=os.path.join(self.folder, "refuse.so"), REFUSED_CALL=str(refused),
                    CALLS_FILE=os.path.join(self.folder, "calls"))

    def allocations(self):
        with open(os.path.join(self.folder, "calls")) as file:
            return int(file.read())


class Served(Runs):
    """Runs of `serve` with two workers, over two links, one after the other, which post the same request."""

    def __init__(self, folder, request, journal):
        super().__init__(folder, "warn_main", [], request, journal)

    def run(self, refused=0, given=None):
        """Status, bytes written, journal left, and what each link was answered, or None."""
        path = os.path.join(self.folder, "journal")
        with open(path, "wb") as out:
            out.write(self.journal)
        with socket.socket() as it:
            it.bind(("127.0.0.1", 0))
            port = it.getsockname()[1]
        words = [path, "serve", "--port", str(port), "--workers", "2", "--connections", str(LINKS)]
        work = subprocess.Popen([program(self.name)] + words, stdin=subprocess.DEVNULL, stdout=subprocess.PIPE,
                                stderr=subprocess.DEVNULL, env=self.refusing(refused))
        answers = [self.answer(work, port) for _ in range(LINKS)]
        written = work.communicate(timeout=SECONDS)[0]
        with open(path, "rb") as file:
            return work.returncode, written, file.read(), answers

    def answer(self, work, port):
        """What a link that posts the request is answered; None where it is not."""
        while work.poll() is None:
            try:
                with socket.create_connection(("127.0.0.1", port), timeout=SECONDS) as link:
                    link.sendall(b"POST /requests HTTP/1.1\r\nContent-Length: %d\r\n\r\n%s" % (len(self.given), self.given))
                    link.shutdown(socket.SHUT_WR)
                    return b"".join(iter(lambda: link.recv(65536), b"")) or None
            except ConnectionRefusedError:
                time.sleep(0.002)
            except OSError:
                return None
        return None


def in_one_minute(work):
    """What the work gives, done again where the clock's minute changed meanwhile."""
    while True:
        minute = int(time.time() // 60)
        given = work()
        if int(time.time() // 60) == minute:
            return given


# Each of these says what came, or None where that may not come.

def ended(runs, outcome, whole):
    """The ends that every program may have: for the words nothing is written, and else the line of the fault alone."""
    if outcome == whole:
        return "ends as the whole run"
    if outcome == (12, b"", runs.journal):
        return "status 12, nothing written"
    if outcome == (12, MEMORY, runs.journal):
        return "status 12, its line alone"
    return None


def begun(runs, outcome, whole):
    """Or the beginning of the whole output, in lines, comes before the line of the fault."""
    front = outcome[1][:-len(MEMORY)]
    if outcome[0] == 12 and outcome[1].endswith(MEMORY) and front and whole[1].startswith(front) and front.endswith(b"\n"):
        return "status 12, its line behind a beginning of the output"
    return ended(runs, outcome, whole)


def answered(runs, outcome, whole):
    """Or one line of a script is told that memory ran out, and the others are answered as if that line were not there."""
    replies = outcome[1].splitlines(True)
    if outcome[0] == 0 and replies.count(NO_ROOM) == 1:
        at, lines = replies.index(NO_ROOM), runs.given.splitlines(True)
        status, written, journal = runs.run(given=b"".join(lines[:at] + lines[at + 1:]))
        others = written.splitlines(True)
        if (status, others[:at] + [NO_ROOM] + others[at:], journal) == (0, replies, outcome[2]):
            return "status 0, line %d is told M1" % (at + 1)
    return ended(runs, outcome, whole)


def taken(runs, outcome, whole):
    """Or a product is taken at the second time, and the reader says the same of all; or the script ends without an answer."""
    if outcome == (0, whole[1] + b"taken again 1\n", None):
        return "a product was taken again, and all is told as ever"
    if outcome in ((1, b"", None), (1, b"rows of archive\n", None)):
        return "status 1, no answer written"
    return ended(runs, outcome, whole)


def served(runs, outcome, whole):
    """Each link is answered as ever, or M1, or not at all; the journal has the request, or is as before; the end says so."""
    status, written, left, answers = outcome
    if outcome == whole:
        return "ends as the whole run"
    kinds = {None: "no answer", whole[3][0]: "its reply", NO_ROOM_AT_A_LINK: "M1"}
    if any(it not in kinds for it in answers) or left not in (runs.journal, whole[2]):
        return None
    entered = left == whole[2]
    if (whole[3][0] in answers) != entered:
        return None
    well = (0, b"requests 1 products 1\n" if entered else b"requests 0 products 0\n")
    links = ", ".join(kinds[it] for it in answers)
    if (status, written) == well and None not in answers:
        return "status 0; the links: %s" % links
    if (status, written) == (12, MEMORY):
        return "status 12, its line; the links: %s" % links
    if (status, written) == (12, b"") and answers == [None] * LINKS and not entered:
        return "status 12, nothing written"
    return None


# ---- the cases

def stamp(hours):
    return (datetime.datetime.now(datetime.timezone.utc) + datetime.timedelta(hours=hours)).strftime("%y%m%dT%H%MZ")


def lines_of(requests):
    return "".join(json.dumps(it, separators=(",", ":")) + "\n" for it in requests).encode()


def small_day():
    """A draft that is filled and sent, a repetition, a refusal, an issue and its correction."""
    year, end = stamp(0)[:2], stamp(10)
    sent = {"desk": "A", "seq": 3, "do": "send", "draft": 1}
    return lines_of([
        {"desk": "A", "seq": 1, "do": "open", "category": "WSW"},
        {"desk": "A", "seq": 2, "do": "put", "draft": 1, "hazard": "WS.W", "zones": ["MDZ003", "MDZ004", "MDZ005", "VAZ028"],
         "begin": "now", "end": end,
         "texts": {"what": "Heavy snow."}},
        sent, sent,
        {"desk": "B", "seq": 1, "do": "issue", "hazard": "WS.W", "zones": ["MDZ003"], "begin": "now", "end": "ufn"},
        {"desk": "B", "seq": 1, "do": "issue", "hazard": "WI.Y", "zones": ["MDZ006"], "begin": "now", "end": end},
        {"desk": "C", "seq": 1, "do": "correct", "product": 2, "texts": [{"event": "WI.Y.0001.20" + year,
                                                                          "texts": {"what": "Gusts to 50 mph."}}]},
    ])


def script_of(archive, asked):
    """Rows of worked_rows: the lines of an archive, and what a reader says of it."""
    return b"rows of archive\n" + b"".join(b"line %s\n" % line.rstrip(b"\r") for line in archive.split(b"\n")[:-1]) + b"reader 40 %s\n" % asked


def one_issue():
    """A request that makes a product, without its line feed."""
    return lines_of([{"desk": "A", "seq": 1, "do": "issue", "hazard": "WS.W", "zones": ["MDZ003"], "begin": "now", "end": stamp(10)}])[:-1]


def fifty():
    """Requests that are accepted, fifty in all."""
    asked = []
    for turn in range(10):
        hazard = ["WS.W", "WI.Y", "FG.Y", "FZ.W", "HW.W"][turn % 5]
        zones, category = ["MDZ003", "MDZ004"] if turn < 5 else ["MDZ005", "VAZ028"], "WSW" if turn % 5 == 0 else "NPW"
        asked += [{"do": "open", "category": category},
                  {"do": "put", "draft": turn + 1, "hazard": hazard, "zones": zones, "begin": stamp(20 * turn + 1),
                   "end": stamp(20 * turn + 10)},
                  {"do": "put", "draft": turn + 1, "hazard": hazard, "zones": ["MDZ006"], "begin": stamp(20 * turn + 1),
                   "end": stamp(20 * turn + 10)},
                  {"do": "drop", "draft": turn + 1, "place": 1},
                  {"do": "send", "draft": turn + 1}]
    return lines_of(dict(it, desk="A", seq=seq) for seq, it in enumerate(asked, 1))


def journal_with(folder, requests):
    """A journal in which these requests were accepted."""
    fresh = Runs(folder, "warn_main", ["init"], sample("samples", "office.toml"), b"").run()[2]
    status, written, journal = Runs(folder, "warn_main", ["script"], requests, fresh).run()
    if status != 0 or written.count(b'"ok"') != requests.count(b"\n"):
        raise SystemExit("the requests of a journal were not accepted: %r" % written)
    return journal


def desk(folder, words, given, requests, judge):
    """A run of the desk's program over a journal in which these requests were accepted."""
    return Runs(folder, "warn_main", words, given, journal_with(folder, requests)), judge


CASES = {
    "script over a small day": lambda folder: desk(folder, ["script"], small_day(), b"", answered),
    "opening a journal of 50 entries": lambda folder: desk(folder, ["script"], b"", fifty(), ended),
    "export of ten products": lambda folder: desk(folder, ["export"], b"", fifty(), begun),
    "board over them": lambda folder: desk(folder, ["board", "--at", stamp(2)], b"", fifty(), begun),
    "init of the sample settings": lambda folder: (Runs(folder, "warn_main", ["init"], sample("samples", "office.toml"), b""), ended),
    "dry over the training sample": lambda folder: (
        Runs(folder, "warn_main", ["dry", "KLWX", "180103T1530Z"], sample("samples", "training.jsonl"), b""), begun),
    "drill of 20 requests": lambda folder: (Runs(folder, "warn_main", ["drill", "7", "20"], b"", b""), ended),
    "warn_archive over a small archive": lambda folder: (Runs(folder, "warn_archive", ["KLWX", "O", "180103T1900Z"],
                                                              sample("samples", "archive.txt")), begun),
    "warn_stats over a small archive": lambda folder: (Runs(folder, "warn_stats", ["KLWX", "O", "180103T2200Z"],
                                                            sample("samples", "statistics.txt")), ended),
    "a reader that goes on, over a small archive": lambda folder: (
        Runs(folder, "worked_rows", [], script_of(sample("samples", "archive.txt"), b"KLWX O 180103T1900Z")), taken),
    "watch_notice over three lines": lambda folder: (
        Runs(folder, "watch_notice", ["KLWX", "Eastern"], b"".join(sample("samples", "notices.jsonl").splitlines(True)[:3])), begun),
    "serve over two links": lambda folder: (Served(folder, one_issue(), journal_with(folder, b"")), served),
}


def table(name, runs, judge):
    """Prints what came at which numbers. Whether each run ended as it may."""
    whole = in_one_minute(runs.run)
    count, came, defined = runs.allocations(), {}, True

    def kind_at(number):
        outcome, kept = runs.run(number), runs.run()
        return judge(runs, outcome, kept) or "NOT DEFINED: %r" % (outcome,)
    for number in range(1, count + 1):
        kind = in_one_minute(lambda: kind_at(number))
        spans = came.setdefault(kind, [])
        if spans and spans[-1][1] == number - 1:
            spans[-1][1] = number
        else:
            spans.append([number, number])
        defined = defined and not kind.startswith("NOT DEFINED")
    print("%s: %d allocations; the whole run ends with status %d" % (name, count, whole[0]))
    for kind, spans in came.items():
        told = ["%d" % first if first == last else "%d to %d" % (first, last) for first, last in spans]
        if len(told) > SPANS:
            told[SPANS // 2:-SPANS // 2] = [".."]
        runs_so = sum(last - first + 1 for first, last in spans)
        print(textwrap.fill("%s, %d runs: %s" % (kind, runs_so, ", ".join(told)), 120, initial_indent="  ", subsequent_indent="    "))
    sys.stdout.flush()
    return defined


def main():
    with tempfile.TemporaryDirectory(dir="/dev/shm") as folder:
        source = os.path.join(folder, "refuse.c")
        with open(source, "w") as out:
            out.write(LIBRARY)
        subprocess.run(["cc", "-O1", "-shared", "-fPIC", "-o", os.path.join(folder, "refuse.so"), source], check=True)
        whole = True
        for name, case in CASES.items():
            if sys.argv[1:] and not any(it in name for it in sys.argv[1:]):
                continue
            whole = table(name, *case(folder)) and whole
    sys.exit(0 if whole else 1)


if __name__ == "__main__":
    main()
