#!/usr/bin/env python3
"""Joins texts as they came over the wire into one stream, for warn_archive and warn_stats.

    join_texts.py [--office KLWX] [--all] [--left FILE] PATH.. > archive.txt
    join_texts.py --into FOLDER [..] PATH..        a file for each office: FOLDER/KLWX.txt

PATH is a file, a folder (all files below it) or - for standard input. A text goes from its heading
line to the next one.

- Headings get their plain form (one blank, no control bytes), lines end in LF, each text in a line
  of its own.
- Texts come in the order of the time line that they carry (`1030 AM EST Wed Jan 3 2018`); one
  without it is dated by its heading, near the text before it in its file.
- Left out: a text that stands there already, a repeat (RRA .. RRX) of one that does, a text without
  a P-VTEC line (it says nothing of events; --all keeps it), with --office a text of another office,
  and a file without a heading.

What was left out and why is told on standard error, in full in --left FILE. Status: 0, or 1 where
nothing was kept, or 2 where a path can't be read; no input is changed.
"""
import argparse
import collections
import hashlib
import mmap
import os
import re
import shutil
import sys
import tempfile
from datetime import datetime, timedelta

HEADING = re.compile(
    rb'^[\x00-\x20]*([A-Z]{4}[0-9]{2})[ \t]+([A-Z0-9]{4})[ \t]+([0-9]{6})'
    rb'(?:[ \t]+([A-Z]{3}))?[\x00-\x09\x0b-\x20]*$',
    re.M,
)
IDENTIFIER = re.compile(rb'^[\x00-\x20]*([A-Z]{3}[A-Z0-9]{1,3})[\x00-\x20]')
HOURS = dict(
    AST=-4,
    EST=-5,
    EDT=-4,
    CST=-6,
    CDT=-5,
    MST=-7,
    MDT=-6,
    PST=-8,
    PDT=-7,
    AKST=-9,
    AKDT=-8,
    HST=-10,
    UTC=0,
    GMT=0,
)
MONTHS = 'jan feb mar apr may jun jul aug sep oct nov dec'.split()
LOCAL = re.compile(
    rb'^(0?[1-9]|1[0-2])([0-5][0-9]) +([AP]M) +(%s)(?: +/[^/\n]*/)? +[A-Z]{3} +(%s) +([0-9]{1,2}) +'
    rb'(20[0-9]{2})[ \r]*$' % ('|'.join(HOURS).encode(), '|'.join(MONTHS).encode()),
    re.M | re.I,
)
VTEC = re.compile(rb'^/[A-Z]\.[A-Z]{3}\.[A-Z0-9]{4}\..*$', re.M)
CODES = re.compile(rb'^(?:/[A-Z0-9].*|[A-Z]{2}[CZ][0-9]{3}[->].*|[0-9>-]+-)[ \r]*$', re.M)
# The transmission's own bytes: what comes behind them in a text is not of it.
CONTROL = re.compile(rb'[\x01\x03\x04]')

Text = collections.namedtuple(
    'Text', 'minute late serial file start end heading identifier office same codes'
)


def fail(text):
    print('join_texts.py: ' + text, file=sys.stderr)
    sys.exit(2)


def issue_minute(text):
    """When a text says that it was issued: its first line such as 1030 AM EST Wed Jan 3 2018."""
    found = LOCAL.search(text)
    if not found:
        return None
    hour = int(found[1]) % 12 + (12 if found[3].upper() == b'PM' else 0)
    try:
        local = datetime(
            int(found[7]),
            MONTHS.index(found[5].decode().lower()) + 1,
            int(found[6]),
            hour,
            int(found[2]),
        )
    except ValueError:
        return None
    return local - timedelta(hours=HOURS[found[4].decode().upper()])


def near(day_stamp, other):
    """The time with this day, hour and minute that is nearest to another time."""
    day, hour, minute = int(day_stamp[:2]), int(day_stamp[2:4]), int(day_stamp[4:])
    times = []
    for month in (
        other.replace(day=1) - timedelta(days=1),
        other,
        other.replace(day=28) + timedelta(days=4),
    ):
        try:
            times.append(month.replace(day=day, hour=hour, minute=minute))
        except ValueError:
            pass
    return min(times, key=lambda time: abs(time - other), default=other)


def plain(data, heading, end):
    """A text in plain form: its heading, LF as line ends, nothing behind it, such as the number of
    the next transmission."""
    body = data[heading.end() : end].replace(b'\r', b'')
    control = CONTROL.search(body)
    if control:
        body = body[: control.start()]
    body = body.rstrip()
    before, _, last = body.rpartition(b'\n')
    if len(last) == 3 and last.isdigit():
        body = before.rstrip()
    return b' '.join(part for part in heading.groups() if part) + body + b'\n'


def digest(data):
    return hashlib.blake2b(data, digest_size=16).digest()


def texts_of(file, name, data, serial):
    """The texts of one file, in its order. The times of those that carry none are near those beside
    them."""
    headings = list(HEADING.finditer(data))
    ends = [heading.start() for heading in headings[1:]] + [len(data)]
    texts = []
    for heading, end in zip(headings, ends):
        text = plain(data, heading, end)
        first, _, body = text.partition(b'\n')
        identifier = IDENTIFIER.match(body)
        texts.append(
            Text(
                issue_minute(body),
                heading[4] or b'',
                serial + len(texts),
                file,
                heading.start(),
                end,
                first,
                identifier[1] if identifier else b'(none)',
                heading[2],
                digest(heading[2] + b' '.join(body.split())),
                digest(heading[2] + b' '.join(CODES.findall(body))) if VTEC.search(body) else None,
            )
        )
    return texts


def dated(texts):
    """The texts, each with a time."""
    before = next((text.minute for text in texts if text.minute), datetime(2000, 1, 1))
    for text in texts:
        before = text.minute or near(text.heading.split()[2], before)
        yield text._replace(minute=before)


def files_below(paths, spool):
    for path in paths:
        if path == '-':
            with open(spool, 'wb') as file:
                shutil.copyfileobj(sys.stdin.buffer, file)
            yield spool
        elif os.path.isdir(path):
            for folder, folders, names in os.walk(path):
                folders.sort()
                yield from (
                    os.path.join(folder, name) for name in sorted(names) if not name.startswith('.')
                )
        else:
            yield path


class Progress:
    """How many bytes were read, for a person at a terminal."""

    def __init__(self):
        self.shown = sys.stderr.isatty() and not sys.stdout.isatty()
        self.bytes, self.told = 0, 0

    def add(self, count):
        self.bytes += count
        if self.shown and self.bytes - self.told > 1 << 22:
            self.told = self.bytes
            print('\rjoin_texts.py: %d MB read' % (self.bytes >> 20), end='', file=sys.stderr)

    def end(self):
        if self.told:
            print(file=sys.stderr)


class Files:
    """The input files, mapped; a bounded number of them at a time."""

    def __init__(self):
        self.open = collections.OrderedDict()

    def data(self, name):
        if name in self.open:
            self.open.move_to_end(name)
        else:
            with open(name, 'rb') as file:
                size = os.fstat(file.fileno()).st_size
                mapped = mmap.mmap(file.fileno(), 0, access=mmap.ACCESS_READ) if size else b''
            self.open[name] = mapped
            if len(self.open) > 200:
                self.open.popitem(last=False)
        return self.open[name]


def reason(text, words, seen):
    """Why a text is left out, or None. `seen` has those that are kept, by their words and by their
    codes."""
    if words.office and text.office not in words.office:
        return 'of another office'
    if text.codes is None and not words.all:
        return 'without a P-VTEC line'
    if text.same in seen:
        return 'there already'
    if text.late.startswith(b'RR') and (text.identifier, text.minute, text.codes) in seen:
        return 'a repeat'
    seen.add(text.same)
    seen.add((text.identifier, text.minute, text.codes))
    return None


class Outputs:
    """Standard output, or a file for each office."""

    def __init__(self, folder):
        self.folder, self.files = folder, {}
        if folder:
            os.makedirs(folder, exist_ok=True)
            if os.listdir(folder):
                fail(
                    '%s is not empty: texts of an earlier run would stand beside the new ones'
                    % folder
                )

    def write(self, office, text):
        if not self.folder:
            sys.stdout.buffer.write(text)
            return
        pieces = self.files.setdefault(office, [])
        pieces.append(text)
        if len(pieces) >= 500:
            self.flush(office)

    def flush(self, office):
        with open(os.path.join(self.folder, office.decode() + '.txt'), 'ab') as file:
            file.write(b''.join(self.files[office]))
        self.files[office] = []

    def close(self):
        for office in self.files:
            self.flush(office)
        if not self.folder:
            sys.stdout.buffer.flush()


class Left:
    """What was left out: a line each, and how many for each reason."""

    def __init__(self, name):
        self.counts, self.lines = collections.Counter(), 0
        self.file = open(name, 'w', encoding='utf-8') if name else None

    def add(self, why, line):
        self.counts[why] += 1
        self.lines += 1
        if self.file:
            print(line, file=self.file)
        elif self.lines <= 10:
            print('left out: ' + line, file=sys.stderr)

    def tell(self, kept, offices):
        if not self.file and self.lines > 10:
            print(
                'left out: .. and %d more (--left FILE has them all)' % (self.lines - 10),
                file=sys.stderr,
            )
        whys = ''.join(', %s: %d' % item for item in sorted(self.counts.items()))
        print(
            'texts kept: %d, offices: %d, left out: %d%s' % (kept, len(offices), self.lines, whys),
            file=sys.stderr,
        )
        if self.file:
            self.file.close()


def join(words, spool):
    files, names, texts, left, progress = Files(), [], [], Left(words.left), Progress()
    for name in files_below(words.paths, spool):
        shown = '-' if name == spool else name
        found = texts_of(len(names), shown, files.data(name), len(texts))
        names.append((name, shown))
        if not found:
            left.add('no heading in the file', '%s: no heading in the file' % shown)
        texts += dated(found)
        progress.add(len(files.data(name)))
    progress.end()
    texts.sort(key=lambda text: (text.minute, text.late, text.serial))
    outputs, seen, kept, offices = Outputs(words.into), set(), 0, set()
    for text in texts:
        name, shown = names[text.file]
        why = reason(text, words, seen)
        if why:
            left.add(
                why,
                '%s, byte %d: %s %s: %s'
                % (shown, text.start, text.heading.decode(), text.identifier.decode(), why),
            )
            continue
        data = files.data(name)
        outputs.write(text.office, plain(data, HEADING.match(data, text.start), text.end))
        kept += 1
        offices.add(text.office)
    outputs.close()
    left.tell(kept, offices)
    return kept


class Words(argparse.ArgumentParser):
    def error(self, message):
        fail(message)


def main():
    parser = Words(description=__doc__, formatter_class=argparse.RawDescriptionHelpFormatter)
    parser.add_argument(
        '--office',
        action='append',
        help='texts of this office alone, such as KLWX (may be repeated)',
    )
    parser.add_argument('--all', action='store_true', help='also texts without a P-VTEC line')
    parser.add_argument(
        '--into', metavar='FOLDER', help='write a file for each office into this folder'
    )
    parser.add_argument('--left', metavar='FILE', help='list what was left out in this file')
    parser.add_argument('paths', metavar='PATH', nargs='+')
    words = parser.parse_args()
    for office in words.office or []:
        if not re.fullmatch('[A-Z0-9]{4}', office):
            fail('%r is no office: four of A to Z and 0 to 9' % office)
    words.office = [office.encode() for office in words.office or []]
    try:
        with tempfile.TemporaryDirectory() as folder:
            sys.exit(0 if join(words, os.path.join(folder, 'input')) else 1)
    except OSError as error:
        # What could not be written is not tried again at the end.
        os.dup2(os.open(os.devnull, os.O_WRONLY), sys.stdout.fileno())
        fail('%s: %s' % (error.filename or 'standard output', error.strerror))


if __name__ == '__main__':
    main()
