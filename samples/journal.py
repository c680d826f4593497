#!/usr/bin/env python3
"""Lists the records of an office's journal, or of a copy. It reads alone, and takes no lock.

    journal.py [--texts | --sum] JOURNAL

A line for each record, its first byte in front, then what stands behind the last one and how much
room is left. --texts writes the products' texts too, as the journal has them (edition Two); --sum
writes the last lines alone. Status: 0 for a journal, 1 where it is damaged (the byte is told), 2
where there is none.

Whether the bodies are those of a lawful history this does not say: `warn_main COPY export` does.
"""
import argparse
import collections
import os
import re
import sys

MOST_BYTES, MOST_PRODUCTS = 268435456, 8192
ENTRY = re.compile(rb'([0-9]{6}T[0-9]{4}Z) (\{.*\})')
SENDING = re.compile(rb'"do":"(?:send|issue|correct)"')

Record = collections.namedtuple('Record', 'at kind line text')


class Damaged(Exception):
    """The journal is damaged at a byte."""

    def __init__(self, at, why):
        super().__init__('damaged at byte %d: %s' % (at, why))


class Fresh(Exception):
    """There is no journal in the file."""


class Journal:
    """A journal's records, one after another; then `end` (the closed gate), `behind`, and what they
    were."""

    def __init__(self, name):
        self.name, self.products, self.records, self.edition = name, 0, 0, 'One'
        self.last, self.end, self.behind, self.office = None, 0, 0, b''

    def __iter__(self):
        with open(self.name, 'rb') as file:
            size = file.seek(0, 2)
            file.seek(0)
            at, first = 0, file.read(1)
            if size <= 1 or first == b'.':
                raise Fresh('%s holds no journal' % self.name)
            if first != b'G':
                raise Damaged(0, 'a journal begins with G')
            gate = first
            while gate == b'G':
                length = int.from_bytes(file.read(4), 'big')
                if at + 5 + length >= size:
                    raise Damaged(at, 'a record of %d bytes that is not whole' % length)
                body = file.read(length)
                yield self.record(at, body)
                at, gate = at + 5 + length, file.read(1)
            self.end, self.behind = at, size - at - 1

    def record(self, at, body):
        self.records += 1
        if self.records == 1:
            found = re.search(rb'^\s*office\s*=\s*["\']([A-Z0-9]{4})', body, re.M)
            self.office = found[1] if found else b'????'
            return Record(at, 'settings', body, b'')
        if body == b'edition 2':
            self.edition = 'Two'
            return Record(at, 'mark', body, b'')
        line, _, text = body.partition(b'\n')
        found = ENTRY.fullmatch(line)
        if not found:
            raise Damaged(at, 'a record that is no entry')
        self.last = found[1].decode()
        if SENDING.search(line):
            self.products += 1
        return Record(at, 'entry', line, text)


def tell(journal, words):
    for record in journal:
        if words.sum:
            continue
        if record.kind == 'settings':
            print(
                '%d: settings of %s, %d bytes'
                % (record.at, journal.office.decode(), len(record.line))
            )
        else:
            behind = ' (text of %d bytes)' % len(record.text) if record.text else ''
            print('%d: %s%s' % (record.at, record.line.decode('ascii', 'replace'), behind))
            if words.texts and record.text:
                sys.stdout.write(record.text.decode('ascii', 'replace'))
    print('%d: closed gate, %d bytes behind it' % (journal.end, journal.behind))
    print(
        'office %s, edition %s, entries %d, last entry %s'
        % (
            journal.office.decode(),
            journal.edition,
            journal.records - 1 - (journal.edition == 'Two'),
            journal.last or 'none',
        )
    )
    print(
        'products %d of %d, bytes %d of %d'
        % (journal.products, MOST_PRODUCTS, journal.end + 1, MOST_BYTES)
    )


def fail(status, text):
    print('journal.py: ' + ' '.join(str(text).split()), file=sys.stderr)
    sys.exit(status)


def main():
    words = argparse.ArgumentParser(
        description=__doc__, formatter_class=argparse.RawDescriptionHelpFormatter
    )
    words.error = lambda message: fail(2, message)
    words.add_argument('--texts', action='store_true')
    words.add_argument('--sum', action='store_true')
    words.add_argument('journal')
    words = words.parse_args()
    try:
        tell(Journal(words.journal), words)
        sys.stdout.flush()
    except Damaged as error:
        sys.stdout.flush()
        fail(1, '%s: %s' % (words.journal, error))
    except Fresh as error:
        fail(2, error)
    except OSError as error:
        # What could not be written is not tried again at the end.
        os.dup2(os.open(os.devnull, os.O_WRONLY), sys.stdout.fileno())
        if not isinstance(error, BrokenPipeError):
            fail(2, error)


if __name__ == '__main__':
    main()
