#!/usr/bin/env python3
"""Follows a served board for good: writes each product into a folder, once, and starts a program
with it.

    follow.py [--at URL] [--every SECONDS] [--once] PLACE FOLDER [HOOK [WORD..]]

PLACE is a file that keeps how many products were taken; it is made where it is not there. Product 7
becomes FOLDER/000007.txt, whole or not at all. Then HOOK WORD.. FOLDER/000007.txt is run, and only
where it ends with status 0 does the place go on: a hook that fails is tried again, so it may meet a
product twice after a stop, and never misses one.

--once ends where there is no further product; otherwise it asks again every 5 seconds, and goes on
asking while the office does not answer. Status: 0, 2 for wrong words, 3 where the office does not
answer (--once), 4 where the office's products are not those of the folder (another journal), 5
where the hook failed (--once). Products only: for the live hazards ask the board, or run
warn_archive over the folder.
"""
import argparse
import fcntl
import os
import re
import subprocess
import sys
import time

import desk


def fail(status, text):
    print('follow.py: ' + ' '.join(str(text).split()), file=sys.stderr)
    sys.exit(status)


def tell(text):
    print('follow.py: ' + text, file=sys.stderr, flush=True)


class Place:
    """How many products were taken, in a file that one program at a time has locked."""

    def __init__(self, name):
        self.name = name
        self.lock = os.open(name + '.lock', os.O_WRONLY | os.O_CREAT, 0o644)
        try:
            fcntl.flock(self.lock, fcntl.LOCK_EX | fcntl.LOCK_NB)
        except BlockingIOError:
            fail(2, 'another follow.py has %s' % name)
        self.number = 0
        if os.path.exists(name):
            with open(name, encoding='ascii') as file:
                text = file.read()
            if not re.fullmatch(r'[0-9]{1,4}\n', text):
                fail(2, '%s holds no place' % name)
            self.number = int(text)

    def set(self, number):
        write_whole(self.name, b'%d\n' % number)
        self.number = number


def write_whole(name, data):
    """The file is there, whole and on the disk, or as it was."""
    with open(name + '.new', 'wb') as file:
        file.write(data)
        file.flush()
        os.fsync(file.fileno())
    os.replace(name + '.new', name)
    folder = os.open(os.path.dirname(os.path.abspath(name)), os.O_RDONLY)
    try:
        os.fsync(folder)
    finally:
        os.close(folder)


def name_of(folder, number):
    return os.path.join(folder, '%06d.txt' % number)


def check_office(office, place, folder):
    """The last product that was taken must still be the office's: else this is another journal."""
    if place.number == 0:
        return
    name, text = name_of(folder, place.number), office.product(place.number)
    if text is None:
        fail(
            4,
            '%d products were taken, and the office has no product %d: it has another journal'
            % (place.number, place.number),
        )
    try:
        with open(name, encoding='ascii') as file:
            if file.read() != text:
                fail(
                    4,
                    'product %d of the office is another than %s: it has another journal'
                    % (place.number, name),
                )
    except FileNotFoundError:
        pass  # taken and carried away


def take(office, place, words):
    """Takes the products behind the place. True where there is no further one, False where the hook
    failed."""
    for number, text in office.products(place.number):
        name = name_of(words.folder, number)
        write_whole(name, text.encode('ascii'))
        if words.hook:
            status = subprocess.run([*words.hook, name]).returncode
            if status != 0:
                tell(
                    '%s %s ended with status %d: product %d is tried again'
                    % (words.hook[0], name, status, number)
                )
                return False
        place.set(number)
    return True


def follow(office, words):
    place, checked = Place(words.place), False
    while True:
        try:
            if not checked:
                check_office(office, place, words.folder)
                checked = True
            done = take(office, place, words)
            if words.once:
                return 0 if done else 5
        except desk.NoAnswer as error:
            if words.once:
                fail(3, error)
            tell(str(error))
            checked = False  # the office may come back with another journal
        time.sleep(words.every)


def main():
    words = argparse.ArgumentParser(
        description=__doc__, formatter_class=argparse.RawDescriptionHelpFormatter
    )
    words.error = lambda message: fail(2, message)
    words.add_argument('--at', default=os.environ.get('DESK_AT', 'http://127.0.0.1:8470'))
    words.add_argument(
        '--user', help='for the proxy; the password stands in DESK_PASSWORD or in ~/.netrc'
    )
    words.add_argument(
        '--authority', help='a file with the certificate that the proxy shows, or its authority'
    )
    words.add_argument('--every', type=float, default=5.0)
    words.add_argument('--patience', type=float, default=60.0, help='seconds to wait for an answer')
    words.add_argument('--once', action='store_true')
    words.add_argument('place', metavar='PLACE')
    words.add_argument('folder', metavar='FOLDER')
    words.add_argument('hook', metavar='HOOK', nargs=argparse.REMAINDER)
    words = words.parse_args()
    try:
        os.makedirs(words.folder, exist_ok=True)
        sys.exit(follow(desk.office_of(words), words))
    except desk.NoAnswer as error:
        fail(3, error)
    except (ValueError, OSError, desk.NotAnOffice, desk.Refused) as error:
        fail(2, error)
    except KeyboardInterrupt:
        sys.exit(130)


if __name__ == '__main__':
    main()
