#!/usr/bin/env python3
"""A desk of a served board, with Python's standard library alone (docs/CLIENTS.md).

    desk.py issue HAZARD ZONE.. --end END [--begin BEGIN] [--what TEXT] ..
    desk.py requests FILE           requests without "desk" and "seq", one a line; their replies
                                    go to FILE.replies
    desk.py board [--json]          the live hazards
    desk.py products [NUMBER]       one product, or all of them
    desk.py follow [--after N]      each product as it comes
    desk.py draft N | preview N     a draft, and what it would say
    desk.py next                    the number of the desk's next request
    desk.py forget                  gives up a saved request of which nobody knows what became

Before these words: --at URL, --desk NAME, --user USER, --authority FILE, --state FOLDER,
--patience SECONDS.

END and BEGIN are a stamp (180104T0000Z) or a time from now (8h, 90m, 2d); END also ufn, BEGIN now.

Status: 0 done, 1 refused, 2 wrong words, 3 no answer (the same command again sends the same
request), 4 unsure.

As a module:

    desk = Desk(Office('http://127.0.0.1:8470'), 'A')
    desk.ask('issue', hazard='WS.W', zones=['MDZ003'], begin='now', end=stamp(hours=8))
"""
import argparse
import base64
import contextlib
import fcntl
import http.client
import json
import netrc
import os
import re
import socket
import ssl
import sys
import time
import urllib.parse
from datetime import datetime, timedelta, timezone
from typing import NamedTuple, Optional

# No desk ever reaches this number: a request with it is refused, and the refusal names the last.
LAST = 4294967295
# The limit of the proxy, D1, no program behind the proxy, M1, and the proxy's time is up.
AGAIN = (429, 500, 502, 503, 504)
# A saved request that is older than this many seconds is not sent any more.
FRESH = 600
GIVEN_UP = '{"given up": true}'
STAMP = '%y%m%dT%H%MZ'


def stamp(**later):
    """The stamp of this minute, or of so much later: stamp(hours=8)."""
    return (datetime.now(timezone.utc) + timedelta(**later)).strftime(STAMP)


def tell(text):
    print('desk.py: ' + ' '.join(str(text).split()), file=sys.stderr, flush=True)


class Refused(Exception):
    """The office refused: `.reply` is its refusal, `.reply['no']` the code of the rule. Nothing was
    changed."""

    def __init__(self, reply):
        values = ', '.join(
            '%s %s' % item for item in reply.items() if item[0] not in ('no', 'rule')
        )
        super().__init__(
            'refused %s %s%s' % (reply['no'], reply.get('rule', ''), values and ' (%s)' % values)
        )
        self.reply = reply


class NoAnswer(Exception):
    """No answer within the patience. What was asked stays saved: asked again, the same request is
    sent again."""


class NotAnOffice(Exception):
    """What answers is no warning desk, or it lets nobody in."""


class Unsure(Exception):
    """Others have used the desk's numbers since: whether the saved request was accepted can't be
    found by asking."""


class Row(NamedTuple):
    """A line of the board. Times are stamps; `end` is None until further notice."""

    zone: str
    event: str
    begin: str
    end: Optional[str]
    flood: Optional[str]

    @property
    def hazard(self):
        return self.event[:4]


def row_of(line):
    """A line of the board: ZONE EVENT BEGIN-END, and behind a blank the H-VTEC text of a flood."""
    zone, event, period, *flood = line.split(' ')
    begin, end = period.split('-')
    return Row(
        zone, event, begin, None if end == '000000T0000Z' else end, flood[0] if flood else None
    )


class Office:
    """A served office: what anyone may ask it. Each call has a link of its own, which is closed
    behind it."""

    def __init__(
        self, at='http://127.0.0.1:8470', user=None, password=None, authority=None, patience=60.0
    ):
        where = urllib.parse.urlsplit(at)
        if (
            where.scheme not in ('http', 'https')
            or not where.hostname
            or where.query
            or where.fragment
        ):
            raise ValueError('%r is no address of a desk: http://127.0.0.1:8470 is one' % at)
        self.at, self.where, self.patience = at, where, patience
        self.tls = ssl.create_default_context(cafile=authority) if where.scheme == 'https' else None
        self.fields = {'Connection': 'close', 'Content-Type': 'application/json'}
        if user:
            word = base64.b64encode(('%s:%s' % (user, password or '')).encode()).decode()
            self.fields['Authorization'] = 'Basic ' + word

    def call(self, method, path, body=None):
        """One call over one link: its status and its body as bytes."""
        seconds = min(40.0, max(1.0, self.patience))
        if self.tls:
            link = http.client.HTTPSConnection(
                self.where.hostname, self.where.port, timeout=seconds, context=self.tls
            )
        else:
            link = http.client.HTTPConnection(self.where.hostname, self.where.port, timeout=seconds)
        try:
            link.request(method, self.where.path.rstrip('/') + path, body, self.fields)
            answer = link.getresponse()
            return answer.status, answer.read()
        finally:
            link.close()

    def ask(self, method, path, body=None, doubtful=lambda: None):
        """Calls until there is an answer that counts; `doubtful` is told of each call that may or
        may not have arrived."""
        end, pause, why = time.monotonic() + self.patience, 0.1, 'no time'
        while time.monotonic() < end:
            arrived = True
            try:
                status, text = self.call(method, path, body)
                if status not in AGAIN:
                    return status, text
                why = 'status %d' % status
            except ssl.SSLCertVerificationError as error:
                raise NotAnOffice('%s: %s' % (self.at, error.verify_message)) from None
            except (OSError, http.client.HTTPException) as error:
                why = str(error) or type(error).__name__
                if isinstance(error, (ConnectionRefusedError, socket.gaierror)):
                    arrived = False
            if arrived:
                doubtful()
            time.sleep(min(pause, max(0.0, end - time.monotonic())))
            pause = min(2 * pause, 2.0)
        raise NoAnswer('no answer from %s in %g seconds (%s)' % (self.at, self.patience, why))

    def post(self, body, doubtful=lambda: None):
        """Posts a request until it is answered: its reply, or its refusal, as a dict and as the
        office wrote it."""
        status, text = self.ask('POST', '/requests', body, doubtful)
        try:
            reply = json.loads(text)
            if status == 200 and 'ok' in reply or 400 <= status < 500 and 'rule' in reply:
                # P2, P3 and the like are the proxy's: the office has not seen the request.
                if not str(reply.get('no', '')).startswith('P'):
                    return reply, text.decode('ascii')
        except (ValueError, TypeError):
            reply = None
        raise self.stranger(status, reply)

    def stranger(self, status, reply=None):
        if status == 401:
            return NotAnOffice('%s wants another user or password (status 401)' % self.at)
        if isinstance(reply, dict) and 'no' in reply:
            return NotAnOffice(
                '%s: %s %s (status %d)' % (self.at, reply['no'], reply.get('rule'), status)
            )
        return NotAnOffice('%s is no warning desk (status %d)' % (self.at, status))

    def look(self, path, missing):
        """The text at a path, or None where the office says that there is none."""
        status, text = self.ask('GET', path)
        if status == 200:
            return text.decode('ascii', 'replace')
        try:
            reply = json.loads(text)
            if reply['no'] == missing:
                return None
            if not reply['no'].startswith(('F', 'P')):
                raise Refused(reply)
        except (ValueError, TypeError, KeyError, AttributeError):
            reply = None
        raise self.stranger(status, reply)

    def board(self):
        """The live rows now, by zone, then event."""
        try:
            return [row_of(line) for line in self.look('/board', '').splitlines()]
        except (ValueError, AttributeError):
            raise NotAnOffice('%s answers with no board' % self.at) from None

    def product(self, number):
        """The text of a product, or None."""
        return self.look('/products/%d' % number, 'E14')

    def product_after(self, number):
        """The text of product number + 1, or None where there is none yet."""
        return self.look('/products/after/%d' % number, 'E14')

    def products(self, after=0):
        """The products behind `after`, one after another, with their numbers."""
        while (text := self.product_after(after)) is not None:
            after += 1
            yield after, text

    def draft(self, number):
        text = self.look('/drafts/%d' % number, 'E1')
        return None if text is None else json.loads(text)

    def preview(self, number):
        return self.look('/preview/%d' % number, 'E1')

    def last_number(self, desk):
        """The last number of a desk that was accepted, 0 where there is none. Asking changes
        nothing."""
        probe = {'desk': desk, 'seq': LAST, 'do': 'send', 'draft': 0}
        reply, _ = self.post(json.dumps(probe).encode())
        if reply.get('no') != 'K4':
            raise Refused(reply)
        return reply['last']


def default_state():
    return os.path.join(
        os.environ.get('XDG_STATE_HOME') or os.path.expanduser('~/.local/state'), 'warning_desk'
    )


class Desk:
    """A desk that numbers its requests. It saves each of them, whole, before it sends it
    (`FOLDER/PLACE_NAME.json`)."""

    def __init__(self, office, name, folder=None):
        if not re.fullmatch('[A-Z0-9]{1,16}', name):
            raise ValueError('%r is no name of a desk: 1 to 16 of A to Z and 0 to 9' % name)
        self.office, self.name = office, name
        folder = folder or default_state()
        os.makedirs(folder, mode=0o700, exist_ok=True)
        place = '%s_%s%s' % (
            office.where.hostname,
            office.where.port or office.where.scheme,
            office.where.path.rstrip('/').replace('/', '_'),
        )
        self.file = os.path.join(folder, '%s_%s.json' % (place, name))

    @contextlib.contextmanager
    def locked(self):
        """One program of this machine at a time speaks for a desk."""
        with open(self.file + '.lock', 'w') as lock:
            fcntl.flock(lock, fcntl.LOCK_EX)
            yield

    def saved(self):
        """What was saved last: a dict of key, seq, body, reply (None while there is no answer) and
        done; {} at first."""
        try:
            with open(self.file, encoding='ascii') as file:
                return json.load(file)
        except FileNotFoundError:
            return {}
        except ValueError:
            raise Unsure('%s is no saved request: look at it, then remove it' % self.file) from None

    def save(self, record):
        """The record is on the disk, whole, before this returns."""
        with open(self.file + '.new', 'w', encoding='ascii') as file:
            json.dump(record, file)
            file.flush()
            os.fsync(file.fileno())
        os.replace(self.file + '.new', self.file)
        folder = os.open(os.path.dirname(self.file), os.O_RDONLY)
        try:
            os.fsync(folder)
        finally:
            os.close(folder)

    def settle(self):
        """Brings what was saved and not answered to its end: its reply, or its refusal; None where
        there is nothing, or where it is given up."""
        with self.locked():
            record = self.saved()
            if not record or record['reply']:
                return None
            record = self.settled(record)
            return json.loads(record['reply']) if record['reply'] else None

    def settled(self, record):
        """A saved request without an answer, answered; or given up, where it is old and was never
        accepted: what was to be said then is not said now, unless it is asked for anew."""
        if time.time() - record['at'] <= FRESH:
            return self.send(record, True)
        last = self.office.last_number(self.name)
        if last > record['seq']:
            raise self.unsure(record, last)
        if last == record['seq']:
            reply, text = self.office.post(record['body'].encode())
            if 'ok' in reply:
                record = {**record, 'reply': text}
                self.save(record)
                tell('it was accepted: %s' % text)
                return record
        tell('it is older than %d minutes and was never accepted: it is given up' % (FRESH / 60))
        record = {**record, 'reply': GIVEN_UP, 'done': True}
        self.save(record)
        return record

    def unsure(self, record, last):
        return Unsure(
            'desk %s: request %d is saved in %s and may have been accepted, and the last number '
            'that the office knows is %d: look at the products, then: desk.py forget'
            % (self.name, record['seq'], self.file, last)
        )

    def send(self, record, doubt):
        """Sends a saved request until it is answered. `doubt`: it may have been sent before."""

        def doubtful():
            nonlocal doubt
            doubt = True

        while True:
            reply, text = self.office.post(record['body'].encode(), doubtful)
            code, last = reply.get('no'), reply.get('last')
            if code in ('K3', 'K4') and doubt:
                raise self.unsure(record, last)
            if code not in ('K2', 'K3', 'K4'):
                break
            # The number belongs to another request, so this one was never accepted: it gets the
            # next one.
            doubt = False
            record = self.numbered(record, json.loads(record['body']), last + 1)
        record = {**record, 'reply': text}
        self.save(record)
        return record

    def numbered(self, record, request, number):
        """A record with the request under a number, saved and not yet sent."""
        request['seq'] = number
        body = json.dumps(request)
        record = {**record, 'seq': number, 'body': body, 'reply': None, 'done': False}
        self.save(record)
        return record

    def ask_once(self, key, request):
        """The reply to a request without desk and number, as a dict and as a text. Asked with the
        same key again, before `done`, an accepted one is not sent again: its reply is the same.

        A key that is a list is of one request for ever (line 7 of that file), however much later
        it comes again; any other is good for some minutes, since the same words may be meant anew.
        """
        key = json.loads(json.dumps(key))
        with self.locked():
            record = self.saved()
            if record and not record['reply']:
                record = self.settled(record)
            kept = record.get('kept', [])
            accepted = 'ok' in json.loads(record.get('reply', GIVEN_UP))
            if accepted and not record['done']:
                fresh = isinstance(key, list) or time.time() - record['at'] <= FRESH
                if record['key'] == key and fresh:
                    return json.loads(record['reply']), record['reply']
                # Another request comes between: what its program has not kept stays kept here.
                if isinstance(record['key'], list):
                    kept = kept[-50:] + [[record['key'], record['reply']]]
            for other, reply in kept:
                if other == key:
                    return json.loads(reply), reply
            last = record['seq'] if accepted else self.office.last_number(self.name)
            record = {'key': key, 'at': time.time(), 'kept': kept}
            record = self.numbered(record, {'desk': self.name, **request}, last + 1)
            reply = self.send(record, False)['reply']
            return json.loads(reply), reply

    def done(self, key=None):
        """The reply of this key, or the last one, has been kept: from now on the key is of a new
        request."""
        key = json.loads(json.dumps(key))
        with self.locked():
            record = self.saved()
            if record:
                kept = [pair for pair in record.get('kept', []) if pair[0] != key]
                done = record['done'] or key in (None, record['key'])
                self.save({**record, 'kept': kept, 'done': done})

    def forget(self):
        """Gives up a saved request that has no answer, and prints it."""
        with self.locked():
            record = self.saved()
            if record and not record['reply']:
                print(record['body'])
                self.save({**record, 'reply': GIVEN_UP, 'done': True})

    def ask(self, do, **fields):
        """The reply to a request. A program that was killed within it, and asks the same again
        within some minutes, asks it once."""
        request = {'do': do, **fields}
        reply, _ = self.ask_once(request, request)
        self.done()
        if 'ok' not in reply:
            raise Refused(reply)
        return reply


# The command.


def fail(status, text):
    tell(text)
    sys.exit(status)


class Words(argparse.ArgumentParser):
    def error(self, message):
        fail(2, message)


def time_of(word):
    """A time as a request has it: 8h from now is a stamp."""
    ahead = re.fullmatch(r'([0-9]{1,5})([mhd])', word)
    if ahead:
        return stamp(**{{'m': 'minutes', 'h': 'hours', 'd': 'days'}[ahead[2]]: int(ahead[1])})
    if word in ('now', 'ufn') or re.fullmatch(r'[0-9]{6}T[0-9]{4}Z', word):
        return word
    raise ValueError('%r is no time: 180104T0000Z, 8h, 90m, now and ufn are' % word)


def show(reply, text):
    """Prints a reply, and of a refusal a line of words. True where it is no refusal."""
    print(text, flush=True)
    if 'ok' not in reply:
        tell(Refused(reply))
    return 'ok' in reply


def issue(desk, words):
    key = {
        name: getattr(words, name)
        for name in (
            'hazard',
            'zones',
            'begin',
            'end',
            'flood',
            'what',
            'area',
            'impacts',
            'details',
        )
    }
    fields = {
        'do': 'issue',
        'hazard': words.hazard,
        'zones': words.zones,
        'begin': time_of(words.begin),
        'end': time_of(words.end),
    }
    texts = {
        name: key[name] for name in ('what', 'area', 'impacts', 'details') if key[name] is not None
    }
    if texts:
        fields['texts'] = texts
    if words.flood:
        parts = words.flood.split('.')
        if len(parts) != 7:
            raise ValueError(
                '%r are no flood values: FDKM2.2.ER.BEGIN.CREST.END.NO are' % words.flood
            )
        fields['flood'] = dict(
            zip(('site', 'severity', 'cause', 'begin', 'crest', 'end', 'status'), parts)
        )
    good = show(*desk.ask_once(key, fields))
    desk.done()
    return good


def whole_lines(name):
    """How many lines of a file of replies are whole; a line that a kill has cut off is taken off
    it."""
    try:
        with open(name, 'r+b') as file:
            data = file.read()
            file.truncate(data.rfind(b'\n') + 1)
            return data.count(b'\n')
    except FileNotFoundError:
        return 0


def requests_of(name):
    """The requests of a file, one a line: the lines, and what they say."""
    with open(name, encoding='utf-8') as file:
        lines = [line for line in file.read().split('\n') if line.strip()]
    asked = [json.loads(line) for line in lines]
    for number, line in enumerate(asked, 1):
        if not isinstance(line, dict) or not isinstance(line.get('do'), str):
            raise ValueError('%s: request %d is no object with a "do"' % (name, number))
        if {'desk', 'seq'} & set(line):
            raise ValueError('%s: request %d has a desk or a seq, put in here' % (name, number))
    return lines, asked


def requests(desk, words):
    """Each line is asked once, however often this is killed and started again: line n of
    FILE.replies answers line n."""
    name = os.path.abspath(words.file)
    lines, asked = requests_of(name)
    good = True
    with open(name + '.replies', 'ab') as replies:
        fcntl.flock(replies, fcntl.LOCK_EX)
        for number in range(whole_lines(name + '.replies'), len(asked)):
            key = [name, number, lines[number]]
            reply, text = desk.ask_once(key, asked[number])
            replies.write(text.encode('ascii') + b'\n')
            replies.flush()
            os.fsync(replies.fileno())
            desk.done(key)
            good = show(reply, text) and good
    return good


def follow(office, words):
    place = words.after
    while True:
        for place, text in office.products(place):
            sys.stdout.write(text)
            sys.stdout.flush()
        time.sleep(words.every)


def products(office, words):
    if words.number is None:
        for _, text in office.products():
            sys.stdout.write(text)
        return
    text = office.product(words.number)
    if text is None:
        fail(1, 'there is no product %d' % words.number)
    sys.stdout.write(text)


def board(office, words):
    for row in office.board():
        if words.json:
            print(json.dumps({**row._asdict(), 'hazard': row.hazard}))
        else:
            print(
                *(
                    part
                    for part in (
                        row.zone,
                        row.event,
                        '%s-%s' % (row.begin, row.end or '000000T0000Z'),
                        row.flood,
                    )
                    if part
                )
            )


def whole(text):
    if not re.fullmatch('[0-9]{1,9}', text):
        raise argparse.ArgumentTypeError('%r is no whole number' % text)
    return int(text)


def parser():
    words = Words(
        prog='desk.py', description=__doc__, formatter_class=argparse.RawDescriptionHelpFormatter
    )
    words.add_argument('--at', default=os.environ.get('DESK_AT', 'http://127.0.0.1:8470'))
    words.add_argument('--desk', default=os.environ.get('DESK_NAME', 'A'))
    words.add_argument(
        '--user', help='for the proxy; the password stands in DESK_PASSWORD or in ~/.netrc'
    )
    words.add_argument(
        '--authority', help='a file with the certificate that the proxy shows, or its authority'
    )
    words.add_argument('--state', help='the folder of saved requests')
    words.add_argument('--patience', type=float, default=60.0, help='seconds to wait for an answer')
    kinds = words.add_subparsers(dest='kind', required=True, parser_class=Words)
    one = kinds.add_parser('issue')
    one.add_argument('hazard')
    one.add_argument('zones', nargs='+')
    one.add_argument('--begin', default='now')
    one.add_argument('--end', required=True)
    one.add_argument('--flood')
    for name in ('what', 'area', 'impacts', 'details'):
        one.add_argument('--' + name)
    kinds.add_parser('requests').add_argument('file')
    kinds.add_parser('board').add_argument('--json', action='store_true')
    kinds.add_parser('products').add_argument('number', nargs='?', type=whole)
    one = kinds.add_parser('follow')
    one.add_argument('--after', type=whole, default=0)
    one.add_argument('--every', type=float, default=5.0)
    kinds.add_parser('draft').add_argument('number', type=whole)
    kinds.add_parser('preview').add_argument('number', type=whole)
    kinds.add_parser('next')
    kinds.add_parser('forget')
    return words


def office_of(words):
    password = os.environ.get('DESK_PASSWORD')
    host = urllib.parse.urlsplit(words.at).hostname
    user = words.user
    if password is None and host:
        with contextlib.suppress(FileNotFoundError):
            entry = netrc.netrc().authenticators(host)
            if entry and user in (None, entry[0]):
                user, _, password = entry
    return Office(words.at, user, password, words.authority, words.patience)


def run(words):
    office = office_of(words)
    if words.kind in ('issue', 'requests', 'forget'):
        desk = Desk(office, words.desk, words.state)
        if words.kind == 'forget':
            desk.forget()
            return True
        record = desk.saved()
        if record and not record['reply']:
            tell('saved before, and not answered: %s' % record['body'])
        return issue(desk, words) if words.kind == 'issue' else requests(desk, words)
    if words.kind == 'next':
        print(office.last_number(words.desk) + 1)
    elif words.kind in ('draft', 'preview'):
        found = getattr(office, words.kind)(words.number)
        if found is None:
            fail(1, 'there is no draft %d' % words.number)
        print(json.dumps(found)) if words.kind == 'draft' else sys.stdout.write(found)
    else:
        {'board': board, 'products': products, 'follow': follow}[words.kind](office, words)
    return True


def main():
    words = parser().parse_args()
    try:
        good = run(words)
        sys.stdout.flush()
        sys.exit(0 if good else 1)
    except Refused as refused:
        fail(1, refused)
    except NoAnswer as error:
        fail(3, error)
    except Unsure as error:
        fail(4, error)
    except json.JSONDecodeError as error:
        fail(2, '%s: %s' % (getattr(words, 'file', words.at), error))
    except netrc.NetrcParseError as error:
        fail(2, error)
    except (ValueError, NotAnOffice) as error:
        fail(2, error)
    except OSError as error:
        # What could not be written is not tried again at the end.
        os.dup2(os.open(os.devnull, os.O_WRONLY), sys.stdout.fileno())
        if not isinstance(error, BrokenPipeError):
            fail(2, error)
        sys.exit(0)
    except KeyboardInterrupt:
        sys.exit(130)


if __name__ == '__main__':
    main()
