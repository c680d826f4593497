"""Requests asked once, whatever is killed: once.py SAMPLES PORT LINK LINES.

An office is served on PORT behind a link at the port LINK that is cut at times, and desk.py posts a
file of LINES requests to it: each opens a draft, and every tenth issues a flood warning. The client
is killed again and again, at moments of chance, the office now and then, and the link cuts answers
off. In the end each line has one reply, and the journal each request once.
"""
import json
import os
import random
import re
import socket
import subprocess
import sys
import threading
import time

SAMPLES, (PORT, LINK, LINES) = sys.argv[1], map(int, sys.argv[2:5])
chance = random.Random(49)


def whole_call(link):
    """A call with its body, or nothing where the client was killed within it."""
    call, wanted = b'', 1 << 30
    while len(call) < wanted:
        piece = link.recv(1 << 16)
        if not piece:
            return b''
        call += piece
        head, found, _ = call.partition(b'\r\n\r\n')
        if found:
            length = re.search(rb'(?i)\r\ncontent-length: ([0-9]+)', head)
            wanted = len(head) + 4 + (int(length[1]) if length else 0)
    return call


class Link:
    """Hands calls on to the office, and cuts every third of them off: before it was sent, or before
    it was answered."""

    def __init__(self):
        self.port = socket.socket()
        self.port.setsockopt(socket.SOL_SOCKET, socket.SO_REUSEADDR, 1)
        self.port.bind(('127.0.0.1', LINK))
        self.port.listen(50)
        self.calls = self.cuts = 0
        threading.Thread(target=self.take, daemon=True).start()

    def take(self):
        while True:
            threading.Thread(target=self.serve, args=(self.port.accept()[0],), daemon=True).start()

    def serve(self, link):
        self.calls += 1
        fate = chance.choice(['good', 'good', 'good', 'good', 'before', 'behind'])
        self.cuts += fate != 'good'
        try:
            link.settimeout(10)
            with link:
                call = whole_call(link)
                if fate == 'before' or not call:
                    return
                with socket.create_connection(('127.0.0.1', PORT), timeout=10) as office:
                    office.sendall(call)
                    answer = b''
                    while piece := office.recv(1 << 16):
                        answer += piece
                if fate == 'good':
                    link.sendall(answer)
        except OSError:
            pass


def serve():
    return subprocess.Popen(
        [
            'warn_main',
            'office.journal',
            'serve',
            '--port',
            str(PORT),
            '--workers',
            '8',
            '--connections',
            '100000',
        ],
        stdout=subprocess.DEVNULL,
    )


def post():
    return subprocess.Popen(
        [
            sys.executable,
            os.path.join(SAMPLES, 'desk.py'),
            '--at',
            'http://127.0.0.1:%d' % LINK,
            '--state',
            'state',
            '--patience',
            '30',
            'requests',
            'requests',
        ],
        stdout=subprocess.DEVNULL,
    )


def end(program):
    program.kill()
    program.wait()


def main():
    with open(os.path.join(SAMPLES, 'office.toml'), 'rb') as settings:
        subprocess.run(
            ['warn_main', 'office.journal', 'init'],
            stdin=settings,
            check=True,
            stdout=subprocess.DEVNULL,
        )
    lines, drafts, issues = [], 0, 0
    for number in range(LINES):
        if number % 10 == 9:
            issues += 1
            lines.append(
                {
                    'do': 'issue',
                    'hazard': 'FL.W',
                    'zones': ['MDC021'],
                    'begin': 'now',
                    'end': 'ufn',
                    'flood': {
                        'site': 'FDKM2',
                        'severity': '2',
                        'cause': 'ER',
                        'begin': '000000T0000Z',
                        'crest': '000000T0000Z',
                        'end': '000000T0000Z',
                        'status': 'NO',
                    },
                }
            )
        else:
            drafts += 1
            lines.append({'do': 'open', 'category': 'WSW'})
    with open('requests', 'w', encoding='ascii') as file:
        file.writelines(json.dumps(line) + '\n' for line in lines)
    link, kills = Link(), 0
    running = {'office': serve(), 'client': post()}
    try:
        while running['client'].poll() is None:
            time.sleep(chance.uniform(0.1, 0.8))
            if kills < 25 and running['client'].poll() is None:
                end(running['client'])
                kills += 1
                if kills % 6 == 0:
                    end(running['office'])
                    running['office'] = serve()
                running['client'] = post()
        status = running['client'].returncode
        assert status == 0, 'the client ended with %d' % status
    finally:
        end(running['client'])
        end(running['office'])
    with open('requests.replies', encoding='ascii') as file:
        replies = [json.loads(line) for line in file]
    assert len(replies) == LINES and all('ok' in reply for reply in replies), replies
    assert [reply['draft'] for reply in replies if 'draft' in reply] == list(
        range(1, drafts + 1)
    ), 'a draft twice'
    assert [reply['product'] for reply in replies if 'product' in reply] == list(
        range(1, issues + 1)
    ), 'a product twice'
    told = subprocess.run(
        [sys.executable, os.path.join(SAMPLES, 'journal.py'), 'office.journal'],
        check=True,
        capture_output=True,
        text=True,
    ).stdout
    assert 'entries %d,' % LINES in told, told[-300:]
    print(
        '%d requests, each once: %d kills of the client, %d of the office, %d of %d links cut'
        % (LINES, kills, kills // 6, link.cuts, link.calls)
    )


main()
