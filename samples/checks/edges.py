"""What a server does at its edges, over real links: edges.py PORT pieces | WORKERS.

`pieces` asks four times on one link: a call in one piece, two in two pieces, cut in the body and in
the head, and one more. With a number it lets all workers of the server but one wait on silent links,
hears an answer on one more, and then none where a silent link holds the last. A line for what is
wrong, and status 1.
"""
import socket
import sys
import time

IDLE = 4.5
BOARD = b'GET /board HTTP/1.1\r\n\r\n'
ASKED = b'{"desk":"EDGE","seq":1,"do":"open","category":"WSW"}'
POST = b'POST /requests HTTP/1.1\r\nContent-Length: %d\r\n\r\n%s' % (len(ASKED), ASKED)


def dial(port):
    link = socket.create_connection(('127.0.0.1', port), timeout=5)
    link.setsockopt(socket.IPPROTO_TCP, socket.TCP_NODELAY, 1)
    return link


def heard(link):
    """The status of the next answer, read to its end."""
    read = b''
    while b'\r\n\r\n' not in read:
        piece = link.recv(65536)
        if not piece:
            sys.exit('the link was closed')
        read += piece
    head, body = read.split(b'\r\n\r\n', 1)
    length = next(int(line.split(b':')[1]) for line in head.split(b'\r\n') if line.lower().startswith(b'content-length'))
    while len(body) < length:
        body += link.recv(65536)
    if len(body) > length:
        sys.exit('bytes behind the answer: %r' % body[length:])
    return int(head.split()[1])


def ask_in_pieces(port):
    """A call in one piece, two that are cut, and one behind them, all on one link."""
    link = dial(port)
    statuses = []
    for call, cut in ((BOARD, len(BOARD)), (POST, len(POST) - 20), (BOARD, 9), (BOARD, len(BOARD))):
        link.sendall(call[:cut])
        if cut < len(call):
            time.sleep(0.3)
            link.sendall(call[cut:])
        statuses.append(heard(link))
    if statuses != [200, 200, 200, 200]:
        sys.exit('answered with %s' % statuses)


def is_answered(port, seconds):
    """Whether a call on a link of its own is answered in so many seconds."""
    link = dial(port)
    link.settimeout(seconds)
    link.sendall(BOARD)
    try:
        return heard(link) == 200
    except socket.timeout:
        return False


def ask_beside(port, workers):
    """So many workers answer side by side: all but one wait on silent links, and a call is answered."""
    began = time.monotonic()
    silent = [dial(port) for _ in range(workers - 1)]
    time.sleep(0.3)
    if not is_answered(port, 4):
        sys.exit('no answer beside %d silent links' % len(silent))
    silent.append(dial(port))
    time.sleep(0.3)
    # A link that is silent for five seconds is given up, and its worker answers the next one.
    if is_answered(port, 1) and time.monotonic() - began < IDLE:
        sys.exit('an answer beside %d silent links: more workers than were asked for' % len(silent))


def main():
    port, asked = int(sys.argv[1]), sys.argv[2]
    if asked == 'pieces':
        ask_in_pieces(port)
    else:
        ask_beside(port, int(asked))


if __name__ == '__main__':
    main()
