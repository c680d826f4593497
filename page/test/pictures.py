"""Screenshots with few colours, for the docs: PNG in, PNG with a palette out (by the PNG standard alone)."""
import struct
import zlib
from collections import Counter


def pixels_of(data):
    """Width, and the rows of a PNG of 8-bit RGB or RGBA, each as a list of (r, g, b)."""
    at, packed = 8, b""
    while at < len(data):
        size, kind = struct.unpack(">I4s", data[at : at + 8])
        body = data[at + 8 : at + 8 + size]
        if kind == b"IHDR":
            width, height, depth, colours = struct.unpack(">IIBB", body[:10])
            assert depth == 8 and colours in (2, 6)
        elif kind == b"IDAT":
            packed += body
        at += size + 12
    step = 3 if colours == 2 else 4
    raw, before, rows = zlib.decompress(packed), bytearray(width * step), []
    for y in range(height):
        start = y * (width * step + 1)
        line = unfiltered(raw[start], bytearray(raw[start + 1 : start + 1 + width * step]), before, step)
        rows.append([tuple(line[i : i + 3]) for i in range(0, len(line), step)])
        before = line
    return width, rows


def unfiltered(kind, line, above, step):
    for i in range(len(line)) if kind else ():
        left = line[i - step] if i >= step else 0
        up, corner = above[i], above[i - step] if i >= step else 0
        if kind == 1:
            add = left
        elif kind == 2:
            add = up
        elif kind == 3:
            add = (left + up) // 2
        else:
            guess = left + up - corner
            add = min((left, up, corner), key=lambda value: abs(guess - value))
        line[i] = (line[i] + add) & 255
    return line


def with_few_colours(data):
    width, rows = pixels_of(data)
    counted = Counter(c for row in rows for c in row)
    colours = [c for c, _ in counted.most_common(256)]
    near = {
        c: min(colours, key=lambda one: sum((a - b) ** 2 for a, b in zip(one, c))) for c in counted if c not in colours
    }
    number = {c: i for i, c in enumerate(colours)}
    place = {c: number[c if c in number else near[c]] for c in counted}
    raw = b"".join(b"\0" + bytes(place[c] for c in row) for row in rows)

    def chunk(kind, body):
        return struct.pack(">I", len(body)) + kind + body + struct.pack(">I", zlib.crc32(kind + body))

    return (
        b"\x89PNG\r\n\x1a\n"
        + chunk(b"IHDR", struct.pack(">IIBBBBB", width, len(rows), 8, 3, 0, 0, 0))
        + chunk(b"PLTE", b"".join(map(bytes, colours)))
        + chunk(b"IDAT", zlib.compress(raw, 9))
        + chunk(b"IEND", b"")
    )
