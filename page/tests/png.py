"""Makes a screenshot small: a PNG of few colours, by the standard library alone."""
import collections
import struct
import zlib


def read(data):
    """Width, height and rows of a PNG of 8 bits a channel, as pixels of 3 bytes."""
    at, body, head = 8, b"", None
    while at < len(data):
        length, kind = struct.unpack(">I4s", data[at:at + 8])
        content = data[at + 8:at + 8 + length]
        head = struct.unpack(">IIBBBBB", content) if kind == b"IHDR" else head
        body += content if kind == b"IDAT" else b""
        at += 12 + length
    width, height, depth, colours = head[:4]
    assert depth == 8 and colours in (2, 6)
    return width, height, unfiltered(zlib.decompress(body), width, height, 4 if colours == 6 else 3)


def unfiltered(raw, width, height, step):
    """The rows of pixels, by the five filters of PNG."""
    rows, size, before = [], width * step, bytearray(width * step)
    for y in range(height):
        kind, row = raw[y * (size + 1)], bytearray(raw[y * (size + 1) + 1:(y + 1) * (size + 1)])
        for i in range(size if kind else 0):
            left, up, corner = row[i - step] if i >= step else 0, before[i], before[i - step] if i >= step else 0
            row[i] = row[i] + (0, left, up, (left + up) // 2, paeth(left, up, corner))[kind] & 255
        rows.append([bytes(row[i:i + 3]) for i in range(0, size, step)])
        before = row
    return rows


def paeth(left, up, corner):
    guess = left + up - corner
    return min((abs(guess - left), 0, left), (abs(guess - up), 1, up), (abs(guess - corner), 2, corner))[2]


def small(data, most=64):
    """The same picture in colours that stand often and apart, each other one as the nearest of these."""
    width, height, rows = read(data)
    counted = collections.Counter(pixel for row in rows for pixel in row)

    def apart(one, other):
        return sum((a - b) ** 2 for a, b in zip(one, other))
    palette = []
    for colour, _ in counted.most_common():
        if len(palette) < most and all(apart(colour, it) > 150 for it in palette):
            palette.append(colour)

    def nearest(colour):
        return min(range(len(palette)), key=lambda k: apart(colour, palette[k]))
    number = {colour: nearest(colour) for colour in counted}
    packed = zlib.compress(b"".join(b"\0" + bytes(number[pixel] for pixel in row) for row in rows), 9)
    head = struct.pack(">IIBBBBB", width, height, 8, 3, 0, 0, 0)
    chunks = [b"IHDR" + head, b"PLTE" + b"".join(palette), b"IDAT" + packed, b"IEND"]
    framed = (struct.pack(">I", len(it) - 4) + it + struct.pack(">I", zlib.crc32(it)) for it in chunks)
    return b"\x89PNG\r\n\x1a\n" + b"".join(framed)
