#!/usr/bin/env python3
"""Writes docs/real_session.png, the picture of docs/REAL_SESSION.md: parts of last pictures of recorded sessions, enlarged: the server's screen, what the
library shows, and what FreeRDP's own client shows. The sessions come first:

  tests/real_session.sh 334x201 && tests/real_session.sh --v1 336x200
  docs/real_session.py
"""
import os
import re
import struct
import sys
import zlib

ROOT = os.path.dirname(os.path.dirname(os.path.abspath(__file__)))
sys.dont_write_bytecode = True
sys.path.insert(0, os.path.join(ROOT, 'tests', 'real_session'))
from session import Session  # noqa: E402

TIMES, GAP, LINE = 4, 12, 26  # each pixel so many times as wide and high; room between two parts, and for a label above them
GROUND, INK = b'\xf4\xf4\xf4', b'\x20\x20\x20'
PART = 84, 66  # width and height of a part, in pixels of the screen
EDGE = 84, 10


def font():
    """The letters of strip/font.h: seven rows each."""
    with open(os.path.join(ROOT, 'strip', 'font.h'), encoding='ascii') as file:
        found = re.findall(r"\{'\\?(.)', \{([0-9, ]+)\}\}", file.read())
    return {letter: [int(row) for row in rows.split(',')] for letter, rows in found}


class Canvas:
    def __init__(self, width, height):
        self.width, self.rows, self.font = width, [bytearray(GROUND * width) for _ in range(height)], font()

    def fill(self, x, y, width, height, colour):
        for row in self.rows[y:y + height]:
            row[3 * x:3 * (x + width)] = colour * width

    def write(self, x, y, text):
        """In letters of 5 x 7 dots, each dot 2 x 2 pixels."""
        for place, letter in enumerate(text.upper()):
            for row, dots in enumerate(self.font[letter] if letter != ' ' else []):
                for column in range(5):
                    if dots >> (4 - column) & 1:
                        self.fill(x + 12 * place + 2 * column, y + 2 * row, 2, 2, INK)

    def paste(self, x, y, rows):
        """Rows of RGB, enlarged."""
        for row, line in enumerate(rows):
            wide = b''.join(line[at:at + 3] * TIMES for at in range(0, len(line), 3))
            for target in self.rows[y + TIMES * row:y + TIMES * (row + 1)]:
                target[3 * x:3 * x + len(wide)] = wide

    def png(self):
        def chunk(kind, data):
            return struct.pack('>I', len(data)) + kind + data + struct.pack('>I', zlib.crc32(kind + data))
        lines = zlib.compress(b''.join(b'\0' + bytes(row) for row in self.rows), 9)
        head = struct.pack('>IIBBBBB', self.width, len(self.rows), 8, 2, 0, 0, 0)
        return b'\x89PNG\r\n\x1a\n' + chunk(b'IHDR', head) + chunk(b'IDAT', lines) + chunk(b'IEND', b'')


def part_of(picture, session, left, top, size):
    starts = (3 * (session.width * row + left) for row in range(top, top + size[1]))
    return [picture[start:start + 3 * size[0]] for start in starts]


def bands():
    """What the picture shows, from top to bottom: a size, and parts of that size with their labels."""
    v2, v1 = Session('v2_334x201'), Session('v1_336x200')
    of_v2 = {"server's screen": v2.recorded('screen'), 'ours, W exact': v2.shown('exact'), 'ours, W to 16': v2.shown('16'),
             "FreeRDP's client": v2.recorded('client')}
    of_v1 = {"server's screen": v1.recorded('screen'), 'ours': v1.shown(), "FreeRDP's client": v1.recorded('client')}
    yield PART, {f'V2 334x201: {label}': part_of(picture, v2, 0, 0, PART) for label, picture in of_v2.items()}
    yield PART, {f'V1 336x200: {label}': part_of(picture, v1, 0, 0, PART) for label, picture in of_v1.items()}
    edge = (v2.width - EDGE[0], v2.height - EDGE[1], EDGE)
    yield EDGE, {f'last rows: {label}': part_of(picture, v2, *edge) for label, picture in of_v2.items()}


def main():
    shown = list(bands())
    width = GAP + max(len(parts) * (TIMES * size[0] + GAP) for size, parts in shown)
    canvas = Canvas(width, GAP + sum(TIMES * size[1] + LINE + GAP for size, _ in shown))
    y = GAP
    for size, parts in shown:
        for place, (label, rows) in enumerate(parts.items()):
            x = GAP + place * (TIMES * size[0] + GAP)
            canvas.write(x, y, label)
            canvas.paste(x, y + LINE, rows)
        y += TIMES * size[1] + LINE + GAP
    with open(os.path.join(ROOT, 'docs', 'real_session.png'), 'wb') as file:
        file.write(canvas.png())
    return 0


if __name__ == '__main__':
    sys.exit(main())
