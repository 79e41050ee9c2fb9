#!/usr/bin/env python3
"""What tests/stored/agree_run.out must be, worked out from demand 3 and the rules alone: how many samples lie inside the rectangles,
widened for chroma, and how many elsewhere; none differs, and no refusal changes a byte. Fails where the stored file says otherwise."""
import os, sys

WHOLE = [0, 0, 65535, 65535]
CASES = [
    ("0x0, whole", 0, 0, WHOLE), ("1x1, whole", 1, 1, WHOLE), ("16x16, whole", 16, 16, WHOLE), ("33x18, whole", 33, 18, WHOLE),
    ("48x16, whole", 48, 16, WHOLE), ("16x16, no rectangle", 16, 16, []), ("16x16, a column", 16, 16, [7, 0, 8, 16]),
    ("17x3, odd edges", 17, 3, [15, 1, 17, 2]), ("33x18, odd edges", 33, 18, [3, 5, 20, 16]),
    ("5x5, empty at an odd edge", 5, 5, [5, 0, 5, 4]), ("5x5, empty at an even edge", 5, 5, [4, 0, 4, 4]),
    ("33x18, reversed and off", 33, 18, [20, 10, 5, 3, 40, 2, 60, 9, 0, 18, 33, 30]),
    ("33x18, several, one twice", 33, 18, [1, 1, 4, 4, 20, 3, 65535, 17, 1, 1, 4, 4, 3, 2, 22, 6]),
]
REFUSED = [("16x16, a list of 5", 7), ("16x16, the second picture short", 1), ("48x48, planes short", 1), ("65521x0, too large", 5)]
TIMES = 6   # two earlier pictures, three runs


def said(luma_in, luma_out, chroma_in, chroma_out):
    return f"luma {luma_in} inside, {luma_out} elsewhere; chroma {chroma_in} inside, {chroma_out} elsewhere; 0 differ"


def counts(width, height, numbers):
    stride, rows = -(-width // 16) * 16, -(-height // 16) * 16
    luma, chroma = set(), set()
    for at in range(0, len(numbers), 4):
        left, top, right, bottom = numbers[at:at + 4]
        right, bottom = min(right, width), min(bottom, height)
        luma |= {(r, c) for r in range(top, bottom) for c in range(left, right)}
        chroma |= {(r, c) for r in range(top - top % 2, bottom + bottom % 2) for c in range(left - left % 2, right + right % 2)}
    inside, widened = len(luma), 2 * len(chroma)
    return [TIMES * n for n in (inside, width * height - inside, widened, 2 * stride * rows - widened)]


lines, total = [], [0, 0, 0, 0]
for name, width, height, numbers in CASES:
    found = counts(width, height, numbers)
    total = [a + b for a, b in zip(total, found)]
    lines.append(f"{name}: {said(*found)}\n")
lines += [f"{name}: refused with {n}, 0 bytes changed\n" for name, n in REFUSED]
lines.append(f"in all: {said(*total)}; 0 bytes changed by refusals\n")

stored = os.path.join(os.path.dirname(os.path.abspath(__file__)), 'stored', 'agree_run.out')
with open(stored) as file:
    if file.read() != ''.join(lines):
        sys.exit('agree_run: tests/stored/agree_run.out is not what demand 3 gives:\n' + ''.join(lines))
print(f'agree_run: the stored {len(lines)} lines are what demand 3 gives')
