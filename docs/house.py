#!/usr/bin/env python3
"""Draws docs/house.svg, the crates as data flows, from crates.txt: a band for each group of crates.txt (its comment is
the group's name), a column for each step away from the ground, and a line from a crate to each that stands on it, where no other stands between.

  docs/house.py            draws it
  docs/house.py --check    says whether docs/house.svg is what crates.txt says; status 1 if it is not
"""
import os
import re
import sys
from xml.sax.saxutils import escape

ROOT = os.path.dirname(os.path.dirname(os.path.abspath(__file__)))
PICTURE = os.path.join(ROOT, 'docs', 'house.svg')
KIT = {'io', 'libc', 'os', 'bytes', 'check'}  # the kit's own libraries are not part of the house
COLOURS = ['#e8e4f3', '#dcecf7', '#fde8d7', '#e3f1dc', '#f9dfe6', '#fbf3cf', '#d9f0ee', '#ece7dc', '#dddddd', '#e0e6f5']
BOX, HIGH, COLUMN, ROW, TITLE, TOP, LEFT = 146, 28, 186, 38, 22, 0, 12


def read_crates():
    """Each crate's dependencies and group, in the order of crates.txt."""
    needs, group, name = {}, {}, ''
    for line in open(os.path.join(ROOT, 'crates.txt'), encoding='utf-8'):
        if line.startswith('#'):
            name = line[1:].strip().rstrip('.')
        crate = re.match(r'([a-z_0-9]+)(?: staticlib)?:(.*)', line)
        if crate:
            needs[crate[1]] = [d for d in crate[2].split() if d not in KIT]
            group[crate[1]] = name
    return needs, group


def purpose(crate):
    """The first sentence of a crate's own source."""
    for file in ('lib.rt', 'main.rt'):
        path = os.path.join(ROOT, 'crates', crate, 'src', file)
        if os.path.exists(path):
            lines = []
            for line in open(path, encoding='utf-8'):
                if not line.startswith('//') or line.strip() == '//':
                    break
                lines.append(line[2:].strip())
            return re.split(r'(?<=[.:]) ', ' '.join(lines))[0].rstrip(':.')
    return ''


def reaches(needs):
    """What each crate stands on, directly or through others."""
    below = {}

    def find(crate):
        if crate not in below:
            below[crate] = set(needs[crate]).union(*(find(d) for d in needs[crate])) if needs[crate] else set()
        return below[crate]

    for crate in needs:
        find(crate)
    return below


def places(needs, group):
    """Column and row of each crate, and the first row of each group: a column is the longest way from the ground, a group has rows of its own."""
    column = {}

    def depth(crate):
        if crate not in column:
            column[crate] = 1 + max((depth(d) for d in needs[crate]), default=-1)
        return column[crate]

    row, first, next_row = {}, {}, 0
    for name in dict.fromkeys(group.values()):
        first[name], used = next_row, {}
        for crate in (c for c in needs if group[c] == name):
            used[depth(crate)] = used.get(depth(crate), 0) + 1
            row[crate] = next_row + used[column[crate]] - 1
        next_row += max(used.values())
    return column, row, first, next_row


def line(x1, y1, x2, y2, gutter, strip):
    """From one crate to another: down the gutter behind the first and, to a column further off, along the strip above the other's band."""
    way = f'M{x1} {y1:g} H{x1 + gutter:g} '
    way += f'V{y2:g} H{x2}' if x2 - x1 < COLUMN else f'V{strip:g} H{x2 - 10} V{y2:g} H{x2}'
    return f'<path d="{way}" fill="none" stroke="#7a7a7a" stroke-width="0.9" stroke-linejoin="round"/>'


def draw():
    needs, group = read_crates()
    below = reaches(needs)
    edges = [(d, c) for c in needs for d in needs[c] if not any(d in below[e] for e in needs[c] if e != d)]
    column, row, first, rows = places(needs, group)
    names = list(first)
    wide = LEFT + (max(column.values()) + 1) * COLUMN - (COLUMN - BOX) + LEFT
    lane = lambda name: TOP + first[name] * ROW + names.index(name) * TITLE
    x, y = (lambda c: LEFT + column[c] * COLUMN), (lambda c: lane(group[c]) + TITLE + (row[c] - first[group[c]]) * ROW)
    high = TOP + rows * ROW + len(names) * TITLE
    beside = lambda c: sorted((d for d in needs if column[d] == column[c]), key=lambda d: row[d]).index(c)
    out = [f'<svg xmlns="http://www.w3.org/2000/svg" viewBox="0 0 {wide} {high}" font-family="sans-serif" font-size="13">',
           '<rect width="100%" height="100%" fill="white"/>']
    for i, name in enumerate(names):
        end = lane(names[i + 1]) if i + 1 < len(names) else high
        out.append(f'<rect y="{lane(name)}" width="{wide}" height="{end - lane(name)}" fill="{COLOURS[i % len(COLOURS)]}" opacity="0.45"/>'
                   f'<text x="{LEFT}" y="{lane(name) + 14}" fill="#333" font-size="12" stroke="white" stroke-width="3" paint-order="stroke">{escape(name)}</text>')
    out += [line(x(a) + BOX, y(a) + HIGH / 2, x(b), y(b) + HIGH / 2, 8 + 3 * beside(a), lane(group[b]) + TITLE - 4 - 2 * beside(a)) for a, b in edges]
    for c in needs:
        colour = COLOURS[names.index(group[c]) % len(COLOURS)]
        out.append(f'<g><title>{escape(purpose(c))}</title><rect x="{x(c)}" y="{y(c):g}" width="{BOX}" height="{HIGH}" rx="5" fill="{colour}" '
                   f'stroke="#555"/><text x="{x(c) + BOX / 2:g}" y="{y(c) + 19:g}" text-anchor="middle">{c}</text></g>')
    return '\n'.join(out + ['</svg>']) + '\n'


def main():
    picture = draw()
    if sys.argv[1:] == ['--check']:
        same = os.path.exists(PICTURE) and open(PICTURE, encoding='utf-8').read() == picture
        print('house: docs/house.svg is ' + ('what crates.txt says' if same else 'not what crates.txt says: run docs/house.py'))
        return not same
    if sys.argv[1:]:
        print(__doc__)
        return 2
    open(PICTURE, 'w', encoding='utf-8').write(picture)
    return 0


if __name__ == '__main__':
    sys.exit(main())
