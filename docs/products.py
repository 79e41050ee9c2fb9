#!/usr/bin/env python3
"""Writes docs/PRODUCTS.md, the exercise's table, from the four tables in crates/colour/src/products.rt. The numbers are read from the source,
and each is held to its product; the pixels that are worked out beside the table are worked out here, by the rules' own formulas.

  docs/products.py            writes it
  docs/products.py --check    says whether docs/PRODUCTS.md is what the source says; status 1 if it is not
"""
import os
import re
import sys

ROOT = os.path.dirname(os.path.dirname(os.path.abspath(__file__)))
SOURCE = os.path.join(ROOT, 'crates', 'colour', 'src', 'products.rt')
PAGE = os.path.join(ROOT, 'docs', 'PRODUCTS.md')
FACTORS = {'RED_V': 403, 'GREEN_U': -48, 'GREEN_V': -120, 'BLUE_U': 475}


def read_tables():
    """The four tables of the source. The number behind a line is the chroma byte of its first entry."""
    with open(SOURCE, encoding='utf-8') as file:
        text = file.read()
    tables = {}
    for name, body in re.findall(r'^pub const (\w+): \[i32; 256\] = \[\n(.*?)^\];', text, re.M | re.S):
        entries = []
        for line in body.splitlines():
            numbers, _, first = line.partition('//')
            if int(first) != len(entries):
                sys.exit(f'products.py: {name}: a line says {first.strip()} and starts at {len(entries)}')
            entries += [int(number) for number in numbers.replace(',', ' ').split()]
        tables[name] = entries
    if list(tables) != list(FACTORS):
        sys.exit(f'products.py: the source has the tables {", ".join(tables)}')
    for name, entries in tables.items():
        if len(entries) != 256:
            sys.exit(f'products.py: {name} has {len(entries)} entries, and there are 256 chroma bytes')
        for chroma, entry in enumerate(entries):
            product = FACTORS[name] * (chroma - 128)
            if entry != product:
                sys.exit(f'products.py: {name}: at the chroma byte {chroma} stands {entry}, and {FACTORS[name]} x ({chroma} - 128) is {product}')
    return tables


def clamp(number):
    return min(max(number, 0), 255)


def worked(tables, y, u, v):
    """A pixel from the tables, step by step, and held to the formulas."""
    red, green_u, green_v, blue = (tables[name][chroma] for name, chroma in (('RED_V', v), ('GREEN_U', u), ('GREEN_V', v), ('BLUE_U', u)))
    sums = [red, green_u + green_v, blue]
    shares = [total // 256 for total in sums]
    pixel = [clamp(y + share) for share in shares]
    a, b = u - 128, v - 128
    assert pixel == [clamp((256 * y + 403 * b) // 256), clamp((256 * y - 48 * a - 120 * b) // 256), clamp((256 * y + 475 * a) // 256)]
    return (f'| {y}, {u}, {v} | {red} | {green_u} + {green_v} = {sums[1]} | {blue} | {", ".join(map(str, shares))} | '
            f'{", ".join(map(str, pixel))}, 255 |')


def floors(tables, u, v):
    """Why green's sum is divided and not each of its products: where the two differ."""
    a, b = tables['GREEN_U'][u], tables['GREEN_V'][v]
    assert a // 256 + b // 256 != (a + b) // 256
    return (f'In the last line each of green\'s products alone would give another answer: {a} / 256 is {a // 256} and {b} / 256 is {b // 256}, together '
            f'{a // 256 + b // 256}; their sum {a + b} / 256 is {(a + b) // 256}.')


def page(tables):
    rows = [' | '.join([str(chroma), *(str(tables[name][chroma]) for name in FACTORS)]) for chroma in range(256)]
    pixels = [(53, 99, 255), (182, 29, 12), (17, 255, 116), (200, 128, 128), (120, 90, 200), (60, 140, 127)]
    return '\n'.join([
        '# The products of the reverse transform',
        '',
        'With u = U - 128 and v = V - 128 the reverse transform (R32 of [RULES.md](RULES.md)) has four products: 403v, -48u, -120v and 475u. The code takes',
        'them from four tables of 256 numbers, [crates/colour/src/products.rt](../crates/colour/src/products.rt), and from nowhere else; that each entry is its product is proved over',
        'the whole table (`red_v`, `green_u`, `green_v`, `blue_u` of crates/colour). This page is made from that file by `docs/products.py`.',
        '',
        '## A pixel by hand',
        '',
        'Look up V in the first and the third column, U in the second and the fourth. Add the two for green. Divide each by 256, rounded down, also below',
        'zero: this is what the chroma adds to Y, since (256Y + p)/256 is Y + p/256. Clamp to 0..255. For green the sum is divided, and not each of the two.',
        '',
        '| Y, U, V | 403v | -48u - 120v | 475u | each / 256 | red, green, blue, alpha |',
        '|---|---|---|---|---|---|',
        *(worked(tables, *pixel) for pixel in pixels),
        '',
        floors(tables, *pixels[-1][1:]),
        '',
        '## One number changed',
        '',
        'Change any of the 1,024 numbers in the source. The prover refuses the table that it stands in, and all that rests on it; the second command says which',
        'number it is and what it should be, and a table that is right again passes both:',
        '',
        '    cd crates/colour && rt check    # fn colour::red_v: not proved',
        '    docs/products.py --check        # RED_V: at the chroma byte 2 stands -50777, and 403 x (2 - 128) is -50778',
        '',
        '![What each product adds to its channel, over the chroma byte](drawings/products.svg)',
        '',
        '## The table',
        '',
        '| chroma byte | 403v | -48u | -120v | 475u |',
        '|---:|---:|---:|---:|---:|',
        *(f'| {row} |' for row in rows),
        '',
    ])


def main():
    if sys.argv[1:] not in ([], ['--check']):
        sys.exit(__doc__)
    text = page(read_tables())
    if sys.argv[1:]:
        with open(PAGE, encoding='utf-8') as file:
            if file.read() != text:
                sys.exit('products.py: docs/PRODUCTS.md is not what crates/colour/src/products.rt says: run docs/products.py')
        print('products: docs/PRODUCTS.md has the 1,024 numbers of crates/colour/src/products.rt')
        return
    with open(PAGE, 'w', encoding='utf-8') as file:
        file.write(text)


main()
