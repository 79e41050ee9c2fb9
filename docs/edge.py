#!/usr/bin/env python3
"""Writes docs/EDGE.md and docs/edge.svg: how the edge of a map with an odd side is shown, by the Rust's rule and with the edge filled. Every map
in them went through the library, and what it answered is held to the rules' own formulas (docs/maps.py).

  docs/edge.py            writes both
  docs/edge.py --check    says whether both are what the library says; status 1 if they are not

It needs a C compiler (cc) and makes the library first where that is not made (oracle/library.sh).
"""
from drawings import (GREY, INK, box, filtered_of, forward_of, hatch, hexadecimal, ink_on, left_out, lines, path, picture, reverse_of, reversed_of,
                      text)
from maps import COLOURS, FRESH, NAMES, block_at, map_of, mean, off, row_of, ways_of
from through import asked, keep, stop

# Two patterns that are sent in every size of 1x1 to 17x17: which of the five temperatures a pixel has.
PATTERNS = {'bands': lambda r, c: (2 * r + c) // 6 % 5, 'speckle': lambda r, c: (r + 2 * c) % 5}
SIZES = [(width, height) for height in range(1, 18) for width in range(1, 18)]


def patterned(pattern, width, height):
    return [[COLOURS['bcgyr'[pattern(r, c)]] for c in range(width)] for r in range(height)]


MAPS = {'temperature': [map_of('bbbbb bbbbb bbbcc bbccc ccggg cgggy ggyyr gyyrr')], 'warning': [map_of('ssllm ssllm sslmm sllmm mmmmm')],
        **{name: [patterned(pattern, *size) for size in SIZES] for name, pattern in PATTERNS.items()}}


# --- What is told of the maps.

def places(pixels, at_edge):
    """The places of an odd last column and an odd last row, or all others."""
    height, width = len(pixels), len(pixels[0])
    every = [(r, c) for r in range(height) for c in range(width)]
    return [(r, c) for r, c in every if bool(width % 2 and c == width - 1 or height % 2 and r == height - 1) == at_edge]


def offs(way, part, rule, at_edge):
    shown = getattr(getattr(way, rule), part)
    return [off(way.pixels[r][c], shown[r][c]) for r, c in places(way.pixels, at_edge)]


def shown_alike(way):
    """Whether both rules show the same where the page says so: beside the edge, and with both views in odd rows and odd columns of it."""
    def alike(part, among):
        return all(getattr(way.rust, part)[r][c] == getattr(way.filled, part)[r][c] for r, c in among)

    elsewhere = places(way.pixels, False)
    return alike('alone', elsewhere) and alike('both', elsewhere) and alike('both', [place for place in places(way.pixels, True) if left_out(*place)])


KINDS = ('both are multiples of 16', 'both are even, and not both multiples of 16', 'one is odd, or both are')


def kind_of(way):
    sides = len(way.pixels[0]), len(way.pixels)
    return KINDS[0] if not any(side % 16 for side in sides) else KINDS[1] if not any(side % 2 for side in sides) else KINDS[2]


def differing(way):
    """Whether the calls differ: in samples of the picture, in the padding, in the pixels with the main view alone, and with both."""
    height, width = len(way.pixels), len(way.pixels[0])
    within = {r < height and c < width for one, other in zip(way.rust.planes, way.filled.planes)
              for r, row in enumerate(one) for c in range(len(row)) if row[c] != other[r][c]}
    return True in within, False in within, way.rust.alone != way.filled.alone, way.rust.both != way.filled.both


def nearer(ways, part):
    """Of the pixels at the edge: how many are nearer with the edge filled, nearer by the Rust's rule, as near; and how far off they are on average, by
    both."""
    rust, filled = ([number for way in ways for number in offs(way, part, rule, True)] for rule in ('rust', 'filled'))
    pairs = list(zip(rust, filled))
    counts = sum(b < a for a, b in pairs), sum(a < b for a, b in pairs), sum(a == b for a, b in pairs)
    return *(f'{count:,}' for count in counts), mean(rust), mean(filled)


# --- The page.

def column_rows(way):
    """A row for each pixel of the temperature map's last column."""
    rows = []
    for r, sent in enumerate(row[-1] for row in way.pixels):
        rust, filled = way.rust.alone[r][-1], way.filled.alone[r][-1]
        rows.append(row_of(r, f'`{hexadecimal(sent)}`', f'`{hexadecimal(rust)}`', off(sent, rust), f'`{hexadecimal(filled)}`', off(sent, filled)))
        if (filled == reverse_of(*forward_of(*sent))) != (r not in (4, 5)):
            stop('what the page says of rounding in the last column does not hold')
    return rows


def mean_rows(name, edge, way):
    rows = []
    for words, at_edge in ((edge, True), ('the others', False)):
        found = [offs(way, part, rule, at_edge) for part in ('alone', 'both') for rule in ('rust', 'filled')]
        rows.append(row_of(name, words, *(f'{mean(numbers)}, at most {max(numbers)}' for numbers in found)))
    return rows


def both_words(way):
    """Which rule is nearer in the temperature map's last column once both views are there."""
    rust, filled = (offs(way, 'both', rule, True) for rule in ('rust', 'filled'))
    better = [r for r in range(8) if filled[r] < rust[r]]
    green, yellow = (forward_of(*way.pixels[r][4])[1] for r in (4, 5))
    (a, *rust_others), (b, *others) = (block_at(made.planes[1], 4, 4) for made in (way.rust, way.filled))
    undone = reversed_of(b, sum(others))
    if better != [0, 2, 6] or [r for r in range(8) if rust[r] < filled[r]] != [4] or not yellow < green < 128 \
            or filtered_of(a, sum(rust_others)) != a or filtered_of(b, sum(others)) != b:
        stop('what the page says of the last column with both views does not hold')
    return ['In the temperature map\'s last column the filled edge is nearer in rows 0, 2 and 6, and the Rust\'s rule in row 4, where green stands above yellow:',
            f'it is {rust[4]} off, and with the edge filled {filled[4]}. Green\'s U, {green}, lies between yellow\'s {yellow} and the padding\'s 128, so the Rust\'s',
            f'average, {a}, happens to be close to it. The filled one is {b}; undone it would be {undone}, a change of {undone - b}, so the filter keeps it.']


def many_rows(ways):
    found = {(name, part): nearer(ways[name], part) for name in PATTERNS for part in ('alone', 'both')}
    closer = [key for key, row in found.items() if float(row[4]) < float(row[3])]
    if closer != [('bands', 'alone'), ('bands', 'both'), ('speckle', 'alone')]:
        stop('what the page says of many maps does not hold')
    return [row_of(f'{name}, {NAMES[part]}', *row) for (name, part), row in found.items()]


def agreement_rows(ways):
    """A row for each kind of sides: how many maps have them, and in how many of these the calls differ."""
    found = {}
    for way in ways:
        found.setdefault(kind_of(way), []).append(differing(way))
    rows = [[len(found[kind]), *map(sum, zip(*found[kind]))] for kind in KINDS]
    if any(rows[0][1:]) or rows[1][1:] != [0, rows[1][0], 0, 0]:
        stop('what the page says of even sides does not hold')
    return [row_of(kind, *row) for kind, row in zip(KINDS, rows)]


def page(ways):
    temperature, warning, many = ways['temperature'][0], ways['warning'][0], [way for name in PATTERNS for way in ways[name]]
    if not all(shown_alike(way) for way in (temperature, warning, *many)):
        stop('what the page says of pixels that are shown alike does not hold')
    return '\n'.join([
        '# What happens at the edge of a map?',
        '',
        'From RGBA keeps a map in planes whose sides are rounded up to multiples of 16; what is right of its last column and below its last row is padding. The',
        'main view has one sample of U and one of V for each 2x2 block, the average of the four (R42 of [RULES.md](RULES.md)). Where a side of the map is odd, its',
        'last blocks are partly padding. In the Rust original that is the padding of a fresh picture, which has no colour (U and V 128), and the average takes it',
        'in. An update may come with the main view alone (kind 1, luma only), the auxiliary view later or never: until then an odd last column or row has half of',
        'its colour, and the corner of a map with two odd sides a quarter.',
        '',
        '`haythaw_from_rgba` fills the edge before it averages: the last column is copied into the padding right of it, then the last row into the rows below, in all',
        'three planes. So a block at the edge averages colours of the map alone. Pixels that are not in an odd last column or row are shown the same by both rules.',
        'This page and its picture are made from the library by `docs/edge.py`, and the gate holds them to it.',
        '',
        '![Two small maps as they are sent, and as they are shown with the main view alone and with both views, by the Rust\'s rule and with the edge filled](edge.svg)',
        '',
        '## The last column, with the main view alone',
        '',
        'The last column of the temperature map. "Off" is the largest difference of a channel from what was sent.',
        '',
        row_of('row', 'sent', 'the Rust\'s rule', 'off', 'edge filled', 'off'),
        '|---:|---|---|---:|---|---:|',
        *column_rows(temperature),
        '',
        'In rows 4 and 5 green and yellow share a block, and a block has one sample of U and one of V by either rule: that is the main view\'s own limit, at the',
        'edge as elsewhere. In the other rows what remains is the rounding of the conversion there and back.',
        '',
        'How far pixels are off on average:',
        '',
        row_of('map', 'pixels', 'main view alone, the Rust\'s rule', 'main view alone, edge filled', 'both views, the Rust\'s rule', 'both views, edge filled'),
        '|---|---|---|---|---|---|',
        *mean_rows('temperature, 5x8', 'last column', temperature),
        *mean_rows('warning, 5x5', 'last column and last row', warning),
        '',
        '## When the auxiliary view comes too',
        '',
        'Then a block has its other three samples, and the reverse filter (R35) undoes the average at the even-even pixel where that changes the sample by 30 or',
        'more; otherwise the average is kept ([FILTER.md](FILTER.md)). Pixels of an odd row or an odd column come back the same by both rules. At the even-even',
        'pixels of the edge the two may still differ: an average that is kept has grey of the padding in it by the Rust\'s rule, and with the edge filled the colour',
        'of the row below or of the column beside it.',
        '',
        *both_words(temperature),
        '',
        '## Over many maps',
        '',
        f'Two patterns in the five temperature colours, each in all {len(SIZES)} sizes of 1x1 to 17x17: bands, slanted and three rows or six columns wide; and a',
        'speckle, where neighbours always differ. Of the pixels in an odd last column or row, so many are nearer to what was sent:',
        '',
        row_of('', 'edge filled is nearer', 'the Rust\'s rule is nearer', 'as near', 'off on average, the Rust\'s rule', 'off on average, edge filled'),
        '|---|---:|---:|---:|---:|---:|',
        *many_rows(ways),
        '',
        'So the fill helps where neighbours along the edge are alike, as in the bands of a map. Where all neighbours differ it helps less, and with both views not',
        'at all on average.',
        '',
        '## Where both calls agree',
        '',
        f'Of the same {len(many)} maps, in so many the two calls differ:',
        '',
        row_of('sides', 'maps', 'in samples of the picture', 'in the padding', 'in pixels, main view alone', 'in pixels, both views'),
        '|---|---:|---:|---:|---:|---:|',
        *agreement_rows(many),
        '',
        'With multiples of 16 there is no padding, and the calls agree in every byte. With even sides no block of the picture has padding in it: all that is shown',
        'agrees, and the calls differ in the padding alone, which the views carry too.',
        '',
        '## Which call has which rule',
        '',
        row_of('', 'edge filled', 'the Rust\'s rule'),
        '|---|---|---|',
        row_of('C', '`haythaw_from_rgba`', '`haythaw_from_rgba_rust`'),
        row_of('Rust', '`Yuv444Frame::from_rgba_filled`', '`Yuv444Frame::from_rgba`'),
        '',
        'Both take the same parameters. In [bind/rust](../bind/rust/README.md), the drop-in, `from_rgba` keeps the original\'s answers.',
        '',
    ])


# --- The picture: two maps as they are sent and as they are shown, and a block of the edge.

SIDE, LEFT, STEP = 28, 30, 174


def frame(x, y, pixels):
    """Around the last column and, where the height is odd, the last row."""
    high, wide = len(pixels) * SIDE, len(pixels[0]) * SIDE
    if len(pixels) % 2:
        return path(f'M{x + wide - SIDE} {y}h{SIDE}v{high}h{-wide}v{-SIDE}h{wide - SIDE}z', INK, 2.5)
    return box(x + wide - SIDE, y, SIDE, high, 'none', INK, 2.5)


def panel(x, y, words, pixels, shown=None):
    """A map, or what is shown of it; then each pixel at the edge has a number, how far it is off."""
    out = [lines(x, y + 5 - 15 * len(words), words, 12.5, 15)]
    for r, row in enumerate(shown or pixels):
        drawn = [box(x + c * SIDE, y + r * SIDE, SIDE, SIDE, hexadecimal(pixel)) for c, pixel in enumerate(row)]
        if shown:
            drawn += [text(x + (c + 0.5) * SIDE, y + r * SIDE + 18, off(pixels[r][c], row[c]), 11, 'middle', fill=ink_on(row[c]))
                      for i, c in places(pixels, True) if i == r]
        out.append(''.join(drawn))
    return out + [box(x, y, len(pixels[0]) * SIDE, len(pixels) * SIDE, 'none', GREY), frame(x, y, pixels)]


def map_drawn(y, name, edge, way):
    """A map as it is sent and as it is shown, and the same in words."""
    top, low, said = y + 48, y + 65 + len(way.pixels) * SIDE, []
    out = [text(LEFT, y, name, 14, font_weight='bold'), *panel(LEFT, top, ['as it is sent'], way.pixels),
           lines(LEFT, low, [f'{edge}:', 'the other pixels:'], 11.5, 16)]
    out += [text(LEFT - 6, top + r * SIDE + 18, r, 10, 'end', fill='#444444') for r in range(len(way.pixels))]
    for k, (part, rule) in enumerate((part, rule) for part in ('alone', 'both') for rule in ('rust', 'filled')):
        x, heads = LEFT + (k + 1) * STEP, [NAMES[part] + ',', NAMES[rule]]
        found = [f'{mean(numbers)} off, at most {max(numbers)}' for numbers in (offs(way, part, rule, at_edge) for at_edge in (True, False))]
        out += [*panel(x, top, heads, way.pixels, getattr(getattr(way, rule), part)), lines(x, low, found, 11.5, 16)]
        said.append(f'{" ".join(heads)}: {edge} {found[0]}; the other pixels {found[1]}.')
    return out, f'{name}. ' + ' '.join(said)


def block_drawn(x, y, way, rule, r, c):
    """A block of a map's last column: its samples before the average, the average, and what is shown of it; and the same in words."""
    made, wide, high = getattr(way, rule), 66, 42
    out = [text(x, y, NAMES[rule], 13, font_weight='bold'), text(x + wide / 2, y + 20, 'map', 11, 'middle'),
           text(x + wide * 1.5, y + 20, 'padding', 11, 'middle')]
    for i, j in ((i, j) for i in (0, 1) for j in (0, 1)):
        sent = way.pixels[r + i][c]
        u, v = forward_of(*sent)[1:] if i == j == 0 else (plane[r + i][c + j] for plane in made.planes[1:])
        colour, left, top = (239, 239, 239) if (u, v) == FRESH[1:] else sent, x + j * wide, y + 26 + i * high
        out += [box(left, top, wide, high, hexadecimal(colour), INK), *[box(left, top, wide, high, 'url(#padding)')] * j,
                lines(left + wide / 2, top + 18, [f'U {u}', f'V {v}'], 12, 15, anchor='middle', fill=ink_on(colour))]
    u, v = (plane[r][c] for plane in made.planes[1:])
    middle, at, shown = y + 26 + high, x + 2 * wide, hexadecimal(made.alone[r][c])
    out += [path(f'M{at + left} {middle}h34m-7 -5l7 5l-7 5', INK, 1.4) for left in (10, 104)]
    out += [text(at + 54, middle - 26, 'average', 11), lines(at + 54, middle - 4, [f'U {u}', f'V {v}'], 13, 17), text(at + 150, middle - 26, 'shown', 11),
            box(at + 150, middle - high / 2, wide, high, shown, INK), text(at + 150 + wide / 2, middle + 5, shown, 12, 'middle', fill=ink_on(made.alone[r][c]))]
    return out, f'{NAMES[rule]}: average U {u}, V {v}, shown {shown}.'


def drawing(ways):
    temperature, warning = ways['temperature'][0], ways['warning'][0]
    words = ['Framed: the last column, and the last row where the height is odd. The number in a framed pixel says how far it is off from what was sent: the',
             'largest difference of a channel, of 255. Below stands how far the framed and the other pixels are off on average, and at most.']
    why = 'Why: the block in rows 6 and 7 of the temperature map’s last column, with the main view alone'
    drawn = [map_drawn(96, 'A temperature map, 5 x 8', 'last column', temperature),
             map_drawn(436, 'A warning along the edge, 5 x 5', 'last column and row', warning), ([text(LEFT, 694, why, 14, font_weight='bold')], why + '.'),
             block_drawn(LEFT, 722, temperature, 'rust', 6, 4), block_drawn(LEFT + 440, 722, temperature, 'filled', 6, 4)]
    return picture(852, 'The edge of a map whose side is odd', ' '.join([*words, *(said for _, said in drawn)]),
                   ['<defs>' + hatch('padding', '#00000040', 7, 1.2) + '</defs>', lines(12, 50, words, 12, 17), *(piece for out, _ in drawn for piece in out)])


def main():
    checking = asked(__doc__)
    found = ways_of([pixels for maps in MAPS.values() for pixels in maps])
    count, rest = len(found), iter(found)
    ways = {name: [next(rest) for _ in maps] for name, maps in MAPS.items()}
    keep({'EDGE.md': page(ways), 'edge.svg': drawing(ways)}, checking)
    if checking:
        print(f'edge: docs/EDGE.md and docs/edge.svg say of {count} maps what the library answers')


main()
