#!/usr/bin/env python3
"""Draws the pictures of docs/drawings/ that docs/RULES.md shows. Where a sample comes from, which samples a rectangle takes, what bytes a
payload has and what the filter answers is worked out here by the rules' own formulas, under the names of the proved definitions
(crates/*/specs); nothing of it is placed by hand.

  docs/drawings.py            draws them
  docs/drawings.py --check    says whether docs/drawings/ has what would be drawn; status 1 if it has not
"""
import os
import sys
from collections import namedtuple
from xml.sax.saxutils import escape

ROOT = os.path.dirname(os.path.dirname(os.path.abspath(__file__)))
FOLDER = os.path.join(ROOT, 'docs', 'drawings')
WIDE = 912

# Colours that are told apart with any colour vision (Okabe and Ito); letters and hatches say the same again.
YELLOW, SKY, ORANGE, PURPLE, GREEN, RED = '#f3e96b', '#7cc4ee', '#eeb43f', '#d795bb', '#5fc0a3', '#d55e00'
BLUE, PALE, GREY, INK = '#0072b2', '#efefef', '#8a8a8a', '#111111'


# --- The rules: layout/specs/Maps.antt, Exists.antt. A place (k, r, c) is a chroma sample of the picture, k is U or V; a spot (part, r, c)
# is a sample of a view's plane Y, U or V.

def shift(k, n):
    """U and V share something in two halves of n: where k's half starts."""
    return 0 if k == 'U' else n


def half_of(n, j):
    return 'U' if j < n else 'V'


def into(n, j):
    return j - shift(half_of(n, j), n)


def upper_of(r):
    return r - r % 16 + r % 16 // 2


def to_v1(k, r, c):
    return ('Y', upper_of(r) + shift(k, 8), c) if r % 2 == 1 else (k, r // 2, c // 2)


def from_v1(part, r, c):
    if part == 'Y':
        return half_of(8, r % 16), r - r % 16 + (2 * into(8, r % 16) + 1), c
    return part, 2 * r, 2 * c + 1


def to_v2(k, r, c, w=16):
    if c % 2 == 1:
        return 'Y', r, shift(k, w // 2) + c // 2
    return 'U' if c % 4 == 0 else 'V', r // 2, shift(k, w // 4) + c // 4


def from_v2(part, r, c, w=16):
    if part == 'Y':
        return half_of(w // 2, c), r, 2 * into(w // 2, c) + 1
    return half_of(w // 4, c), 2 * r + 1, 4 * into(w // 4, c) + (0 if part == 'U' else 2)


def left_out(r, c):
    """The main view, which has the even rows' even columns, leaves this sample to the auxiliary view."""
    return r % 2 == 1 or c % 2 == 1


def to_main(k, r, c):
    return k, r // 2, c // 2


def from_main(part, r, c):
    return part, 2 * r, 2 * c


def each_fed_once(to, back):
    """Every chroma place of a 16 x 16 picture lives at one spot, and every spot of the views' planes but the main Y holds one place."""
    homes = {}
    for k, r, c in ((k, r, c) for k in 'UV' for r in range(16) for c in range(16)):
        view, spot, place = ('auxiliary', to(k, r, c), back) if left_out(r, c) else ('main', to_main(k, r, c), from_main)
        assert place(*spot) == (k, r, c) and (view, spot) not in homes
        homes[view, spot] = (k, r, c)
    assert len(homes) == 16 * 16 + 4 * 8 * 8


# --- The rules: rects/specs/Rects.antt, apply_main/specs/Main.antt. A rectangle is left, top, right, bottom; right and bottom are exclusive.

Rect = namedtuple('Rect', 'left top right bottom')
Size = namedtuple('Size', 'width height')


def round_up(n, m):
    return (m + n - 1) // n * n


def chroma_block_area_of(size, rect):
    return Rect(rect.left // 2 * 2, rect.top // 2 * 2, round_up(2, min(rect.right, size.width)), round_up(2, min(rect.bottom, size.height)))


def wrong_area_of(size, rect):
    """The error that tempts: an odd left edge is rounded up."""
    return chroma_block_area_of(size, rect)._replace(left=round_up(2, rect.left))


def main_luma(size, view, rect, area):
    """The rows and columns of luma that a rectangle takes from a main view."""
    bottom, right = min(rect.bottom, size.height, view.height), min(rect.right, area.right, view.width)
    return {(r, c) for r in range(rect.top, bottom) for c in range(rect.left, right)}


def main_chroma(view, area):
    return {(r, c) for r in range(area.top, min(area.bottom, view.height)) for c in range(area.left, min(area.right, view.width))}


# --- The rules: layout/specs/Exists.antt, map_apply/specs/Blocks.antt, place by place.

def present(view, spot):
    """Whether the view has this sample."""
    part, r, c = spot
    return (r < view.height and c < view.width) if part == 'Y' else (r < (view.height + 1) // 2 and c < (view.width + 1) // 2)


def fed(to, view, r, c):
    """Whether the auxiliary view gives both U and V at this row and column."""
    return left_out(r, c) and present(view, to('U', r, c)) and present(view, to('V', r, c))


def main_marks(view, i, j):
    """Whether a main view takes any chroma of the block, where a rectangle has all of it."""
    return any(r < view.height and c < view.width for r in (2 * i, 2 * i + 1) for c in (2 * j, 2 * j + 1))


def auxiliary_completes(to, view, i, j):
    """Whether an auxiliary view takes all three of the block's other samples."""
    return all(fed(to, view, r, c) for r, c in ((2 * i, 2 * j + 1), (2 * i + 1, 2 * j), (2 * i + 1, 2 * j + 1)))


# --- The rules: wire_fields/specs/Fields.antt, wire_read/specs/Format.antt, wire_write/specs/Writing.antt.

Parts = namedtuple('Parts', 'count rects pairs h264')


def u16_bytes(n):
    return [n % 256, n // 256 % 256]


def u32_bytes(n):
    return u16_bytes(n) + u16_bytes(n // 65536)


def u16_at(s, at):
    return s[at] + s[at + 1] * 256


def u32_at(s, at):
    return u16_at(s, at) + u16_at(s, at + 2) * 65536


def info_of(kind, size):
    return kind % 4 * 2 ** 30 + size % 2 ** 30


def parts_from(rects, pairs, h264):
    return Parts(u32_bytes(len(rects) // 4), [byte for n in rects for byte in u16_bytes(n)], pairs, h264)


def places_at(start, parts):
    """Where the parts of a stream stand that starts here, and where it ends."""
    places = [start]
    for part in parts:
        places.append(places[-1] + len(part))
    return places


# --- The rules: colour/specs/Colour.antt, with a the even-even sample of a 2x2 block and s the sum of the other three.

def clamp(n):
    return max(0, min(255, n))


def forward_of(r, g, b):
    """Y, U and V; the clamp never acts."""
    return (54 * r + 183 * g + 18 * b) // 256, (-29 * r - 99 * g + 128 * b) // 256 + 128, (128 * r - 116 * g - 12 * b) // 256 + 128


def average_of(samples):
    return (sum(samples) + 2) // 4


def reversed_of(a, s):
    return clamp(4 * a - s)


def applied_of(a, s):
    return abs(reversed_of(a, s) - a) >= 30


def filtered_of(a, s):
    return reversed_of(a, s) if applied_of(a, s) else a


# --- The rules: colour/specs/Products.antt.

def red_product(v):
    return 403 * (v - 128)


def green_u_product(u):
    return -48 * (u - 128)


def green_v_product(v):
    return -120 * (v - 128)


def blue_product(u):
    return 475 * (u - 128)


def reverse_of(y, u, v):
    """Red, green and blue."""
    return tuple(clamp((256 * y + product) // 256) for product in (red_product(v), green_u_product(u) + green_v_product(v), blue_product(u)))


# --- The rules: colour/specs/Limited.antt.

def limited_forward_of(r, g, b):
    """Y, U and V of limited range; nothing is clamped."""
    return ((66 * r + 129 * g + 25 * b + 128) // 256 + 16, (-38 * r - 74 * g + 112 * b + 128) // 256 + 128,
            (112 * r - 94 * g - 18 * b + 128) // 256 + 128)


def limited_reverse_of(y, u, v):
    """Red, green and blue of limited range."""
    c, u, v = 298 * (y - 16), u - 128, v - 128
    return tuple(clamp((c + product + 128) // 256) for product in (409 * v, -100 * u - 208 * v, 516 * u))


# --- The pen: a colour as SVG writes it; and each further call answers a piece of SVG.

def hexadecimal(colour):
    return '#' + ''.join(f'{byte:02x}' for byte in colour)


def ink_on(colour):
    """Which of black and white can be read on it."""
    return 'black' if 54 * colour[0] + 183 * colour[1] + 18 * colour[2] > 100 * 256 else 'white'


def said_of(more):
    """Further attributes, as SVG writes them."""
    return ''.join(f' {name.replace("_", "-")}="{value}"' for name, value in more.items())


def text(x, y, words, size=13, anchor='start', **more):
    anchored = '' if anchor == 'start' else f' text-anchor="{anchor}"'
    return f'<text x="{x:g}" y="{y:g}" font-size="{size:g}"{anchored}{said_of(more)}>{escape(str(words))}</text>'


def lines(x, y, all_words, size=13, step=18, **more):
    return ''.join(text(x, y + step * i, words, size, **more) for i, words in enumerate(all_words))


def box(x, y, wide, high, fill='none', stroke='none', thick=1, **more):
    return (f'<rect x="{x:g}" y="{y:g}" width="{wide:g}" height="{high:g}" fill="{fill}"'
            + (f' stroke="{stroke}" stroke-width="{thick:g}"' if stroke != 'none' else '') + said_of(more) + '/>')


def path(way, stroke=INK, thick=1, fill='none', **more):
    return f'<path d="{way}" fill="{fill}" stroke="{stroke}" stroke-width="{thick:g}"{said_of(more)}/>'


def hatch(name, colour, gap=6, thick=1.2, turned=45):
    return (f'<pattern id="{name}" width="{gap}" height="{gap}" patternUnits="userSpaceOnUse" patternTransform="rotate({turned})">'
            f'<line x1="0" y1="0" x2="0" y2="{gap}" stroke="{colour}" stroke-width="{thick:g}"/></pattern>')


def used(name, x, y):
    return f'<use href="#{name}" x="{x:g}" y="{y:g}"/>'


def picture(high, title, description, pieces):
    head = [f'<svg xmlns="http://www.w3.org/2000/svg" viewBox="0 0 {WIDE} {high}" role="img" font-family="sans-serif" fill="{INK}">',
            f'<title>{escape(title)}</title>', f'<desc>{escape(description)}</desc>',
            '<rect width="100%" height="100%" fill="white"/>', text(12, 28, title, 19, font_weight='bold')]
    return '\n'.join(head + pieces + ['</svg>']) + '\n'


# --- v1.svg, v2.svg: where a layout keeps each chroma sample of a macroblock.

CELL, LEFT, RIGHT, HALF = 26, 28, 482, 8 * 26 + 8        # a cell, the left edges of the two halves, from a U plane to its V plane
FOLLOWED = [(1, 0), (3, 5), (5, 6), (15, 15), (0, 1), (14, 15), (6, 8)]

# back: whose sample a spot holds; ways: of each way that a sample takes, its mark in the picture's grid, its colour, its words
Layout = namedtuple('Layout', 'name to back ways rule')
MAIN_WAY = ('m', YELLOW, 'main view, planes U and V: the block’s average')
V1 = Layout('V1', to_v1, from_v1, [
    MAIN_WAY, ('aY', SKY, 'auxiliary view, plane Y: odd rows, U above, V below'),
    ('aUV', ORANGE, 'auxiliary view, planes U and V: odd columns of even rows')], [
    'Odd row r: n = r − r%16 + (r%16)/2; U is in row n of the auxiliary',
    'Y, V in row n + 8, at the same column. Even row r, odd column c:',
    'in the auxiliary U and V, at r/2, c/2. Halves are floor.'])
V2 = Layout('V2', to_v2, from_v2, [
    MAIN_WAY, ('aY', SKY, 'auxiliary view, plane Y: odd columns, U left, V right'),
    ('aU', ORANGE, 'auxiliary view, plane U: odd rows, column%4 = 0'), ('aV', PURPLE, 'auxiliary view, plane V: odd rows, column%4 = 2')], [
    'W = 16. Odd column c: U is in the auxiliary Y at column c/2, V at',
    'W/2 + c/2, same row. Odd row r, even c: in the auxiliary U (c%4 = 0)',
    'or V (else), row r/2: U at c/4, V at W/4 + c/4. All floor.'])


def way_of(layout, r, c):
    """The mark of the way that U and V of this place take."""
    if not left_out(r, c):
        return 'm'
    return 'a' + ''.join(sorted({layout.to(k, r, c)[0] for k in 'UV'}))


def cell_forms(layout):
    """A form for each cell of the picture's grid, named by its way, and for each cell of a plane, with U or V behind it; V is hatched."""
    def form(name, colour, mark, over=''):
        return (f'<g id="{name}">' + box(0, 0, CELL, CELL, colour, '#ffffff') + over
                + text(CELL / 2, 17, mark, 10, 'middle', fill='#444444') + '</g>')

    out = [hatch('lined', '#00000055')]
    for mark, colour, _ in layout.ways:
        out += [form(mark, colour, mark), form(mark + '-U', colour, 'U'),
                form(mark + '-V', colour, 'V', box(0, 0, CELL, CELL, 'url(#lined)'))]
    return '<defs>' + '\n'.join(out) + '</defs>'


def followed_cell(x, y, r, c):
    words = [f'{r},{c}'] if r < 10 and c < 10 else [f'{r},', f'{c}']
    return (box(x + 1, y + 1, CELL - 2, CELL - 2, '#ffffff', INK, 2, rx=3)
            + lines(x + CELL / 2, y + 22 - 5.5 * len(words), words, 10.5, 10.5, anchor='middle', font_weight='bold'))


def grid(x, y, count, cell_at, row_heads, column_heads):
    """A square grid: `cell_at` answers the form and the picture's place of a cell; the heads are numbers of the picture."""
    out = []
    for i, j in ((i, j) for i in range(count) for j in range(count)):
        form, place = cell_at(i, j)
        out.append(used(form, x + j * CELL, y + i * CELL))
        if place in FOLLOWED:
            out.append(followed_cell(x + j * CELL, y + i * CELL, *place))
    out.append(box(x, y, count * CELL, count * CELL, 'none', INK, 1.2))
    out += [text(x - 5, y + i * CELL + 17, head, 10, 'end', fill='#444444') for i, head in enumerate(row_heads)]
    out += [text(x + j * CELL + CELL / 2, y - 4, head, 10, 'middle', fill='#444444') for j, head in enumerate(column_heads)]
    return '\n'.join(out)


def plane(x, y, count, layout, part, back, rows=True):
    """A plane of a view; beside it the picture's rows, above it the picture's columns that its samples have."""
    def cell_at(i, j):
        k, r, c = back(part, i, j)
        return f'{way_of(layout, r, c)}-{k}', (r, c)

    def only(numbers):
        assert len(set(numbers)) == 1
        return numbers[0]

    places = [[back(part, i, j)[1:] for j in range(count)] for i in range(count)]
    row_heads = [only([r for r, _ in row]) for row in places]
    column_heads = [only([places[i][j][1] for i in range(count)]) for j in range(count)]
    return grid(x, y, count, cell_at, row_heads if rows else [], column_heads)


def way_words(layout, r, c):
    """Where U and V of a place are, in words."""
    if not left_out(r, c):
        _, i, j = to_main('U', r, c)
        return f'({r},{c}): U and V in the main U and V, at ({i},{j})'
    (p, i, j), (q, m, n) = layout.to('U', r, c), layout.to('V', r, c)
    return f'({r},{c}): U in auxiliary {p} at ({i},{j}), V in auxiliary {q} at ({m},{n})'


def layout_legend(y, layout):
    out = []
    for i, (mark, _, words) in enumerate(layout.ways):
        out += [used(mark, LEFT, y + 30 * i), text(LEFT + 36, y + 30 * i + 18, words)]
    row = y + 30 * len(layout.ways)
    out += [box(LEFT, row, CELL, CELL, 'none', GREY), box(LEFT, row, CELL, CELL, 'url(#lined)'), text(LEFT + 36, row + 18, 'hatched: a sample of V'),
            text(LEFT + 250, row + 18, 'framed: followed at the right')]
    out.append(text(RIGHT, y + 12, 'Single samples, (row, column):', font_weight='bold'))
    out += [text(RIGHT, y + 33 + 18 * i, way_words(layout, r, c), 12) for i, (r, c) in enumerate(FOLLOWED)]
    return out


def draw_layout(layout):
    each_fed_once(layout.to, layout.back)
    top, middle = 84, 84 + 16 * CELL + 24
    low = middle + 102
    small = [box(LEFT + 60 * (n % 16) / 16, middle + 60 * (n // 16) / 16, 60 / 16, 60 / 16, PALE, GREY, 0.4) for n in range(256)]
    out = [cell_forms(layout), text(LEFT, 60, 'The picture’s chroma: where U and V of each place go', 14, font_weight='bold'),
           text(RIGHT, 60, 'Auxiliary view: Y, 16 x 16', 14, font_weight='bold'),
           grid(LEFT, top, 16, lambda r, c: (way_of(layout, r, c), (r, c)), range(16), range(16)),
           plane(RIGHT, top, 16, layout, 'Y', layout.back), ''.join(small),
           lines(LEFT + 72, middle + 14, ['Main view: Y, 16 x 16 (drawn small): the luma, as it is.',
                                          'Beside and above a plane of a view stand the rows and',
                                          'columns that its samples have in the picture.'], 12),
           lines(RIGHT, middle + 14, layout.rule, 12)]
    for view, x, back in (('Main', LEFT, from_main), ('Auxiliary', RIGHT, layout.back)):
        for part, at in (('U', x), ('V', x + HALF)):
            out += [text(at, low - 18, f'{view} view: {part}, 8 x 8', 14, font_weight='bold'), plane(at, low, 8, layout, part, back, part == 'U')]
    out += layout_legend(low + 8 * CELL + 18, layout)
    description = (f'At the left the 16 x 16 chroma places of a macroblock, marked by the plane that carries their U and V in layout {layout.name}; '
                   'at the right and below the planes of the two views. ' + '; '.join(way_words(layout, r, c) for r, c in FOLLOWED) + '.')
    return picture(low + 8 * CELL + 190, f'Layout {layout.name}: where a macroblock’s chroma travels', description, out)


# --- v2_width.svg: a row of V2's auxiliary view by both width rules, for a surface that they differ for.

SURFACE = 48                                                      # a surface's width, which is its stride
NARROW, WIDER = round_up(16, SURFACE), round_up(32, SURFACE)      # W by the 16 rule and by the 32 rule
ROW_LEFT, ROW_CELL = 40, 13                                       # a cell of luma; one of chroma is twice as wide


def pieces_of(part, wide):
    """The pieces of a row of a plane: U, V or what stands past the stride, where it starts, and the picture's columns that its samples have."""
    out = []
    for j in range(wide if part == 'Y' else wide // 2):
        k, r, c = from_v2(part, 0, j, wide)
        assert to_v2(k, r, c, wide) == (part, 0, j)
        name = k if c < SURFACE else '128'
        if not out or out[-1][0] != name:
            out.append((name, j, []))
        out[-1][2].append(c)
    return out


def start_of_v(part, wide):
    return next(start for name, start, _ in pieces_of(part, wide) if name == 'V')


def piece_words(name, columns):
    return f'{len(columns)} x 128' if name == '128' else f'{len(columns)} of {name}: columns {columns[0]}, {columns[1]} .. {columns[-1]}'


def row_words(part, wide):
    return ', then '.join(piece_words(name, columns) for name, _, columns in pieces_of(part, wide))


def row_drawn(y, part, wide, colour, heads):
    """A row of a plane, its columns above it where a piece starts, and what its pieces are below it."""
    side, out = ROW_CELL if part == 'Y' else 2 * ROW_CELL, [text(ROW_LEFT, y - 20, heads, 13, font_weight='bold')]
    for name, start, columns in pieces_of(part, wide):
        x, long = ROW_LEFT + start * side, len(columns) * side
        out += [box(x + i * side, y, side, 26, PALE if name == '128' else colour, '#ffffff') for i in range(len(columns))]
        out += [box(x, y, long, 26, 'url(#lined)')] * (name == 'V') + [box(x, y, long, 26, 'none', INK, 1.2), text(x, y - 4, start, 10, 'middle', fill='#444444'),
                                                                      brace(x, y + 29, long, piece_words(name, columns), 11.5)]
    end = ROW_LEFT + side * (wide if part == 'Y' else wide // 2)
    return out + [text(end, y - 4, (end - ROW_LEFT) // side, 10, 'middle', fill='#444444')]


def v_moved(y, part, low):
    """From where V starts by the one rule to where it starts by the other."""
    side, (first, second) = ROW_CELL if part == 'Y' else 2 * ROW_CELL, [start_of_v(part, wide) for wide in (NARROW, WIDER)]
    x, to = ROW_LEFT + first * side, ROW_LEFT + second * side
    return [path(f'M{x} {y}V{low}M{to} {low - 10}V{low + 12}', RED, 1.6, stroke_dasharray='4 3'), path(f'M{x} {low}h{to - x}m-6 -4l6 4l-6 4', RED, 1.8),
            text(to + 8, low + 4, f'V: {second - first} columns further', 12, fill=RED, font_weight='bold')]


def draw_v2_width():
    words = 'Below each piece: how many samples it has, and which columns of the picture they are. Hatched: V. Past the stride U and V are 128.'
    out, said, y = ['<defs>' + hatch('lined', '#00000055') + '</defs>', text(12, 50, words, 12)], [words], 104
    for part, colour, name in (('Y', SKY, 'Y plane'), ('U', ORANGE, 'U plane, odd rows of the picture (V plane: columns 2, 6 .. 46)')):
        low = y + 118
        out += [*row_drawn(y, part, NARROW, colour, f'{name}, the 16 rule: W = {NARROW}'), *row_drawn(low, part, WIDER, colour, f'the 32 rule: W = {WIDER}'),
                *v_moved(y + 26, part, low - 32)]
        crop = ROW_LEFT + SURFACE * ROW_CELL
        out += [path(f'M{crop} {low - 24}v54', INK, 2, stroke_dasharray='6 3'), text(crop + 6, low - 18, f'a view that is cropped to {SURFACE} ends here', 11)]
        said += [f'{name}: by the 16 rule, W = {NARROW}, {row_words(part, NARROW)}; by the 32 rule, W = {WIDER}, {row_words(part, WIDER)}.']
        y = low + 118
    return picture(y - 54, f'V2’s auxiliary view of a surface {SURFACE} wide: a row by both width rules', ' '.join(said), out)


# --- widening.svg: which samples a rectangle takes.

PADDED = Size(16, 16)


def span(numbers):
    """The numbers of a set without gaps, in words."""
    first, last = min(numbers), max(numbers)
    assert sorted(numbers) == list(range(first, last + 1))
    return f'{first}' if first == last else f'{first} and {last}' if last == first + 1 else f'{first} to {last}'


def taken_words(name, taken):
    if not taken:
        return f'{name}: none.'
    return f'{name}: columns {span({c for _, c in taken})}, rows {span({r for r, _ in taken})}.'


def widening_forms():
    def form(name, *pieces):
        return f'<g id="{name}">' + ''.join(pieces) + '</g>'

    def mark(x, y, word, **more):
        return text(x, y, word, 10, 'middle', **more)

    return '<defs>' + '\n'.join([
        hatch('padding', '#bbbbbb', 5, 1), hatch('stale', RED, 5, 2, -45),
        form('pixel', box(0, 0, CELL, CELL, '#ffffff', '#cccccc', 0.7)),
        form('outside', box(0, 0, CELL, CELL, 'url(#padding)', '#cccccc', 0.7)),
        form('chroma', box(0, 0, CELL, CELL, ORANGE, '#ffffff', 0.7), mark(7, 12, 'c')),
        form('old', box(0, 0, CELL, CELL, '#ffffff', '#cccccc', 0.7), box(0, 0, CELL, CELL, 'url(#stale)')),
        form('luma', f'<circle cx="16" cy="16" r="6.8" fill="{SKY}" stroke="{INK}" stroke-width="0.8"/>', mark(16, 19.6, 'Y'))]) + '</defs>'


def blocks(x, y, columns, rows):
    """The edges of the 2x2 blocks."""
    way = ''.join(f'M{x + j * CELL} {y}v{rows * CELL}' for j in range(0, columns + 1, 2))
    return path(way + ''.join(f'M{x} {y + i * CELL}h{columns * CELL}' for i in range(0, rows + 1, 2)), GREY, 1.3)


def panel(x, y, shown, size, rect, area):
    """The first columns and rows of a padded picture, and what a rectangle takes there by a widened area."""
    luma, chroma = main_luma(size, PADDED, rect, area), main_chroma(PADDED, area)
    lost = main_chroma(PADDED, chroma_block_area_of(size, rect)) - chroma
    out = []
    for r, c in ((r, c) for r in range(shown.height) for c in range(shown.width)):
        under = 'chroma' if (r, c) in chroma else 'old' if (r, c) in lost else 'pixel' if r < size.height and c < size.width else 'outside'
        out += [used(name, x + c * CELL, y + r * CELL) for name in [under] + ['luma'] * ((r, c) in luma)]
    out.append(blocks(x, y, shown.width, shown.height))
    out.append(path(f'M{x + size.width * CELL} {y}v{size.height * CELL}H{x}', INK, 1.6, stroke_dasharray='5 3'))
    wide, high = (rect.right - rect.left) * CELL, (rect.bottom - rect.top) * CELL
    out.append(path(f'M{x + rect.left * CELL} {y + rect.top * CELL}h{wide}v{high}h{-wide}z', INK, 3.5))
    out += [text(x - 5, y + r * CELL + 17, r, 10, 'end', fill='#444444') for r in range(shown.height)]
    out += [text(x + c * CELL + CELL / 2, y - 4, c, 10, 'middle', fill='#444444') for c in range(shown.width)]
    return out


def area_words(size, rect, area):
    """What the four edges become, by a widening."""
    return [f'({", ".join(map(str, rect))}) in {size.width} x {size.height}:',
            f'left {rect.left} → {area.left}, top {rect.top} → {area.top},',
            f'right {rect.right} → {area.right}, bottom {rect.bottom} → {area.bottom}.']


def widening_legend(y):
    items = [(['chroma'], 'chroma taken, a whole block or none'), (['pixel', 'luma'], 'luma taken, the rectangle’s own pixels'),
             (['old'], 'wrong: a block that keeps its old chroma'), (['outside'], 'padding (the planes go on to 16 x 16)')]
    out = []
    for i, (names, words) in enumerate(items):
        x, row = LEFT + 450 * (i % 2), y + 34 * (i // 2)
        out += [used(name, x, row) for name in names] + [text(x + 36, row + 18, words)]
    out += [path(f'M{LEFT} {y + 82}h{CELL}', INK, 3.5), text(LEFT + 36, y + 86, 'the rectangle'),
            path(f'M{LEFT + 450} {y + 82}h{CELL}', INK, 1.6, stroke_dasharray='5 3'), text(LEFT + 486, y + 86, 'the picture’s edge')]
    return out


def panel_words(size, rect, area):
    """What the edges become, what is taken, and what is lost."""
    right_area = chroma_block_area_of(size, rect)
    chroma, luma = main_chroma(PADDED, area), main_luma(size, PADDED, rect, area)
    words = area_words(size, rect, area) + [taken_words('Chroma', chroma), taken_words('Luma', luma)]
    if area != right_area:
        lost = main_chroma(PADDED, right_area) - chroma
        words += [f'Columns {span({c for _, c in lost})} keep their old chroma:', f'a tick in column {rect.left} stays grey.']
    elif not luma:
        even = rect._replace(left=area.left, right=area.left)
        assert not main_chroma(PADDED, chroma_block_area_of(size, even))
        words += ['But with even edges,', f'({", ".join(map(str, even))}), it takes nothing.']
    return words


def draw_widening():
    odd, empty = (Size(9, 7), Rect(3, 1, 6, 5)), (Size(5, 5), Rect(5, 0, 5, 4))
    panels = [('The rule', Size(10, 8), *odd, chroma_block_area_of), ('Wrong: left rounded up', Size(10, 8), *odd, wrong_area_of),
              ('An empty rectangle', Size(8, 8), *empty, chroma_block_area_of)]
    out, said, x, low = [widening_forms()], [], LEFT, 84 + 8 * CELL
    for name, shown, size, rect, area_of in panels:
        area = area_of(size, rect)
        words = panel_words(size, rect, area)
        out += [text(x, 58, name, 14, font_weight='bold'), *panel(x, 84, shown, size, rect, area), lines(x, low + 24, words, 12)]
        said.append(f'{name}: ' + ' '.join(words))
        x += shown.width * CELL + 52
    out += widening_legend(low + 162)
    return picture(low + 268, 'Widening: chroma is taken in whole 2x2 blocks', ' '.join(said), out)


# --- map.svg: how a block of the map changes, and what views complete.

HELD = {0: (PALE, 'never had a main view'), 1: (ORANGE, 'main since the last auxiliary'), 2: (GREEN, 'complete')}
BLOCK = 20


def state(x, y, number):
    """A number of the map, as a disc."""
    colour, words = HELD[number]
    return [f'<circle cx="{x}" cy="{y}" r="27" fill="{colour}" stroke="{INK}" stroke-width="1.5"/>', text(x, y + 7, number, 20, 'middle', font_weight='bold'),
            text(x, y + 47, words, 12, 'middle')]


def states(y):
    """The three numbers and the calls that lead from one to another."""
    out = [*state(200, y, 0), *state(480, y, 1), *state(760, y, 2)]
    arrows = [(f'M60 {y}H168', 'new', 112, y - 9), (f'M228 {y}H448', 'main view: any chroma of the block', 338, y - 9),
              (f'M508 {y}H728', 'auxiliary view: all three others', 618, y - 9), (f'M852 {y}H792', 'from RGBA', 838, y - 9),
              (f'M742 {y - 22}C690 {y - 74} 550 {y - 74} 501 {y - 26}', 'main view', 620, y - 68),
              (f'M468 {y - 25}C440 {y - 80} 494 {y - 80} 484 {y - 31}', 'main view', 430, y - 62)]
    for way, words, x, low in arrows:
        out += [path(way, INK, 1.5, marker_end='url(#tip)'), text(x, low, words, 12, 'middle')]
    kept = [text(x, y + 65, f'an auxiliary view leaves {number}', 11, 'middle', fill='#444444') for x, number in ((200, 0), (760, 2))]
    return out + kept


def map_panel(x, y, across, held):
    """The blocks of a map, 8 rows, each with what it holds."""
    out = []
    for i, j in ((i, j) for i in range(8) for j in range(across)):
        colour = HELD[held(i, j)][0]
        out += [box(x + j * BLOCK, y + i * BLOCK, BLOCK, BLOCK, colour, GREY), text(x + j * BLOCK + BLOCK / 2, y + i * BLOCK + 14, held(i, j), 10, 'middle')]
    out += [text(x - 5, y + i * BLOCK + 14, i, 10, 'end', fill='#444444') for i in range(8)]
    return out + [text(x + j * BLOCK + BLOCK / 2, y - 4, j, 10, 'middle', fill='#444444') for j in range(across)]


def after_main(view):
    return lambda i, j: 1 if main_marks(view, i, j) else 0


def after_both(to, view):
    return lambda i, j: 2 if main_marks(view, i, j) and auxiliary_completes(to, view, i, j) else after_main(view)(i, j)


def completed_words(across, held):
    """How many block rows and columns of a fresh picture's map are 2."""
    whole = {(i, j) for i in range(8) for j in range(across) if held(i, j) == 2}
    rows, columns = {i for i, _ in whole}, {j for _, j in whole}
    assert whole == {(i, j) for i in rows for j in columns}
    return f'2 in block rows {span(rows)}, columns {span(columns)}' if whole else '2 nowhere'


def draw_map():
    low, wide = Size(16, 12), Size(20, 16)
    panels = [('Main view 16 x 12', 8, after_main(low), 'marks block rows 0 to 5'), ('then V1, 16 x 12', 8, after_both(to_v1, low), None),
              ('V2, 20 x 16, W = 32', 16, after_both(lambda k, r, c: to_v2(k, r, c, 32), wide), None)]
    tip = ('<defs><marker id="tip" viewBox="0 0 10 10" refX="9" refY="5" markerWidth="8" markerHeight="8" orient="auto">'
           '<path d="M0 0L10 5L0 10z"/></marker></defs>')
    out, said, x = [tip, *states(128)], [], LEFT
    for name, across, held, words in panels:
        words = words or completed_words(across, held)
        out += [text(x, 236, name, 14, font_weight='bold'), *map_panel(x, 262, across, held), text(x, 262 + 8 * BLOCK + 22, words, 12)]
        said.append(f'{name}: {words}.')
        x += across * BLOCK + 92
    low_words = ['V1: the V rows of rows 9 and 11 are luma rows 12 and 13 of the view, which it has not.',
                 'V2: V of column 9 is luma column 16 + 4 of the view, which it has not. Colour is whole only where both U and V came.']
    out.append(lines(LEFT, 262 + 8 * BLOCK + 50, low_words, 12))
    title = 'The map of stale colour: one byte for each 2x2 block'
    return picture(262 + 8 * BLOCK + 84, title, '0, 1 and 2, and the calls that lead from one to another. ' + ' '.join(said), out)


# --- strict.svg: which rectangles a strict list may have.

FAULTS = ['sound', 'left is not below right', 'top is not below bottom', 'right is above the width', 'bottom is above the height']
LISTED = [(0, 0, 5, 5), (1, 2, 2, 3), (5, 0, 5, 4), (0, 3, 2, 3), (3, 1, 6, 4), (1, 3, 4, 6), (4, 4, 2, 2), (2, 2, 6, 6)]


def fault_of(size, rect):
    """strict/specs/Sound.antt: 0 for a sound rectangle, else its first fault."""
    left, top, right, bottom = rect
    return next((i for i, test in enumerate((right <= left, bottom <= top, size[0] < right, size[1] < bottom), 1) if test), 0)


def strict_panel(x, y, size, rect):
    """The picture's pixels and one row and column more on the right and below, and the rectangle's edges over them."""
    cell, (left, top, right, bottom) = 22, rect
    fault = fault_of(size, rect)
    out = [box(x + cell * c, y + cell * r, cell, cell, '#ffffff' if c < size[0] and r < size[1] else PALE, '#cccccc', 0.7)
           for r in range(size[1] + 1) for c in range(size[0] + 1)]
    wide, high = cell * abs(right - left), cell * abs(bottom - top)
    out.append(box(x, y, cell * size[0], cell * size[1], 'none', INK, 1.6, stroke_dasharray='5 3'))
    out.append(box(x + cell * min(left, right), y + cell * min(top, bottom), wide, high, SKY if fault == 0 else ORANGE, 'none', 1, fill_opacity='0.55'))
    out.append(path(f'M{x + cell * min(left, right)} {y + cell * min(top, bottom)}h{wide}v{high}h{-wide}z', BLUE if fault == 0 else RED, 3))
    out.append(text(x, y + cell * (size[1] + 1) + 18, f'({left}, {top}, {right}, {bottom})', 12, font_weight='bold'))
    words = FAULTS[0] if fault == 0 else f'fault {fault}: {FAULTS[fault]}'
    out.append(text(x, y + cell * (size[1] + 1) + 36, words, 12))
    return out


def draw_strict():
    size, out = (5, 5), []
    for i, rect in enumerate(LISTED):
        out += strict_panel(24 + 222 * (i % 4), 64 + 220 * (i // 4), size, rect)
    out += [path('M24 508h26', INK, 1.6, stroke_dasharray='5 3') + text(58, 512, 'the picture’s edge, 5 x 5'),
            path('M300 508h26', BLUE, 3) + text(334, 512, 'a sound rectangle'), path('M520 508h26', RED, 3) + text(554, 512, 'one for which the whole list is refused, with 12')]
    said = 'Rectangles as left, top, right, bottom, right and bottom exclusive. ' + '; '.join(
        f'{rect}: {FAULTS[0] if fault_of(size, rect) == 0 else f"fault {fault_of(size, rect)}, {FAULTS[fault_of(size, rect)]}"}' for rect in LISTED) + '.'
    return picture(536, 'Sound rectangles of a picture of 5x5, and the four faults', said, out)


# --- check.svg: which sample of a pair that is not the split is named.

PAIR_STRIDES = (18, 9)       # luma and chroma stride of both views, two columns and one more than they are wide
UNLIKE = [('main', 'Y', 5, 16), ('main', 'U', 4, 1), ('main', 'U', 2, 6), ('main', 'V', 0, 3), ('auxiliary', 'Y', 0, 0)]


def visible(part, size):
    """check_pair/specs/Places.antt: the rows and columns of a view's plane."""
    return size if part == 'Y' else (size[0] // 2, size[1] // 2)


def first_wrong(unlike, size):
    """Main before auxiliary, Y then U then V, by row and then column; what lies in the stride's padding is not looked at."""
    return min((('main', 'auxiliary').index(view), 'YUV'.index(part), r, c) for view, part, r, c in unlike
               if r < visible(part, size)[1] and c < visible(part, size)[0])


def check_plane(x, y, view, part, size, first):
    """One plane of one view: what was found right on the way, the sample that is named, others that are wrong, and padding."""
    cell, (wide, high) = 13, visible(part, size)
    before = lambda r, c: (('main', 'auxiliary').index(view), 'YUV'.index(part), r, c) < first
    out = [text(x, y - 8, part, 14, font_weight='bold')]
    for r in range(high):
        for c in range(PAIR_STRIDES[part != 'Y']):
            here = (view, part, r, c) in UNLIKE
            named = here and (('main', 'auxiliary').index(view), 'YUV'.index(part), r, c) == first
            fill = 'url(#padding)' if c >= wide else RED if named else ORANGE if here else '#cfeee2' if before(r, c) else '#ffffff'
            out.append(box(x + cell * c, y + cell * r, cell, cell, fill, '#bbbbbb', 0.6))
            if here:
                out.append(text(x + cell * (c + 0.5), y + cell * r + 10.5, '≠', 12, 'middle', font_weight='bold', fill='white' if named else INK))
    out.append(box(x, y, cell * wide, cell * high, 'none', INK, 1.4))
    return out


def draw_check():
    size, out = (16, 16), [f'<defs>{hatch("padding", GREY, 5)}</defs>']
    first = first_wrong(UNLIKE, size)
    named = f'{("main", "auxiliary")[first[0]]} view, {"YUV"[first[1]]}, row {first[2]}, column {first[3]}'
    for view, y in (('main', 84), ('auxiliary', 352)):
        out.append(text(24, y - 28, f'{view} view', 15, font_weight='bold'))
        for part, x in (('Y', 24), ('U', 300), ('V', 460)):
            out += check_plane(x, y, view, part, size, first)
    legend = [('#cfeee2', '', 'found right on the way'), (RED, '≠', 'wrong, and the first: this one is named'),
              (ORANGE, '≠', 'wrong, and never named'), ('#ffffff', '', 'not looked at any more'), ('url(#padding)', '≠', 'padding of the stride: whatever it holds')]
    for i, (fill, mark, words) in enumerate(legend):
        out += [box(620, 84 + 26 * i, 16, 16, fill, '#999999', 0.8), text(628, 97 + 26 * i, mark, 12, 'middle', font_weight='bold', fill='white' if fill == RED else INK),
                text(646, 97 + 26 * i, words)]
    out.append(lines(620, 250, ['The order: main before auxiliary,', 'Y, then U, then V,', 'by row, and then by column.', '', 'The answer here:'], 13))
    out.append(text(620, 344, named, 13, font_weight='bold'))
    said = f'Two views of 16x16 with luma stride {PAIR_STRIDES[0]} and chroma stride {PAIR_STRIDES[1]}. Unlike the split: ' + '; '.join(
        f'{view} {part} row {r} column {c}' + ('' if c < visible(part, size)[0] else ', which is padding') for view, part, r, c in UNLIKE) + f'. Named: {named}.'
    return picture(580, 'The first wrong sample of another encoder’s pair', said, out)


# --- payload.svg: the bytes of an AVC444 payload of kind 0, and what the other kinds carry.

BYTE = 27
LUMA_STREAM = parts_from([3, 1, 6, 5, 0, 0, 400, 2], [150, 100, 22, 90], [0, 0, 1, 103])
CHROMA_STREAM = parts_from([3, 1, 6, 5], [22, 100], [0, 0, 1, 103, 66, 0])
PART_COLOURS = {'count': SKY, 'rects': ORANGE, 'pairs': PURPLE, 'h264': GREEN}


def brace(x, y, wide, words, size=12):
    """A bracket below some cells, and its words."""
    return path(f'M{x + 2:g} {y:g}v5h{wide - 4:g}v-5', '#444444') + text(x + wide / 2, y + 19, words, size, 'middle')


def ruler(x, y, s, start, end, colour):
    """Bytes of the payload in hexadecimal, the first one's place above it."""
    out = [text(x, y - 5, start, 10, fill='#444444')]
    for i, byte in enumerate(s[start:end]):
        out += [box(x + i * BYTE, y, BYTE, 30, colour, '#ffffff'),
                text(x + i * BYTE + BYTE / 2, y + 20, f'{byte:02X}', 13, 'middle', font_family='monospace')]
    return ''.join(out)


def numbers_below(x, y, numbers, wide, high=16):
    """The numbers that some bytes are, each below its own."""
    return ''.join(box(x + i * wide + 1, y, wide - 2, high, '#ffffff', GREY, 0.8) + text(x + i * wide + wide / 2, y + 12, n, 11, 'middle')
                   for i, n in enumerate(numbers))


def stream_ruler(x, y, s, start, parts, name):
    """A stream of the payload, part by part."""
    places, out = places_at(start, parts), []
    count = u32_at(s, start)
    words = {'count': 'count', 'rects': f'{count} x (left, top, right, bottom)', 'pairs': f'{count} x (q, quality)', 'h264': 'H.264'}
    if count == 1:
        words = {**words, 'rects': 'left, top, right, bottom', 'pairs': 'q, quality'}
    for field, a, e in zip(Parts._fields, places, places[1:]):
        at = x + (a - start) * BYTE
        out += [ruler(at, y, s, a, e, PART_COLOURS[field]), brace(at, y + 50, (e - a) * BYTE, words[field], 11)]
        if field == 'rects':
            out.append(numbers_below(at, y + 32, [u16_at(s, i) for i in range(a, e, 2)], 2 * BYTE))
    out.append(numbers_below(x, y + 32, [count], 4 * BYTE))
    out.append(numbers_below(x + (places[2] - start) * BYTE, y + 32, s[places[2]:places[3]], BYTE))
    wide = (places[-1] - start) * BYTE
    out.append(path(f'M{x + 2} {y - 20}v-5h{wide - 4}v5', INK, 1.5) + text(x + wide / 2, y - 31, name, 13, 'middle', font_weight='bold'))
    return out


def bits(x, y, number, count, split, wide):
    """The bits of a number, the highest first; those below `split` in the size's colour."""
    out = []
    for i in range(count):
        bit = count - 1 - i
        out += [box(x + i * wide, y, wide, 22, PALE if bit < split else YELLOW, '#ffffff'),
                text(x + i * wide + wide / 2, y + 16, number // 2 ** bit % 2, 11, 'middle', font_family='monospace')]
        if bit in (0, split - 1, split, count - 1):
            out.append(text(x + i * wide + wide / 2, y - 4, bit, 10, 'middle', fill='#444444'))
    return ''.join(out)


def bit_fields(y, s, quantiser):
    """The first number and a quantiser byte, bit by bit."""
    number = u32_at(s, 0)
    return [text(24, y - 22, f'The first number, {number:08X}', 14, font_weight='bold'), bits(24, y, number, 32, 30, 17),
            brace(24, y + 24, 34, 'kind'), brace(58, y + 24, 30 * 17, f'size of the first stream: {number % 2 ** 30} bytes'),
            text(620, y - 22, f'A quantiser byte q, {quantiser:02X}', 14, font_weight='bold'), bits(620, y, quantiser, 8, 6, 27),
            brace(620, y + 24, 54, 'flags'), brace(674, y + 24, 6 * 27, f'value: {quantiser % 64}'),
            text(620, y + 62, 'bit 7: progressive; bit 6: reserved', 12)]


def kind_bars(y, size):
    """What follows the first number in each kind; a first stream of `size` bytes."""
    rows = [(0, size, [('stream 1: luma, size bytes', 300, PALE), ('stream 2: chroma, to the payload’s end', 306, '#ffffff')], 'stream 1’s bytes'),
            (1, size, [('the one stream: luma, to the payload’s end', 606, PALE)], 'its bytes (*)'),
            (2, 0, [('the one stream: chroma, to the payload’s end', 606, '#ffffff')], '0 (*)')]
    out = [text(794, y - 8, 'size field', 12, font_weight='bold')]
    for kind, wanted, streams, words in rows:
        x, row = 182, y + 34 * kind
        first = ' '.join(f'{byte:02X}' for byte in u32_bytes(info_of(kind, wanted)))
        out += [text(24, row + 18, f'kind {kind}', 13, font_weight='bold'), box(82, row, 100, 26, YELLOW, INK),
                text(132, row + 18, first, 12, 'middle', font_family='monospace')]
        for name, wide, colour in streams:
            out += [box(x, row, wide, 26, colour, INK), text(x + wide / 2, row + 18, name, 12, 'middle')]
            x += wide
        out.append(text(x + 6, row + 18, words, 12))
    return out + [lines(24, y + 126, [
        '(*) What the standard wants and the writer writes; the reader takes any size within the payload there, and does not use it.',
        'Refused, in this order: below 4 bytes (9), kind 3 (8), a size past the payload (9), a count, rectangle or pair past its stream (10).'], 12)]


def draw_payload():
    luma, chroma = ([byte for part in parts for byte in part] for parts in (LUMA_STREAM, CHROMA_STREAM))
    s = u32_bytes(info_of(0, len(luma))) + luma + chroma
    out = [text(24, 54, 'An example of kind 0, byte by byte in hexadecimal; places count from 0, all numbers are little-endian.', 13),
           ruler(24, 130, s, 0, 4, YELLOW), numbers_below(24, 162, [u32_at(s, 0)], 4 * BYTE), brace(24, 180, 4 * BYTE, 'kind and size', 11)]
    out += stream_ruler(24 + 4 * BYTE, 130, s, 4, LUMA_STREAM, f'stream 1 (luma): {len(luma)} bytes, the size in the first number')
    out += stream_ruler(24, 280, s, 4 + len(luma), CHROMA_STREAM, f'stream 2 (chroma): {len(chroma)} bytes, to the payload’s end')
    out += bit_fields(420, s, LUMA_STREAM.pairs[0]) + kind_bars(536, len(luma))
    said = (f'A payload of kind 0 of {len(s)} bytes: ' + ' '.join(f'{byte:02X}' for byte in s) + '. '
            'The first number has the kind in its top two bits and the first stream’s size in its low 30 bits; each stream has a count, '
            'that many rectangles of four two-byte numbers, that many pairs of a quantiser and a quality byte, and H.264 bytes. '
            'Kinds 1 and 2 have one stream, luma or chroma, to the payload’s end.')
    return picture(696, 'The AVC444 payload', said, out)


# --- filter.svg: the reverse filter's answer over s, for one a.

WORKED = [(100, 270, 130), (100, 271, 100), (100, 329, 100), (100, 330, 70)]  # a, s and the answer, worked by hand
OTHERS = [(20, 180, 20), (30, 120, 0), (225, 300, 255), (226, 300, 226)]
GRAPH = namedtuple('Graph', 'x y across up most')(330, 440, 1.12, 1.4, 480)   # its corner, pixels for a step of s and of the answer, the last s


def point(s, answer):
    return f'{GRAPH.x + s * GRAPH.across:.5g} {GRAPH.y - answer * GRAPH.up:.5g}'


def runs(value, last):
    """The points of a whole-number function, cut where it jumps; of a straight run its two ends alone."""
    out = [[0]]
    for s in range(1, last + 1):
        if abs(value(s) - value(s - 1)) > 1:
            out.append([s])
        elif len(out[-1]) > 1 and value(s) - value(s - 1) == value(out[-1][-1]) - value(out[-1][-1] - 1):
            out[-1][-1] = s
        else:
            out[-1].append(s)
    return out


def curve(value, last, **more):
    return path(''.join('M' + 'L'.join(point(s, value(s)) for s in run) for run in runs(value, last)), **more)


def axes():
    out = [path(f'M{point(0, 262)}V{GRAPH.y}H{GRAPH.x + (GRAPH.most + 8) * GRAPH.across:g}', INK, 1.2)]
    for s in range(0, GRAPH.most + 1, 50):
        x = GRAPH.x + s * GRAPH.across
        out.append(path(f'M{x:g} {GRAPH.y}v5', INK) + text(x, GRAPH.y + 18, s, 11, 'middle'))
    for answer in (0, 70, 100, 130, 255):
        y = GRAPH.y - answer * GRAPH.up
        out.append(path(f'M{GRAPH.x - 5} {y:g}H{GRAPH.x + GRAPH.most * GRAPH.across:g}', '#cccccc', 0.8, stroke_dasharray='2 3')
                   + text(GRAPH.x - 9, y + 4, answer, 11, 'end'))
    middle = GRAPH.x + GRAPH.most * GRAPH.across / 2
    return out + [text(middle, GRAPH.y + 38, 's, the sum of the other three (goes on to 765; the answer stays 0)', 12, 'middle'),
                  text(GRAPH.x + 8, GRAPH.y - 255 * GRAPH.up - 14, 'answer', 12)]


def worked_marks():
    out = []
    for (a, s, answer), (dx, dy, anchor) in zip(WORKED, [(12, -8, 'start'), (-12, 5, 'end'), (12, 5, 'start'), (-12, 16, 'end')]):
        assert filtered_of(a, s) == answer
        x, y = map(float, point(s, answer).split())
        out.append(f'<circle cx="{x:g}" cy="{y:g}" r="5" fill="{YELLOW}" stroke="{INK}" stroke-width="1.5"/>'
                   + text(x + dx, y + dy, f'({a}, {s}) → {answer}', 12, anchor, stroke='white', stroke_width=4, paint_order='stroke'))
    return out


def block_of_four(x, y):
    side, out = 62, []
    for i, (words, colour) in enumerate([('a', YELLOW), ('b', PALE), ('c', PALE), ('d', PALE)]):
        left, top = x + i % 2 * side, y + i // 2 * side
        out += [box(left, top, side, side, colour, INK), text(left + side / 2, top + 37, words, 18, 'middle')]
    out += [text(x + side * i + side / 2, y - 6, ('even', 'odd')[i], 11, 'middle') for i in (0, 1)]
    return out + [text(x - 6, y + side * i + side / 2 + 4, ('even', 'odd')[i], 11, 'end') for i in (0, 1)]


def draw_filter():
    a = WORKED[0][0]
    kept = [s for s in range(GRAPH.most + 1) if filtered_of(a, s) == a]
    assert kept == list(range(kept[0], kept[-1] + 1))
    assert all(filtered_of(*line[:2]) == line[2] for line in OTHERS)
    x, y = GRAPH.x + kept[0] * GRAPH.across, GRAPH.y - 255 * GRAPH.up
    band = box(x, y, (kept[-1] - kept[0]) * GRAPH.across, 255 * GRAPH.up, '#7cc4ee44')
    words = ['s = b + c + d', 't = 4a − s, clamped to 0..255', 'answer: a if |t − a| < 30,', 'else t: applied', '', 'Further lines, (a, s) → answer:']
    out = [*block_of_four(70, 92), lines(24, 250, words + [f'({b}, {s}) → {answer}' for b, s, answer in OTHERS], 13, 19), band, *axes(),
           text(x + (kept[-1] - kept[0]) * GRAPH.across / 2, y + 16, f's = {kept[0]} to {kept[-1]}:', 12, 'middle'),
           text(x + (kept[-1] - kept[0]) * GRAPH.across / 2, y + 32, 'a is kept', 12, 'middle'),
           curve(lambda s: reversed_of(a, s), GRAPH.most, stroke=RED, thick=1.4, stroke_dasharray='5 4'),
           curve(lambda s: filtered_of(a, s), GRAPH.most, stroke=BLUE, thick=3.2), *worked_marks(),
           path(f'M{GRAPH.x + 418} 150h34', BLUE, 3.2), text(GRAPH.x + 460, 154, f'answer, a = {a}', 12),
           path(f'M{GRAPH.x + 418} 174h34', RED, 1.4, stroke_dasharray='5 4'), text(GRAPH.x + 460, 178, 't', 12)]
    said = ('; '.join(words[:3]) + f' else t, and then it was applied. For a = {a} the answer over s: a for s = {kept[0]} to {kept[-1]}, t elsewhere. '
            'Worked lines, (a, s) and the answer: ' + ', '.join(f'({b}, {s}) {answer}' for b, s, answer in WORKED) + '.')
    return picture(496, 'The reverse filter of a 2x2 block', said, out)


# --- products.svg: what each chroma byte adds to a channel.

PRODUCTS = [('403v, to red', red_product, RED, 3, ''), ('475u, to blue', blue_product, BLUE, 3, ''),
            ('-120v, to green', green_v_product, GREEN, 3, '8 5'), ('-48u, to green', green_u_product, GREEN, 3, '2 4')]


def draw_products():
    left, middle, across, up = 90, 320, 2.5, 1.0

    def place(chroma, product):
        return f'{left + chroma * across:.5g} {middle - product / 256 * up:.5g}'

    out = []
    for share in range(-200, 201, 50):
        y = middle - share * up
        out.append(path(f'M{left - 5} {y:g}H{left + 255 * across:g}', INK if share == 0 else '#cccccc', 1 if share == 0 else 0.8,
                        **({} if share == 0 else {'stroke_dasharray': '2 3'})))
        out.append(text(left - 9, y + 4, share, 11, 'end'))
    for chroma in (0, 32, 64, 96, 128, 160, 192, 224, 255):
        x = left + chroma * across
        out.append(path(f'M{x:g} {middle - 245 * up:g}V{middle + 245 * up:g}', '#eeeeee') + text(x, middle + 262 * up, chroma, 11, 'middle'))
    for i, (words, product, colour, thick, dashes) in enumerate(PRODUCTS):
        more = {'stroke_dasharray': dashes} if dashes else {}
        out.append(path(f'M{place(0, product(0))}L{place(255, product(255))}', colour, thick, **more))
        out.append(path(f'M{left + 660} {110 + 26 * i}h34', colour, thick, **more) + text(left + 702, 114 + 26 * i, words, 12))
    out += [text(left + 127 * across, middle + 284 * up, 'the chroma byte, V or U', 12, 'middle'),
            text(left, 60, 'product / 256: what it adds to Y', 12)]
    ends = '; '.join(f'{words}: from {product(0)} to {product(255)}' for words, product, *_ in PRODUCTS)
    return picture(620, 'The four products over the chroma byte', f'Straight lines through 0 at the chroma byte 128. {ends}.', out)


# --- ranges.svg: a colour by the right and by the wrong range.

SHOWN = [('black', (0, 0, 0)), ('grey', (64, 64, 64)), ('grey', (128, 128, 128)), ('white', (255, 255, 255)), ('red', (255, 0, 0)),
         ('green', (0, 255, 0)), ('blue', (0, 0, 255)), ('magenta', (255, 0, 255))]
READINGS = [(None, None, 'drawn', ''), (forward_of, reverse_of, 'full range,', 'read as full'),
            (limited_forward_of, limited_reverse_of, 'limited range,', 'read as limited'),
            (limited_forward_of, reverse_of, 'limited range,', 'read as full: pale'),
            (forward_of, limited_reverse_of, 'full range,', 'read as limited: harsh')]


def range_bar(x, y, name, low, high):
    """The bytes 0 to 255, of which limited range has those from low to high."""
    return (box(x, y, 256, 16, PALE, GREY) + box(x + low, y, high - low + 1, 16, SKY, INK) + text(x - 8, y + 13, name, 12, 'end')
            + text(x + low, y + 30, low, 11, 'middle') + text(x + high, y + 30, high, 11, 'middle'))


def reading(forward, back, colour):
    """The colour as it is shown, and its Y, U and V."""
    sent = forward(*colour) if forward else None
    return (back(*sent), ' '.join(map(str, sent))) if sent else (colour, '')


def draw_ranges():
    left, wide, high = 170, 88, 66
    out = [range_bar(300, 46, 'Y of limited range', 16, 235), range_bar(620, 46, 'U and V', 16, 240)]
    for row, (forward, back, *words) in enumerate(READINGS):
        y = 96 + row * (high + 10)
        out.append(lines(14, y + high / 2 - 4, words, 13, 18))
        for i, (name, colour) in enumerate(SHOWN):
            shown, sent = reading(forward, back, colour)
            x, ink = left + i * (wide + 3), ink_on(shown)
            said = [name if row == 0 else hexadecimal(shown), hexadecimal(colour) if row == 0 else sent]
            out.append(box(x, y, wide, high, hexadecimal(shown), GREY) + lines(x + wide / 2, y + 30, said, 12, 18, anchor='middle', fill=ink))
    words = '; '.join(f'{first} {second}'.strip() + ': ' + ', '.join(hexadecimal(reading(forward, back, colour)[0]) for _, colour in SHOWN)
                      for forward, back, first, second in READINGS)
    return picture(482, 'Two ranges: the same colours by the right call and by the wrong one',
                   f'Limited range has Y from 16 to 235 and U and V from 16 to 240. {words}.', out)


# --- The files.

DRAWINGS = {'v1.svg': lambda: draw_layout(V1), 'v2.svg': lambda: draw_layout(V2), 'v2_width.svg': draw_v2_width, 'widening.svg': draw_widening,
            'map.svg': draw_map, 'strict.svg': draw_strict, 'check.svg': draw_check,
            'payload.svg': draw_payload, 'filter.svg': draw_filter, 'products.svg': draw_products, 'ranges.svg': draw_ranges}


def main():
    drawn = {name: draw() for name, draw in DRAWINGS.items()}
    if sys.argv[1:] == ['--check']:
        found = {name: open(os.path.join(FOLDER, name), encoding='utf-8').read() for name in os.listdir(FOLDER)} if os.path.isdir(FOLDER) else {}
        wrong = sorted(name for name in drawn.keys() | found.keys() if drawn.get(name) != found.get(name))
        print('drawings: docs/drawings is ' + (f'not what docs/drawings.py draws: {", ".join(wrong)}' if wrong else 'what docs/drawings.py draws'))
        return bool(wrong)
    if sys.argv[1:]:
        print(__doc__)
        return 2
    os.makedirs(FOLDER, exist_ok=True)
    for name, drawing in drawn.items():
        open(os.path.join(FOLDER, name), 'w', encoding='utf-8').write(drawing)
    return 0


if __name__ == '__main__':
    sys.exit(main())
