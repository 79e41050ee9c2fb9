"""Maps through the library, for the pages that show what becomes of one: docs/edge.py and docs/colour_error.py, and docs/width_views.py for one more.
Each goes through docs/maps.c, over bind/c/haythaw.h: from RGBA by both calls, split, applied to a fresh picture, and to RGBA. What comes back is held to
the rules' own formulas, worked out here."""
from collections import namedtuple

from drawings import applied_of, average_of, filtered_of, forward_of, left_out, reverse_of, round_up
from through import stop, through_library

# What a call makes of a map: the planes Y, U and V, row by row; the pixels that are shown with the main view alone, and with both views; and of each
# block, row by row, whether the filter was then applied to U, and to V.
Made = namedtuple('Made', 'planes alone both applied')
# The pixels of a map, row by row, and what the two calls make of it.
Way = namedtuple('Way', 'pixels rust filled')
NAMES = {'rust': 'the Rust’s rule', 'filled': 'edge filled', 'alone': 'main view alone', 'both': 'both views'}

# A map may be written in letters, a word for each row.
COLOURS = {'b': (30, 60, 220), 'c': (0, 190, 235), 'g': (40, 170, 60), 'y': (250, 220, 30), 'o': (255, 127, 14), 'r': (225, 30, 30),  # from cold to warm
           's': (185, 215, 235), 'l': (205, 225, 180), 'm': (255, 0, 255),                                                           # sea, land, a warning
           '.': (255, 255, 255), '-': (160, 160, 160), '#': (0, 0, 0)}                                                               # paper, grid, ink


def map_of(letters):
    return [[COLOURS[letter] for letter in row] for row in letters.split()]


# --- The rules: from_rgba/specs/Edges.antt, FromRgba.antt, apply_main/specs/Main.antt, to_rgba_rows/specs; a sample is Y, U and V.

FRESH = (0, 128, 128)


def block_at(plane, r, c):
    return [plane[r][c], plane[r][c + 1], plane[r + 1][c], plane[r + 1][c + 1]]


def planes_of(pixels, rule):
    height, width = len(pixels), len(pixels[0])
    own = [[forward_of(*pixel) for pixel in row] for row in pixels]

    def sample(r, c):
        if rule == 'filled':
            return own[min(r, height - 1)][min(c, width - 1)]
        return own[r][c] if r < height and c < width else FRESH

    rows, columns = range(round_up(16, height)), range(round_up(16, width))
    planes = [[[sample(r, c)[k] for c in columns] for r in rows] for k in range(3)]
    for plane in planes[1:]:
        for r, c in ((r, c) for r in rows[::2] for c in columns[::2]):
            plane[r][c] = average_of(block_at(plane, r, c))
    return planes


def from_main(plane):
    """A plane of chroma whose every sample is taken from the main view, at row/2, column/2."""
    return [[plane[r // 2 * 2][c // 2 * 2] for c in range(len(row))] for r, row in enumerate(plane)]


def shown_of(pixels, y, u, v):
    def chroma(plane, r, c):
        if left_out(r, c):
            return plane[r][c]
        a, *others = block_at(plane, r, c)
        return filtered_of(a, sum(others))

    return [[reverse_of(y[r][c], chroma(u, r, c), chroma(v, r, c)) for c in range(len(row))] for r, row in enumerate(pixels)]


def applied_in(pixels, *chroma):
    def applied(plane, r, c):
        a, *others = block_at(plane, r, c)
        return applied_of(a, sum(others))

    return [[tuple(applied(plane, r, c) for plane in chroma) for c in range(0, len(pixels[0]), 2)] for r in range(0, len(pixels), 2)]


def made_by(pixels, rule):
    y, u, v = planes_of(pixels, rule)
    return Made([y, u, v], shown_of(pixels, y, from_main(u), from_main(v)), shown_of(pixels, y, u, v), applied_in(pixels, u, v))


# --- The library.

def cut(numbers, count):
    return [numbers[k:k + count] for k in range(0, len(numbers), count)]


def tuples(numbers, each, count):
    """The numbers as rows of so many tuples of `each` numbers."""
    return cut([tuple(some) for some in cut(numbers, each)], count)


def made_in(pixels, planes, alone, both, applied):
    """What four lines of the library's answer say, row by row."""
    height, width = len(pixels), len(pixels[0])
    return Made(cut(cut(planes, round_up(16, width)), round_up(16, height)), tuples(alone, 3, width), tuples(both, 3, width),
                tuples(applied, 2, round_up(2, width) // 2))


def ways_of(maps):
    said = through_library('maps', [[len(pixels[0]), len(pixels), *(byte for row in pixels for pixel in row for byte in pixel)] for pixels in maps])
    if len(said) != 8 * len(maps):
        stop(f'{len(maps)} maps were sent, and {len(said)} lines came back, not eight for each')
    ways = [Way(pixels, made_in(pixels, *eight[:4]), made_in(pixels, *eight[4:])) for pixels, eight in zip(maps, cut(said, 8))]
    for way in ways:
        for rule in ('rust', 'filled'):
            for part, found, worked_out in zip(Made._fields, getattr(way, rule), made_by(way.pixels, rule)):
                if found != worked_out:
                    stop(f'the library and the rules differ in a map of {len(way.pixels[0])}x{len(way.pixels)}, {NAMES[rule]}: {NAMES.get(part, part)}')
    return ways


# --- What is told of a map.

def off(pixel, other):
    """How far a pixel is off: the largest difference of a channel."""
    return max(abs(a - b) for a, b in zip(pixel, other))


def mean(numbers):
    return f'{sum(numbers) / len(numbers):.1f}'


def row_of(*cells):
    return '| ' + ' | '.join(map(str, cells)) + ' |'
