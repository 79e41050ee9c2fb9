"""Maps as V2 by both width rules, for docs/width_rule.py. Each goes through docs/width_rule.c, over bind/c/haythaw.h: from RGBA, split by the rule of a
server, applied to a fresh picture by the rule of a client, and to RGBA. What comes back is held to the rules' own formulas, worked out here."""
from collections import namedtuple
from functools import cache
from itertools import product

from drawings import from_main as place_in_main
from drawings import from_v2, left_out, round_up, to_v2
from maps import FRESH, cut, from_main, planes_of, shown_of, tuples
from through import stop, through_library

RULES = (16, 32)
PARTS = 'YUV'

# What a server makes of a map: how wide its views are, and their planes Y, U and V, row by row.
Views = namedtuple('Views', 'width main auxiliary')
# How it is read: by which rule, and what view is handed over: as it was made, cropped to the map's width, or with columns of 0 behind each row.
Reading = namedtuple('Reading', 'rule handed')
WHOLE, CROPPED, PADDED = HANDED = 'whole', 'cropped', 'padded'
READINGS = [Reading(rule, handed) for handed in HANDED for rule in RULES]
PADDING = 32
# Of a server: its views, and the pixels that are shown with the main view alone, and by each reading.
Served = namedtuple('Served', 'views alone shown')
# The pixels of a map, row by row; what is shown of the picture with no view between; and of each rule what a server has that goes by it.
Sent = namedtuple('Sent', 'pixels itself by')


# --- The rules: layout/specs/Maps.antt, Exists.antt.

def wide_of(rule, width, view_width):
    return round_up(16, view_width) if rule == 16 else round_up(32, width)


def view_wide_of(rule, width):
    """How wide the views of a split are."""
    return wide_of(rule, width, round_up(16, width))


def handed_wide(handed, width, wide):
    """How wide a view is that is handed over."""
    return {WHOLE: wide, CROPPED: width, PADDED: wide + PADDING}[handed]


def split_of(planes, wide):
    """The views of a picture that are so wide."""
    rows, stride = range(len(planes[0])), len(planes[0][0])

    def sample(part, r, c):
        k = PARTS.index(part)
        return planes[k][r][c] if c < stride else FRESH[k]

    def plane(part, back):
        return [[sample(*back(part, r, c)) for c in range(wide // 2)] for r in rows[:len(rows) // 2]]

    luma = [[sample('Y', r, c) for c in range(wide)] for r in rows]
    main = [luma, *(plane(part, place_in_main) for part in 'UV')]
    halves = [[sample(*from_v2('Y', r, c, wide)) for c in range(wide)] for r in rows]
    return Views(wide, main, [halves, *(plane(part, lambda part, r, c: from_v2(part, r, c, wide)) for part in 'UV')])


def taken_of(u, v, auxiliary, view_width, wide):
    """The chroma planes once both views came: of a place that the main view leaves out, what stands where the reader looks for it, if that is in
    the view."""
    chroma = {'U': from_main(u), 'V': from_main(v)}
    for r, c in (place for place in product(range(len(u)), range(len(u[0]))) if left_out(*place)):
        spots = [to_v2(k, r, c, wide) for k in 'UV']
        if all(column < (view_width if part == 'Y' else round_up(2, view_width) // 2) for part, _, column in spots):
            for k, (part, row, column) in zip('UV', spots):
                samples = auxiliary[PARTS.index(part)][row]
                chroma[k][r][c] = samples[column] if column < len(samples) else 0
    return chroma['U'], chroma['V']


def served_by(wide, pixels, planes):
    """What a server has whose views are so wide."""
    width, (y, u, v), views = len(pixels[0]), planes, split_of(planes, wide)

    @cache
    def shown(view_width, wide):
        return shown_of(pixels, y, *taken_of(u, v, views.auxiliary, view_width, wide))

    def by(reading):
        view_width = handed_wide(reading.handed, width, views.width)
        return shown(view_width, wide_of(reading.rule, width, view_width))

    return Served(views, shown_of(pixels, y, from_main(u), from_main(v)), {reading: by(reading) for reading in READINGS})


# --- The library.

def views_in(height, wide, *planes):
    """What a line of the library's answer says of the views."""
    luma, half = wide * height, wide // 2
    one, other = cut(list(planes), luma * 3 // 2)
    return Views(wide, *([cut(some[:luma], wide), *cut(cut(some[luma:], half), height // 2)] for some in (one, other)))


def served_in(pixels, views, *shown):
    alone, *read = (tuples(line, 3, len(pixels[0])) for line in shown)
    return Served(views_in(round_up(16, len(pixels)), *views), alone, dict(zip(READINGS, read)))


def hold(rule, pixels, found, worked_out):
    for part, one, other in zip(Served._fields, found, worked_out):
        if one != other:
            where = '; '.join(f'shown by the {reading.rule} rule, view {reading.handed}' for reading in READINGS if one[reading] != other[reading]) \
                if part == 'shown' else part
            stop(f'the library and the rules differ in a map of {len(pixels[0])}x{len(pixels)} from a server that rounds to {rule}: {where}')


def sent_through(maps):
    said = through_library('width_rule', [[len(pixels[0]), len(pixels), *(byte for row in pixels for pixel in row for byte in pixel)] for pixels in maps])
    if len(said) != 16 * len(maps):
        stop(f'{len(maps)} maps were sent, and {len(said)} lines came back, not sixteen for each')
    found = []
    for pixels, sixteen in zip(maps, cut(said, 16)):
        planes = planes_of(pixels, 'filled')
        by = {rule: served_in(pixels, *eight) for rule, eight in zip(RULES, cut(sixteen, 8))}
        served = cache(lambda wide: served_by(wide, pixels, planes))
        for rule in RULES:
            hold(rule, pixels, by[rule], served(view_wide_of(rule, len(pixels[0]))))
        found.append(Sent(pixels, shown_of(pixels, *planes), by))
    return found


# --- What is told of a map.

RIGHT, PARTLY, WRONG = 'right', 'right, but for the last 16 columns', 'wrong'


def right_of(sent):
    return sent.by[32].shown[Reading(32, WHOLE)]


def part_of(pixels, columns, channels=slice(3)):
    return [[pixel[channels] for pixel in row[columns]] for row in pixels]


def verdict_of(sent, server, reading):
    """Whether what is shown is what it should be."""
    shown, right, first = sent.by[server].shown[reading], right_of(sent), slice(len(sent.pixels[0]) - 16)
    if shown == right:
        return RIGHT
    return PARTLY if part_of(shown, first) == part_of(right, first) else WRONG
