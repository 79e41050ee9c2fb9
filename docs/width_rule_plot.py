"""The picture of docs/width_rule.py: a small map as it is sent, and as it is shown by both width rules, from servers that have the one and the other."""
from collections import Counter

from drawings import GREY, INK, RED, box, hexadecimal, lines, path, picture, text
from maps import COLOURS
from width_views import CROPPED, WHOLE, WRONG, Reading, verdict_of, view_wide_of, wide_of

SIDE, LEFT, STEP, TOP, DOWN = 6, 12, 300, 150, 290          # a pixel, the first panel, and from panel to panel

# Of each panel but the first: the server's rule, how it is read, and what is said above it.
PANELS = [(32, Reading(16, CROPPED), ['Server rounds to 32; view cropped to 48,', 'read by the 16 rule: V is 16 columns off']),
          (32, Reading(32, CROPPED), ['Server rounds to 32; view cropped to 48,', 'read by the 32 rule: V is right where there is any']),
          (32, Reading(32, WHOLE), ['Server rounds to 32; view whole, 64 wide,', 'read by the 32 rule, or by the 16 rule']),
          (16, Reading(16, WHOLE), ['Server rounds to 16; view 48 wide,', 'read by the 16 rule']),
          (16, Reading(32, WHOLE), ['Server rounds to 16; view 48 wide,', 'read by the 32 rule: V is 16 columns off'])]


def runs(row):
    """Where each run of a colour starts in a row, and how long it is."""
    start = 0
    for c in range(1, len(row) + 1):
        if c == len(row) or row[c] != row[start]:
            yield row[start], start, c - start
            start = c


def pixels_drawn(x, y, pixels):
    """A map, magnified: its commonest colour below all, and a way through the pixels of each other."""
    paper, ways = Counter(pixel for row in pixels for pixel in row).most_common(1)[0][0], {}
    for r, row in enumerate(pixels):
        for colour, c, count in runs(row):
            if colour != paper:
                ways.setdefault(colour, []).append(f'M{c} {r + 0.5}h{count}')
    drawn = ''.join(f'<path d="{"".join(way)}" stroke="{hexadecimal(colour)}"/>' for colour, way in ways.items())
    wide, high = len(pixels[0]) * SIDE, len(pixels) * SIDE
    return [box(x, y, wide, high, hexadecimal(paper)),
            f'<g transform="translate({x} {y}) scale({SIDE})" fill="none" shape-rendering="crispEdges">{drawn}</g>', box(x, y, wide, high, 'none', GREY)]


def columns(x, y, width):
    """Above a panel: where each sixteen columns start."""
    anchors = {0: 'start', width: 'end'}
    return [path(f'M{x + c * SIDE} {y}v-4', GREY) + text(x + c * SIDE, y - 6, c, 9.5, anchors.get(c, 'middle'), fill='#444444')
            for c in range(0, width + 1, 16)]


def ghost(x, y, place, away):
    """From a pixel to its ghost, so many columns away."""
    r, c = place
    x, y, long, tip = x + (c + 0.5) * SIDE, y + (r - 0.8) * SIDE, away * SIDE, 5 if away > 0 else -5
    return [path(f'M{x:g} {y:g}h{long}m{-tip} -4l{tip} 4l{-tip} 4', RED, 1.6),
            text(x + long / 2, y - 4, f'{abs(away)} columns', 10.5, 'middle', fill=RED, stroke='white', stroke_width=3, paint_order='stroke')]


def corner(k):
    """Where panel k starts."""
    return LEFT + k % 3 * STEP, TOP + k // 3 * DOWN


def panel(k, verdict, words, pixels, below):
    x, y = corner(k)
    return [text(x, y - 52, verdict, 14, font_weight='bold', fill=RED if verdict == WRONG else INK), lines(x, y - 36, words, 11.5, 14),
            *columns(x, y, len(pixels[0])), *pixels_drawn(x, y, pixels), text(x, y + len(pixels) * SIDE + 15, below, 11)]


def first_of(pixels, colour):
    return next((r, row.index(colour)) for r, row in enumerate(pixels) if colour in row)


def chart(sent, told):
    """The map, and what is shown of it; `told` says of the pixels that are shown how far they are off."""
    width, said = len(sent.pixels[0]), []
    words = ['A map on a surface 48 pixels wide. By the 16 rule W is 48, by the 32 rule 64; the auxiliary view has V from column W/2 on.',
             'Below each: how far red, green and blue are off from what was sent, on average, and in brackets at most.']
    out = panel(0, 'as it is sent', ['48 x 32 pixels: contours, grid, text, and a time', 'axis with a magenta tick for a missing file'], sent.pixels, '')
    for k, (server, reading, above) in enumerate(PANELS, 1):
        shown, verdict = sent.by[server].shown[reading], verdict_of(sent, server, reading)
        out += panel(k, verdict, above, shown, told(shown))
        if verdict == WRONG:
            away = view_wide_of(server, width) - wide_of(reading.rule, width, width)
            out += ghost(*corner(k), first_of(sent.pixels, COLOURS['m']), away)
        said.append(f'{" ".join(above)}: {verdict}; {told(shown)}.')
    return picture(TOP + DOWN + len(sent.pixels) * SIDE + 30, 'A surface 48 wide, read by both width rules', ' '.join([*words, *said]),
                   [lines(12, 50, words, 12, 17), *out])
