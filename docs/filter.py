#!/usr/bin/env python3
"""Writes docs/FILTER.md and docs/filter_colours.svg: which colours the reverse filter bites. Every block in them went through the library
(docs/filter.c, over bind/c/haythaw.h: from RGBA, and back), and what it answered is held to the rules' own formulas, worked out here.

  docs/filter.py            writes both
  docs/filter.py --check    says whether both are what the library says; status 1 if they are not

It needs a C compiler (cc) and makes the library first where that is not made (oracle/library.sh).
"""
import colorsys

from drawings import BLUE, INK, applied_of, average_of, box, forward_of, hexadecimal, ink_on, lines, picture, text
from through import asked, keep, stop, through_library

PAPER = (255, 255, 255)

# What is inked of a block: the even-even pixel, then right, below, diagonal.
SHAPES = {'dot': '#...', 'line': '#.#.', 'corner': '###.'}

# The six corners of the cube that are no greys, and the ten colours that matplotlib gives to curves.
INKS = {'red': (255, 0, 0), 'yellow': (255, 255, 0), 'green': (0, 255, 0), 'cyan': (0, 255, 255), 'blue': (0, 0, 255), 'magenta': (255, 0, 255),
        'tab:blue': (31, 119, 180), 'tab:orange': (255, 127, 14), 'tab:green': (44, 160, 44), 'tab:red': (214, 39, 40),
        'tab:purple': (148, 103, 189), 'tab:brown': (140, 86, 75), 'tab:pink': (227, 119, 194), 'tab:gray': (127, 127, 127),
        'tab:olive': (188, 189, 34), 'tab:cyan': (23, 190, 207)}
HUES, LIGHTS = range(0, 360, 10), range(90, 0, -10)


# --- The rules: colour/specs/Colour.antt.

def applied(samples):
    """Whether the filter replaces the average of a block of four samples."""
    return applied_of(average_of(samples), sum(samples[1:]))


# --- The library.

def block(ink, shape):
    return [ink if inked == '#' else PAPER for inked in SHAPES[shape]]


def answers_to(blocks):
    """Of each block of four pixels: whether U and whether V was filtered, and the four pixels that came back."""
    said = through_library('filter', [[byte for pixel in pixels for byte in pixel] for pixels in blocks])
    if len(said) != len(blocks):
        stop(f'{len(blocks)} blocks were sent, and {len(said)} came back')
    answers = []
    for pixels, line in zip(blocks, said):
        u, v, *back = line
        for plane, filtered in enumerate((u, v)):
            if bool(filtered) != applied([forward_of(*pixel)[1 + plane] for pixel in pixels]):
                stop(f'the library and the rules differ in {"UV"[plane]} of the block {pixels}')
        answers.append((u, v, [tuple(back[k:k + 3]) for k in range(0, 12, 3)]))
    return answers


# --- The page.

def bites(u, v):
    return ' '.join(['U'] * u + ['V'] * v) or '-'


def edges(differing):
    """How far two values of a chroma sample are apart, where so many of a block's other three have the second one: the most at which the
    average is always kept, and the least at which it is always replaced."""
    replaced = {False: [], True: []}
    for x in range(256):
        for y in range(256):
            replaced[applied([x] + [y] * differing + [x] * (3 - differing))].append(abs(x - y))
    return min(replaced[True]) - 1, max(replaced[False]) + 1


def page(answers):
    rows = []
    for name, ink in INKS.items():
        found = [bites(*answers[tuple(block(ink, shape))][:2]) for shape in SHAPES]
        rows.append('| ' + ' | '.join([name, f'`{hexadecimal(ink)}`', *map(str, forward_of(*ink)[1:]), *found]) + ' |')
    if [bites(*answers[tuple(block(INKS['red'], shape))][:2]) for shape in SHAPES] != ['V'] * 3:
        stop('what the page says of red does not hold')
    apart = [f'| {differing} of 3 | {below} | {above} |' for differing in (3, 2, 1) for below, above in [edges(differing)]]
    return '\n'.join([
        '# Which colours does the filter bite?',
        '',
        'In each 2x2 block the main view carries one sample of U and one of V: the average of the four. On the way to RGBA the reverse filter (R35 of',
        '[RULES.md](RULES.md)) undoes that average at the even-even pixel. Where this changes the sample by 30 or more, the filter bites: but for rounding, the',
        'colour that was drawn there comes back. Where it changes it by less, the average is kept, and the pixel shows a little of its neighbours\' colour. U and V are',
        'filtered each for itself. This page and its picture are made from the library by `docs/filter.py`, and the gate holds them to it.',
        '',
        '## How far apart two colours have to be',
        '',
        'What counts is how far the even-even pixel is from the average of its block, so it matters how many of the other three pixels have the other colour.',
        'This much two values of U, or of V, have to be apart:',
        '',
        '| have the other colour | kept up to | bitten from |',
        '|---|---:|---:|',
        *apart,
        '',
        'Between the two numbers it depends on how the average is rounded. All greys, black and white among them, have U = V = 128: for ink on any grey paper',
        'only the ink\'s own distance from 128 counts.',
        '',
        '## Plot colours on white',
        '',
        'A dot is one inked pixel, at the even-even place; a line is two, a column or a row of the block; a corner is three. In the odd column a line exchanges ink and',
        'paper: there the filter looks at the paper beside it.',
        '',
        '| ink | | U | V | dot | line | corner |',
        '|---|---|---:|---:|---|---|---|',
        *rows,
        '',
        'So a pure red has one plane that always bites, V, and one that never does, U, which is 29 away from white\'s: its average is kept, and the colour is off',
        'by so little that the threshold lets it pass. Dark and pale inks have less chroma, and are bitten in fewer shapes.',
        '',
        '![Which hues and lightnesses are bitten in U and V, as a dot, a line and a corner](filter_colours.svg)',
        '',
        '## In a picture of your own',
        '',
        'Picture to RGBA answers how many samples of U and of V were bitten: `filtered_u` and `filtered_v` of `haythaw_to_rgba`, `to_rgba_counted` in',
        '[bind/rust](../bind/rust/README.md). For one block, ask for a rectangle of one pixel at even row and even column: both are 0 or 1. `./demo` prints them for',
        'the time strip.',
        '',
    ])


# --- The picture: a chart of hue and lightness for each shape.

def colour_at(hue, light):
    return tuple(round(255 * part) for part in colorsys.hls_to_rgb(hue / 360, light / 100, 1))


MARKS = {(0, 0): '', (1, 0): 'U', (0, 1): 'V', (1, 1): 'UV'}
SIDE, LEFT = 22, 96


def shape_drawn(x, y, shape):
    return [box(x + k % 2 * 16, y + k // 2 * 16, 16, 16, BLUE if inked == '#' else 'white', INK) for k, inked in enumerate(SHAPES[shape])]


def chart_of(y, shape, answers):
    out = [text(12, y + 18, shape, 15, font_weight='bold'), *shape_drawn(14, y + 30, shape)]
    for row, light in enumerate(LIGHTS):
        drawn = [text(LEFT - 8, y + row * SIDE + 15, light, 11, 'end')]
        for column, hue in enumerate(HUES):
            ink = colour_at(hue, light)
            u, v, _ = answers[tuple(block(ink, shape))]
            drawn.append(box(LEFT + column * SIDE, y + row * SIDE, SIDE - 1, SIDE - 1, hexadecimal(ink)))
            if u or v:
                drawn.append(text(LEFT + column * SIDE + 10.5, y + row * SIDE + 14.5, MARKS[u, v], 10.5, 'middle', fill=ink_on(ink)))
        out.append(''.join(drawn))
    below = y + len(LIGHTS) * SIDE
    return out + [text(LEFT + hue / 10 * SIDE + SIDE / 2, below + 14, hue, 11, 'middle') for hue in range(0, 360, 30)]


def chart(answers):
    words = ['Each field is an ink on white paper, by its hue (across, in degrees) and its lightness (down, in percent), fully saturated. UV: the filter replaces U',
             'and V at the block’s even-even pixel. U, V: it replaces one of the two. No letters: both averages are kept.']
    out, y = [lines(12, 50, words, 12, 17)], 92
    counts = []
    for shape in SHAPES:
        out += chart_of(y, shape, answers)
        y += len(LIGHTS) * SIDE + 40
        found = [answers[tuple(block(colour_at(hue, light), shape))][:2] for light in LIGHTS for hue in HUES]
        counts.append(f'{shape}: U and V in {found.count((1, 1))}, U alone in {found.count((1, 0))}, V alone in {found.count((0, 1))}, '
                      f'neither in {found.count((0, 0))} of {len(found)} inks')
    return picture(y, 'Which inks the reverse filter bites', ' '.join(words) + ' ' + '; '.join(counts) + '.', out)


def main():
    checking = asked(__doc__)
    inks = [*INKS.values(), *(colour_at(hue, light) for light in LIGHTS for hue in HUES)]
    blocks = [block(ink, shape) for ink in inks for shape in SHAPES]
    answers = {tuple(pixels): answer for pixels, answer in zip(blocks, answers_to(blocks))}
    keep({'FILTER.md': page(answers), 'filter_colours.svg': chart(answers)}, checking)
    if checking:
        print(f'filter: docs/FILTER.md and docs/filter_colours.svg say of {len(answers)} blocks what the library answers')


main()
