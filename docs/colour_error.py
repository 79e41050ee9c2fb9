#!/usr/bin/env python3
"""Writes docs/COLOUR_ERROR.md and docs/colour_error.svg: how far a colour can be off, and a temperature that is read by it off a colour bar, with the
main view alone (4:2:0) and with both views (4:4:4). Every pixel in them went through the library, and what it answered is held to the rules' own
formulas (docs/maps.py); so did every chroma within the proved bounds, at each step of the bars (docs/colour_error.c).

  docs/colour_error.py            writes both
  docs/colour_error.py --check    says whether both are what the library says; status 1 if they are not

It needs a C compiler (cc) and makes the library first where that is not made (oracle/library.sh).
"""
from itertools import product

from colour_error_plot import chart
from drawings import applied_of, average_of, forward_of, hexadecimal
from maps import cut, off, row_of, ways_of
from readings import (ANYWHERE, APPLIED, BARS, DEGREES, DRAWINGS, LIKE_OTHERS, STEPS, WORST, channel_bounds, chroma_off, degrees, ends, hold_bounds, hold_drawing,
                      hold_reaches, inwards, measured, own, reach_of, reaches, seen_in, temperature, told, wrong_side)
from through import asked, keep, stop

# One pixel whose U is as far from its block's average as can be.
FARTHEST = [[(255, 255, 0), (0, 0, 255)], [(0, 0, 255), (0, 0, 255)]]

# The smallest cases: the sample and the other three, and what the filter answers; and colours that have such a U, and such a V.
CASES = [(40, (0, 0, 1), 10), (0, (0, 0, 122), 31), (1, (0, 0, 120), 0), (0, (0, 0, 126), 2)]
HAVING = [{0: (255, 255, 0), 1: (250, 255, 0), 40: (255, 255, 80), 120: (255, 255, 240), 122: (255, 250, 240), 126: (255, 245, 245)},
          {0: (0, 255, 245), 1: (0, 255, 225), 40: (80, 255, 245), 120: (240, 255, 245), 122: (240, 255, 205), 126: (250, 255, 225)}]


def hold_words(seen, by_rust):
    """What the page says beside its numbers."""
    def average(key, part):
        return sum(map(abs, getattr(seen['rainbow', key], 'read_' + part)))

    def largest(name, key, part='both'):
        return max(map(abs, getattr(seen[name, key], 'read_' + part)))

    for name, bar in BARS.items():
        plain, near, line, dot, elsewhere = (seen[name, key] for key in ('plain', 'near', 'line', 'dot', 'elsewhere'))
        if not plain.alone == plain.both == elsewhere.both == [own(colour) for colour in bar] or dot.read_alone != elsewhere.read_alone:
            stop('what the page says of rounding, or of dots, does not hold')
        if near.alone != near.both or any(map(any, near.applied)):
            stop('what the page says of a field 5 °C away does not hold')
        if not seen[name, 'white'] == by_rust[name, 'last'] == line or seen[name, 'last'] != plain:
            stop('what the page says of a white line, or of a last row, does not hold')
    if (largest('rainbow', 'plain'), largest('blue-white-red', 'plain'), largest('rainbow', 'bar', 'alone')) != (1, 2, 1):
        stop('what the page says of the conversion\'s own rounding does not hold')
    kept = {key: sum(not any(pair) for pair in seen['rainbow', key].applied) for key in ('line', 'dotted')}
    if not (average('dotted', 'alone') < average('line', 'alone') and average('line', 'both') < average('dotted', 'both') and kept['line'] < kept['dotted']):
        stop('what the page says of a dotted line does not hold')
    if not average('near', 'both') > average('far', 'both') > average('farther', 'both') or wrong_side(seen['blue-white-red', 'plain'].read_both):
        stop('what the page says of fields does not hold')
    if {ends(numbers) for numbers in zip(*seen['rainbow', WORST].off_both)} != {'-30 to 31'} \
            or largest('rainbow', WORST) != max(largest('rainbow', key) for key in DRAWINGS):
        stop('what the page says of the worst drawing does not hold')


# --- The page.

def head_words(seen, reach):
    line, far, dotted, dot, plain = (seen['rainbow', key] for key in ('line', 'far', 'dotted', 'dot', 'plain'))
    at_line, at_field, at_dots = (told(one.read_both)[0] for one in (line, far, dotted))
    cold, warm = map(degrees, reach_of(reach['rainbow', ANYWHERE]))
    return [
        '# How far can a colour be off?',
        '',
        'A temperature is read off a map by its colour bar: the step of the bar that has the pixel\'s colour. The main view has one sample of U and one of V for each',
        '2x2 block, the average of the four (R42 of [RULES.md](RULES.md)). What does the averaging cost a reading?',
        '',
        'With both views (4:4:4) three pixels of a block have their own U and V. The fourth, of even row and even column, has what the reverse filter (R35) answers:',
        'at most 30 below and 31 above its own sample, of 255, and at most 1 below and 2 above where the filter is applied. That is proved, for every picture. On a',
        f'rainbow bar from -40 to +40 °C a reading there is {at_line} °C off on average beside a black line, {at_field} at the edge of a field 10 °C away, {at_dots} beside a',
        f'dotted line; whatever is drawn, it is at most {cold} °C too cold and {warm} too warm. At the other three pixels, and in a block of one colour, the',
        'conversion\'s own rounding is left: {} °C on average, and at most one step of the bar, {}.'.format(*told(plain.read_both)),
        '',
        'With the main view alone (4:2:0) all four pixels have the average: {} °C off on average beside a black line, at most {}; a single dot on white'.format(
            *told(line.read_alone)),
        '{}, at most {}.'.format(*told(dot.read_alone)),
        '',
        'This page and its picture are made from the library by `docs/colour_error.py`, and the gate holds them to it. What H.264 loses on the way is not in them.',
        '',
        '![How far a reading is off over a rainbow bar, with the main view alone and with both views, and how far U and V are off within the bounds](colour_error.svg)',
        '']


def proved_words(farthest):
    most = chroma_off(farthest.pixels, farthest.filled, 0, 0)[0][0]
    if most != max(average_of([0, 255, 255, 255]), 255 - average_of([255, 0, 0, 0])):
        stop('what the page says of the main view alone does not hold')
    return [
        '## What is proved',
        '',
        'Of every picture that from RGBA makes, by either edge rule ([EDGE.md](EDGE.md)), padding counted among the samples, and of U and V alike (R55, R56; the',
        'laws are on the page [how far a colour can be off](proved/off.md), the definitions in [crates/off/specs](../crates/off/specs/Off.antt)):',
        '',
        '- What the filter answers for an even-even sample lies between 30 below and 31 above the sample before averaging.',
        '- Where the filter is applied, it lies between 1 below and 2 above. No smaller numbers would do, here or there: the last table has colours that reach each.',
        '- The other three samples of a block come back as they were, and so does every sample of a block of one colour: there only the conversion\'s own rounding',
        '  is left.',
        '- The forward clamp (R31) never acts, on any RGB triple: no colour is cut before it is averaged.',
        '',
        'Where the numbers come from: four times the average is the sum of the four, but for rounding, which leaves it between 1 below and 2 above. So the average',
        'undone is the sample, but for as much. It is kept where undoing it changes it by at most 29, and then it is up to 29 further away.',
        '',
        'Y is not averaged. So red, green and blue are off by at most so much from the same colour with no average, which is proved too:',
        '',
        row_of('', 'U and V', 'red', 'green', 'blue'),
        '|---|---|---|---|---|',
        *(row_of(words, f'-{bounds[0]} to {bounds[1]}', *(f'{low} to {high}' for low, high in channel_bounds(*bounds)))
          for words, bounds in (('anywhere', ANYWHERE), ('where the filter is applied to U and V', APPLIED))),
        '',
        f'With the main view alone a sample can be off by {most}: the U of a yellow pixel among three blue ones.',
        '']


def reading_rows(seen, reach):
    """A row for each drawing: how far readings of both bars are off, with the main view alone and with both views."""
    rows = []
    for key, drawn in DRAWINGS.items():
        found = [told(steps) for name in BARS for steps in (seen[name, key].read_alone, seen[name, key].read_both)]
        rows.append(row_of(drawn.words, *(f'{average}, at most {most}' for average, most in found)))
    for words, bounds in (('whatever is drawn around it', ANYWHERE), ('the same, and the filter applied to U and V', APPLIED)):
        rows.append(row_of(words, *(cell for name in BARS for cell in ('', f'at most {degrees(max(reach_of(reach[name, bounds])))}'))))
    return rows


def turned_words(seen):
    """Of blue-white-red: a cold step that is read as a warm one, the farthest off; and how many are read on the other side."""
    bar, one, rainbow = BARS['blue-white-red'], seen['blue-white-red', 'farther'], seen['rainbow', 'farther']
    step = max(range(STEPS), key=lambda step: abs(one.read_both[step]))
    read, other, (u, v) = step + one.read_both[step], bar.index(inwards(bar, 64)[step]), one.off_both[step]
    if not step < 127 < 128 < read or any(one.applied[step]) or not u < 0 < v:
        stop('what the page says of a cold step that is read as a warm one does not hold')
    drawn, beside, shown = map(hexadecimal, (bar[step], bar[other], one.both[step]))
    return [
        f'On blue-white-red a cold pixel can be read as a warm one: `{drawn}`, {temperature(step)}, left of `{beside}`, {temperature(other)}, is shown with both',
        f'views as `{shown}`, which is nearest to {temperature(read)}. Its U is {-u} below and its V {v} above; averages as near are kept. At the edge of a field 20 °C away',
        f'{wrong_side(one.read_both)} of {STEPS} steps are read on the other side of 0 °C, and {wrong_side(one.read_alone)} with the main view alone;'
        f' on the rainbow {wrong_side(rainbow.read_both)}, and {wrong_side(rainbow.read_alone)} with the main view alone.']


def reading_words(seen, reach):
    near, farther, line, dotted = (seen['rainbow', key] for key in ('near', 'farther', 'line', 'dotted'))
    (at_dots, _), (at_line, _), (at_dots_both, _), (at_line_both, _) = map(told, (dotted.read_alone, line.read_alone, dotted.read_both, line.read_both))
    return [
        '## What it means for a reading',
        '',
        f'Two bars of {STEPS} steps, both read from -40 to +40 °C, so that a step is {degrees(1)} °C; a bar over 20 °C has a quarter of each number here. The',
        'rainbow is the one that plotting programs call jet: with k = 3, 2 and 1 for red, green and blue, step n has 383 - |4n - 255k|, cut to 0..255. Blue-white-red',
        '(bwr) is common for anomalies: red is 2n and blue 510 - 2n, both at most 255, and green is the smaller of 2n and 510 - 2n. Read is the step whose colour is',
        'nearest to the one that is shown: of the least sum of the squared differences of red, green and blue, and of several such the lowest.',
        '',
        f'How far the {STEPS} steps are off in °C, on average and at most:',
        '',
        row_of('read', *(f'{name}, {view}' for name in BARS for view in ('4:2:0', '4:4:4'))),
        '|---|---|---|---|---|',
        *reading_rows(seen, reach),
        '',
        'In a block of one colour the average is the colour: that row is the conversion\'s own rounding, and what the others have beyond it comes of the averaging. Each',
        'step has a 2x2 block of its own and is read at its even-even pixel, but in the bar itself, where every second step is in an odd column, and in the last dots. A',
        'black line is the lower row of the block (a white one gives the same: U and V of both are 128), a dotted one the lower right pixel, a field the right column.',
        'The last row of a map of odd height is read as beside a black line by the Rust\'s edge rule, whose padding is 128 too, and as in a block of one colour where',
        'the edge is filled.',
        '',
        'The last two rows of the table are of every U and V within the proved bounds, beside the step\'s own Y, each shown by the library: no drawing is read worse.',
        '',
        'With both views the largest contrast is not what costs most on the rainbow, since the filter is applied to it, but a middling one, which is kept:',
        '',
        '- At the edge of a field 5 °C away the filter is applied to no step of either bar. Both views show there what the main view shows,',
        f'  {told(near.read_both)[0]} °C off on average; 20 °C away it is {told(farther.read_both)[0]}.',
        f'- A dotted line costs less than a whole one with the main view alone, {at_dots} and {at_line} °C, and more with both views, {at_dots_both} and {at_line_both}:',
        '  it moves the average less, which is then kept more often. On the rainbow it is then the farthest off of all drawings here, and U and V reach both bounds:',
        '  the picture\'s last row has them.',
        '',
        *turned_words(seen),
        '']


def byte_words(seen):
    """How far U, V and a channel of the rainbow are off, and to how many steps the filter was applied."""
    rows = []
    for key, drawn in DRAWINGS.items():
        one = seen['rainbow', key]
        chroma = [ends(numbers) for pairs_off in (one.off_alone, one.off_both) for numbers in zip(*pairs_off)]
        channel = [max(map(off, BARS['rainbow'], shown)) for shown in (one.alone, one.both)]
        rows.append(row_of(drawn.words, *chroma, *channel, *map(sum, zip(*one.applied))))
    return [
        'The same in bytes, for the rainbow. "Channel" is the largest difference of red, green or blue from what was drawn; the last columns say to how many steps',
        'the filter was applied.',
        '',
        row_of('read', 'U, 4:2:0', 'V, 4:2:0', 'U, 4:4:4', 'V, 4:4:4', 'channel, 4:2:0', 'channel, 4:4:4', 'applied to U', 'to V'),
        '|---|---|---|---|---|---:|---:|---:|---:|',
        *rows,
        '']


def classes_words(bar):
    """Of a bar in 16 classes, each with the colour of a step in its middle."""
    found, (most, _) = measured('classes', [bar[step // 16 * 16 + 8] for step in range(STEPS)], DEGREES)
    alone = max(at_most for _, at_most, _, _ in found.values())
    if any(found[key][3] for key in ('plain', 'bar', 'farther', 'line', 'dot', 'elsewhere')) or round(most / DEGREES) != 16:
        stop('what the page says of a bar in classes does not hold')
    return [f'- Who draws the map can also take fewer colours. The rainbow in 16 classes of {16 * DEGREES:.2f} °C is read right with both views beside a black line, as a dot, and at',
            f'  the edge of a field four classes away; whatever is drawn, it is at most one class off. With the main view alone it is up to {alone:.2f} °C off.']


def advice(seen, reach):
    most, other_most = (told(seen[name, 'plain'].read_both)[1] for name in BARS)
    dot = told(seen['rainbow', 'dot'].read_alone)[0]
    applied, other_applied = (degrees(max(reach_of(reach[name, APPLIED]))) for name in BARS)
    return [
        '## How to read well',
        '',
        f'- Read with both views. With the main view alone a dot on white is {dot} °C off on average, wherever in its block it is.',
        '- Read at a pixel of an odd row or an odd column, counted from 0. With both views it is off by rounding alone: at most',
        f'  {most} °C on the rainbow, {other_most} on the other.',
        '- Or read where the 2x2 block, from an even row and an even column on, has one colour. There the main view alone is as good. Who draws the map can see to',
        '  it: fields and lines that start at even rows and columns and are an even number of pixels wide share no block.',
        '- At an even-even pixel ask whether the filter was applied: of a rectangle of that one pixel, `filtered_u` and `filtered_v` of `haythaw_to_rgba`,',
        f'  `to_rgba_counted` in [bind/rust](../bind/rust/README.md). If both are 1, a reading is at most {applied} °C off on the rainbow, and {other_applied} on the',
        '  other. A 0 says less: the block may have one colour, or an average of several was kept.',
        *classes_words(BARS['rainbow']),
        '',
        'A bar of your own: `docs/own_bar.py FILE LOWEST HIGHEST` prints the table of readings for it; FILE has red, green and blue of its 256 steps, a line each.',
        '']


def blocks_of(k):
    """Blocks whose U, or whose V, are those of the smallest cases."""
    return [cut([HAVING[k][n] for n in (sample, *others)], 2) for sample, others, _ in CASES]


def case_row(k, way, sample, others, answer):
    """A smallest case in U, or in V: its colours, and what the library makes of them."""
    a, applied, away = way.filled.planes[1 + k][0][0], bool(way.filled.applied[0][0][k]), chroma_off(way.pixels, way.filled, 0, 0)[1][k]
    first, *rest = (pixel for row in way.pixels for pixel in row)
    if [forward_of(*pixel)[1 + k] for pixel in (first, *rest)] != [sample, *others] or away != answer - sample or applied != applied_of(a, sum(others)) \
            or away not in ((-APPLIED[0], APPLIED[1]) if applied else (-ANYWHERE[0], ANYWHERE[1])):
        stop(f'what the page says of the sample {sample} of {"UV"[k]} does not hold')
    return row_of('UV'[k], sample, ', '.join(map(str, others)), a, 'applied' if applied else 'kept', answer, f'{abs(away)} {"below" if away < 0 else "above"}',
                  f'`{hexadecimal(first)}`', ', '.join(f'`{hexadecimal(pixel)}`' for pixel in rest), f'`{hexadecimal(way.filled.both[0][0])}`')


def page(seen, reach, cases, farthest):
    return '\n'.join([
        *head_words(seen, reach), *proved_words(farthest), *reading_words(seen, reach), *byte_words(seen), *advice(seen, reach),
        '## Colours that reach the bounds',
        '',
        'The smallest cases, each as a picture of 2x2 pixels through the library: the even-even pixel, and the other three in the order right, below, diagonal.',
        '',
        row_of('', 'sample', 'others', 'average', '', 'answer', 'off', 'drawn', 'others', 'shown'),
        '|---|---:|---|---:|---|---:|---|---|---|---|',
        *(case_row(k, way, *case) for k in (0, 1) for way, case in zip(cut(cases, len(CASES))[k], CASES)),
        '',
        'Which colours the filter is applied to is on a page of its own, [FILTER.md](FILTER.md).',
        ''])


def main():
    checking, drawings = asked(__doc__), {**DRAWINGS, **LIKE_OTHERS}
    hold_bounds()
    keys, blocks = list(product(BARS, drawings)), [*(block for k in (0, 1) for block in blocks_of(k)), FARTHEST]
    ways = ways_of([*(drawings[key].rows(BARS[name]) for name, key in keys), *blocks])
    for way in ways:
        hold_drawing(way)
    seen, by_rust = ({(name, key): seen_in(name, way.pixels, getattr(way, rule), drawings[key].place) for (name, key), way in zip(keys, ways)}
                     for rule in ('filled', 'rust'))
    reach = reaches(BARS)
    for one in (seen, by_rust):
        hold_reaches(one, reach)
    hold_words(seen, by_rust)
    *cases, farthest = ways[len(keys):]
    keep({'COLOUR_ERROR.md': page(seen, reach, cases, farthest), 'colour_error.svg': chart(seen, reach)}, checking)
    if checking:
        print(f'colour_error: docs/COLOUR_ERROR.md and docs/colour_error.svg say of {len(ways)} drawings what the library answers')


main()
