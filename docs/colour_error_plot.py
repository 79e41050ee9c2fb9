"""The picture of docs/colour_error.py: for some drawings, over the rainbow, how far a reading is off, with the main view alone and with both views; and
how far U and V are off in the drawing that is read worst."""
from collections import namedtuple
from itertools import groupby

from drawings import BLUE, GREY, INK, ORANGE, box, hexadecimal, lines, path, picture, text, used
from readings import ANYWHERE, BARS, COLDEST, DEGREES, DRAWINGS, NAMES, STEPS, WARMEST, WORST, told

WIDTH, THICK, PANELS = 1.5, 11, (62, 506)
PLOTTED = {'bar': (1, 56), 'far': (20, 104), 'dotted': (20, 104), 'dot': (20, 104)}     # the most that is drawn, in degrees, and how high
Panel = namedtuple('Panel', 'x y high most')


def at(panel, step):
    return panel.x + (step + 0.5) * WIDTH


def up(panel, value):
    return panel.y + panel.high / 2 * (1 - value / panel.most)


def way_over(panel, values):
    """Through the values of the steps, of a straight run its two ends alone."""
    kept = [step for step, value in enumerate(values) if not 0 < step < len(values) - 1 or 2 * value != values[step - 1] + values[step + 1]]
    return 'L'.join(f'{at(panel, step):g} {up(panel, values[step]):.5g}' for step in kept)


def strip(colours):
    """A line for each step, wide enough to leave no seam."""
    drawn = ''.join(f'<path d="M{step} 0v{THICK}" stroke="{hexadecimal(colour)}"/>' for step, colour in enumerate(colours))
    return f'<g transform="scale({WIDTH} 1) translate(0.5)" stroke-width="1.4" shape-rendering="crispEdges">{drawn}</g>'


def signed(number):
    return f'{number:+g}'.replace('-', '−') if number else '0'


def axes(panel, marks, unit=''):
    out = [path(f'M{panel.x:g} {up(panel, mark):g}h{STEPS * WIDTH:g}', INK if mark == 0 else '#cccccc', 0.8)
           + text(panel.x - 5, up(panel, mark) + 3.5, signed(mark) + unit * (mark > 0), 10, 'end') for mark in marks]
    return out + [path(f'M{panel.x:g} {panel.y:g}v{panel.high:g}', GREY, 0.8)]


def below(panel, shown=None):
    """Below a panel: the bar as it is drawn and as it is shown, and the temperatures."""
    y, out = panel.y + panel.high + 5, []
    for name, piece in (('drawn', used('bar', 0, 0)), ('shown', shown and strip(shown))):
        if piece:
            out += [f'<g transform="translate({panel.x:g} {y:g})">{piece}</g>', text(panel.x - 5, y + 9, name, 9.5, 'end')]
            y += THICK
    for temperature in range(COLDEST, WARMEST + 1, 20):
        x = at(panel, (temperature - COLDEST) / DEGREES)
        out.append(path(f'M{x:g} {y:g}v3', INK, 0.8) + text(x, y + 13, signed(temperature) + ' °C', 9.5, 'middle'))
    return out


def rug(panel, applied):
    """At the foot of a panel: where the filter was applied to U, and to V."""
    out = []
    for k, y in enumerate((panel.y + panel.high - 12, panel.y + panel.high - 4)):
        runs = [list(run) for was, run in groupby(range(STEPS), lambda step: applied[step][k]) if was]
        out += [path(''.join(f'M{at(panel, run[0]) - WIDTH / 2:g} {y:g}h{len(run) * WIDTH:g}' for run in runs), INK, 2.6)] if runs else []
        out.append(text(panel.x + STEPS * WIDTH + 3, y + 3, 'UV'[k], 8.5))
    return out


def band(panel, reach):
    low, high = zip(*reach)
    return path(f'M{way_over(panel, high)}L' + 'L'.join(reversed(way_over(panel, low).split('L'))) + 'z', GREY, 0.6, '#00000012', stroke_dasharray='2 2')


def panel_drawn(panel, name, seen, part, reach):
    """How far readings are off over the bar, and the colours that they are of; and the same in words."""
    one, rounding = seen['rainbow', name], seen['rainbow', 'plain'].read_both
    read = getattr(one, 'read_' + part)
    average, most = told(read)
    words = f'{NAMES[part]}: {average} °C off on average, at most {most}'
    out = [text(panel.x, panel.y - 7, words, 11.5), *axes(panel, (-panel.most, 0, panel.most), ' °C')]
    if name != 'bar' and part == 'both':
        out += [band(panel, [(low * DEGREES, high * DEGREES) for low, high in reach]), *rug(panel, one.applied)]
    way, zero = way_over(panel, [step * DEGREES for step in read]), f'{up(panel, 0):g}'
    out.append(path(f'M{at(panel, 0):g} {zero}L{way}V{zero}', BLUE, 1.6, BLUE + '38', stroke_linejoin='round'))
    if name == 'bar':
        out.append(path('M' + way_over(panel, [step * DEGREES for step in rounding]), ORANGE, 1.1, stroke_linejoin='round'))
    return out + below(panel, getattr(one, part)), words + '.'


def block_drawn(x, y, drawing, bar, step=190):
    """The block that is read, and where in it."""
    rows, (r, c) = drawing.rows(bar), drawing.place(step)
    out = [box(x + j * 13, y + i * 13, 13, 13, hexadecimal(rows[i][c // 2 * 2 + j]), INK, 0.8) for i in (0, 1) for j in (0, 1)]
    return out + [f'<circle cx="{x + 6.5 + c % 2 * 13:g}" cy="{y + 6.5 + r % 2 * 13:g}" r="3.2" fill="white" stroke="{INK}"/>']


def row_drawn(y, name, seen, reach):
    drawing, (most, high) = DRAWINGS[name], PLOTTED[name]
    words = drawing.words[0].upper() + drawing.words[1:]
    out, said = [*block_drawn(12, y - 15, drawing, BARS['rainbow']), text(48, y, words, 14, font_weight='bold')], [words + '.']
    for x, part in zip(PANELS, ('alone', 'both')):
        drawn, sentence = panel_drawn(Panel(x, y + 30, high, most), name, seen, part, reach)
        out, said = out + drawn, said + [sentence]
    return out, ' '.join(said), y + 30 + high + 74


def chroma_drawn(panel, k, one):
    """How far U, or V, is off over the bar, with the proved bounds and the steps at which the filter was applied; and the same in words."""
    values, applied = [pair[k] for pair in one.off_both], [step for step, pair in enumerate(one.applied) if pair[k]]
    words = f'{"UV"[k]}, both views: {signed(min(values))} to {signed(max(values))}; the filter was applied at {len(applied)} of {STEPS} steps'
    out = [text(panel.x, panel.y - 7, words, 11.5), path(f'M{panel.x:g} {panel.y:g}v{panel.high:g}', GREY, 0.8)]
    for bound, lower, dashes in ((31, 3.5, '9 0'), (2, 0.5, '3 2'), (-1, 8, '3 2'), (-30, 3.5, '9 0')):
        out.append(path(f'M{panel.x:g} {up(panel, bound):g}h{STEPS * WIDTH:g}', INK, 1, stroke_dasharray=dashes)
                   + text(panel.x - 5, up(panel, bound) + lower, signed(bound), 10, 'end'))
    points = [f'{at(panel, step):g} {up(panel, value):.5g}' for step, value in enumerate(values)]
    kept = [list(run) for was, run in groupby(range(STEPS), lambda step: step in applied) if not was]
    out.append(path(''.join('M' + 'L'.join(points[step] for step in run) for run in kept), BLUE, 1.8))
    out += ['<circle cx="{}" cy="{}" r="2.4" fill="{}" stroke="{}" stroke-width="0.7"/>'.format(*points[step].split(), ORANGE, INK) for step in applied]
    return out + below(panel), words + '.'


def chart(seen, reach):
    out, said, y = [], [], 132
    words = ['A rainbow bar of 256 steps from −40 to +40 °C; a step is read by the nearest colour of the bar. The thick line says how far the reading is off:',
             'above 0 too warm, below 0 too cold. Left the main view alone, right both views. The small square is the 2x2 block, the ring the pixel that is read.',
             'Grey, with dashed edges: no reading with both views is outside, whatever is drawn around the pixel. The bars below it: where the filter was applied',
             'to U, and to V. The first row has a scale of its own, and a thin line: the conversion’s own rounding, with nothing averaged.']
    for name in PLOTTED:
        drawn, sentence, y = row_drawn(y, name, seen, reach['rainbow', ANYWHERE])
        out, said = out + drawn, said + [sentence]
    title = f'How far U and V are off {DRAWINGS[WORST].words}, in steps of the sample'
    keys = 'Line: the average is kept. Dots: the filter was applied. Whole lines: the bounds, −30 and +31. Dashed: the bounds where it was applied, −1 and +2.'
    out += [*block_drawn(12, y - 15, DRAWINGS[WORST], BARS['rainbow']), text(48, y, title, 14, font_weight='bold'), text(48, y + 17, keys, 11.5)]
    for k, x in enumerate(PANELS):
        drawn, sentence = chroma_drawn(Panel(x, y + 46, 122, 38), k, seen['rainbow', WORST])
        out, said = out + drawn, said + [sentence]
    return picture(y + 218, 'How far a colour can be off', ' '.join([*words, *said[:-2], title + '.', keys, *said[-2:]]),
                   [f'<defs><g id="bar">{strip(BARS["rainbow"])}</g></defs>', lines(12, 50, words, 12, 17), *out])
