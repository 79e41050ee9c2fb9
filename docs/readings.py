"""Readings off a colour bar, for docs/colour_error.py and docs/own_bar.py: two bars of 256 steps that are read as temperatures, drawings of a bar, what is
read of each drawing once it went through the library (docs/maps.py), and how far off a reading can be within the proved bounds (docs/colour_error.c)."""
from collections import namedtuple
from functools import cache
from itertools import product

from drawings import (applied_of, average_of, blue_product, clamp, filtered_of, forward_of, green_u_product, green_v_product, left_out, red_product,
                      reverse_of)
from maps import block_at, cut, ways_of
from through import stop, through_library

# A bar has 256 steps, read as temperatures. The proved bounds: how far below and above a sample is off, at most, and where the filter was applied.
STEPS, COLDEST, WARMEST = 256, -40, 40
DEGREES = (WARMEST - COLDEST) / (STEPS - 1)
ANYWHERE, APPLIED = (30, 31), (1, 2)

BARS = {'rainbow': [tuple(clamp(383 - abs(4 * step - 255 * k)) for k in (3, 2, 1)) for step in range(STEPS)],
        'blue-white-red': [(min(255, 2 * step), min(2 * step, 510 - 2 * step), min(255, 510 - 2 * step)) for step in range(STEPS)]}
BLACK, WHITE = [(0, 0, 0)] * STEPS, [(255, 255, 255)] * STEPS

# What is drawn, in words; its rows of pixels, of a bar; and where each step is read.
Drawing = namedtuple('Drawing', 'words rows place')


def pairs(left, right):
    """A row of pixels, two for each step."""
    return [pixel for two in zip(left, right) for pixel in two]


def inwards(bar, away):
    """For each step the colour of the one that is so many steps nearer to the other end."""
    return [bar[step + away if step < STEPS // 2 else step - away] for step in range(STEPS)]


def even_even(step):
    return 0, 2 * step


def fields(away):
    return Drawing(f'at the edge of a field {away * DEGREES:.0f} °C away', lambda bar: [pairs(bar, inwards(bar, away))] * 2, even_even)


FIELDS = {'near': 16, 'far': 32, 'farther': 64}    # how many steps away
DRAWINGS = {
    'plain': Drawing('in a block of one colour', lambda bar: [pairs(bar, bar)] * 2, even_even),
    'bar': Drawing('in the bar itself, a pixel a step', lambda bar: [bar] * 2, lambda step: (0, step)),
    **{key: fields(away) for key, away in FIELDS.items()},
    'line': Drawing('beside a black line', lambda bar: [pairs(bar, bar), pairs(BLACK, BLACK)], even_even),
    'dotted': Drawing('beside a dotted black line', lambda bar: [pairs(bar, bar), pairs(bar, BLACK)], even_even),
    'dot': Drawing('a dot on white, in an even row and an even column', lambda bar: [pairs(bar, WHITE), pairs(WHITE, WHITE)], even_even),
    'elsewhere': Drawing('a dot on white, in an odd row and an odd column', lambda bar: [pairs(WHITE, WHITE), pairs(WHITE, bar)],
                         lambda step: (1, 2 * step + 1))}
WORST = 'dotted'
# Drawings that say the same as others do: a white line, and a last row whose blocks are half padding.
LIKE_OTHERS = {'white': Drawing('beside a white line', lambda bar: [pairs(bar, bar), pairs(WHITE, WHITE)], even_even),
               'last': Drawing('in the last row of an odd height', lambda bar: [pairs(bar, bar)], even_even)}


# --- What is read.

@cache
def squares_of(name):
    """Of a bar, of each channel and each byte: the squared differences from all steps."""
    return [[[(byte - colour[k]) ** 2 for colour in BARS[name]] for byte in range(256)] for k in range(3)]


@cache
def reading(name, pixel):
    """The step of a bar whose colour is nearest to the pixel's: of the least sum of squared differences, and of several such the lowest."""
    sums = list(map(sum, zip(*(squares[byte] for squares, byte in zip(squares_of(name), pixel)))))
    return sums.index(min(sums))


def value_of(name, step):
    """What is read of a step's own colour: the step, or in a bar of fewer colours the lowest that has it."""
    return reading(name, BARS[name][step])


# What is seen of a drawing, for each step: the pixels that are shown with the main view alone and with both, the steps by which a reading of them is
# off, by how much their U and V are off, and whether the filter was applied to U, and to V.
Seen = namedtuple('Seen', 'alone both read_alone read_both off_alone off_both applied')


def chroma_off(pixels, made, r, c):
    """How far U and V are off from the sample before averaging, with the main view alone and with both."""
    alone, both = [], []
    for plane, sample in zip(made.planes[1:], forward_of(*pixels[r][c])[1:]):
        a, *others = block_at(plane, r // 2 * 2, c // 2 * 2)
        alone.append(a - sample)
        both.append((plane[r][c] if left_out(r, c) else filtered_of(a, sum(others))) - sample)
    return alone, both


def seen_in(name, pixels, made, place):
    """What is seen of a drawing of a bar, by what one of both calls makes of it."""
    places = [place(step) for step in range(STEPS)]
    shown = [[part[r][c] for r, c in places] for part in (made.alone, made.both)]
    read = [[reading(name, pixel) - value_of(name, step) for step, pixel in enumerate(row)] for row in shown]
    applied = [(0, 0) if left_out(r, c) else made.applied[r // 2][c // 2] for r, c in places]
    return Seen(*shown, *read, *zip(*(chroma_off(pixels, made, r, c) for r, c in places)), applied)


def own(pixel):
    """What is left of a colour by the conversion there and back alone."""
    return reverse_of(*forward_of(*pixel))


def hold_drawing(way):
    """What holds of every drawing: by both edge rules the pixels of odd rows and odd columns are their own with both views, and U and V of the others
    are off within the bounds; and with an even height both rules show it alike."""
    for r, c in product(range(len(way.pixels)), range(len(way.pixels[0]))):
        for made in (way.rust, way.filled):
            if left_out(r, c) and made.both[r][c] != own(way.pixels[r][c]):
                stop('what the page says of odd rows and odd columns does not hold')
            for away, applied in zip(chroma_off(way.pixels, made, r, c)[1], made.applied[r // 2][c // 2]):
                below, above = APPLIED if applied else ANYWHERE
                if not -below <= away <= above:
                    stop('what the page says of the bounds does not hold')
    if len(way.pixels) % 2 == 0 and way.rust[1:] != way.filled[1:]:
        stop('what the page says of both edge rules does not hold')


# --- How far a reading can be off.

def read_within(name, step, bounds):
    """All that can be read of a step whose U and V are off within the bounds."""
    y, *chroma = forward_of(*BARS[name][step])
    below, above = bounds
    return {reading(name, reverse_of(y, u, v)) for u, v in product(*(range(max(0, n - below), min(255, n + above) + 1) for n in chroma))}


def reach_in(name, bounds, line):
    """How far off the lowest and the highest reading of each step are, as a line of the library's answer says; worked out again at these two, and at
    some steps whole."""
    found = []
    for step, (*low_off, low, high_u, high_v, high) in enumerate(cut(line, 6)):
        y, u, v = forward_of(*BARS[name][step])
        for (i, j), read in ((low_off, low), ((high_u, high_v), high)):
            if not all(-bounds[0] <= d <= bounds[1] for d in (i, j)) or reading(name, reverse_of(y, u + i, v + j)) != read:
                stop(f'the library and the rules differ at step {step} of the bar {name}')
        if step % 85 == 0:
            every = read_within(name, step, bounds)
            if (low, high) != (min(every), max(every)):
                stop(f'the library and the rules differ in how far step {step} of the bar {name} can be off')
        found.append((low - value_of(name, step), high - value_of(name, step)))
    return found


def reaches(names):
    """Of each bar and both bounds: how far off the lowest and the highest reading are, for each step. The library showed every chroma in the bounds."""
    wanted = list(product(names, (ANYWHERE, APPLIED)))
    said = through_library('colour_error', [[*bounds, *(byte for colour in BARS[name] for byte in colour)] for name, bounds in wanted])
    if [len(line) for line in said] != [6 * STEPS] * len(wanted):
        stop('bars were sent, each by two bounds, and something else came back')
    return {(name, bounds): reach_in(name, bounds, line) for (name, bounds), line in zip(wanted, said)}


def hold_reaches(seen, reach):
    """Every reading with both views is within what its bounds allow."""
    for (name, _), one in seen.items():
        for step, (applied, read) in enumerate(zip(one.applied, one.read_both)):
            low, high = reach[name, APPLIED if all(applied) else ANYWHERE][step]
            if not low <= read <= high:
                stop(f'a reading of step {step} of the bar {name} is off by more than the bounds allow')


# --- The bounds, worked out again over all samples.

def chroma_bounds():
    """The least and the most by which the filter's answer is off from the sample, over every sample and every sum of the other three; anywhere, and
    where it was applied."""
    anywhere, applied = set(), set()
    for sample, s in product(range(256), range(3 * 255 + 1)):
        a = average_of([sample, s])
        anywhere.add(filtered_of(a, s) - sample)
        if applied_of(a, s):
            applied.add(filtered_of(a, s) - sample)
    return [(-min(some), max(some)) for some in (anywhere, applied)]


def channel_bounds(below, above):
    """The same of red, green and blue, beside the same Y. What a product adds to a channel does not depend on Y, and a clamp makes no difference
    larger; what the products add to green depends on them by their sum alone."""
    offs = range(-below, above + 1)

    def least_and_most(shares):
        return min(shares), max(shares)

    def one(product_of):
        return least_and_most({product_of(i + d) // 256 - product_of(i) // 256 for i in range(256) for d in offs if 0 <= i + d < 256})

    rests = {(green_u_product(i) + green_v_product(j)) % 256 for i, j in product(range(256), range(256))}
    added = {green_u_product(128 + d) + green_v_product(128 + e) for d, e in product(offs, offs)}
    return one(red_product), least_and_most({(rest + more) // 256 for rest in rests for more in added}), one(blue_product)


def hold_bounds():
    if chroma_bounds() != [ANYWHERE, APPLIED]:
        stop('the proved bounds are not those that come out')
    if [channel_bounds(*bounds) for bounds in (ANYWHERE, APPLIED)] != [((-48, 49), (-21, 20), (-56, 58)), ((-2, 4), (-2, 1), (-2, 4))]:
        stop('the bounds of red, green and blue are not those that come out')
    corners = [forward_of(*corner) for corner in product((0, 255), repeat=3)]
    if any(clamp(sample) != sample for corner in corners for sample in corner):
        stop('the forward clamp acts')


# --- What is told of the readings.

NAMES = {'alone': '4:2:0, the main view alone', 'both': '4:4:4, both views'}


def degrees(steps):
    return f'{steps * DEGREES:.2f}'


def temperature(step):
    return f'{COLDEST + step * DEGREES:+.1f} °C'


def told(steps):
    """How far readings are off, on average and at most, in degrees."""
    sizes = [abs(step) for step in steps]
    return degrees(sum(sizes) / len(sizes)), degrees(max(sizes))


def ends(numbers):
    return f'{min(numbers)} to {max(numbers)}' if any(numbers) else '0'


def reach_of(steps):
    """How far too cold and how far too warm a reading can be."""
    return -min(low for low, _ in steps), max(high for _, high in steps)


def wrong_side(read):
    """How many steps are read on the other side of 0 °C."""
    return sum((step < STEPS // 2) != (step + away < STEPS // 2) for step, away in enumerate(read))


def measured(name, bar, step):
    """Of one more bar, whose steps are so much apart: for each drawing how far a reading is off, on average and at most, with the main view alone and
    with both; then the most that it can be off with both, anywhere, and where the filter was applied to U and V."""
    BARS[name], found = bar, {}
    for (key, drawing), way in zip(DRAWINGS.items(), ways_of([drawing.rows(bar) for drawing in DRAWINGS.values()])):
        hold_drawing(way)
        seen = seen_in(name, way.pixels, way.filled, drawing.place)
        sizes = [list(map(abs, read)) for read in (seen.read_alone, seen.read_both)]
        found[key] = [number for some in sizes for number in (sum(some) / STEPS * step, max(some) * step)]
    reach = reaches([name])
    del BARS[name]
    return found, [max(reach_of(reach[name, bounds])) * step for bounds in (ANYWHERE, APPLIED)]
