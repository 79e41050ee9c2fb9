#!/usr/bin/env python3
"""Writes docs/WIDTH_RULE.md and docs/width_rule.svg: how colours go wrong where a server and a client round the width of a surface otherwise, and which
call to use. Every map in them went through the library, and what it answered is held to the rules' own formulas (docs/width_views.py).

  docs/width_rule.py            writes both
  docs/width_rule.py --check    says whether both are what the library says; status 1 if they are not

It needs a C compiler (cc) and makes the library first where that is not made (oracle/library.sh).
"""
import os
import re

from drawings import forward_of, from_v2, hexadecimal, left_out, round_up, to_v2
from maps import block_at, map_of, mean, row_of
from through import ROOT, asked, keep, stop
from width_rule_plot import chart
from width_views import (CROPPED, HANDED, PADDED, PADDING, PARTLY, RIGHT, RULES, WHOLE, WRONG, Reading, handed_wide, part_of, right_of, sent_through,
                         verdict_of, view_wide_of, wide_of)

# Contours, a grid, text, and below a time axis with a tick for a missing file.
TILE = map_of("""
...........-.......................-............
...........bbbbbbbb.............................
.........bb-.......bb..............-...rrr.r.r..
.......bb............bb..................r.r.r..
......b....-...........b...........-...rrr.rrr..
....bb......ggggg.......b..............r.....r..
....b....ggg.....gg.....b..........-...rrr...r..
...b....g..........g.....b......................
-.b.-.-g-.---.-.-.-.g.-.-b-.-.-.-.---.-.-.-.-.-.
..b...g.....rrrr....g....b......................
.b....g...rr#.#.r....g...b.........-............
.b....g...r.#.#.r....g...b......................
.b...g....r-###.r....g...b.........-............
.b...g....r.#.#.r...g....b..............b..bbb..
.b...g....r-#.#rr...g....b.........-...bb..b.b..
.b....g....rrrr.....g...b...............b..bbb..
.b....g....-.......g....b..........-....b..b.b..
.b.....g..........g....b...............bbb.bbb..
..b.....gg.-...ggg....b............-............
..b.......ggggg......bb.........................
-.-b-.-.-.---.-.-.-.b.-.-.-.-.-.-.---.-.-.-.-.-.
....bb............bb............................
......bb...-....bb.................-............
........bbbbbbbb................................
................................................
................................................
..............................m.................
..#...........#...........#...m.......#.........
..#...#...#...#...#...#...#...m...#...#...#...#.
..#...#...#...#...#...#...#...m...#...#...#...#.
.##############################################.
................................................
""")
WIDTHS = [16, 32, 48, 64, 80, 96, 1366, 1680, 1920]
# A field of a colour in the first 16 columns of a white surface.
FIELDS = {'red': 'r', 'orange': 'o', 'yellow': 'y', 'green': 'g', 'cyan': 'c', 'blue': 'b', 'magenta': 'm', 'black': '#', 'grey': '-'}
# Widths of screens: by either rule the same, and not.
SAFE, UNSAFE = (640, 800, 1024, 1280, 1366, 1440, 1600, 1920, 2560, 3840), (720, 1360, 1680, 3440)
# How a map is read, beside the right way: where the server's W is greater than the reader's, where the view ends too early, where W is smaller.
OTHERWISE = {(32, Reading(16, CROPPED)): 'server 32, view cropped, 16 rule', (32, Reading(32, CROPPED)): 'server 32, view cropped, 32 rule',
             (16, Reading(32, WHOLE)): 'server 16, 32 rule'}


def tiled(width):
    """The tile, again and again to the right."""
    return [[row[c % len(row)] for c in range(width)] for row in TILE]


def field(letter):
    return map_of(' '.join([letter * 16 + '.' * 32] * 16))


# --- What the page says, held to what was shown.

def differ(width):
    return view_wide_of(16, width) != view_wide_of(32, width)


def hold_right(sent):
    """What is right: what is shown of the picture itself. A safe width has nothing else, but what a crop cuts off."""
    if not right_of(sent) == sent.by[32].shown[Reading(16, WHOLE)] == sent.by[16].shown[Reading(16, WHOLE)] == sent.itself:
        stop('what the page says of whole views does not hold')
    if not differ(len(sent.pixels[0])):
        shown = sent.by[16].shown
        if sent.by[16] != sent.by[32] or any(shown[Reading(16, handed)] != shown[Reading(32, handed)] for handed in (WHOLE, CROPPED)):
            stop('what the page says of widths that are safe does not hold')


def hold_handed(sents):
    """A crop costs something at those widths alone that are no multiples of 16, or whose W is wider by the server's rule. Padding costs nothing by the
    32 rule, and by the 16 rule something everywhere."""
    for width, sent in sents.items():
        if sent.by[32].shown[Reading(32, PADDED)] != right_of(sent) or any(verdict_of(sent, server, Reading(16, PADDED)) == RIGHT for server in RULES):
            stop('what the page says of padding does not hold')
        for server, reading in ((server, Reading(server, CROPPED)) for server in RULES):
            whole = width == view_wide_of(server, width)
            if (verdict_of(sent, server, reading) == RIGHT) != whole:
                stop('what the page says of a crop does not hold')


def hold_otherwise(sent):
    """Where the rules differ: what is right and what is not, of what is read otherwise."""
    width, right, (late, partly, early) = len(sent.pixels[0]), right_of(sent), (sent.by[server].shown[reading] for server, reading in OTHERWISE)
    first, last, blue = slice(width - 16), slice(width - 16, None), slice(2, 3)
    if part_of(late, slice(None), blue) != part_of(right, slice(None), blue) or part_of(early, first, blue) != part_of(right, first, blue):
        stop('what the page says of blue does not hold')
    if part_of(partly, first) != part_of(right, first) or any(part_of(one, last) != part_of(sent.by[16].alone, last) for one in (partly, early)):
        stop('what the page says of the last 16 columns does not hold')
    hold_greys(sent.pixels, right, late, -16, range(0, width, 2))
    hold_greys(sent.pixels, right, early, 16, range(0, width - 16, 2))


def hold_greys(pixels, right, shown, away, columns):
    """A block of greys is right where the block that V is read of is of greys too, or is beyond the map's left edge."""
    def grey(r, c):
        return c < 0 or all(pixel[0] == pixel[1] == pixel[2] for pixel in block_at(pixels, r, c))

    for r, c in ((r, c) for r in range(0, len(pixels), 2) for c in columns):
        if grey(r, c) and grey(r, c + away) and block_at(shown, r, c) != block_at(right, r, c):
            stop('what the page says of greys does not hold')


def hold_places(width):
    """Where a reader by one rule finds V in a view by the other: 16 columns to the left or right, or in no sample of the map."""
    wide, wider = (view_wide_of(rule, width) for rule in RULES)
    for r, c in ((r, c) for r in (0, 1) for c in range(width) if left_out(r, c)):
        late, early = from_v2(*to_v2('V', r, c, wide), wider), from_v2(*to_v2('V', r, c, wider), wide)
        if late != ('V', r, c - 16) and not (c < 16 and late[0] == 'U' and late[2] >= width) or c < width - 16 and early != ('V', r, c + 16):
            stop('what the page says of where V is read does not hold')
        if any(from_v2(*to_v2('U', r, c, one), other) != ('U', r, c) for one, other in ((wide, wider), (wider, wide))):
            stop('what the page says of where U is read does not hold')


def hold_widths(widths):
    for width in widths:
        if differ(width) != (round_up(16, width) % 32 != 0) or differ(width) and view_wide_of(32, width) != view_wide_of(16, width) + 16:
            stop('what the page says of widths does not hold')
    if any(map(differ, SAFE)) or not all(map(differ, UNSAFE)):
        stop('what the page says of screens does not hold')


# --- The page.

def offs(pixels, shown):
    """Of red, green and blue: how far they are off, on average and at most."""
    every = [(a, b) for row, other in zip(pixels, shown) for a, b in zip(row, other)]
    sizes = [[abs(a[k] - b[k]) for a, b in every] for k in range(3)]
    return [(mean(some), max(some)) for some in sizes]


def told_of(sent):
    return lambda shown: ', '.join(f'{name} {average} ({most})' for name, (average, most) in zip(('red', 'green', 'blue'), offs(sent.pixels, shown)))


def width_rows(sents):
    rows = []
    for width, sent in sents.items():
        wide, wider = (sent.by[rule].views.width for rule in RULES)
        rows.append(row_of(width, round_up(16, width), wide, wider, 'no' if wide == wider else 'yes'))
    return rows


def off_rows(sents):
    rows = []
    for width, sent in sents.items():
        ways = {'right' if differ(width) else 'right, by either rule': right_of(sent)}
        if differ(width):
            ways.update({words: sent.by[server].shown[reading] for (server, reading), words in OTHERWISE.items()})
        rows += [row_of(width, words, *(f'{average}, at most {most}' for average, most in offs(sent.pixels, shown))) for words, shown in ways.items()]
    return rows


def field_row(name, sent):
    """Of a field of a colour: its V; what it is shown as; and what is shown of the white 16 columns to its right. The even-even pixel and the others."""
    shown, right = sent.by[32].shown[Reading(16, CROPPED)], right_of(sent)
    blocks = [block_at(shown, 4, 4), block_at(shown, 4, 20)]
    if any(len(set(others)) != 1 for _, *others in blocks) or block_at(right, 4, 20) != block_at(right, 4, 40) or block_at(shown, 4, 40) != block_at(right, 4, 40):
        stop(f'what the page says of a field of {name} does not hold')
    own = forward_of(*sent.pixels[4][4])[2]
    return row_of(name, f'`{hexadecimal(right[4][4])}`', own, *(f'`{hexadecimal(pixel)}`' for a, b, *_ in blocks for pixel in (b, a)))


def call_of(name):
    """A call as docs/width_rule.c has it, where it is compiled and run."""
    with open(os.path.join(ROOT, 'docs', 'width_rule.c'), encoding='utf-8') as file:
        found = re.search(re.escape(name) + r'\((?:[^();]|\([^()]*\))*\)', file.read().split('*/', 1)[1])
    return found[0] if found else stop(f'docs/width_rule.c has no call of {name}')


def listed(words):
    *most, last = map(str, words)
    return f'{", ".join(most)} and {last}'


def head_words():
    return [
        '# Why are colours wrong at some widths?',
        '',
        'The auxiliary view of AVC444v2 (V2) has U and V in the same rows: U from column 0 on, V from column W/2 of its Y plane and W/4 of its U and V planes (R68, R69',
        'of [RULES.md](RULES.md)). W is the width of the surface, rounded up, and the stream does not say to what. The Rust original rounds to 16; there is a server that',
        'rounds to 32. A surface 48 wide has W = 48 by the one rule and 64 by the other. A client that goes by another W than the server finds U where it is, and V 16',
        'columns of the picture off. So blue is right, and red and green are wrong: what is coloured has the red and green of something else, and its own stand 16',
        'columns beside it, as a ghost. Black, grey and white stay as they are, but where a ghost falls. The main view has no W: luma is always right, and so is one',
        'sample of U and V in each 2x2 block, the even-even one. That pixel is shown wrong all the same, since the reverse filter (R35) asks the other three.',
        '',
        'The way out: call the server\'s rule, and hand over views as wide as they were coded. Both are shown below. This page and its first picture are made from the',
        'library by `docs/width_rule.py`, and the gate holds them to it.',
        '',
        '![A map on a surface 48 wide as it is sent, and as it is shown by the 16 rule and by the 32 rule, from a server that rounds to 32 and from one that rounds to 16]'
        '(width_rule.svg)',
        '']


def rule_row(sent, server, handed):
    """Of a server, and of a view that is handed over: its width, and W by both rules and what comes of it."""
    width = len(sent.pixels[0])
    wide = handed_wide(handed, width, view_wide_of(server, width))
    said = [f'{wide_of(reader, width, wide)}: {verdict_of(sent, server, Reading(reader, handed))}' for reader in RULES]
    return row_of(server, view_wide_of(server, width), f'{wide}, {handed}', *said)


def crop_words(sent):
    return [
        '## The view has to be whole',
        '',
        'By the 16 rule W is the width of the view that the client hands over, rounded up to 16 (R67). By the 32 rule it is the width of the picture, rounded up to 32',
        '(R72). For a surface 48 wide:',
        '',
        row_of('server rounds to', 'width of its views', 'handed over', 'W by the 16 rule', 'W by the 32 rule'),
        '|---:|---:|---|---|---|',
        *(rule_row(sent, server, handed) for server in (32, 16) for handed in HANDED if (server, handed) != (16, CROPPED)),
        '',
        '![Rows of the auxiliary view of a surface 48 wide, by both rules: in the Y plane V starts at column 24 and at column 32](drawings/v2_width.svg)',
        '',
        'So a view that is handed over as it was coded, 64 wide, is read right by both rules. A decoder may crop it to the width of the surface: then the 16 rule takes 48',
        'for W. The 32 rule still finds V, but the view ends at column 48, before V does: in the last 16 columns of the picture nothing is taken from it, and they have the',
        'colours of the main view alone, one for each 2x2 block. Tell the decoder to leave the crop ([REAL_STREAM.md](REAL_STREAM.md) does); or, where its rows still',
        'have what was cropped, hand over the coded width as `view_width`, with the same planes and strides.',
        '',
        f'Nor may it be too wide by the 16 rule. A decoder\'s rows may have padding behind them: if its width counts as the view\'s ({PADDING} columns in the table), W is too',
        'great, and colours are wrong at every width of the tables below. By the 32 rule the width of the view says only which samples there are.',
        '']


def width_words(sents):
    return [
        '## At which widths',
        '',
        'The stride is the width rounded up to 16. Where it is a multiple of 32, both rules have the same W, and their calls write and read the same bytes: such a width is',
        'safe, whoever goes by which rule, with views that are whole or cropped. At all others one W is 16 more than the other, and V is 16 columns off, however wide the',
        'surface is.',
        '',
        row_of('surface', 'stride', 'W, 16 rule', 'W, 32 rule', 'do they differ?'),
        '|---:|---:|---:|---:|---|',
        *width_rows(sents),
        '',
        f'Of widths that screens have, {listed(SAFE)} are safe; {listed(UNSAFE)} are not. A window may have any width. From a server that does not round at all',
        'only a multiple of 16 is safe by the 16 rule, and a multiple of 32 by the 32 rule: 1366 is neither.',
        '',
        'How far red, green and blue are off from what was sent, on average and at most. The map is that of the picture, again and again to the right. "Server 32" rounds to',
        '32; a view that is cropped is as wide as the surface. Right is what a whole view from a server that rounds to 32 shows by either rule, and one from a server that',
        'rounds to 16 by the 16 rule: the picture itself. What is off there comes of rounding and of averages ([COLOUR_ERROR.md](COLOUR_ERROR.md)).',
        '',
        row_of('surface', 'read', 'red', 'green', 'blue'),
        '|---:|---|---|---|---|',
        *off_rows(sents),
        '',
        'Blue is off where the auxiliary view ends too early, in the last 16 columns. On a surface 16 wide these are all: there the 32 rule shows the main view alone, and',
        'the 16 rule finds no V in the auxiliary view, but 128 everywhere. At 1366, which is no multiple of 16, a crop costs the last columns their own colours, by',
        'both rules alike.',
        '']


def field_words(fields):
    distance = {name: abs(forward_of(*sent.pixels[0][0])[2] - 128) for name, sent in fields.items()}
    names = sorted((name for name in fields if distance[name]), key=lambda name: -distance[name])
    return [
        '## Which colours go wrong, and how',
        '',
        'A field of a colour has columns 0 to 15 of a surface 48 wide, and the rest is white. The server rounds to 32, the view is cropped and read by the 16 rule. Then V is',
        '128 in columns 0 to 15, as in greys, and in columns 16 to 31 the white has the V of the field. "Even-even" is the pixel of even row and even column of each block,',
        'whose own V is right and goes through the filter with three that are wrong.',
        '',
        row_of('field', 'right', 'its V', 'shown as', 'even-even', 'its ghost on white', 'even-even'),
        '|---|---|---:|---|---|---|---|',
        *(field_row(name, sent) for name, sent in fields.items()),
        '',
        f'What counts is how far V is from 128: from the most to the least, {listed(names)}.',
        '']


def telling_words():
    part, _, column = to_v2('V', 0, 47, 64)
    return [
        '## Which rule does a server have?',
        '',
        '- Show coloured lines on white, on surfaces 64 and 128 wide, and 48 and 80 wide. If colours are right at 64 and 128 and wrong at 48 and 80, it is this. If they are',
        '  wrong at 64 too, it is something else, or a view that is handed over with padding.',
        '- Look for ghosts. Where they stand to the right of what they come from, and columns 0 to 15 have none, the server\'s W is the greater one: it rounds to 32, and',
        '  is read by the 16 rule. Where they stand to the left, and the last 16 columns have none, its W is the smaller one: it rounds to 16, and is read by the 32 rule.',
        '- Ask the decoder for the coded width of the view, before any crop. For a surface 48 wide, 64 hints at the 32 rule, and 48 speaks against it: the V of column 47',
        f'  would be at column {column} of the {part} plane. For a surface 64 wide it says nothing.',
        '- Where no width but a multiple of 16 is right by the 16 rule, and by the 32 rule no more are, the server does not round at all, as FreeRDP\'s: take the rule Exact,',
        '  by which W is the width of the surface as it is (R73). [REAL_SESSION.md](REAL_SESSION.md) shows such sessions.',
        '',
        'What other programs do is in [DIFFERENCES.md](DIFFERENCES.md).',
        '']


def call_words():
    return [
        '## Which call has which rule',
        '',
        row_of('', 'the 16 rule', 'the 32 rule', 'the rule Exact'),
        '|---|---|---|---|',
        row_of('C, a server', '`haythaw_split_v2`', '`haythaw_split_v2_32`', 'none'),
        row_of('C, a client', '`haythaw_apply_auxiliary_v2`', '`haythaw_apply_auxiliary_v2_32`', '`haythaw_apply_auxiliary_v2_exact`'),
        row_of('Rust, a server', '`split_v2(WidthRule::To16)`, `split(Avc444Layout::V2)`', '`split_v2(WidthRule::To32)`', 'none'),
        row_of('Rust, a client', '`apply_auxiliary_view_v2(WidthRule::To16, ..)`, `apply_auxiliary_view(Avc444Layout::V2, ..)`', '`apply_auxiliary_view_v2(WidthRule::To32, ..)`',
               '`apply_auxiliary_view_v2(WidthRule::Exact, ..)`'),
        '',
        'The parameters are the same by all rules. By the 32 rule both views of a split are W wide, with Y 0 and U and V 128 past the stride (R84): they want room for',
        'W x rows and W/2 x rows/2, and the widest surface is 65,504 (R85). In C, where `PLANES` and `VIEW` stand for three planes with their counts, `PICTURE` for such planes',
        'and the map of stale colour, and `SIZES` for a view\'s width, height and strides ([maps.h](maps.h)); `luma` is the main view, `chroma` the auxiliary view:',
        '',
        '```c',
        f'haythaw_views views = {call_of("haythaw_split_v2_32")};',
        f'{call_of("haythaw_apply_main_view")};',
        f'{call_of("haythaw_apply_auxiliary_v2_32")};',
        '```',
        '',
        'In [Rust](../bind/rust/README.md):',
        '',
        '```rust',
        'let (main, auxiliary) = sent.split_v2(WidthRule::To32).expect("no side is too large");',
        'shown.apply_main_view(&main, &[whole]);',
        'shown.apply_auxiliary_view_v2(WidthRule::To32, &auxiliary, &[whole]);',
        '```',
        '']


def page(sents, fields):
    return '\n'.join([*head_words(), *crop_words(sents[48]), *width_words(sents), *field_words(fields), *telling_words(), *call_words()])


def main():
    checking = asked(__doc__)
    found = sent_through([*map(tiled, WIDTHS), *map(field, FIELDS.values())])
    sents, fields = dict(zip(WIDTHS, found)), dict(zip(FIELDS, found[len(WIDTHS):]))
    hold_widths(range(1, 4096))
    hold_handed(sents)
    for sent in found:
        hold_right(sent)
        if differ(len(sent.pixels[0])):
            hold_otherwise(sent)
            hold_places(len(sent.pixels[0]))
    if {verdict_of(sent, *way) for sent in (sents[48], sents[80], sents[1680]) for way in OTHERWISE} != {WRONG, PARTLY}:
        stop('what the page says of what is wrong does not hold')
    keep({'WIDTH_RULE.md': page(sents, fields), 'width_rule.svg': chart(sents[48], told_of(sents[48]))}, checking)
    if checking:
        print(f'width_rule: docs/WIDTH_RULE.md and docs/width_rule.svg say of {len(found)} maps what the library answers')


main()
