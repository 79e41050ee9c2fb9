#!/usr/bin/env python3
"""Tables of the rows that the bench's programs print.

    bench.py [--page] PLAIN [V3]

PLAIN and V3 are files of rows, of the library made for plain x86-64 (or for this machine, where that is another one) and for x86-64-v3. A
row has tabs between: what stands beside ours, the call, the input, our nanoseconds, the other's, the bound of the ratio; of rows of the same
call and input the least times count. A line without tabs is printed as it is. --page prints what docs/SPEED.md has: the calls that users make, at 1920x1080, in Markdown.
"""
import sys

PAGE = '1920x1080'


def rows_of(path):
    """The rows of a file, by what stands beside ours, the call and the input; and its other lines."""
    rows, said = {}, []
    for line in open(path, encoding='utf-8').read().splitlines():
        words = line.split('\t')
        if len(words) != 6:
            said.append(line)
            continue
        beside, call, what, ours, theirs, bound = words
        least = rows.get((beside, call, what), (float('inf'), float('inf')))
        rows[beside, call, what] = min(float(ours), least[0]), min(float(theirs), least[1]), float(bound) if bound else None
    return rows, said


def time(nanoseconds):
    """Three digits, and a unit."""
    for unit, size in (('ms', 1e6), ('µs', 1e3), ('ns', 1)):
        if nanoseconds >= size:
            value = nanoseconds / size
            return f'{value:.{2 if value < 10 else 1 if value < 100 else 0}f} {unit}'
    return f'{nanoseconds:.3f} ns'


def ratio(ours, theirs):
    return f'{ours / theirs:.4f}' if ours < theirs / 20 else f'{ours / theirs:.2f}'


def kept(ours, theirs, bound):
    return '' if bound is None else f'{bound:.2f}' + (' ABOVE' if ours / theirs > bound else '')


def printed(head, table):
    """The first two columns to the left, the others to the right."""
    widths = [max(len(row[column]) for row in [head, *table]) for column in range(len(head))]
    for row in [head, *table]:
        cells = [word.ljust(width) if column < 2 else word.rjust(width) for column, (word, width) in enumerate(zip(row, widths))]
        print('  '.join(cells).rstrip())


def table(title, head, which, plain, v3):
    """The rows beside some of the others, of both builds."""
    lines = []
    for key, (ours, theirs, bound) in plain.items():
        if key[0] not in which:
            continue
        line = [key[1], key[2], time(ours), time(theirs), ratio(ours, theirs), kept(ours, theirs, bound)]
        if v3:
            other = v3.get(key)
            line += [time(other[0]), time(other[1]), ratio(*other[:2])] if other else ['', '', '']
        lines.append(line)
    if lines:
        print(f'\n{title}')
        both = ['ours, v3', f'{head}, v3', 'ratio, v3'] if v3 else []
        printed(['call', 'input', 'ours', head, 'ratio', 'bound', *both], lines)


def page(plain, v3):
    """What users call, in Markdown: beside the original, FreeRDP and libyuv."""
    print('| call | on | original | ours | ratio | ours, v3 | ratio, v3 | FreeRDP | libyuv |')
    print('|---|---|---|---|---|---|---|---|---|')
    for (beside, call, what), (ours, theirs, _) in plain.items():
        if beside != 'original' or not what.startswith(PAGE):
            continue
        on = what[len(PAGE):].split(';')[0].replace(', strides the widths', '').strip(', ') or 'the whole frame'
        other = v3.get((beside, call, what))
        peers = [plain.get((peer, call, f'{PAGE}, {on}')) for peer in ('FreeRDP', 'libyuv')]
        cells = [call, on, time(theirs), time(ours), ratio(ours, theirs), *((time(other[0]), ratio(*other[:2])) if other else ('', ''))]
        print('| ' + ' | '.join(cells + [time(peer[1]) if peer else '' for peer in peers]) + ' |')


def main():
    words = sys.argv[1:]
    files = [word for word in words if word != '--page']
    if not 1 <= len(files) <= 2 or any(word.startswith('-') for word in files):
        sys.exit(__doc__)
    (plain, said), (v3, more) = rows_of(files[0]), rows_of(files[1]) if len(files) > 1 else ({}, [])
    if '--page' in words:
        page(plain, v3)
        return
    print('\n'.join(dict.fromkeys(said + more)))
    table('A call of ours and of the original', 'original', ('original',), plain, v3)
    table('The library on one input against another, one call against another, or against plain copies or sums: a pixel, a byte written, a payload or a rectangle',
          'the second', ('ours',), plain, v3)
    table('A call of ours and of the library from before', 'before', ('before',), plain, v3)
    table('FreeRDP: its picture to RGBA has no filter (its auxiliary combine filters), its from RGBA neither average nor filled edge', 'FreeRDP', ('FreeRDP',), plain, v3)
    table('libyuv: BT.601 of limited range, with no filter, no average and no filled edge', 'libyuv', ('libyuv',), plain, v3)


main()
