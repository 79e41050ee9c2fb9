#!/usr/bin/env python3
"""How far off a value is that is read off a colour bar of your own, as docs/COLOUR_ERROR.md has it for two bars.

  docs/own_bar.py FILE [LOWEST HIGHEST]     says it of the bar in FILE, or on standard input where FILE is -
  docs/own_bar.py --self-test               both bars of the page come out as there, and a file that is no bar is named

FILE has 256 lines, the steps of the bar from its lowest value to its highest: red, green and blue as numbers from 0 to 255, with blanks or a comma
between them. Empty lines and lines that start with # are skipped. LOWEST and HIGHEST are the values of the first and of the last step, -40 and 40 if
they are not given.

It needs a C compiler (cc) and makes the library first where that is not made (oracle/library.sh).
"""
import os
import sys
from math import floor, isfinite, log10

from readings import BARS, DRAWINGS, FIELDS, STEPS, measured
from through import ROOT, stop

TEMPERATURES = -40, 40


def bar_in(text):
    """The steps that a text has, or what is wrong with it."""
    lines = [line for line in text.splitlines() if line.strip() and not line.lstrip().startswith('#')]
    if len(lines) != STEPS:
        return None, f'a bar has {STEPS} steps, a line for each, and here are {len(lines)} lines'
    bar = []
    for step, line in enumerate(lines):
        words = line.replace(',', ' ').split()
        if len(words) != 3 or not all(word.isascii() and word.isdigit() and int(word) < 256 for word in words):
            return None, f'step {step} is `{line.strip()}`, which is not red, green and blue as three numbers from 0 to 255'
        bar.append(tuple(map(int, words)))
    return bar, None


def printed(name, bar, lowest, highest):
    step = abs(highest - lowest) / (STEPS - 1)
    rows, most = measured(name, bar, step)
    digits = max(0, 1 - floor(log10(step)))
    print(f'{STEPS} steps from {lowest:g} to {highest:g}, each {step:.{digits}f}. How far a reading is off, on average and at most:\n')
    print(f'{"":52}{"main view alone":>20}{"both views":>20}')
    for key, numbers in rows.items():
        words = f'at the edge of a field {FIELDS[key]} steps away' if key in FIELDS else DRAWINGS[key].words
        print(f'{words:52}' + ''.join(f'{number:10.{digits}f}' for number in numbers))
    for words, number in zip(('whatever is drawn around it', 'the same, and the filter applied to U and V'), most):
        print(f'{words:52}{number:40.{digits}f}')


def page_table():
    """The cells of the page's table that are on the same drawings."""
    with open(os.path.join(ROOT, 'docs', 'COLOUR_ERROR.md'), encoding='utf-8') as file:
        lines = [line.strip('|').split('|') for line in file.read().splitlines()]
    return [[cell.strip() for cell in line[1:]] for line in lines if len(line) == 5 and 'at most' in line[2]]


def self_test():
    """Both bars of the page, written as files would have them, against its table; and files that are no bar."""
    table, step = page_table(), (TEMPERATURES[1] - TEMPERATURES[0]) / (STEPS - 1)
    for k, name in enumerate(list(BARS)):
        bar, wrong = bar_in('# a bar\n\n' + '\n'.join(('{}, {}, {}', '{} {} {}')[k].format(*colour) for colour in BARS[name]))
        rows, most = measured(name + ' again', bar, step)
        cells = [[f'{row[i]:.2f}, at most {row[i + 1]:.2f}' for i in (0, 2)] for row in rows.values()] + [['', f'at most {number:.2f}'] for number in most]
        if wrong or cells != [row[2 * k:2 * k + 2] for row in table]:
            stop(f'the bar {name} comes out otherwise than on the page')
    good = '1 2 3\n' * (STEPS - 1)
    bad = ['', good, good + '1 2 3\n1 2 3', good + '1 2', good + '1 2 256', good + '0.5 0 1', good + '1 2 -3']
    noticed = sum(bar_in(text)[1] is not None for text in bad)
    if noticed != len(bad) or bar_in(good + '1 2 3')[1]:
        stop(f'of {len(bad)} files that are no bar {noticed} were noticed')
    print(f'own_bar: both bars come out as on the page, and {noticed} files that are no bar are noticed')


def main():
    words = sys.argv[1:]
    if words == ['--self-test']:
        return self_test()
    if words in (['-h'], ['--help']):
        return print(__doc__)
    if len(words) not in (1, 3) or words[0].startswith('--'):
        sys.exit(__doc__)
    try:
        lowest, highest = map(float, words[1:]) if words[1:] else TEMPERATURES
        text = sys.stdin.read() if words[0] == '-' else open(words[0], encoding='utf-8').read()
    except OSError as wrong:
        stop(f'{words[0]}: {wrong.strerror}')
    except ValueError:
        stop(f'{" ".join(words)}: a text file, and two numbers, are asked for')
    bar, wrong = bar_in(text)
    if wrong:
        stop(f'{words[0]}: {wrong}')
    if not isfinite(highest - lowest) or lowest == highest:
        stop(f'{words[1]} to {words[2]}: two numbers are asked for that differ')
    return printed(words[0], bar, lowest, highest)


main()
