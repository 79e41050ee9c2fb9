#!/usr/bin/env python3
"""Turns the repository's own definitions, fields and lemmas to today's spelling, once, right after the toolchain's port.py.

  tools/respell.py        rewrites crates/**/*.rt, *.antt and must-fail/*.edit, README.md and docs/**/*.md below the current folder

tools/respell.tsv has a line for each name: old, tab, new. A name in camel case becomes one in snake case, a dash an underscore, except where
it joins two names of definitions. A lemma whose new name would be that of a definition ends in `_lem`. In code every such word is turned; in
a comment or a page a word with a dash only inside backquotes, since it may be English. PER_FILE holds what one file needs besides.
"""
import glob
import os
import re

HERE = os.path.dirname(os.path.realpath(__file__))
TABLE = dict(line.rstrip('\n').split('\t') for line in open(os.path.join(HERE, 'respell.tsv'), encoding='utf-8'))
PER_FILE = {
    # a local lemma on the definition `inBlocks`
    'crates/map_apply/proofs/Boxes.antt': {'in_blocks': 'in_blocks_lem'},
}
WORD = re.compile(r"[\w'₀-₉◌]+(?:-[\w'₀-₉◌]+)*")


def turned(text, table):
    return WORD.sub(lambda m: table.get(m[0], m[0]), text)


def in_prose(text, table):
    camel = {a: b for a, b in table.items() if '-' not in a}
    text = turned(text, camel)
    return re.sub(r'`[^`\n]*`', lambda m: turned(m[0], table), text)


def code(text, mark, table):
    """A file of code: a comment, which begins with mark, is prose."""
    lines = []
    for line in text.split('\n'):
        at = 0 if line.lstrip().startswith(mark) else line.find(' ' + mark + ' ')
        lines.append(turned(line, table) if at < 0 else turned(line[:at], table) + in_prose(line[at:], table))
    return '\n'.join(lines)


def edit(text, table):
    """A file of wrong programs: what it changes, and where it has to be refused."""
    lines = []
    for line in text.split('\n'):
        if line.startswith(('old: ', 'new: ')):
            lines.append(line[:5] + turned(line[5:], table))
        elif line.startswith('# refuses: '):
            lines.append(line[:11] + turned(line[11:], table))
        else:
            lines.append(in_prose(line, table))
    return '\n'.join(lines)


def rewrite(path, how, *rest):
    table = {**TABLE, **PER_FILE.get(path, {})}
    before = open(path, encoding='utf-8').read()
    after = how(before, *rest, table)
    if after != before:
        open(path, 'w', encoding='utf-8').write(after)
        return 1
    return 0


def main():
    n = 0
    for path in sorted(glob.glob('crates/**/*', recursive=True)):
        if '/out/' in path or not os.path.isfile(path):
            continue
        if path.endswith('.antt'):
            n += rewrite(path, code, '--')
        elif path.endswith('.rt'):
            n += rewrite(path, code, '//')
        elif path.endswith('.edit'):
            n += rewrite(path, edit)
    for path in ['README.md'] + sorted(glob.glob('docs/**/*.md', recursive=True)):
        n += rewrite(path, in_prose)
    print(f'respell: {n} files')


main()
