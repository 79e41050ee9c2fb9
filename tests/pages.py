#!/usr/bin/env python3
"""The pages that say what is proved, held to the tree.

docs/RULES.md numbers every rule; docs/proved/*.md has, for each, what is proved and where:

    | R31 | what is said | colour/specs/Colour.antt: `forward_of`; colour/src/lib.rt: `forward` |

This fails where a file or a name of such a row is not there (in specs/ and proofs/ a definition or a law, in src/ a function, in
must-fail/ a wrong program), where a row
or a file of specs/ cites a rule that RULES.md has not, where a rule has no row, where a link of a page leads nowhere, where README.md
counts the crates or the exported functions otherwise than they are, and where a copy of NOTICE is no longer NOTICE.

  tests/pages.py               checks the pages
  tests/pages.py --self-test   plants an error of each kind in a copy of the pages: each is noticed
"""
import glob
import os
import re
import shutil
import sys
import tempfile

ROOT = os.path.dirname(os.path.dirname(os.path.abspath(__file__)))


def read(path):
    with open(path, encoding='utf-8') as file:
        return file.read()


def rules(root):
    return set(re.findall(r'^\| (R\d+) \|', read(os.path.join(root, 'docs/RULES.md')), re.M))


def stands(text, path, name):
    """Whether a file has the name: declares it, in src/ as a function or a module."""
    word = re.escape(name)
    if path.endswith('.edit'):
        return re.search(r'^# ' + word + ':', text, re.M) is not None
    if path.endswith('.rt'):
        return re.search(r'\b(fn|mod) ' + word + r'\b', text) is not None
    return re.search(r'^\s*(?:(?:abbrev|unfoldable|pub|record|data) )*' + word + r'(?=[\s:({])', text, re.M) is not None


def check_row(root, page, line, known):
    """What is wrong with one row of docs/proved."""
    cells = [cell.strip() for cell in line.strip().strip('|').split(' | ')]
    if len(cells) != 3:
        return [f'{page}: not three columns: {line}']
    said = [f'{page}: {rule} is no rule of RULES.md' for rule in re.findall(r'R\d+', cells[0]) if rule not in known]
    for part in cells[2].split('; '):
        path, _, names = part.partition(': ')
        file = os.path.join(root, 'crates', path)
        if not os.path.exists(file):
            said.append(f'{page}: there is no crates/{path}')
            continue
        text = read(file)
        found = re.findall(r'`([^`]+)`', names)
        if not found:
            said.append(f'{page}: no name beside {path}')
        said += [f'{page}: crates/{path} has no `{name}`' for name in found if not stands(text, path, name)]
    return said


def check_proved(root):
    known, cited, said, rows = rules(root), set(), [], 0
    for path in sorted(glob.glob(os.path.join(root, 'docs/proved/*.md'))):
        page = os.path.relpath(path, root)
        for line in read(path).split('\n'):
            if re.match(r'\| R\d', line):
                rows += 1
                cited |= set(re.findall(r'R\d+', line.split('|')[1]))
                said += check_row(root, page, line, known)
    said += [f'docs/proved: no row for {rule}' for rule in sorted(known - cited, key=lambda rule: int(rule[1:]))]
    for path in sorted(glob.glob(os.path.join(root, 'crates/*/specs/*.antt'))):
        for rule in set(re.findall(r'\bR\d+\b', ' '.join(line for line in read(path).split('\n') if '--' in line))):
            if rule not in known:
                said.append(f'{os.path.relpath(path, root)}: cites {rule}, which is no rule of RULES.md')
    return said, rows, len(known)


def check_links(root):
    said = []
    for path in ['README.md', 'CHANGELOG.md'] + glob.glob('docs/**/*.md', root_dir=root, recursive=True) + glob.glob('bind/*/README.md', root_dir=root):
        for link in re.findall(r'\]\(([^)#:]+)(?:#[^)]*)?\)', read(os.path.join(root, path))):
            if not os.path.exists(os.path.join(root, os.path.dirname(path), link)):
                said.append(f'{path}: a link leads nowhere: {link}')
    return said


def check_readme(root):
    crates = len(re.findall(r'^[a-z_0-9]+(?: staticlib)?:', read(os.path.join(root, 'crates.txt')), re.M))
    exported = sum(read(path).count('#[unsafe(no_mangle)]') for path in glob.glob(os.path.join(root, 'crates/haythaw/src/*.rt')))
    readme = read(os.path.join(root, 'README.md'))
    return [f'README.md does not say "{words}"' for words in (f'{crates} crates', f'{exported} exported functions') if words not in readme]


def check_copies(root):
    """The Rust crates have NOTICE too, as a file: rt takes no link in the tree."""
    return [f'{path} is not what NOTICE is' for path in ('bind/rust/NOTICE', 'bind/rust/sys/NOTICE')
            if os.path.islink(os.path.join(root, path)) or read(os.path.join(root, path)) != read(os.path.join(root, 'NOTICE'))]


def check(root):
    said, rows, count = check_proved(root)
    return said + check_links(root) + check_readme(root) + check_copies(root), rows, count


# An error of each kind: the page, a text of it, what becomes of that text, and what has to be said.
PLANTED = [
    ('docs/proved/colour.md', '`forward_of`', '`forwards_of`', 'has no `forwards_of`'),
    ('docs/proved/colour.md', 'colour/proofs/Floor.antt', 'colour/proofs/Ceiling.antt', 'there is no crates/colour/proofs/Ceiling.antt'),
    ('docs/proved/colour.md', '| R30 |', '| R999 |', 'R999 is no rule'),
    ('docs/proved/colour.md', '| R34 |', '| R35 |', 'no row for R34'),
    ('docs/RULES.md', '| R10 |', '| R11 |', 'no row for R11'),
    ('docs/proved/view.md', '(../RULES.md)', '(../RULE.md)', 'a link leads nowhere'),
    ('README.md', ' crates', ' krates', 'README.md does not say'),
    ('README.md', ' exported functions', ' functions', 'README.md does not say'),
    ('bind/rust/NOTICE', 'MIT', 'MIT-0', 'bind/rust/NOTICE is not what NOTICE is'),
    ('bind/rust/sys/NOTICE', 'Apache', 'Apaches', 'bind/rust/sys/NOTICE is not what NOTICE is'),
    ('NOTICE', 'MIT', 'MIT-0', 'bind/rust/NOTICE is not what NOTICE is'),
]


def self_test():
    noticed = 0
    for page, old, new, expected in PLANTED:
        with tempfile.TemporaryDirectory() as root:
            for part in ('docs', 'crates', 'bind', 'tests', 'oracle', 'strip'):
                if part in ('docs', 'bind'):
                    shutil.copytree(os.path.join(ROOT, part), os.path.join(root, part))
                else:
                    os.symlink(os.path.join(ROOT, part), os.path.join(root, part))
            for part in ('README.md', 'CHANGELOG.md', 'crates.txt', 'NOTICE'):
                shutil.copy(os.path.join(ROOT, part), root)
            text = read(os.path.join(root, page))
            with open(os.path.join(root, page), 'w', encoding='utf-8') as file:
                file.write(text.replace(old, new))
            said = check(root)[0]
            if old in text and any(expected in line for line in said):
                noticed += 1
            else:
                print(f'pages: self-test: not noticed: {page}: {old} as {new}; it said: {said[:3]}')
    print(f'pages: self-test: {noticed} of {len(PLANTED)} planted errors are noticed')
    return noticed != len(PLANTED)


def main():
    if sys.argv[1:] == ['--self-test']:
        return self_test()
    if sys.argv[1:]:
        print(__doc__)
        return 2
    said, rows, count = check(ROOT)
    for line in said:
        print('pages: ' + line)
    print(f'pages: {count} rules, {rows} rows, {len(said)} not as they say')
    return len(said) > 0


if __name__ == '__main__':
    sys.exit(main())
