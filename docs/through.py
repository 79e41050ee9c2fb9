"""The way through the library, for the pages whose every number it answered: docs/filter.py, docs/edge.py, docs/colour_error.py, docs/width_rule.py, and
docs/own_bar.py; all but the first by docs/maps.py or docs/width_views.py. It leads through a C program over bind/c/haythaw.h (docs/filter.c, docs/maps.c,
docs/colour_error.c, docs/width_rule.c), which reads lines of numbers and answers such lines."""
import os
import subprocess
import sys
import tempfile

ROOT = os.path.dirname(os.path.dirname(os.path.abspath(__file__)))
SCRIPT = os.path.basename(sys.argv[0])
ARCHIVE = os.path.join(ROOT, 'oracle', 'build', 'libhaythaw.a')


def stop(words):
    sys.exit(f'{SCRIPT}: {words}')


def asked(purpose):
    """Whether the script is to check; with any other word it says what it is for, and ends."""
    if sys.argv[1:] not in ([], ['--check']):
        sys.exit(purpose)
    return bool(sys.argv[1:])


def run(words, **more):
    try:
        return subprocess.run(words, check=True, **more)
    except FileNotFoundError:
        stop(f'there is no command {words[0]}')
    except subprocess.CalledProcessError as failed:
        stop(f'{os.path.basename(words[0])} ended with status {failed.returncode}')


def through_library(name, given):
    """The lines that docs/NAME.c answers to the given ones. The library is made first where that is not made."""
    if not os.path.exists(ARCHIVE):
        print(f'{SCRIPT}: the library is not made yet; it is proved first, which takes some minutes', file=sys.stderr, flush=True)
    run([os.path.join(ROOT, 'oracle', 'library.sh')], stdout=subprocess.DEVNULL)
    with tempfile.TemporaryDirectory() as made:
        program = os.path.join(made, name)
        run(['cc', '-std=c99', '-O1', '-Wall', '-Wextra', '-Werror', '-I' + os.path.join(ROOT, 'bind', 'c'),
             os.path.join(ROOT, 'docs', name + '.c'), ARCHIVE, '-o', program])
        sent = ''.join(' '.join(map(str, line)) + '\n' for line in given)
        said = run([program], input=sent, stdout=subprocess.PIPE, text=True).stdout
    return [list(map(int, line.split())) for line in said.splitlines()]


def keep(made, checking):
    """Writes the files into docs/, or stops where one of them is not there as it was made."""
    for name, content in made.items():
        path = os.path.join(ROOT, 'docs', name)
        if not checking:
            with open(path, 'w', encoding='utf-8') as file:
                file.write(content)
        elif not os.path.exists(path) or open(path, encoding='utf-8').read() != content:
            stop(f'docs/{name} is not what the library says: run docs/{SCRIPT}')
