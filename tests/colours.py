#!/usr/bin/env python3
"""The program `colours` on whole inputs: what it writes is compared byte for byte with lines worked out here from the
formulas of the rules, and a write that fails has to end it with an error. It builds the program first, by `rt run`.
One line for each case, and last `colours: N cases, 0 wrong`; exit status 1 if any is wrong."""
import os
import random
import signal
import subprocess
import sys
import tempfile
import threading
import time

ROOT = os.path.dirname(os.path.dirname(os.path.abspath(__file__)))
CRATE = os.path.join(ROOT, 'crates', 'colours')
PROGRAM = os.path.join(CRATE, 'out', 'colours')
MOMENT = 60  # seconds after which a run is killed


def command():
    """The program, as `rt` makes it for x86-64 alone."""
    return [PROGRAM]


def clamp(x):
    return max(0, min(255, x))


def line(r, g, b):
    """Y U V, then R G B after the reverse. Python's // is the floor, also below zero."""
    y = clamp((54 * r + 183 * g + 18 * b) // 256)
    u = clamp((-29 * r - 99 * g + 128 * b) // 256 + 128)
    v = clamp((128 * r - 116 * g - 12 * b) // 256 + 128)
    red = clamp((256 * y + 403 * (v - 128)) // 256)
    green = clamp((256 * y - 48 * (u - 128) - 120 * (v - 128)) // 256)
    blue = clamp((256 * y + 475 * (u - 128)) // 256)
    return f'{y} {u} {v} {red} {green} {blue}\n'


def expected(data):
    whole = len(data) // 3 * 3
    text = ''.join(line(*data[i:i + 3]) for i in range(0, whole, 3))
    if whole < len(data):
        text += f'short {len(data) - whole}\n'
    return text.encode()


def pieces(data, sizes):
    at = turn = 0
    while at < len(data):
        size = sizes[turn % len(sizes)]
        yield data[at:at + size]
        at += size
        turn += 1


def run(data, sizes=None, pause=0.0):
    """What the program writes for data, which arrives whole or in pieces through a pipe; and how it ended."""
    with tempfile.TemporaryFile() as out:
        child = subprocess.Popen(COMMAND, stdin=subprocess.PIPE, stdout=out, bufsize=0)
        watch = threading.Timer(MOMENT, child.kill)
        watch.start()
        try:
            for piece in pieces(data, sizes or [max(1, len(data))]):
                view = memoryview(piece)
                while view:
                    view = view[child.stdin.write(view):]
                if pause:
                    time.sleep(pause)
            child.stdin.close()
        except BrokenPipeError:
            pass
        ended = child.wait()
        watch.cancel()
        out.seek(0)
        return out.read(), ended


def compared(data, want=None, sizes=None, pause=0.0):
    want = expected(data) if want is None else want
    got, ended = run(data, sizes, pause)
    if ended != 0:
        return f'ended with {ended}'
    if got != want:
        at = next((i for i, (a, b) in enumerate(zip(got, want)) if a != b), min(len(got), len(want)))
        return f'{len(got)} bytes for {len(want)}, first other at byte {at}: {got[at:at + 40]!r} for {want[at:at + 40]!r}'
    return ''


def refused(out, allowed, ignore=False):
    """The program with an input that never ends and an output that takes nothing: it has to stop by itself."""
    before = (lambda: signal.signal(signal.SIGPIPE, signal.SIG_IGN)) if ignore else None
    with open('/dev/zero', 'rb') as zeros:
        child = subprocess.Popen(COMMAND, stdin=zeros, stdout=out, stderr=subprocess.DEVNULL, preexec_fn=before)
        watch = threading.Timer(MOMENT, child.kill)
        watch.start()
        ended = child.wait()
        watch.cancel()
    return '' if ended in allowed else f'ended with {ended}'


def full():
    with open('/dev/full', 'wb') as out:
        return refused(out, (1,))


def closed(ignore):
    reader, writer = os.pipe()
    os.close(reader)
    with os.fdopen(writer, 'wb') as out:
        return refused(out, (1,) if ignore else (1, -signal.SIGPIPE), ignore)


def cases():
    rng = random.Random(1)
    some = rng.randbytes(20000)
    yield 'empty input', lambda: compared(b'', b'')
    yield 'the document\'s example', lambda: compared(
        bytes.fromhex('FFFFFFFF000007'), b'254 128 128 254 254 254\n53 99 255 252 0 0\nshort 1\n')
    yield 'one byte', lambda: compared(some[:1], b'short 1\n')
    yield 'two bytes', lambda: compared(some[:2], b'short 2\n')
    for n in (3, 4, 5, 3069, 3070, 3071, 3072, 3073, 3074, 3075, 6144, 6145, 6146):
        yield f'{n} bytes', lambda n=n: compared(some[:n])
    yield 'all 256 greys', lambda: compared(bytes(k for k in range(256) for _ in range(3)))
    yield '32 bytes, one at a time', lambda: compared(some[:32], sizes=[1], pause=0.002)
    much = rng.randbytes((1 << 20) + 12345)
    yield f'{len(much)} random bytes in pieces of odd sizes', lambda: compared(
        much, sizes=[1, 3, 7, 4093, 2, 3071, 3073, 61, 65537, 5])
    yield f'{len(much) + 1} random bytes in one piece', lambda: compared(much + b'\x07')
    yield 'output to /dev/full', full
    yield 'output to a closed pipe', lambda: closed(False)
    yield 'output to a closed pipe, SIGPIPE ignored', lambda: closed(True)


built = subprocess.run(['rt', 'run'], cwd=CRATE, stdin=subprocess.DEVNULL, stdout=subprocess.DEVNULL, stderr=subprocess.PIPE, text=True)
if built.returncode or not os.path.exists(PROGRAM):
    sys.exit(f'{built.stderr}colours: `rt run` in {os.path.relpath(CRATE, ROOT)} built no program')
COMMAND = command()
count = wrong = 0
for name, case in cases():
    said = case()
    count += 1
    wrong += bool(said)
    print(f'{name}: {said or "right"}', flush=True)
print(f'colours: {count} cases, {wrong} wrong')
sys.exit(bool(wrong))
