#!/usr/bin/env python3
"""A second model of the map of stale colour, written from the words of the rules alone (tests/map_model.py): random sequences of calls go through
the library (tests/map.c over the header) and through the model, and after every call the number, the count, `stale` and every byte of the map,
those past it included, have to be what the model says.

  tests/map_cases.py [--long] [--seed N]   100,000 sequences; with --long ten times as many
  tests/map_cases.py --only N [--seed N]   one sequence again, with its calls and what was answered

A sequence is a picture, 0 to 40 wide and high, odd sides often, seldom larger, and once in a while up to 65,535; made fresh, made of RGBA by
each call, or found with any bytes in its map. Then come one to eight calls: main views, auxiliary views of V1 and of V2 by each of the three
rules, one in three of them strict, and pictures to RGBA; with views that are smaller, cropped, as large or larger, or empty, and lists of up to
four rectangles, empty, reversed, odd and off the picture among them; those of the strict calls are mostly sound, or but for one. Some calls are to
be refused, for one reason or several at once.

First, bytes of some answers are changed, each of which has to be noticed in its own sequence alone, and wrong models are asked in place of the
right one: each has to differ somewhere.
It needs a C compiler (cc), and makes the library first where that is not made (oracle/library.sh).
Last line `map: ...`; exit status 1 if something differs, or is not noticed."""
import multiprocessing
import os
import random
import struct
import subprocess
import sys
import tempfile
import time

sys.dont_write_bytecode = True                  # nothing is left in the tree
from map_model import ANSWER, AUX_V1, DONE, FROM_RGBA, MAIN, NEW, RECT_UNSOUND, TO_RGBA, WRONG, Call, Model, Picture, up

ROOT = os.path.dirname(os.path.dirname(os.path.abspath(__file__)))
SEQUENCES, BATCH, TRIED = 100000, 500, 3000     # in all, in one run of the program, and asked of the wrong models
HEAD = struct.Struct('<HHIIB')
MOSTLY = bytes(byte % 3 if byte < 240 else byte for byte in range(256))
EXTRA = 3                                       # bytes past each plane


# --- Random sequences.

def below(number):
    """0 to number - 1."""
    return int(random.random() * number)


def side():
    """Small, near a macroblock's edge, odd, or seldom large."""
    kind = random.random()
    if kind < .6:
        return below(41)
    if kind < .75:
        return below(20) * 2 + 1
    if kind < .97:
        return max(0, 16 * (1 + below(3)) + below(5) - 2)
    return below(150)


def size():
    """One picture in 4,000 is up to 65,535 wide or high."""
    if random.random() < 1 / 4000:
        long, short = (65535 - below(100) if below(2) else below(65536)), below(18)
        return (long, short) if below(4) else (short, long)
    return side(), side()


def view_side(own):
    """As large as the picture or its padding, cropped from that by 1 to 15, smaller, larger, or 0."""
    kind = below(10)
    if kind < 4:
        return min(up(own, 16), 65535)
    if kind < 5:
        return min(up(own, 32), 65535)
    if kind < 6:
        return own
    if kind < 8:
        return max(0, min(up(own, 32 if below(2) else 16), 65535) - 1 - below(15))
    if kind < 9:
        return below(own + 1)
    return 0 if below(4) == 0 else min(65535, own + below(50))


def edge(own):
    kind = below(10)
    if kind < 6:
        return below(own + 1)
    return (0, own, min(65535, own + 1 + below(9)), 65535)[kind - 6]


def rectangle(picture):
    """The whole, one whose edges are in order, or any."""
    kind = below(8)
    if kind < 3:
        return 0, 0, (picture.width, 65535)[below(2)], (picture.height, 65535)[below(2)]
    left, top, right, bottom = edge(picture.width), edge(picture.height), edge(picture.width), edge(picture.height)
    if kind < 7:
        return min(left, right), min(top, bottom), max(left, right), max(top, bottom)
    return left, top, right, bottom


def sound(picture):
    """A rectangle that is sound: the whole, or any in the picture."""
    if below(4) == 0:
        return 0, 0, picture.width, picture.height
    left, top = below(picture.width), below(picture.height)
    return left, top, left + 1 + below(picture.width - left), top + 1 + below(picture.height - top)


def just_unsound(picture):
    """A sound rectangle of which one edge was moved just so far that it is not."""
    left, top, right, bottom = sound(picture)
    return ((right, top, right, bottom), (left, bottom, right, bottom), (left, top, min(65535, picture.width + 1), bottom),
            (left, top, right, min(65535, picture.height + 1)))[below(4)]


def listed(picture, count, strict):
    """The rectangles of a list; for a strict call mostly sound, or but for one."""
    if not strict or not picture.width or not picture.height or below(5) == 0:
        return [rectangle(picture) for _ in range(count)]
    found = [sound(picture) for _ in range(count)]
    if count and below(3) == 0:
        found[below(count)] = just_unsound(picture)
    return found


def less(number):
    """A byte short, or seldom more, of what has bytes."""
    return max(0, number - (1 if below(4) else 1 + below(20)))


def lent(picture, short):
    """The counts of the planes and the map: as long as they are, or exactly what is needed; or one of them short."""
    counts = [picture.plane + below(2) * EXTRA] * 3 + [picture.blocks + below(2) * len(picture.past)]
    if short:
        which = below(3) if below(3) else 3
        counts[which] = less((picture.plane, picture.plane, picture.plane, picture.blocks)[which])
    return counts


def view_of(picture, narrow, short):
    """A view's size, strides and the lengths of its planes; too narrow, too short, or neither."""
    width, height = view_side(picture.width), view_side(picture.height)
    if width * height > 1 << 22:
        height = below(40)
    luma, chroma = width + below(2) * below(9), (width + 1) // 2 + below(2) * below(9)
    if narrow:
        luma, chroma = (less(width), chroma) if below(2) else (luma, less((width + 1) // 2))
    planes = [luma * height, chroma * ((height + 1) // 2), chroma * ((height + 1) // 2)]
    if short and below(12) == 0:
        luma = 2 ** 63 + below(9)                       # more than any buffer has, whatever the product is
    elif short:
        which = below(3)
        planes[which] = less(planes[which])
    return (width, height, luma, chroma), tuple(planes)


def faults():
    """Whether the planes or the map, the list, the stride and the length of the view are wrong: mostly none, else one or several."""
    if random.random() < .82:
        return 0, 0, 0, 0
    which = 1 << below(4) if below(3) else 1 + below(15)
    return which & 1, which & 2, which & 4, which & 8


def apply_call(picture, which):
    short, uneven, narrow, view_short = faults()
    strict = below(3) == 0
    numbers = [edge for rect in listed(picture, (1, 1, 1, 2, 3, 4, 0)[below(7)], strict) for edge in rect]
    if uneven:
        numbers = numbers[1 + below(3):] if numbers else [1] * (1 + below(3))
    view, planes = view_of(picture, narrow, view_short)
    return Call(which, lent(picture, short), view, planes, 0, numbers, strict)


def pixels_call(picture, which):
    """From RGBA, which may be too short; or to RGBA, whose output may be."""
    short, other, *_ = faults()
    rgba, numbers = 4 * picture.width * picture.height, ()
    if which == TO_RGBA:
        numbers = rectangle(picture)
        left, top, right, bottom = Model().clipped(picture, Call(which, (), numbers=numbers))
        rgba = 4 * (right - left) * (bottom - top)
    return Call(which, lent(picture, short), rgba=less(rgba) if other else rgba + below(2), numbers=numbers)


class Sequence:
    """A picture, and calls on it, of a seed and a number."""

    def __init__(self, seed, number):
        random.seed(seed << 40 | number)
        self.number = number
        width, height = size()
        self.picture = picture = Picture(width, height, random.randbytes(below(4)))
        blocks, begun = picture.blocks, below(4)
        picture.before = random.randbytes(blocks)
        if begun == 0:                                  # any bytes, 0, 1 and 2 mostly
            picture.before = picture.before.translate(MOSTLY)
        self.calls = [] if begun == 0 else [pixels_call(picture, NEW if begun < 3 else FROM_RGBA + below(3))]
        layout = AUX_V1 + below(4)                      # mostly the auxiliary views of a sequence are of one layout
        for _ in range(1 + below(8)):
            which = below(10)
            self.calls.append(pixels_call(picture, TO_RGBA) if which < 2 else
                              apply_call(picture, layout) if which < 6 else
                              apply_call(picture, MAIN + below(5)) if which < 7 else
                              pixels_call(picture, NEW + below(4)) if which == 9 and below(6) == 0 else
                              apply_call(picture, MAIN))

    def given(self):
        picture = self.picture
        return b''.join([HEAD.pack(picture.width, picture.height, picture.plane + EXTRA, picture.blocks + len(picture.past), len(self.calls)),
                         picture.before, picture.past, *(call.given() for call in self.calls)])

    def length(self):
        """The bytes of its answers."""
        return len(self.calls) * (ANSWER.size + self.picture.blocks + len(self.picture.past))


# --- The library.

def stop(words):
    sys.exit(f'map_cases: {words}')


def run(words, **more):
    try:
        return subprocess.run(words, check=True, **more)
    except FileNotFoundError:
        stop(f'there is no command {words[0]}')
    except subprocess.CalledProcessError as failed:
        stop(f'{os.path.basename(words[0])} ended with status {failed.returncode}')


def made_in(folder):
    """The program, over the library."""
    archive, program = os.path.join(ROOT, 'oracle', 'build', 'libhaythaw.a'), os.path.join(folder, 'map')
    run([os.path.join(ROOT, 'oracle', 'library.sh')], stdout=subprocess.DEVNULL)
    run(['cc', '-std=c99', '-O2', '-Wall', '-Wextra', '-Wpedantic', '-Werror', '-I' + os.path.join(ROOT, 'bind', 'c'),
         os.path.join(ROOT, 'tests', 'map.c'), archive, '-o', program])
    return program


def asked(program, sequences):
    """What the library answered to each sequence; the answers have to be used up."""
    said = run([program], input=b''.join([one.given() for one in sequences]), stdout=subprocess.PIPE).stdout
    parts, ends = [], 0
    for one in sequences:
        start, ends = ends, ends + one.length()
        parts.append(said[start:ends])
    if ends != len(said):
        stop(f'the library answered {len(said)} bytes, and not {ends}')
    return parts


def first_wrong(sequence, said, right):
    """Words about the first call that was answered otherwise."""
    each = ANSWER.size + sequence.picture.blocks + len(sequence.picture.past)
    for k, call in enumerate(sequence.calls):
        got, want = said[k * each:(k + 1) * each], right[k * each:(k + 1) * each]
        if got != want:
            at = next(i for i in range(each) if got[i] != want[i]) - ANSWER.size
            where = f'byte {at} of the map is {got[at + ANSWER.size]} and not {want[at + ANSWER.size]}' if at >= 0 else \
                f'number, count, stale and kept are {ANSWER.unpack_from(got)} and not {ANSWER.unpack_from(want)}'
            return f'call {k} on {sequence.picture.width}x{sequence.picture.height}, {call}: {where}'
    return 'nothing'


def batch(work):
    """So many sequences: what is counted, and what is wrong."""
    program, seed, start, count = work
    model, sequences = Model(), [Sequence(seed, number) for number in range(start, start + count)]
    found, calls, strict, refused, unsound, compared = [], 0, 0, 0, 0, 0
    for one, said in zip(sequences, asked(program, sequences)):
        right = model.answers(one)
        if said != right:
            found.append(f'--seed {seed} --only {one.number}: {first_wrong(one, said, right)}')
        numbers = [model.number(one.picture, call) for call in one.calls]
        calls += len(one.calls)
        strict += sum(call.strict for call in one.calls)
        refused += sum(number != DONE for number in numbers)
        unsound += numbers.count(RECT_UNSOUND)
        compared += one.length() - len(one.calls) * ANSWER.size
    return count, calls, strict, refused, unsound, compared, found


def tried(program, seed):
    """What is not noticed: of bytes that are changed, one in every tenth sequence, and of the wrong models."""
    sequences = [Sequence(seed, number) for number in range(TRIED)]
    said, right = asked(program, sequences), [Model().answers(one) for one in sequences]
    missed, bytes_changed = [], 0
    for k in range(0, TRIED, 10):
        if said[k]:
            at = random.Random(k).randrange(len(said[k]))
            changed = said[:k] + [said[k][:at] + bytes([said[k][at] ^ 1 << k % 8]) + said[k][at + 1:]] + said[k + 1:]
            bytes_changed += 1
            if [one for one in range(TRIED) if changed[one] != right[one]] != [k]:
                missed.append(f'byte {at} of sequence {k}, changed, is not noticed there alone')
    missed += [f'{wrong.__name__} answers every sequence as the library does' for wrong in WRONG
               if all(wrong().answers(one) == answer for one, answer in zip(sequences, said))]
    return missed, bytes_changed


class Progress:
    """A line every two seconds, where somebody looks."""

    def __init__(self, count):
        self.count, self.begun, self.shown, self.looked = count, time.time(), time.time(), sys.stderr.isatty()

    def tell(self, done, wrong):
        if self.looked and time.time() - self.shown > 2:
            self.shown = time.time()
            print(f'\rmap: {done} of {self.count} sequences, {wrong} wrong, {self.shown - self.begun:.0f} s ', end='', file=sys.stderr, flush=True)

    def over(self):
        if self.looked:
            print('\r' + ' ' * 70 + '\r', end='', file=sys.stderr, flush=True)


def all_sequences(program, seed, count):
    """Over two processes."""
    total, found, progress = [0] * 6, [], Progress(count)
    works = [(program, seed, start, min(BATCH, count - start)) for start in range(0, count, BATCH)]
    with multiprocessing.Pool(2) as pool:
        for *counted, wrong in pool.imap_unordered(batch, works):
            total = [a + b for a, b in zip(total, counted)]
            found += wrong
            progress.tell(total[0], len(found))
    progress.over()
    return total, found


def only(program, seed, number):
    """One sequence, told."""
    sequence = Sequence(seed, number)
    said, right = asked(program, [sequence])[0], Model().answers(sequence)
    picture = sequence.picture
    print(f'picture {picture.width}x{picture.height}, map before {picture.before.hex()} and past it {picture.past.hex()}')
    each = ANSWER.size + picture.blocks + len(picture.past)
    for k, call in enumerate(sequence.calls):
        print(call)
        for who, answers in (('library', said), ('model', right)):
            part = answers[k * each:(k + 1) * each]
            print(f'  {who:8}{ANSWER.unpack_from(part)} {part[ANSWER.size:].hex()}')
    print(f'map: sequence {number}: {"the same" if said == right else first_wrong(sequence, said, right)}')
    return said != right


def options_of(words):
    """Whether it is to be long, the seed, and the one sequence, if one is asked for."""
    options, words = {'--long': False, '--seed': 1, '--only': None}, list(words)
    while words:
        word = words.pop(0)
        if word == '--long':
            options[word] = True
        elif word in ('--seed', '--only') and words and words[0].isdigit():
            options[word] = int(words.pop(0))
        else:
            print(__doc__)
            sys.exit(0 if word in ('--help', '-h') else 2)
    return options['--long'], options['--seed'], options['--only']


def main(long, seed, one):
    with tempfile.TemporaryDirectory() as folder:
        program = made_in(folder)
        if one is not None:
            return only(program, seed, one)
        missed, changed = tried(program, seed)
        (sequences, calls, strict, refused, unsound, compared), found = all_sequences(program, seed, SEQUENCES * (10 if long else 1))
    for line in sorted(found)[:8] + missed[:8]:
        print(f'map: {line}')
    if not missed:
        print(f'map: {len(WRONG)} wrong models and {changed} changed bytes noticed')
    print(f'map: {sequences} sequences, {calls} calls, {strict} of them strict, {refused} of them refused, {unsound} for an unsound list, '
          f'{compared} map bytes, {len(found) + len(missed)} wrong')
    return bool(found or missed)


if __name__ == '__main__':
    sys.exit(main(*options_of(sys.argv[1:])))
