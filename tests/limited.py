#!/usr/bin/env python3
"""A second model of limited range (BT.601, MS-RDPEVOR's video), written from the words of request E11 alone, beside the library, which is called
as a shared one. Every byte of every lent buffer is compared, those past what a call may write included:

- a view to RGBA: all 2^24 triples of Y, U and V; and views of noise of each width and height of 0 to 35, with strides of their own;
- a picture from RGBA: all 2^24 colours, each as a block of 2x2 pixels that are alike, all four samples in all three planes; and pictures of noise
  of each width and height of 0 to 35, with their padding, averages and map;
- of each of these sizes, calls that are to be refused, for one reason or for several at once.

Views and pictures of noise are worked out pixel by pixel. Of all triples and colours the model takes 256 answers at a time: along Y, or along
blue, a sum of the formulas grows by one factor, so the answers stand at equal distances in a table that has, for every sum, its 256th rounded
down, and clamped.

First, bytes of some answers are changed, each of which has to be noticed, and wrong models are asked in place of the right one: each has to
differ somewhere. It needs a C compiler (cc), and makes the library first where that is not made (oracle/library.sh).
Last line `limited: ...`; exit status 1 if something differs, or is not noticed."""
import ctypes
import itertools
import os
import random
import subprocess
import sys
import tempfile

ROOT = os.path.dirname(os.path.dirname(os.path.abspath(__file__)))
SIDES = range(36)
TRIED = (0, 1, 2, 3, 5, 16, 17, 18)     # sides, and
TRIED_BYTES = (0, 15, 16, 100, 255)     # V and red, that the wrong models are asked for
DONE, PLANE_SHORT, RGBA_SHORT, VIEW_NARROW, VIEW_SHORT, OUTPUT_SHORT = 0, 1, 2, 3, 4, 6


def up(number, unit):
    return -(-number // unit) * unit


def half(number):
    return (number + 1) // 2


# --- The model.

LOW, HIGH = -(1 << 18), 1 << 18         # no sum of the formulas is outside


class Limited:
    """The formulas, the walk over rows, the edge, the averages, the map, and the numbers, as the request has them."""
    rounding = 128
    black = 16                          # Y of black, and what is added to a quotient for Y
    middle = 128                        # U and V without colour, likewise
    red, green, blue = (409, 0), (-208, -100), (0, 516)     # what c gets of v and of u
    y, u, v = (66, 129, 25), (-38, -74, 112), (112, -94, -18)
    alpha = 255
    averages = 'UV'
    map_set = 2

    def quotient(self, number):
        """A 256th, rounded down, also below zero: what Python's // does."""
        return number // 256

    def clamp(self, number):
        return max(0, min(255, number))

    # One pixel, there and back.

    def shade(self, factors, y, u, v):
        of_v, of_u = factors
        return self.clamp(self.quotient(298 * (y - self.black) + of_v * (v - self.middle) + of_u * (u - self.middle) + self.rounding))

    def pixel(self, y, u, v):
        return self.shade(self.red, y, u, v), self.shade(self.green, y, u, v), self.shade(self.blue, y, u, v), self.alpha

    def sample(self, plane, r, g, b):
        factors, added = {'Y': (self.y, self.black), 'U': (self.u, self.middle), 'V': (self.v, self.middle)}[plane]
        return self.quotient(factors[0] * r + factors[1] * g + factors[2] * b + self.rounding) + added

    # The same of 256 at a time. A table has the answer for every sum.

    def table(self, added):
        name = f'_table{added}'
        if name not in self.__dict__:
            self.__dict__[name] = bytes(self.clamp(self.quotient(number) + added) for number in range(LOW, HIGH))
        return self.__dict__[name]

    def along(self, start, step, added):
        """Of the sums start, start + step, and so on, 256 of them."""
        return self.table(added)[start - LOW:start - LOW + 256 * step:step]

    def shades_of(self, factors, v):
        """Of a V, every U, and in it every Y."""
        of_v, of_u = factors
        start = -298 * self.black + of_v * (v - self.middle) + self.rounding
        return b''.join(self.along(start + of_u * (u - self.middle), 298, 0) for u in range(256))

    def triples(self, v):
        out = bytearray(4 * 65536)
        out[0::4], out[1::4], out[2::4] = (self.shades_of(factors, v) for factors in (self.red, self.green, self.blue))
        out[3::4] = bytes([self.alpha]) * 65536
        return bytes(out)

    def colours(self, plane, r):
        """Of a red, a row of samples for every green and in it every blue, each twice; and that row twice."""
        factors, added = {'Y': (self.y, self.black), 'U': (self.u, self.middle), 'V': (self.v, self.middle)}[plane]
        rows, row = [], bytearray(512)
        for g in range(256):
            row[0::2] = row[1::2] = self.along(factors[0] * r + factors[1] * g + self.rounding, factors[2], added)
            rows.append(bytes(row) * 2)
        return b''.join(rows)

    # A view.

    def view_number(self, case):
        if case.luma < case.width or case.chroma < half(case.width):
            return VIEW_NARROW
        if any(count < needed for count, needed in zip(case.counts, case.needed())):
            return VIEW_SHORT
        return OUTPUT_SHORT if case.out < 4 * case.width * case.height else DONE

    def chroma_at(self, row, column):
        return row // 2, column // 2

    def view(self, case):
        """Number, count, and the output after the call."""
        number = self.view_number(case)
        if number:
            return number, 0, case.before
        pixels = []
        for row in range(case.height):
            for column in range(case.width):
                r, c = self.chroma_at(row, column)
                at = r * case.chroma + c
                pixels.append(bytes(self.pixel(case.y[row * case.luma + column], case.u[at], case.v[at])))
        written = b''.join(pixels)
        return DONE, len(written), written + case.before[len(written):]

    # A picture.

    def picture_number(self, case):
        if case.rgba_count < 4 * case.width * case.height:
            return RGBA_SHORT
        return PLANE_SHORT if any(count < needed for count, needed in zip(case.counts, case.needed())) else DONE

    def nearest(self, case, row, column):
        """The pixel whose sample stands at a place of the padded plane."""
        return min(row, case.height - 1), min(column, case.width - 1)

    def plane(self, case, plane):
        stride, rows = up(case.width, 16), up(case.height, 16)
        of_pixel = [self.sample(plane, *case.rgba[at:at + 3]) for at in range(0, 4 * case.width * case.height, 4)]
        made = bytearray()
        for row in range(rows):
            for column in range(stride):
                r, c = self.nearest(case, row, column)
                made.append(of_pixel[r * case.width + c])
        if plane in self.averages:
            for at in (row * stride + column for row in range(0, rows, 2) for column in range(0, stride, 2)):
                made[at] = (made[at] + made[at + 1] + made[at + stride] + made[at + stride + 1] + 2) // 4
        return bytes(made)

    def picture(self, case):
        """Number, and y, u, v and map after the call."""
        number = self.picture_number(case)
        if number:
            return number, *case.before
        made = [self.plane(case, plane) for plane in 'YUV'] + [bytes([self.map_set]) * case.needed()[3]]
        return DONE, *(new + before[len(new):] for new, before in zip(made, case.before))


# --- Wrong ones: each has to be noticed.

class Truncated(Limited):
    """Rounded to zero."""
    def quotient(self, number):
        return abs(number) // 256 * (1 if number >= 0 else -1)


class NotClamped(Limited):
    def clamp(self, number):
        return number % 256


class WholeRow(Limited):
    """The chroma of the row itself, as far as there is one."""
    def chroma_at(self, row, column):
        return half(row) if row else 0, column // 2


class RoundedUp(Limited):
    """Chroma that begins a column early."""
    def chroma_at(self, row, column):
        return row // 2, max(0, (column - 1) // 2)


class NotFilled(Limited):
    """Padding as in a fresh picture of black."""
    def plane(self, case, plane):
        made, stride = bytearray(super().plane(case, plane)), up(case.width, 16)
        for at in range(len(made)):
            if at // stride >= case.height or at % stride >= case.width:
                made[at] = self.black if plane == 'Y' else self.middle
        return bytes(made)


class RowsNotFilled(Limited):
    def nearest(self, case, row, column):
        return min(row, case.height - 1), min(column, case.width - 1) if row < case.height else 0


class LastButOne(Limited):
    def nearest(self, case, row, column):
        return min(row, case.height - 1), column if column < case.width else max(0, case.width - 2)


class AverageDown(Limited):
    def plane(self, case, plane):
        stride, made, kept = up(case.width, 16), bytearray(super().plane(case, plane)), self.averages
        self.averages = ''
        plain = super().plane(case, plane)
        self.averages = kept
        for at in (at for at in range(len(made)) if at // stride % 2 == 0 and at % stride % 2 == 0 and plane != 'Y'):
            made[at] = (plain[at] + plain[at + 1] + plain[at + stride] + plain[at + stride + 1]) // 4
        return bytes(made)


class PlanesFirst(Limited):
    """1 before 2."""
    def picture_number(self, case):
        short = any(count < needed for count, needed in zip(case.counts, case.needed()))
        return PLANE_SHORT if short else super().picture_number(case)


class MapNotAsked(Limited):
    def picture_number(self, case):
        if case.rgba_count < 4 * case.width * case.height:
            return RGBA_SHORT
        return PLANE_SHORT if any(count < needed for count, needed in list(zip(case.counts, case.needed()))[:3]) else DONE

    def picture(self, case):
        number, *after = super().picture(case)
        return number, *(new[:len(before)] for new, before in zip(after, case.before))


class OneMore(Limited):
    """A byte after what is to be written, where that is lent."""
    def view(self, case):
        number, count, after = super().view(case)
        return number, count, after[:count] + bytes([after[count] ^ 1]) + after[count + 1:] if not number and case.out > count else after


class OneMoreOfAPlane(Limited):
    def picture(self, case):
        number, y, *others = super().picture(case)
        end = case.needed()[0]
        return number, y[:end] + bytes([y[end] ^ 1]) + y[end + 1:] if not number and case.counts[0] > end else y, *others


class OutputFirst(Limited):
    """6 before 3 and 4."""
    def view_number(self, case):
        return OUTPUT_SHORT if case.out < 4 * case.width * case.height else super().view_number(case)


class ShortFirst(Limited):
    """4 before 3."""
    def view_number(self, case):
        if any(count < needed for count, needed in zip(case.counts, case.needed())):
            return VIEW_SHORT
        return super().view_number(case)


def changed(name, **numbers):
    return type(name, (Limited,), numbers)


WRONG = [Truncated, NotClamped, WholeRow, RoundedUp, NotFilled, RowsNotFilled, LastButOne, AverageDown, PlanesFirst, MapNotAsked, OneMore,
         OneMoreOfAPlane, OutputFirst, ShortFirst, changed('Rounding127', rounding=127), changed('NotRounded', rounding=0), changed('SixteenKept', black=0),
         changed('Middle127', middle=127), changed('ExchangedBack', red=(0, 409), green=(-100, -208), blue=(516, 0)),
         changed('Exchanged', u=Limited.v, v=Limited.u), changed('BlueFirst', y=(25, 129, 66), u=(112, -74, -38), v=(-18, -94, 112)),
         changed('Red408', red=(408, 0)), changed('Green207', green=(-207, -100)), changed('Green101', green=(-208, -101)),
         changed('Blue517', blue=(0, 517)), changed('Y65', y=(65, 129, 25)), changed('U73', u=(-38, -73, 112)), changed('V17', v=(112, -94, -17)),
         changed('Alpha254', alpha=254), changed('NoAverage', averages=''), changed('AllAveraged', averages='YUV'),
         changed('VNotAveraged', averages='U'), changed('MapOne', map_set=1), changed('MapKept', map_set=0)]


# --- The library.

class Answer(ctypes.Structure):
    _fields_ = [('number', ctypes.c_uint32), ('count', ctypes.c_size_t)]


def stop(words):
    sys.exit(f'limited: {words}')


def run(words, **more):
    try:
        subprocess.run(words, check=True, **more)
    except FileNotFoundError:
        stop(f'there is no command {words[0]}')
    except subprocess.CalledProcessError as failed:
        stop(f'{os.path.basename(words[0])} ended with status {failed.returncode}')


def linked_in(folder):
    """The library, shared, and its two calls."""
    archive, shared = os.path.join(ROOT, 'oracle', 'build', 'libhaythaw.a'), os.path.join(folder, 'libhaythaw.so')
    run([os.path.join(ROOT, 'oracle', 'library.sh')], stdout=subprocess.DEVNULL)
    run(['cc', '-shared', '-Wl,--whole-archive', archive, '-Wl,--no-whole-archive', '-o', shared])
    library = ctypes.CDLL(shared)
    lent = [ctypes.c_char_p, ctypes.c_size_t]
    view, make = library.haythaw_view_to_rgba_limited, library.haythaw_from_rgba_limited
    view.argtypes, view.restype = [ctypes.c_uint16] * 2 + [ctypes.c_size_t] * 2 + lent * 4, Answer
    make.argtypes, make.restype = lent + [ctypes.c_uint16] * 2 + lent * 4, ctypes.c_uint32
    return view, make


GUARD = b'\xa7' * 16


def lend(held):
    """A buffer that holds these bytes, with others before and after it; its address."""
    buffer = ctypes.create_string_buffer(GUARD + held + GUARD, len(held) + 2 * len(GUARD))
    return buffer, ctypes.cast(ctypes.addressof(buffer) + len(GUARD), ctypes.c_char_p)


def given_back(buffer):
    """What it holds; a guard that was written is no answer of any model."""
    held = buffer.raw
    whole = held[:len(GUARD)] == GUARD and held[len(held) - len(GUARD):] == GUARD
    return held[len(GUARD):len(held) - len(GUARD)] if whole else b'a byte around a buffer was written'


class ViewCase:
    """A view: its size, its strides, and by how much its planes and the output are lent with less than is needed, or with more where that is
    below zero. Each has three bytes more than it is lent with, or than it needs."""
    def __init__(self, width, height, luma, chroma, less=(0, 0, 0, 0)):
        self.width, self.height, self.luma, self.chroma = width, height, luma, chroma
        self.counts = [max(0, count - short) for count, short in zip(self.needed(), less)]
        self.out = max(0, 4 * width * height - less[3])
        self.y, self.u, self.v = (random.randbytes(count + 3) for count in self.needed())
        self.before = random.randbytes(self.out + 3)

    def needed(self):
        rows = half(self.height)
        return self.luma * self.height, self.chroma * rows, self.chroma * rows

    def asked(self, view, make):
        planes, (out, at) = [lend(plane) for plane in (self.y, self.u, self.v)], lend(self.before)
        lent = [word for (_, address), count in zip(planes, self.counts) for word in (address, count)]
        answer = view(self.width, self.height, self.luma, self.chroma, *lent, at, self.out)
        kept = tuple(given_back(plane) for plane, _ in planes) == (self.y, self.u, self.v)
        return (answer.number, answer.count, given_back(out)) if kept else 'a plane of the view was written'

    def answer(self, model):
        return model.view(self)

    def __str__(self):
        return f'a view of {self.width}x{self.height}, strides {self.luma} and {self.chroma}, counts {self.counts}, {self.out} bytes of output'


class PictureCase:
    """A picture: its size, its pixels, and by how much these, its planes and its map are lent with less than is needed, or with more."""
    def __init__(self, width, height, less=(0, 0, 0, 0, 0)):
        self.width, self.height = width, height
        self.rgba_count = max(0, 4 * width * height - less[0])
        self.counts = [max(0, count - short) for count, short in zip(self.needed(), less[1:])]
        self.rgba = random.randbytes(4 * width * height + 3)
        self.before = [random.randbytes(count + 3) for count in self.counts]

    def needed(self):
        plane = up(self.width, 16) * up(self.height, 16)
        return plane, plane, plane, plane // 4

    def asked(self, view, make):
        (rgba, pixels), lent = lend(self.rgba), [lend(held) for held in self.before]
        words = [word for (_, address), count in zip(lent, self.counts) for word in (address, count)]
        number = make(pixels, self.rgba_count, self.width, self.height, *words)
        return (number, *(given_back(buffer) for buffer, _ in lent)) if given_back(rgba) == self.rgba else 'the pixels were written'

    def answer(self, model):
        return model.picture(self)

    def __str__(self):
        return f'a picture of {self.width}x{self.height}, {self.rgba_count} bytes of pixels, counts {self.counts}'


class Triples:
    """Every Y and U with one V: a view 128 wide, of which two rows have one U and every Y."""
    def __init__(self, v):
        self.v = v

    def asked(self, view, make):
        y, u, v = bytes(range(256)) * 256, b''.join(bytes([number]) * 64 for number in range(256)), bytes([self.v]) * (64 * 256)
        out, at = lend(bytes(4 * 65536))
        answer = view(128, 512, 128, 64, y, len(y), u, len(u), v, len(v), at, 4 * 65536)
        return answer.number, answer.count, given_back(out)

    def answer(self, model):
        return DONE, 4 * 65536, model.triples(self.v)

    def __str__(self):
        return f'a view of every Y and U with V {self.v}'


class Colours:
    """Every green and blue with one red: a picture of 512x512 in blocks that are alike. An average of four that are alike is what they are."""
    row = bytearray(4 * 512)
    row[2::4], row[3::4] = bytes(blue // 2 for blue in range(512)), bytes(range(256)) * 2       # any alpha
    pixels = bytearray()
    for green in range(256):
        row[1::4] = bytes([green]) * 512
        pixels += row * 2

    def __init__(self, red):
        self.red = red

    def asked(self, view, make):
        self.pixels[0::4] = bytes([self.red]) * (512 * 512)
        pixels, plane, blocks = bytes(self.pixels), bytes(512 * 512), bytes(256 * 256)
        lent = [lend(plane), lend(plane), lend(plane), lend(blocks)]
        words = [word for (buffer, address) in lent for word in (address, len(buffer) - 2 * len(GUARD))]
        number = make(pixels, len(pixels), 512, 512, *words)
        return (number, *(given_back(buffer) for buffer, _ in lent))

    def answer(self, model):
        return DONE, *(model.colours(plane, self.red) for plane in 'YUV'), bytes([model.map_set]) * (256 * 256)

    def __str__(self):
        return f'a picture of every green and blue with red {self.red}'


# --- Cases.

def noise(width, height):
    """A view and a picture of a size, with room and strides as needed and with more; and what is to be refused."""
    yield PictureCase(width, height)
    yield PictureCase(width, height, (-3, -1, -2, -3, -1))
    yield ViewCase(width, height, width, half(width))
    yield ViewCase(width, height, width + 1 + random.randrange(9), half(width) + random.randrange(9), (-3, -1, -2, -3))
    for _ in range(2):
        yield PictureCase(width, height, [random.choice((0, 0, 1, 1 + random.randrange(40))) for _ in range(5)])
        luma, chroma = max(0, width - random.choice((0, 0, 1))), max(0, half(width) - random.choice((0, 0, 1)))
        yield ViewCase(width, height, luma, chroma, [random.choice((0, 0, 1, 1 + random.randrange(40))) for _ in range(4)])


def differs(case, got, want):
    """Words about what is not as it has to be."""
    if isinstance(got, str):
        return f'{case}: {got}'
    for name, one, other in zip(('number', 'count', 'output') if len(got) == 3 else ('number', 'y', 'u', 'v', 'map'), got, want):
        if one != other and isinstance(one, int):
            return f'{case}: {name} {one}, and not {other}'
        if one != other:
            at = next((k for k in range(min(len(one), len(other))) if one[k] != other[k]), 'past its end')
            return f'{case}: {name}, byte {at}' + (f' is {one[at]}, and not {other[at]}' if isinstance(at, int) else f': {one[:40]!r}')
    return str(case)


def not_noticed(said, answers):
    """A byte is changed in every answer that has one: how many were, and how many of them are taken for right."""
    tried = missed = 0
    for k, (got, want) in enumerate(zip(said, answers)):
        parts = list(got)
        which = [i for i, part in enumerate(parts) if isinstance(part, bytes) and part]
        if which:
            i = which[k % len(which)]
            at = k * 7919 % len(parts[i])
            parts[i] = parts[i][:at] + bytes([parts[i][at] ^ 1 << k % 8]) + parts[i][at + 1:]
            tried += 1
            missed += tuple(parts) == want
    return tried, missed


def self_test(calls, right):
    """What is not noticed of changed bytes and of wrong models; and how many bytes were changed."""
    cases = [case for width in TRIED for height in TRIED for case in noise(width, height)]
    cases += [kind(byte) for byte in TRIED_BYTES for kind in (Triples, Colours)]
    said, answers = [case.asked(*calls) for case in cases], [case.answer(right) for case in cases]
    tried, missed = not_noticed(said, answers)
    found = [f'{missed} changed bytes are not noticed'] * bool(missed)
    for wrong in WRONG:
        model = wrong()
        if all(case.answer(model) == got for case, got in zip(cases, said)):
            found.append(f'{wrong.__name__} answers every case as the library does')
    return tried, found


def main():
    random.seed(11)
    right, counted, compared = Limited(), {ViewCase: 0, PictureCase: 0, Triples: 0, Colours: 0, 'refused': 0}, 0
    with tempfile.TemporaryDirectory() as folder:
        calls = linked_in(folder)
        tried, found = self_test(calls, right)
        cases = (case for width in SIDES for height in SIDES for case in noise(width, height))
        for case in itertools.chain(cases, map(Triples, range(256)), map(Colours, range(256))):
            got, want = case.asked(*calls), case.answer(right)
            if got != want:
                found.append(differs(case, got, want))
            counted['refused' if want[0] else type(case)] += 1
            compared += sum(len(part) for part in want if isinstance(part, bytes))
    for line in found[:8]:
        print(f'limited: {line}')
    print(f'limited: {65536 * counted[Triples]} triples to RGBA and {65536 * counted[Colours]} colours from it, {counted[ViewCase]} views and '
          f'{counted[PictureCase]} pictures of noise, {counted["refused"]} refusals, {compared} bytes compared, {tried} changed bytes and '
          f'{len(WRONG)} wrong models tried, {len(found)} wrong')
    sys.exit(bool(found))


if sys.argv[1:]:
    sys.exit('usage: tests/limited.py\n\n' + __doc__)
main()
