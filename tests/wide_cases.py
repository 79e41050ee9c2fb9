#!/usr/bin/env python3
"""A second split of AVC444v2 by either rule for its width, written from the words of the request alone: the planes are widened to W, byte for
byte, and the widened planes are split. Every picture of 0 to 70 by 0 to 70, and refusals, go through the library (tests/wide.c over the
header); every byte that it answered, those past the planes included, has to be what this script says.

Then bytes of the answers are changed, each of which has to be noticed in its own case alone, and some wrong splits are asked in place of this
one: each has to differ somewhere.
It needs a C compiler (cc), and makes the library first where that is not made (oracle/library.sh).
Last line `wide_cases: ...`; exit status 1 if something differs, or is not noticed."""
import os
import random
import struct
import subprocess
import sys
import tempfile

ROOT = os.path.dirname(os.path.dirname(os.path.abspath(__file__)))
SIDES = range(71)
LIMIT = 65470               # the first width of the cases about 5
TRIED = 16, 48, 64, LIMIT   # the widths at which bytes are changed and wrong splits are tried
UNWRITTEN = 201             # every byte of the outputs, before the call
HEAD = struct.Struct('<BHH9I')
ANSWER = struct.Struct('<IHHQQB')
NOTHING = (0, 0, 0, 0)      # sizes and strides of a refusal


def up(number, unit):
    return (number + unit - 1) // unit * unit


class Case:
    """A picture's size, the rule, how many bytes each plane and each output has more (or, below 0, fewer) than is needed."""

    def __init__(self, rule, width, height, planes=(0, 0, 0), outputs=(0,) * 6):
        self.rule, self.width, self.height = rule, width, height
        self.stride, self.rows, wide = up(width, 16), up(height, 16), up(width, rule)
        luma, chroma = wide * self.rows, wide // 2 * (self.rows // 2)
        needed = (luma, chroma, chroma) * 2
        self.planes = [random.randbytes(max(0, self.stride * self.rows + more)) for more in planes]
        self.lengths = [max(0, length + more) for length, more in zip(needed, outputs)]

    def given(self):
        return HEAD.pack(self.rule, self.width, self.height, *map(len, self.planes), *self.lengths) + b''.join(self.planes)

    def __str__(self):
        return f'{self.width}x{self.height} by the {self.rule} rule, planes {[len(p) for p in self.planes]}, outputs {self.lengths}'


class Split:
    """The words of the request, one method for each that a wrong split gets wrong."""

    def wide(self, case):
        """By the 32 rule W is the picture's width rounded up to 32; by the 16 rule it is the stride."""
        return up(case.width, 32) if case.rule == 32 else case.stride

    def number(self, case, wide):
        """1, a plane too short; 5, stride, rows or W above 65,535; 6, an output too short."""
        if any(len(plane) < case.stride * case.rows for plane in case.planes):
            return 1
        if max(case.stride, case.rows, wide) > 65535:
            return 5
        luma, chroma = wide * case.rows, wide // 2 * (case.rows // 2)
        return 6 if any(have < need for have, need in zip(case.lengths, (luma, chroma, chroma) * 2)) else 0

    past = (0, 128, 128)    # Y 0, and U and V 128 past the stride

    def widened(self, case, wide):
        """The rows of the three planes, as if these were W wide."""
        stride = case.stride
        return [[plane[r * stride:(r + 1) * stride] + bytes([past]) * (wide - stride) for r in range(case.rows)]
                for plane, past in zip(case.planes, self.past)]

    def main(self, y, u, v):
        """The luma plane, and the chroma of even rows and even columns."""
        return y, [row[0::2] for row in u[0::2]], [row[0::2] for row in v[0::2]]

    def auxiliary(self, case, u, v):
        """Luma: odd columns of U, then those of V. U and V: of odd rows columns 0, 4, 8 .. and 2, 6, 10 .., of U and then of V."""
        odd_rows = list(zip(u[1::2], v[1::2]))
        return ([a[1::2] + b[1::2] for a, b in zip(u, v)], [a[0::4] + b[0::4] for a, b in odd_rows], [a[2::4] + b[2::4] for a, b in odd_rows])

    def answer(self, case):
        """All that the library has to answer: a head, and every byte of the outputs."""
        wide = self.wide(case)
        number = self.number(case, wide)
        if number:
            return ANSWER.pack(number, *NOTHING, 1) + bytes([UNWRITTEN]) * sum(case.lengths)
        y, u, v = self.widened(case, wide)
        written = [b''.join(rows) for rows in (*self.main(y, u, v), *self.auxiliary(case, u, v))]
        rest = [out + bytes([UNWRITTEN]) * (length - len(out)) for out, length in zip(written, case.lengths)]
        return ANSWER.pack(0, wide, case.rows, wide, wide // 2, 1) + b''.join(rest)


class ChromaPast0(Split):
    past = (0, 0, 0)


class LumaPast128(Split):
    past = (128, 128, 128)


class LastColumnGoesOn(Split):
    def widened(self, case, wide):
        return [[row[:case.stride] + row[case.stride - 1:case.stride] * (wide - case.stride) for row in rows] for rows in super().widened(case, wide)]


class VAtHalfTheStride(Split):
    def auxiliary(self, case, u, v):
        views = super().auxiliary(case, *([row[:case.stride] for row in rows] for rows in (u, v)))
        return [[row.ljust(up(case.width, case.rule) // part, b'\x80') for row in rows] for rows, part in zip(views, (1, 2, 2))]


class UAndVExchanged(Split):
    def auxiliary(self, case, u, v):
        return super().auxiliary(case, v, u)


class OtherColumnsOfOddRows(Split):
    def auxiliary(self, case, u, v):
        luma, first, second = super().auxiliary(case, u, v)
        return luma, second, first


class StrideForW(Split):
    def wide(self, case):
        return case.stride


class ToNextMultiple(Split):
    """A width that is a multiple of 32 is rounded up as well."""

    def wide(self, case):
        return case.width // 32 * 32 + 32 if case.rule == 32 else case.stride


class WideMayBe65536(Split):
    def number(self, case, wide):
        return super().number(case, min(wide, 65535))

    def answer(self, case):
        return ANSWER.pack(0, 0, case.rows, 65536, 32768, 1) if self.wide(case) == 65536 and not case.rows else super().answer(case)


class SixBeforeOne(Split):
    def number(self, case, wide):
        found = super().number(case, wide)
        luma = wide * case.rows
        return 6 if found == 1 and case.lengths[5] < luma // 4 else found


class SixByTheStride(Split):
    def number(self, case, wide):
        found = super().number(case, wide)
        luma = case.stride * case.rows
        return 0 if found == 6 and min(case.lengths) >= luma // 4 else found


WRONG = [one for one in globals().values() if isinstance(one, type) and issubclass(one, Split) and one is not Split]


def pictures(width):
    """Every height with exact buffers or a few bytes more, by the 32 rule, and some by the 16 rule."""
    for height in SIDES:
        more = [(width + 3 * height + k) % 4 for k in range(9)]
        yield Case(32, width, height, more[:3], more[3:])
        if height % 16 in (0, 1):
            yield Case(16, width, height, more[:3], more[3:])


def refusals(width):
    """Each plane and each output a byte short, alone and together with the one after it; and outputs of the other rule."""
    if not width:
        return
    for k in range(9):
        for both in (False, True):
            more = [0] * 9
            more[k] = -1
            more[(k + 1) % 9] = -both
            yield Case(32, width, 17, more[:3], more[3:])
    case = Case(32, width, 17)
    case.lengths = Case(16, width, 17).lengths
    yield case


def limits():
    """The widths and heights where 5 begins, without a byte."""
    for rule in (16, 32):
        for long in range(LIMIT, 65536):
            yield Case(rule, long, 0)
            yield Case(rule, long, 1, (-2 ** 30,) * 3, (-2 ** 30,) * 6)
        for long in (65520, 65521, 65535):
            yield Case(rule, 0, long)


def stop(words):
    sys.exit(f'wide_cases: {words}')


def run(words, **more):
    try:
        return subprocess.run(words, check=True, **more)
    except FileNotFoundError:
        stop(f'there is no command {words[0]}')
    except subprocess.CalledProcessError as failed:
        stop(f'{os.path.basename(words[0])} ended with status {failed.returncode}')


def made_in(folder):
    """The program, over the library."""
    archive, program = os.path.join(ROOT, 'oracle', 'build', 'libhaythaw.a'), os.path.join(folder, 'wide')
    run([os.path.join(ROOT, 'oracle', 'library.sh')], stdout=subprocess.DEVNULL)
    run(['cc', '-std=c99', '-O1', '-Wall', '-Wextra', '-Wpedantic', '-Werror', '-I' + os.path.join(ROOT, 'bind', 'c'),
         os.path.join(ROOT, 'tests', 'wide.c'), archive, '-o', program])
    return program


def asked(program, cases):
    """All that the library answered."""
    return run([program], input=b''.join(case.given() for case in cases), stdout=subprocess.PIPE).stdout


def cut(cases, said):
    """Each case and its part of the answers, which have to be used up."""
    ends = 0
    for case in cases:
        start, ends = ends, ends + ANSWER.size + sum(case.lengths)
        yield case, said[start:ends]
    if ends != len(said):
        stop(f'the library answered {len(said)} bytes, and not {ends}')


def wrong_in(cases, said, answers):
    """The cases that were answered otherwise."""
    return [case for (case, part), answer in zip(cut(cases, said), answers) if part != answer]


def not_noticed(cases, said, answers):
    """How many of 100 bytes, from the first to the last, are not noticed, each in its own case alone, when they are changed."""
    places = [k * (len(said) - 1) // 99 for k in range(100)]
    changed = (said[:at] + bytes([said[at] ^ 1]) + said[at + 1:] for at in places)
    return sum(len(wrong_in(cases, other, answers)) != 1 for other in changed)


def main():
    random.seed(1)
    right, others = Split(), [one() for one in WRONG]
    found, counted, compared, missed, apart = [], {16: 0, 32: 0, 'refused': 0}, 0, 0, dict.fromkeys(others, 0)
    with tempfile.TemporaryDirectory() as folder:
        program = made_in(folder)
        for cases in (*([*pictures(width), *refusals(width)] for width in SIDES), list(limits())):
            said, answers = asked(program, cases), [right.answer(case) for case in cases]
            compared += len(said)
            found += [f'{case} is not split as the request says' for case in wrong_in(cases, said, answers)]
            for case in cases:
                counted['refused' if right.number(case, right.wide(case)) else case.rule] += 1
            if cases[0].width in TRIED:
                missed += not_noticed(cases, said, answers)
                for split in others:
                    apart[split] += len(wrong_in(cases, said, [split.answer(case) for case in cases]))
    found += [f'{missed} changed bytes are not noticed'] * bool(missed)
    found += [f'{type(split).__name__} answers every case as the library does' for split, count in apart.items() if not count]
    for line in found[:8]:
        print(f'wide_cases: {line}')
    print(f'wide_cases: {counted[32]} splits by the 32 rule, {counted[16]} by the 16 rule, {counted["refused"]} refusals, {compared} bytes compared, '
          f'{100 * len(TRIED)} changed bytes and {len(others)} wrong splits tried, {len(found)} wrong')
    sys.exit(bool(found))


if sys.argv[1:]:
    sys.exit('usage: tests/wide_cases.py\n\n' + __doc__)
main()
