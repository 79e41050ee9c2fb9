#!/usr/bin/env python3
"""The cases of tests/stored/replay_write.in that have a number for a name, and what has to be printed of each: a generator and a writer of
AVC444 payloads written from the words of R110 to R124 of docs/RULES.md alone (7, a list that is not in fours, and 6, an output that is
too short, are of the rules' table; the size in kinds 1 and 2 is the one that docs/DIFFERENCES.md has of the standard). With --write both
files are written anew behind the lines that were written by hand; without it they have to be what would be written. The lines by hand have
to be what the writer here says, too.

Then some wrong writers are asked, and each has to answer at least one of the generated cases otherwise: the cases notice it. 11 is not
among the cases: it begins at a stream of 2^30 bytes.
Last line `write_cases: N cases, H by hand, M wrong writers noticed`; exit status 1 if a line differs or a wrong writer is not noticed."""
import os
import sys
from collections import namedtuple

HERE = os.path.join(os.path.dirname(os.path.abspath(__file__)), 'stored')
INPUT = 262144                                           # bytes of input that tests/stored/run.c has room for

Stream = namedtuple('Stream', 'rects pairs h264')        # what is lent for a stream: numbers, and bytes
Case = namedtuple('Case', 'kind luma chroma room before')


class Writer:
    """The words of E7, one method for each that a wrong writer gets wrong."""

    def number(self, n, width):
        """All numbers are little-endian."""
        return bytes(n // 256 ** place % 256 for place in range(width))

    def known(self, kind):
        """8 when the kind is above 2."""
        return kind <= 2

    def carried(self, kind, luma, chroma):
        """0 both, 1 luma only, 2 chroma only."""
        return {0: [luma, chroma], 1: [luma], 2: [chroma]}[kind]

    def listed(self, kind, luma, chroma):
        """The streams whose lists have to be sound: the parts of the stream not carried are ignored."""
        return self.carried(kind, luma, chroma)

    def sound(self, one):
        """The list is in fours, and there is one pair for each rectangle."""
        return len(one.rects) % 4 == 0 and len(one.pairs) == 2 * (len(one.rects) // 4)

    def count(self, one):
        return self.number(len(one.rects) // 4, 4)

    def rects(self, one):
        return b''.join(self.number(n, 2) for n in one.rects)

    def stream(self, one):
        """A count, that many rectangles of four u16, that many pairs, and the H.264 bytes."""
        return self.count(one) + self.rects(one) + one.pairs + one.h264

    def size(self, kind, streams):
        """The first stream's size, its count, rectangles and pairs included; none where luma is not carried."""
        return 0 if kind == 2 else len(streams[0])

    def first(self, kind, size):
        """The low 30 bits are the first stream's size, and the top two bits say what is carried."""
        return kind * 2 ** 30 + size

    def payload(self, case):
        streams = [self.stream(one) for one in self.carried(case.kind, case.luma, case.chroma)]
        return self.number(self.first(case.kind, self.size(case.kind, streams)), 4) + b''.join(streams)

    def fits(self, payload, room, case):
        """6 when the output is shorter than what is to be written."""
        return len(payload) <= room

    def order(self, held):
        """Of the refusals that hold, which one is answered; they come in E7's order."""
        return held[0]

    def written(self, payload, before):
        """The count is the bytes written, and the output's other bytes are as they were."""
        return 0, len(payload), payload + before[len(payload):]

    def refused(self, number, payload, before):
        """A refusal has the count 0 and changes no byte."""
        return number, 0, before

    def write(self, case):
        """The number, the count, and the output after the call."""
        before = bytes([case.before]) * case.room
        held = [] if self.known(case.kind) else [8]
        # a kind above 2 carries nothing, and is refused in any case; what else would hold, were it kind 0, is for the wrong writers
        seen = case if case.kind <= 2 else case._replace(kind=0)
        if not all(map(self.sound, self.listed(seen.kind, seen.luma, seen.chroma))):
            held.append(7)
        payload = self.payload(seen)
        if not self.fits(payload, case.room, seen):
            held.append(6)
        return self.refused(self.order(held), payload, before) if held else self.written(payload, before)

    def line(self, name, case):
        number, count, out = self.write(case)
        return f'{name}: {number} {count},' + ''.join(f' {byte:02x}' for byte in out)

    def lines(self, cases):
        return [self.line(name, case) for name, case in cases]


def typed(name, case):
    """A case as a line of the input."""
    fields = [name, str(case.kind)]
    for one in case.luma, case.chroma:
        fields += [' '.join(f'{n:04x}' for n in one.rects), one.pairs.hex(' '), one.h264.hex(' ')]
    return '\t'.join([*fields, str(case.room), f'{case.before:02x}'])


def read(line):
    """A line of the input as a case, with its name."""
    name, kind, *parts, room, before = line.split('\t')
    streams = [Stream(tuple(int(n, 16) for n in rects.split()), bytes.fromhex(pairs), bytes.fromhex(h264))
               for rects, pairs, h264 in (parts[:3], parts[3:])]
    return name, Case(int(kind), *streams, int(room), int(before, 16))


def filler(n, start=41):
    """n bytes, of which any 256 in a row differ."""
    return bytes((73 * k + start) % 256 for k in range(n))


def numbers(n, start=1):
    """n numbers of 16 bits, none of them twice."""
    return tuple((40503 * k + 258 * start + 1) % 65536 for k in range(n))


def lent(rects, h264, start=41):
    """A stream of so many rectangles and H.264 bytes."""
    return Stream(numbers(4 * rects, start), filler(2 * rects, start), filler(h264, start + 100))


def length(kind, luma, chroma):
    """How many bytes the payload has."""
    streams = {0: (luma, chroma), 1: (luma,), 2: (chroma,)}[kind]
    return 4 + sum(4 + 2 * len(one.rects) + len(one.pairs) + len(one.h264) for one in streams)


def exact(kind, luma, chroma, more=0, before=170):
    return Case(kind, luma, chroma, length(kind, luma, chroma) + more, before)


def cases():
    luma, chroma = lent(1, 1), lent(1, 2, 7)
    # every kind, with 0 to 3 rectangles in either list, with and without H.264 bytes
    for kind in range(3):
        for first in range(4):
            for second in range(4):
                yield exact(kind, lent(first, 3 * (second % 2)), lent(second, 2 * (first % 2), 7))
                yield exact(kind, lent(first, 1), lent(second, 5, 7), 2, 85)
    # every length of the output, from 0 to three bytes over
    for one, other in (luma, chroma), (lent(0, 0), lent(0, 0)), (lent(2, 0), lent(0, 3, 7)):
        for kind in range(3):
            for more in range(-length(kind, one, other), 4):
                yield exact(kind, one, other, more)
    # what the output holds before
    for kind in range(3):
        for before in 0, 1, 64, 128, 255:
            yield exact(kind, luma, chroma, 5, before)
            yield exact(kind, luma, chroma, -1, before)
    # lists and pairs of every length near one and two rectangles, in either stream
    for kind in range(3):
        for n in range(10):
            for m in range(6):
                some = Stream(numbers(n, 3), filler(m, 5), filler(1))
                yield Case(kind, some, chroma, 48, 170)
                yield Case(kind, luma, some, 48, 170)
    # refusals that hold at once: lists and pairs that are sound or not, the output too short or not, and kinds that are known or not
    for kind in range(4):
        for n, m, k, j in ((n, m, k, j) for n in (3, 4) for m in (1, 2) for k in (4, 5) for j in (2, 3)):
            one, other = Stream(numbers(n, 3), filler(m, 5), filler(1)), Stream(numbers(k, 9), filler(j, 7), filler(2))
            for room in 0, 19, 20, 35:
                yield Case(kind, one, other, room, 170)
    # kinds above 2, each bit among them
    for kind in sorted({3, 4, 5, 6, 7, 255, 65535, 2 ** 32 - 1, *(2 ** bit + low for bit in range(2, 32) for low in (0, 2))}):
        yield Case(kind, luma, chroma, 36, 170)
    # every bit of a number, every byte of a pair and of H.264
    bits = Stream(tuple(2 ** bit for bit in range(16)), bytes(8), b'')
    ends = Stream((0, 65535, 65280, 255, 32767, 32768, 1, 256), b'\xff' * 4, b'\xff\x00')
    many = Stream(numbers(512, 11), bytes(range(256)), bytes(range(255, -1, -1)))
    for kind in range(3):
        yield exact(kind, bits, ends)
        yield exact(kind, ends, bits)
    yield exact(1, many, luma)
    yield exact(2, luma, many)
    # a size and counts of more than a byte, on both sides of it
    for h264 in 251, 252, 253:
        yield exact(0, lent(0, h264), chroma, 1)
    yield exact(1, lent(24, 11), chroma, 1)
    yield exact(1, lent(24, 12), chroma, 1)
    yield exact(0, lent(255, 1), lent(3, 1, 7))
    yield exact(0, lent(3, 1), lent(256, 1, 7), 1)
    yield exact(1, lent(257, 300), luma)
    yield exact(2, luma, lent(257, 300, 7))
    yield exact(2, luma, lent(257, 300, 7), -1)


class BigEndian(Writer):
    def number(self, n, width):
        return n.to_bytes(width, 'big')


class BigEndianRectangles(Writer):
    def rects(self, one):
        return b''.join(n.to_bytes(2, 'big') for n in one.rects)


class CountOfNumbers(Writer):
    def count(self, one):
        return self.number(len(one.rects), 4)


class CountOfOneByte(Writer):
    def count(self, one):
        return self.number(len(one.rects) // 4 % 256, 4)


class CountOf16Bits(Writer):
    def count(self, one):
        return self.number(len(one.rects) // 4, 2)


class PairsFirst(Writer):
    def stream(self, one):
        return self.count(one) + one.pairs + self.rects(one) + one.h264


class PairBesideItsRectangle(Writer):
    def stream(self, one):
        rects, places = self.rects(one), range(len(one.rects) // 4)
        return self.count(one) + b''.join(rects[8 * k:8 * k + 8] + one.pairs[2 * k:2 * k + 2] for k in places) + one.h264


class BytesBeforePairs(Writer):
    def stream(self, one):
        return self.count(one) + self.rects(one) + one.h264 + one.pairs


class PairsExchanged(Writer):
    def payload(self, case):
        luma, chroma = case.luma, case.chroma
        return super().payload(case._replace(luma=luma._replace(pairs=chroma.pairs), chroma=chroma._replace(pairs=luma.pairs)))


class PairsOfLumaTwice(Writer):
    def payload(self, case):
        return super().payload(case._replace(chroma=case.chroma._replace(pairs=case.luma.pairs)))


class ChromaFirst(Writer):
    def carried(self, kind, luma, chroma):
        return super().carried(kind, luma, chroma)[::-1]


class KindsExchanged(Writer):
    def carried(self, kind, luma, chroma):
        return super().carried({0: 0, 1: 2, 2: 1}[kind], luma, chroma)


class BothAlways(Writer):
    def carried(self, kind, luma, chroma):
        return [luma, chroma]


class LumaFollowedByItself(Writer):
    def carried(self, kind, luma, chroma):
        return [luma, luma] if kind == 0 else super().carried(kind, luma, chroma)


class SizeWithoutCount(Writer):
    def size(self, kind, streams):
        return max(0, super().size(kind, streams) - 4)


class SizeCountsItself(Writer):
    def size(self, kind, streams):
        return super().size(kind, streams) + 4


class SizeOfAll(Writer):
    def size(self, kind, streams):
        return 0 if kind == 2 else sum(map(len, streams))


class SizeOfTheLast(Writer):
    def size(self, kind, streams):
        return 0 if kind == 2 else len(streams[-1])


class SizeOfChromaAlone(Writer):
    def size(self, kind, streams):
        return len(streams[0])


class NoSizeOfLumaAlone(Writer):
    def size(self, kind, streams):
        return len(streams[0]) if kind == 0 else 0


class SizeOfOneByte(Writer):
    def size(self, kind, streams):
        return super().size(kind, streams) % 256


class KindAt29(Writer):
    def first(self, kind, size):
        return kind * 2 ** 29 + size


class KindInLowBits(Writer):
    def first(self, kind, size):
        return size * 4 + kind


class KindOfTwoBits(Writer):
    """It takes 4 for 0."""

    def known(self, kind):
        return kind % 4 <= 2


class Kind3Known(Writer):
    def known(self, kind):
        return kind <= 3


class NotCarriedRefused(Writer):
    def listed(self, kind, luma, chroma):
        return [luma, chroma]


class LumaAloneSound(Writer):
    def listed(self, kind, luma, chroma):
        return super().listed(kind, luma, chroma)[:1]


class RestOfListUnseen(Writer):
    def sound(self, one):
        return len(one.pairs) == 2 * (len(one.rects) // 4)


class PairsUnseen(Writer):
    def sound(self, one):
        return len(one.rects) % 4 == 0


class PairsMayBeMore(Writer):
    def sound(self, one):
        return len(one.rects) % 4 == 0 and len(one.pairs) >= 2 * (len(one.rects) // 4)


class PairsMayBeFewer(Writer):
    def sound(self, one):
        return len(one.rects) % 4 == 0 and len(one.pairs) <= 2 * (len(one.rects) // 4)


class HalfPairUnseen(Writer):
    def sound(self, one):
        return len(one.rects) % 4 == 0 and len(one.pairs) // 2 == len(one.rects) // 4


class PairsByNumbers(Writer):
    """It takes two numbers and one byte of a pair for half a rectangle."""

    def sound(self, one):
        return len(one.rects) == 2 * len(one.pairs)


class RoomOneMore(Writer):
    def fits(self, payload, room, case):
        return len(payload) < room


class RoomOneLess(Writer):
    def fits(self, payload, room, case):
        return len(payload) <= room + 1

    def written(self, payload, before):
        return super().written(payload[:len(before)], before)


class RoomForNotCarried(Writer):
    def fits(self, payload, room, case):
        return length(0, case.luma, case.chroma) <= room


class RoomWithoutFirstNumber(Writer):
    def fits(self, payload, room, case):
        return len(payload) - 4 <= room

    def written(self, payload, before):
        return super().written(payload[:len(before)], before)


class RoomBeforeKind(Writer):
    def order(self, held):
        return 6 if held == [8, 6] else held[0]


class ListsBeforeKind(Writer):
    def order(self, held):
        return 7 if held[:2] == [8, 7] else held[0]


class RoomBeforeLists(Writer):
    def order(self, held):
        return 6 if held == [7, 6] else held[0]


class CountOfOutput(Writer):
    def written(self, payload, before):
        number, count, out = super().written(payload, before)
        return number, len(out), out


class CountWithoutFirstNumber(Writer):
    def written(self, payload, before):
        number, count, out = super().written(payload, before)
        return number, count - 4, out


class RestCleared(Writer):
    def written(self, payload, before):
        return super().written(payload, bytes(len(before)))


class OneByteMoreCleared(Writer):
    def written(self, payload, before):
        number, count, out = super().written(payload, before)
        return number, count, out[:count] + bytes(out[count:count + 1] != b'') + out[count + 1:]


class RefusalCounts(Writer):
    def refused(self, number, payload, before):
        return number, len(payload), before


class RefusalClears(Writer):
    def refused(self, number, payload, before):
        return number, 0, bytes(len(before))


class ShortOutputFilled(Writer):
    def refused(self, number, payload, before):
        return number, 0, payload[:len(before)] + before[len(payload):] if number == 6 else before


class FirstNumberBeforeRoom(Writer):
    def refused(self, number, payload, before):
        return number, 0, payload[:4] + before[4:] if number == 6 and len(before) >= 4 else before


WRONG = [one for one in globals().values() if isinstance(one, type) and issubclass(one, Writer) and one is not Writer]


def by_hand(name):
    """The lines of a stored file that have words for a name; they stand in front."""
    with open(os.path.join(HERE, name)) as file:
        lines = file.read().splitlines()
    return [line for line in lines if not line[:1].isdigit()]


def main():
    generated = [(str(index), case) for index, case in enumerate(dict.fromkeys(cases()))]
    hand_in, hand_out = by_hand('replay_write.in'), by_hand('replay_write.out')
    hand = [read(line) for line in hand_in]
    right = Writer().lines(generated)
    wrong = 0
    if len(hand_in) != len(hand_out):
        sys.exit(f'write_cases: {len(hand_in)} cases by hand, and {len(hand_out)} lines of them')
    for said, known in zip(hand_out, Writer().lines(hand)):
        if said != known:
            print(f'write_cases: by hand {said}\n              E7 gives {known}')
            wrong += 1
    for name, lines in ('replay_write.in', hand_in + [typed(*one) for one in generated]), ('replay_write.out', hand_out + right):
        text = ''.join(line + '\n' for line in lines).encode()
        if name == 'replay_write.in' and len(text) > INPUT:
            sys.exit(f'write_cases: {len(text)} bytes of input, and the program takes {INPUT}')
        path = os.path.join(HERE, name)
        if sys.argv[1:] == ['--write']:
            with open(path, 'wb') as file:
                file.write(text)
        with open(path, 'rb') as file:
            if file.read() != text:
                print(f'write_cases: tests/stored/{name} is not what E7 gives')
                wrong += 1
    for writer in WRONG:
        others = sum(a != b for a, b in zip(right, writer().lines(generated)))
        if not others:
            wrong += 1
        print(f'{writer.__name__}: {others} of {len(right)} lines differ')
    print(f'write_cases: {len(generated)} cases, {len(hand)} by hand, {len(WRONG)} wrong writers '
          + ('noticed' if not wrong else f'and {wrong} wrong'))
    sys.exit(bool(wrong))


if sys.argv[1:] not in ([], ['--write']):
    sys.exit('usage: tests/write_cases.py [--write]')
main()
