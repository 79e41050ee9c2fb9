#!/usr/bin/env python3
"""The payloads of tests/stored/replay_wire.in, and what has to be printed of each: a generator and a reader of AVC444 payloads written from
the words of R110 to R117 alone (6, an output that is too short, is of the rules' table). With --write both files are
written anew; without it they have to be what would be written.

Then some wrong readers are asked, and each has to answer at least one of the stored payloads otherwise: the cases notice it.
Last line `wire_cases: N payloads, M wrong readers noticed`; exit status 1 if a file differs or a wrong reader is not noticed."""
import os
import sys
import zlib

HERE = os.path.join(os.path.dirname(os.path.abspath(__file__)), 'stored')
INPUT = 262144              # bytes of input that tests/stored/run.c has room for
NOWHERE = (0, 0, 0, 0, 0)   # the five numbers of a stream that is not carried, or of a refused payload
BEFORE = 43690              # every number of the output of the copy, before it
ROOM = 8                    # how many numbers that output holds
SHOWN = 3                   # rectangles and pairs are shown up to this place


class Reader:
    """The words of E1, one method for each that a wrong reader gets wrong."""

    def number(self, data):
        """All numbers are little-endian."""
        return sum(byte << 8 * place for place, byte in enumerate(data))

    def size(self, first):
        """The low 30 bits are the first stream's size."""
        return first % 2 ** 30

    def kind(self, first):
        """The top two bits say what is carried."""
        return first // 2 ** 30

    def past(self, size, end):
        """The size runs past the payload."""
        return 4 + size > end

    def bounds(self, kind, size, end):
        """Where the luma and the chroma stream start and end. In kind 0 the second is what follows the first, in kinds 1 and 2 the one
        stream runs to the payload's end."""
        return {0: ((4, 4 + size), (4 + size, end)), 1: ((4, end), None), 2: (None, (4, end))}[kind]

    def stream(self, payload, start, end):
        """The five numbers of a stream, or None where a count, a rectangle or a pair runs past it."""
        if end - start < 4:
            return None
        count = self.number(payload[start:start + 4])
        rects = start + 4
        pairs = rects + count * 8
        data = pairs + count * 2
        return None if data > end else (count, rects, pairs, data, end - data)

    def quantiser(self, byte):
        """Six bits of value, and above them two flags."""
        return byte & 0b111111, byte >> 6 & 1, byte >> 7

    def order(self, held):
        """Of the refusals that hold, which one is answered; they come in E1's order."""
        return held[0]

    def read(self, payload):
        """The number, the kind, and the five numbers of the luma and of the chroma stream."""
        if len(payload) < 4:
            return 9, 0, NOWHERE, NOWHERE
        first = self.number(payload[:4])
        kind, size = self.kind(first), self.size(first)
        held, streams = [], []
        if kind == 3:
            held.append(8)
        if self.past(size, len(payload)):
            held.append(9)
        for place in self.bounds(kind, size, len(payload)) if kind != 3 else ():
            streams.append(NOWHERE if place is None else self.stream(payload, *place))
        if None in streams:
            held.append(10)
        return (self.order(held), 0, NOWHERE, NOWHERE) if held else (0, kind, *streams)

    def rectangle(self, payload, number, places, i):
        count, rects = places[:2]
        if i >= count:
            return f'{number}-'
        eight = payload[rects + 8 * i:rects + 8 * i + 8]
        return f'{number}+' + ','.join(str(self.number(eight[k:k + 2])) for k in (0, 2, 4, 6))

    def pair(self, payload, number, places, i):
        count, pairs = places[0], places[2]
        if i >= count:
            return f'{number}-'
        value, reserved, progressive = self.quantiser(payload[pairs + 2 * i])
        return f'{number}+{value},{reserved},{progressive},{payload[pairs + 2 * i + 1]}'

    def copy(self, payload, number, places):
        """The rectangles' numbers in an output of ROOM: 6 where they do not fit. A dot is a number that is as it was."""
        count, rects = places[:2]
        if not number and 4 * count > ROOM:
            number = 6
        if number:
            count = 0
        out = [self.number(payload[rects + 2 * k:rects + 2 * k + 2]) for k in range(4 * count)]
        out += [BEFORE] * (ROOM - len(out))
        return f'{number} {4 * count}' + ''.join(' .' if n == BEFORE else f' {n}' for n in out)

    def stream_words(self, payload, number, places):
        count, rects, pairs, data, length = places
        shown = range(min(count, SHOWN) + 1)
        parts = payload[rects:rects + 8 * count], payload[pairs:pairs + 2 * count], payload[data:data + length]
        return '; '.join((
            ' '.join(map(str, places)),
            ' '.join(self.rectangle(payload, number, places, i) for i in shown),
            ' '.join(self.pair(payload, number, places, i) for i in shown),
            self.copy(payload, number, places),
            ' '.join(f'{zlib.adler32(part):08x}' if part else '-' for part in parts)))

    def line(self, index, payload):
        number, kind, luma, chroma = self.read(payload)
        return (f'{index}: {number} {kind}, luma {self.stream_words(payload, number, luma)}, '
                f'chroma {self.stream_words(payload, number, chroma)}\n')

    def lines(self, payloads):
        return ''.join(self.line(index, payload) for index, payload in enumerate(payloads))


def filler(n, start=41):
    """n bytes, of which any 256 in a row differ."""
    return bytes((73 * k + start) % 256 for k in range(n))


def four(n):
    return n.to_bytes(4, 'little')


def stream(count, h264, start=41):
    return four(count) + filler(10 * count + h264, start)


def payload(kind, size, *streams):
    return four(kind << 30 | size) + b''.join(streams)


def whole(luma, chroma):
    return payload(0, len(luma), luma, chroma)


def with_number(data, at, n):
    return data[:at] + four(n) + data[at + 4:]


def changed(data):
    """Every single-byte change of data: a low bit, a high bit, 0 and 255."""
    for at, byte in enumerate(data):
        for other in sorted({byte ^ 1, byte ^ 128, 0, 255} - {byte}):
            yield data[:at] + bytes([other]) + data[at + 1:]


def prefixes(data):
    return [data[:n] for n in range(len(data))]


def around(*edges):
    """Each edge, one below and one above, from 0 to 2^32 - 1."""
    return sorted({n for edge in edges for n in (edge - 1, edge, edge + 1) if 0 <= n < 2 ** 32})


# Counts of which ten, eight or two in a row are next to a multiple of 2^32, and the ends of the fields.
WRAPPED = around(0, 2 ** 16, 2 ** 24, 2 ** 29, 2 ** 30, 2 ** 31, 2 ** 32, -(-2 ** 32 // 10), -(-2 ** 33 // 10))


def cases():
    both = whole(stream(2, 1), stream(1, 2, 7))
    luma = payload(1, 15, stream(1, 1, 99))
    chroma = payload(2, 0, stream(1, 2, 201))
    good = [
        both, luma, chroma,
        whole(stream(0, 0), stream(0, 0)), whole(stream(0, 6), stream(2, 0)), whole(stream(3, 0), stream(2, 1)),
        payload(1, 0, stream(0, 0)), payload(1, 4, stream(0, 9)), payload(1, 0, stream(3, 2)),
        payload(2, 0, stream(0, 0)), payload(2, 24, stream(2, 0)), payload(2, 0, stream(4, 300)),
        whole(stream(300, 7), stream(257, 260, 13)), payload(1, 4, stream(513, 0)),
        whole(four(2) + b'\x80' * 20, four(1) + b'\xff' * 10),
    ]
    yield from good
    for byte in 0, 1, 2, 4, 8, 16, 32, 63, 64, 65, 127, 128, 129, 191, 192, 254, 255:
        yield payload(2, 0, four(1), filler(8), bytes([byte, 255 - byte]))
    for one in good[:11]:
        yield from prefixes(one)
    for one in both, luma, chroma:
        yield from changed(one)
    # every size from 0 to two past the payload, each higher bit set beside the right size, and the largest; kind 3 with a few of them
    for one in both, chroma:
        end = len(one) - 4
        beyond = [len(both) - 4 - 16 + (1 << bit) for bit in range(8, 30)] if one is both else []
        for kind in range(3):
            for size in [*range(end + 3), *beyond, 2 ** 30 - 1]:
                yield with_number(one, 0, kind << 30 | size)
        for size in 0, end - 1, end, end + 1, 2 ** 30 - 1:
            yield with_number(one, 0, 3 << 30 | size)
    # every count next to the one that is there, to what fits and to where a product wraps
    for one, at in (both, 4), (both, 29), (luma, 4), (chroma, 4):
        for n in sorted({*WRAPPED, *range(6)}):
            yield with_number(one, at, n)
    # both counts at once
    for first in 1, 2, 3, 2 ** 32 - 1:
        for second in 0, 1, 2, 2 ** 32 - 1:
            yield with_number(with_number(both, 4, first), 29, second)
    # refusals that hold at once, in every kind: a size past the payload, a count past the stream, a stream of less than four bytes
    for kind in range(4):
        for n in range(5):
            for size in 0, n, n + 1, 2 ** 30 - 1:
                yield payload(kind, size, b'\xff' * n)
    for n in range(13):
        yield bytes(n)
        yield b'\xff' * n


class BigEndian(Reader):
    def number(self, data):
        return int.from_bytes(data, 'big')


class SizeOf31Bits(Reader):
    def size(self, first):
        return first % 2 ** 31


class SizeOf29Bits(Reader):
    def size(self, first):
        return first % 2 ** 29


class KindFromLowBits(Reader):
    def kind(self, first):
        return first % 4


class SecondFromSize(Reader):
    def bounds(self, kind, size, end):
        return ((4, 4 + size), (size, end)) if kind == 0 else super().bounds(kind, size, end)


class SizeCountsItself(Reader):
    def bounds(self, kind, size, end):
        return ((4, size), (size, end)) if kind == 0 else super().bounds(kind, size, end)


class OneStreamBySize(Reader):
    def bounds(self, kind, size, end):
        return {1: ((4, 4 + size), None), 2: (None, (4, 4 + size))}.get(kind) or super().bounds(kind, size, end)


class KindsExchanged(Reader):
    def bounds(self, kind, size, end):
        return super().bounds({0: 0, 1: 2, 2: 1}[kind], size, end)


class PairsFirst(Reader):
    def stream(self, payload, start, end):
        found = super().stream(payload, start, end)
        return found and (found[0], start + 4 + 2 * found[0], start + 4, *found[3:])


class PairsMayRunPast(Reader):
    def stream(self, payload, start, end):
        found = super().stream(payload, start, end)
        if found is None and end - start >= 4 and start + 4 + 8 * self.number(payload[start:start + 4]) <= end:
            return NOWHERE
        return found


class OneByteMore(Reader):
    def stream(self, payload, start, end):
        found = super().stream(payload, start, end)
        return found if found is None or found[4] else None


class WrapsAt32Bits(Reader):
    def stream(self, payload, start, end):
        found = super().stream(payload, start, end)
        if found is None and end - start >= 4 and 10 * self.number(payload[start:start + 4]) % 2 ** 32 <= end - start - 4:
            return NOWHERE
        return found


class SevenBits(Reader):
    def quantiser(self, byte):
        return byte % 128, byte >> 6 & 1, byte >> 7


class FlagsExchanged(Reader):
    def quantiser(self, byte):
        return byte % 64, byte >> 7, byte >> 6 & 1


class KindAfterSize(Reader):
    def order(self, held):
        return 9 if 9 in held else held[0]


class StreamBeforeSize(Reader):
    def order(self, held):
        return 10 if 10 in held else held[0]


class SizeMayEndOnePast(Reader):
    def past(self, size, end):
        return 3 + size > end


class SizeOfOneStreamUnread(Reader):
    def read(self, payload):
        if len(payload) >= 4 and self.kind(self.number(payload[:4])) in (1, 2):
            payload = bytes(3) + bytes([payload[3] & 192]) + payload[4:]
        return super().read(payload)


WRONG = [one for one in globals().values() if isinstance(one, type) and issubclass(one, Reader) and one is not Reader]


def main():
    payloads = list(cases())
    given = b''.join(len(one).to_bytes(2, 'little') + one for one in payloads)
    answers = Reader().lines(payloads)
    if len(given) > INPUT:
        sys.exit(f'wire_cases: {len(given)} bytes of input, and the program takes {INPUT}')
    wrong = 0
    for name, text in ('replay_wire.in', given), ('replay_wire.out', answers.encode()):
        path = os.path.join(HERE, name)
        if sys.argv[1:] == ['--write']:
            with open(path, 'wb') as file:
                file.write(text)
        with open(path, 'rb') as file:
            if file.read() != text:
                print(f'wire_cases: tests/stored/{name} is not what E1 gives')
                wrong += 1
    right = answers.splitlines()
    for reader in WRONG:
        others = sum(a != b for a, b in zip(right, reader().lines(payloads).splitlines()))
        if not others:
            wrong += 1
        print(f'{reader.__name__}: {others} of {len(right)} lines differ')
    print(f'wire_cases: {len(payloads)} payloads, {len(WRONG)} wrong readers ' + ('noticed' if not wrong else f'and {wrong} wrong'))
    sys.exit(bool(wrong))


if sys.argv[1:] not in ([], ['--write']):
    sys.exit('usage: tests/wire_cases.py [--write]')
main()
