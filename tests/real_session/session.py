"""A recorded session: what its files say, and what the library makes of it (tests/real_session/shown.c). For numbers.py and docs/real_session.py."""
import lzma
import operator
import os
import struct
import subprocess
import sys

ROOT = os.path.dirname(os.path.dirname(os.path.dirname(os.path.abspath(__file__))))
FOLDER = os.path.join(ROOT, 'oracle', 'build', 'real_session')
CREATE_SURFACE, WIRE_TO_SURFACE = 9, 1
SLICE_IDR, PARAMETERS = 5, 7  # types of H.264 units


def stop(what):
    print(f'real session: {what}', file=sys.stderr)
    sys.exit(2)


def pdus_of(data):
    at = 0
    while at < len(data):
        command, _, length = struct.unpack_from('<HHI', data, at)
        yield command, data[at:at + length]
        at += length


def fields_of(line):
    """The words of a line, as in `frame w=66 h=64`, by their names."""
    return dict(word.split('=', 1) for word in line.split()[1:])


def sides_of(word):
    return tuple(int(side) for side in word.split('x'))


def units_of(stream):
    """The types of an H.264 stream's units in Annex B form."""
    at = stream.find(b'\0\0\1')
    while at >= 0 and at + 3 < len(stream):
        yield stream[at + 3] & 31
        at = stream.find(b'\0\0\1', at + 3)


def mean_error(one, other):
    return sum(map(abs, map(operator.sub, one, other))) / len(one)


class Session:
    def __init__(self, name, folder=FOLDER):
        self.name, self.at = name, os.path.join(folder, name)
        if not os.path.exists(self.at + '.rdpgfx'):
            stop(f'there is no recording {name}; tests/real_session.sh makes it')
        with open(self.at + '.rdpgfx', 'rb') as file:
            pdus = list(pdus_of(file.read()))
        with open(self.at + '.freerdp.txt', encoding='ascii') as file:
            lines = file.read().splitlines()
        self.width, self.height = next(struct.unpack_from('<HH', pdu, 10) for command, pdu in pdus if command == CREATE_SURFACE)
        self.payloads = [pdu[25:] for command, pdu in pdus if command == WIRE_TO_SURFACE]
        self.parsed, self.frames = ([fields_of(line) for line in lines if line.startswith(word + ' ')] for word in ('parsed', 'frame'))
        if len(self.parsed) != len(self.payloads):
            stop(f'{name}: {len(self.payloads)} payloads, and FreeRDP parsed {len(self.parsed)}')
        self.coded = sides_of(self.frames[0]['coded'])
        self.decoded = int(self.frames[0]['w']), int(self.frames[0]['h'])
        self.rule = 'v1' if self.parsed[0]['codec'] == '14' else 'exact'  # the right one for FreeRDP's server

    def streams(self):
        """Each stream with its view (0 main, 1 auxiliary) and its frame, in the order of the wire."""
        frames = iter(self.frames)
        for payload, parsed in zip(self.payloads, self.parsed):
            for part in '01' if parsed['lc'] == '0' else '0':
                start, length = map(int, parsed['d' + part].split(':')[:2])
                yield int(part == '1' or parsed['lc'] == '2'), payload[start:start + length], next(frames)

    def recorded(self, ending):
        """The last picture of a file."""
        with lzma.open(f'{self.at}.{ending}.xz') as file:
            return file.read()[-3 * self.width * self.height:]

    def through(self, program, *words):
        """What a program beside the recordings answers that takes the views as standard input."""
        with lzma.open(self.at + '.views.xz') as file:
            views = file.read()
        ended = subprocess.run([os.path.join(FOLDER, program), *map(str, words)], input=views, stdout=subprocess.PIPE, check=False)
        if ended.returncode:
            stop(f'{self.name}: {program} ended with status {ended.returncode}')
        return ended.stdout

    def shown(self, rule=None, view=None):
        """The last picture as the library shows it, by a rule and from views that are handed over as so wide and high."""
        pictures = self.through('shown', rule or self.rule, self.at + '.rdpgfx', *self.coded, *(view or self.coded))
        return pictures[-3 * self.width * self.height:]

    def decoders(self):
        """For one decoder and for two: of the main and of the auxiliary views, how many are as recorded, differ, and do not come out."""
        lines = self.through('decoders', self.at + '.rdpgfx', *self.coded).decode().splitlines()
        return [[numbers[:3], numbers[3:]] for numbers in ([int(number) for number in line.split()] for line in lines)]
