"""The files of a recorded session (tests/recordings/README.md has their formats), read so strictly that a byte of NAME.rdpgfx or
NAME.freerdp.txt that is not as it has to be is an error: every field is known, follows from another one, or is answered by the library later.
The one exception is the time of day of a frame, which is held to its limits and its order."""
import hashlib
import lzma
import os
import struct
from collections import namedtuple

SUFFIXES = 'rdpgfx', 'freerdp.txt', 'views.xz', 'planes.xz', 'screen.xz'
LIST = 'SHA256'                                     # as sha256sum writes it

# The PDUs: what comes once, in this order, and what each frame has.
CONFIRMED, RESET, CREATED, MAPPED, STARTED, SENT, ENDED = 19, 14, 9, 15, 11, 1, 12
OPENING, FRAME = (CONFIRMED, RESET, CREATED, MAPPED), (STARTED, SENT, ENDED)
CAPABILITIES = 0x000A0701, 4, 0xC2                  # version 10.7, and 4 bytes of flags
RESET_BYTES = 332                                   # with its padding, which is 0
PIXELS = 0x20                                       # XRGB
VERSIONS = {14: 1, 15: 2}                           # the codecs AVC444 and AVC444v2

# The lines of NAME.freerdp.txt, and what never changes in them.
NAMES = {'parsed': 'surface codec dest length cb lc n0 r0 q0 d0 n1 r1 q1 d1', 'decompress': 'op codec w h fmt step luma chroma nl nc lr cr',
         'frame': 'w h coded format range type pts_order profile stride crop kept', 'combine': 'type w h sstride dstride status roi',
         'planes': 'status stride rows'}
OF_EVERY_FRAME = {'format': '0', 'range': '0', 'pts_order': '0', 'profile': '100', 'crop': '0,0,0,0'}
BGRX32 = str(0x20040888)                            # FreeRDP's number for the pixels of its own window
NOTHING = '0:14650fb0739d0383'                      # no bytes, and their hash


class Wrong(Exception):
    """Something in a file is not as it has to be."""


Surface = namedtuple('Surface', 'id width height')
Sent = namedtuple('Sent', 'codec dest payload')
Payload = namedtuple('Payload', 'bytes parsed views planes screen')     # screen: None where no picture is complete
Session = namedtuple('Session', 'version width height coded payloads')  # coded: width and height of the views


def need(holds, words):
    if not holds:
        raise Wrong(words)


def up(number, unit):
    return (number + unit - 1) // unit * unit


def read(folder, name):
    """The session's files as they are."""
    files = {}
    for suffix in SUFFIXES:
        try:
            with open(os.path.join(folder, f'{name}.{suffix}'), 'rb') as file:
                files[suffix] = file.read()
        except OSError as failed:
            raise Wrong(f'{name}.{suffix} cannot be read: {failed.strerror}') from None
    return files


def listed(folder):
    """The names in the folder's list, each with its SHA-256; None where it has no list."""
    path = os.path.join(folder, LIST)
    if not os.path.exists(path):
        return None
    with open(path, encoding='ascii') as file:
        return {name: sha for sha, name in (line.split() for line in file)}


def not_listed(sums, name, files):
    """The files that are not as the list has them."""
    return [f'{name}.{suffix} is not as {LIST} has it' for suffix, data in files.items()
            if hashlib.sha256(data).hexdigest() != sums.get(f'{name}.{suffix}')]


def held_in(files):
    """The same with .xz undone; its own checksums are asked there."""
    contents = {}
    for suffix, data in files.items():
        try:
            contents[suffix] = lzma.decompress(data) if suffix.endswith('.xz') else data
        except lzma.LZMAError as failed:
            raise Wrong(f'{suffix}: {failed}') from None
    return contents


def pdus(data):
    """Where each PDU starts, its command, and what is in it."""
    at = 0
    while at < len(data):
        need(len(data) - at >= 8, f'rdpgfx: {len(data) - at} bytes at {at} are no PDU')
        command, flags, length = struct.unpack_from('<HHI', data, at)
        need(flags == 0 and 8 <= length <= len(data) - at, f'rdpgfx: the PDU at {at} has the flags {flags} and the length {length}')
        yield at, command, data[at + 8:at + length]
        at += length


def fields(form, data, at):
    """The numbers of a PDU that has no more than these."""
    need(len(data) == struct.calcsize(form), f'rdpgfx: the PDU at {at} has {len(data)} bytes')
    return struct.unpack(form, data)


def surface_of(opening):
    """What the first four PDUs say: one surface, as large as the screen, shown at its corner."""
    (_, _, capabilities), (_, _, reset), (at, _, created), (after, _, mapped) = opening
    identity, width, height, pixels = fields('<HHHB', created, at)
    need(width and height and pixels == PIXELS, f'rdpgfx: a surface of {width}x{height}, pixels {pixels}')
    need(width % 2 == 0, f'rdpgfx: a surface {width} wide; FreeRDP is known at even widths alone')
    need(capabilities == struct.pack('<III', *CAPABILITIES), 'rdpgfx: other capabilities')
    screen = struct.pack('<8I', width, height, 1, 0, 0, width, height, 1)
    need(reset == screen.ljust(RESET_BYTES, b'\0'), 'rdpgfx: the screen is not one monitor of the surface\'s size, or what follows is not 0')
    need(fields('<HHII', mapped, after) == (identity, 0, 0, 0), 'rdpgfx: the surface is not shown at 0, 0')
    return Surface(identity, width, height)


def seconds(time, at):
    """The time of a frame in seconds. Its milliseconds run on their own: the server takes them from another clock."""
    hour, minute, second, thousandth = time >> 22, time >> 16 & 63, time >> 10 & 63, time & 1023
    need(hour < 24 and minute < 60 and second < 60 and thousandth < 1000, f'rdpgfx: the frame at {at} has no time of day')
    return 3600 * hour + 60 * minute + second


def frames_of(rest, surface):
    """What each frame sent; its three PDUs, a number that counts from 1, and a time that does not go back."""
    need(len(rest) % 3 == 0, 'rdpgfx: the last frame is not whole')
    latest = 0
    for number, three in enumerate(zip(rest[0::3], rest[1::3], rest[2::3]), 1):
        (at, _, started), (sent_at, _, sent), (ended_at, _, ended) = three
        need(tuple(command for _, command, _ in three) == FRAME, f'rdpgfx: the PDUs from {at} on are no frame')
        time, begun = fields('<II', started, at)
        need(begun == number and fields('<I', ended, ended_at) == (number,), f'rdpgfx: the frame at {at} is not number {number}')
        need(seconds(time, at) >= latest, f'rdpgfx: the frame at {at} is earlier than the one before it')
        latest = seconds(time, at)
        need(len(sent) >= 17, f'rdpgfx: the PDU at {sent_at} has {len(sent)} bytes')
        identity, codec, pixels, *dest, length = struct.unpack_from('<HHB4HI', sent)
        need(identity == surface.id and codec in VERSIONS and pixels == PIXELS and length == len(sent) - 17,
             f'rdpgfx: the PDU at {sent_at} has surface {identity}, codec {codec}, pixels {pixels}, a payload of {length} bytes')
        yield Sent(codec, dest, sent[17:])


def times_in(data):
    """Where the times of the frames stand: what is held to its limits alone."""
    return {at + 8 + k for at, command, _ in pdus(data) if command == STARTED for k in range(4)}


def lines_of(data):
    """Each line's word and its fields, in the one order that there is."""
    need(data.isascii() and data.endswith(b'\n'), 'freerdp.txt: not lines of ASCII')
    for number, line in enumerate(data.decode('ascii')[:-1].split('\n'), 1):
        word, *rest = line.split(' ')
        need(word in NAMES, f'freerdp.txt: line {number} begins with {word!r}')
        pairs = [field.partition('=') for field in rest]
        need([name + equals for name, equals, _ in pairs] == [name + '=' for name in NAMES[word].split()],
             f'freerdp.txt: line {number} has other fields than {NAMES[word]}')
        yield number, word, {name: value for name, _, value in pairs}


class Log:
    """The lines of NAME.freerdp.txt, taken one by one and held to what is known."""

    def __init__(self, data):
        self.lines, self.strides = list(lines_of(data)), {}

    def next(self, word, **known):
        need(self.lines, f'freerdp.txt: no line {word} follows')
        number, found, line = self.lines.pop(0)
        need(found == word, f'freerdp.txt: line {number} is {found}, and not {word}')
        for name, value in known.items():
            need(line[name] == str(value), f'freerdp.txt: line {number} has {name}={line[name]}, and not {value}')
        return line

    def stride(self, of, words, least):
        """A stride that FreeRDP chose: never below the width, and the same in every line."""
        numbers = words.split(',')
        need(len(numbers) == 3 and all(n.isdigit() and n == str(int(n)) and int(n) >= low for n, low in zip(numbers, least)),
             f'freerdp.txt: {of} has strides of {words}')
        need(self.strides.setdefault(of, words) == words, f'freerdp.txt: strides of {of} are {words} and {self.strides[of]}')

    def stream(self, surface, kind, rects):
        """A stream decoded and combined: a picture as wide as the surface, as high as it was coded."""
        wide, high = up(surface.width, 16), up(surface.height, 16)
        coded = f'{wide}x{high}'
        frame = self.next('frame', w=surface.width, h=high, coded=coded, kept=coded, **OF_EVERY_FRAME)
        need(frame['type'] in ('I', 'P', 'B'), f'freerdp.txt: a picture of type {frame["type"]}')
        self.stride('the decoder', frame['stride'], (wide, wide // 2, wide // 2))
        combined = self.next('combine', type=kind, w=wide, h=high, sstride=frame['stride'], status=0, roi=rects)
        self.stride('the planes', combined['dstride'], (wide, wide, wide))

    def payload(self, surface, sent):
        """What FreeRDP's parser took out, and how many streams were decoded; all that follows of it is held to that."""
        wide, high = up(surface.width, 16), up(surface.height, 16)
        parsed = self.next('parsed', surface=surface.id, codec=sent.codec, dest=','.join(map(str, sent.dest)), length=len(sent.payload))
        need(parsed['lc'] in ('0', '1', '2'), f'freerdp.txt: a payload of kind {parsed["lc"]}')
        streams = 1 if parsed['lc'] != '0' else 2
        first, second = (parsed[name].partition(':')[2] for name in ('d0', 'd1'))
        self.next('decompress', op=parsed['lc'], codec=sent.codec, w=wide, h=high, fmt=BGRX32, step=4 * wide, luma=first,
                  chroma=second if streams == 2 else NOTHING, nl=parsed['n0'], nc=parsed['n1'], lr=parsed['r0'], cr=parsed['r1'])
        auxiliary = VERSIONS[sent.codec]
        for k in range(streams):
            self.stream(surface, auxiliary if k or parsed['lc'] == '2' else 0, parsed[f'r{k}'])
        planes = self.next('planes', status=0, rows=high)
        self.stride('the planes', planes['stride'], (wide, wide, wide))
        return parsed, streams


class Parts:
    """A file of equal parts, taken one after another."""

    def __init__(self, name, data, size):
        self.name, self.data, self.size, self.at = name, data, size, 0

    def next(self):
        self.at += self.size
        need(self.at <= len(self.data), f'{self.name}: ends after {len(self.data)} bytes, within the part from {self.at - self.size} on')
        return self.data[self.at - self.size:self.at]

    def end(self):
        need(self.at == len(self.data), f'{self.name}: {len(self.data)} bytes, of which {self.at} are used')


def session_of(contents):
    """All of it. A screen belongs to each payload that has a main view, and to the auxiliary view that comes alone after it."""
    found = list(pdus(contents['rdpgfx']))
    need(tuple(command for _, command, _ in found[:4]) == OPENING and len(found) > 4, 'rdpgfx: other PDUs before the first frame')
    surface, log = surface_of(found[:4]), Log(contents['freerdp.txt'])
    coded, pixels = (up(surface.width, 16), up(surface.height, 16)), surface.width * surface.height
    views, planes = Parts('views', contents['views.xz'], coded[0] * coded[1] * 3 // 2), Parts('planes', contents['planes.xz'], 3 * pixels)
    screens, screen, payloads, codecs = Parts('screen', contents['screen.xz'], 3 * pixels), None, [], set()
    for sent in frames_of(found[4:], surface):
        parsed, streams = log.payload(surface, sent)
        screen = screen if parsed['lc'] == '2' else screens.next()
        need(screen, 'freerdp.txt: an auxiliary view before any main view')
        payloads.append(Payload(sent.payload, parsed, [views.next() for _ in range(streams)], planes.next(),
                                None if parsed['lc'] == '1' else screen))
        codecs.add(sent.codec)
    for parts in (views, planes, screens):
        parts.end()
    need(not log.lines, f'freerdp.txt: {len(log.lines)} lines follow the last payload')
    need(len(codecs) == 1, f'rdpgfx: the codecs {sorted(codecs)} in one session')
    need(any(payload.screen for payload in payloads), 'freerdp.txt: no picture has both views')
    return Session(VERSIONS[codecs.pop()], surface.width, surface.height, coded, payloads)
