"""Whether tests/recorded.py would notice it: one bit changed in a file of a session, at several places of every file, of .xz files in what
they hold, too; and sessions that are read wrongly, FreeRDP's habits left out and a byte of the map changed among that.

Each bit has to be noticed by the list of SHA-256, and each that reaches a comparison by that comparison, without the list. These reach none,
and are the list's alone: the time of a frame within its limits; samples of a view outside the picture; a bit of a screen, whose mean alone is
asked. Of a view's samples those of luma are demanded: each stands in the planes as it is. Chroma may be hidden by the clamp of a filter."""
import lzma
import random
from collections import Counter

from recorded_files import SUFFIXES, held_in, not_listed, session_of, times_in

EACH = 16       # bits of each file, and of what each .xz file holds


def flipped(data, place, bit):
    return data[:place] + bytes([data[place] ^ 1 << bit]) + data[place + 1:]


def places_in(name, data):
    """The first byte, the last, that in the middle, and others; and a bit of each."""
    some = random.Random(name)
    places = [0, len(data) - 1, len(data) // 2] + [some.randrange(len(data)) for _ in range(EACH - 3)]
    return [(place, some.randrange(8)) for place in places]


def luma_is_shown(session, place):
    """Whether this byte of the views is luma that goes into the planes as it is."""
    wide, high = session.coded
    which, at = divmod(place, wide * high * 3 // 2)
    row, column = divmod(at, wide)
    if row >= high:
        return False
    kinds = ''.join({'0': 'ma', '1': 'm', '2': 'a'}[payload.parsed['lc']] for payload in session.payloads)
    if kinds[which] == 'm':
        return row < session.height and column < session.width
    if session.version == 1:
        return row // 16 * 16 + row % 8 * 2 + 1 < session.height and column < session.width
    return row < session.height and column % (wide // 2) * 2 + 1 < session.width


def bits_of(name, files):
    """The changes: what is changed, the files with it, and whether the comparisons have to notice it."""
    contents = held_in(files)
    session, times = session_of(contents), times_in(files['rdpgfx'])
    for suffix in SUFFIXES:
        places = places_in(f'{name}.{suffix}', files[suffix])
        if suffix == 'rdpgfx':
            places.append((min(times), 0))
        for place, bit in places:
            yield suffix, {**files, suffix: flipped(files[suffix], place, bit)}, suffix != 'rdpgfx' or place not in times
        if suffix.endswith('.xz'):
            for place, bit in places_in(f'{name}.{suffix}, held', contents[suffix]):
                shown = suffix == 'planes.xz' or suffix == 'views.xz' and luma_is_shown(session, place)
                yield f'what {suffix} holds', {**files, suffix: lzma.compress(flipped(contents[suffix], place, bit), preset=0)}, shown


def tried_bits(name, files, sums, wrong_in_files):
    """How many bits of each were changed, noticed by the comparisons, and had to be; and what was not noticed."""
    tried, noticed, demanded, missed = Counter(), Counter(), Counter(), []
    for what, changed, demand in bits_of(name, files):
        tried[what] += 1
        demanded[what] += demand
        by_comparison = bool(wrong_in_files(changed))
        noticed[what] += by_comparison
        if not not_listed(sums, name, changed):
            missed.append(f'{name}: bit {tried[what]} of {what} is not noticed by the list')
        if demand and not by_comparison:
            missed.append(f'{name}: bit {tried[what]} of {what} is not noticed by what is compared')
    return tried, noticed, demanded, missed


def with_payloads(session, change):
    return session._replace(payloads=[change(payload) for payload in session.payloads])


def main_and_auxiliary_exchanged(session):
    return with_payloads(session, lambda payload: payload._replace(views=payload.views[::-1]))


def other_layout(session):
    return session._replace(version=3 - session.version)


def cropped_to_the_surface(session):
    """The views as a decoder crops them: enough for V1 and for the exact rule, but FreeRDP reads V2 by the 16 rule."""
    (wide, high), keep = session.coded, session.width

    def crop(view):
        luma, chroma = view[:wide * high], view[wide * high:]
        return b''.join([luma[at:at + keep] for at in range(0, len(luma), wide)] +
                        [chroma[at:at + keep // 2] for at in range(0, len(chroma), wide // 2)])
    cropped = with_payloads(session, lambda payload: payload._replace(views=[crop(view) for view in payload.views]))
    return cropped._replace(coded=(keep, high))


def screens_one_late(session):
    late = [payload.screen for payload in session.payloads if payload.screen is not None]
    late.insert(0, late[-1])
    return with_payloads(session, lambda payload: payload if payload.screen is None else payload._replace(screen=late.pop(0)))


def red_and_blue_exchanged(session):
    def exchange(screen):
        pixels = bytearray(screen)
        pixels[0::3], pixels[2::3] = screen[2::3], screen[0::3]
        return bytes(pixels)
    return with_payloads(session, lambda payload: payload._replace(screen=payload.screen and exchange(payload.screen)))


def readings_of(session):
    """Wrong readings of a session, where they are not right for it."""
    if any(len(payload.views) > 1 for payload in session.payloads):
        yield main_and_auxiliary_exchanged
    if session.version == 2 and session.width < session.coded[0]:
        yield cropped_to_the_surface
    yield from (other_layout, screens_one_late, red_and_blue_exchanged)


def tried_readings(name, files, acted, wrong_in_session):
    """How many wrong readings were tried, and which were not noticed. A habit that acted nowhere cannot be missed."""
    session, missed, tried = session_of(held_in(files)), [], 0
    for reading in readings_of(session):
        tried += 1
        if not wrong_in_session(reading(session)):
            missed.append(f'{name}: not noticed: {reading.__name__}')
    tried += 1
    if not wrong_in_session(session, 1 << len(acted)):
        missed.append(f'{name}: not noticed: a byte of the map changed')
    for bit, (habit, count) in enumerate(acted.items()):
        tried += bool(count)
        if count and not wrong_in_session(session, 1 << bit):
            missed.append(f'{name}: not noticed: without the habit {habit}')
    return tried, missed
