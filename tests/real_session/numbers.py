#!/usr/bin/env python3
"""What recorded sessions are like, and how far their last pictures are from the server's screen: the tables of docs/REAL_SESSION.md.

  tests/real_session/numbers.py NAME ..    of oracle/build/real_session/, where tests/real_session.sh puts them
"""
import collections
import sys

sys.dont_write_bytecode = True
from session import PARAMETERS, SLICE_IDR, Session, mean_error, units_of  # noqa: E402


def kinds_of_frames(session):
    """For main and auxiliary view: how many pictures are IDR, I and P, as `IDR 1, I 12`."""
    seen = (collections.Counter(), collections.Counter())
    for view, stream, frame in session.streams():
        seen[view]['IDR' if SLICE_IDR in units_of(stream) else frame['type']] += 1
    return [', '.join(f'{kind} {count}' for kind, count in sorted(view.items())) for view in seen]


def parameters_of(session):
    """Where the H.264 parameter sets are: m for a main view, a for an auxiliary view, with the payload's number."""
    return ' '.join(f'{"ma"[view]}{place}' for place, view in parameter_places(session))


def parameter_places(session):
    place = 0
    for view, stream, _ in session.streams():
        place += view == 0 or session.parsed[0]['lc'] != '0'
        if PARAMETERS in units_of(stream):
            yield place, view


def distinct(session, *names):
    """The values that fields of the parsed payloads have."""
    return ' '.join(sorted({parsed[name] for parsed in session.parsed for name in names} - {''}))


def what_it_is_like(sessions):
    line = '{:<11} {:>8} {:>5} {:<13} {:<8} {:<8} {:<21} {:<21} {:<9} {:>15}'
    print(line.format('session', 'payloads', 'kinds', 'rectangles', 'decoded', 'coded', 'main', 'auxiliary', 'SPS, PPS', 'bytes a payload'))
    for one in sessions:
        mean = sum(map(len, one.payloads)) // len(one.payloads)
        print(line.format(one.name, len(one.payloads), distinct(one, 'lc'), distinct(one, 'r0', 'r1'), '{}x{}'.format(*one.decoded), '{}x{}'.format(*one.coded),
                          *kinds_of_frames(one), parameters_of(one), mean))


def by_decoders(sessions):
    line = '{:<11} {:>18} {:>18} {:>18} {:>18}'
    print('what libavcodec makes of the H.264 parts: views as recorded / otherwise / not at all')
    print(line.format('', 'one decoder: main', 'auxiliary', 'two decoders: main', 'auxiliary'))
    for one in sessions:
        ends = ('/'.join(map(str, end)) for decoders in one.decoders() for end in decoders)
        print(line.format(one.name, *ends))


def parts_of(picture, session):
    """The last row, the first column, and all that is in neither."""
    row = 3 * session.width
    return [picture[-row:], b''.join(picture[channel::row] for channel in range(3)),
            b''.join(picture[row * place + 3:row * (place + 1)] for place in range(session.height - 1))]


def how_far_off(sessions):
    line = '{:<11} {:>8} {:>8} {:>8} {:>8} {:>9} {:>9} {:>10} {:>17}'
    print("the last picture beside the server's screen: mean difference of red, green and blue")
    print(line.format('', 'right W', 'last row', 'column 0', 'else', 'cropped', 'W to 16', 'W to 32', "FreeRDP's client"))
    for one in sessions:
        screen, right = one.recorded('screen'), one.shown()
        off = [mean_error(screen, right)] + [mean_error(*pair) for pair in zip(parts_of(screen, one), parts_of(right, one))]
        off += [mean_error(screen, one.shown(view=one.decoded))]
        off += [mean_error(screen, one.shown(rule)) if one.rule == 'exact' else None for rule in ('16', '32')]
        off += [mean_error(screen, one.recorded('client'))]
        print(line.format(one.name, *('-' if number is None else f'{number:.2f}' for number in off)))


def main():
    sessions = [Session(name) for name in sys.argv[1:]]
    if not sessions:
        print(__doc__, file=sys.stderr)
        return 2
    what_it_is_like(sessions)
    print()
    by_decoders(sessions)
    print()
    how_far_off(sessions)
    return 0


if __name__ == '__main__':
    sys.exit(main())
