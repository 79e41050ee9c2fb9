#!/usr/bin/env python3
"""Recorded sessions of a real server and a real client, through the library: every payload, every decoded view and every picture.

  tests/recorded.py                       the sessions of tests/recordings, and then the self-test
  tests/recorded.py --folder DIR NAME ..  sessions of another folder, in the same formats (tests/recordings/README.md)

It needs neither FreeRDP nor H.264: what FreeRDP's parser, decoder and combiner made of a session is recorded beside it. Of each payload

  - the parts that are read are those that FreeRDP's parser took out, one by one and as a list;
  - what is written from them is the payload again, but for the size in kind 2, where the server writes the stream's bytes and the standard
    wants 0: that is what has to stand there, and what has to be written;
  - each H.264 part begins with a start code, and is not taken for length-prefixed;
  - the decoded views, applied over the rectangles that were read, make FreeRDP's planes, sample for sample, after its habits, which
    tests/recorded_habits.h names and counts;
  - the picture, once both views are there, is the server's screen: red, green and blue are off by less than 4 on average. V2 is read by
    the exact rule for that. A rule whose W is another one is off by 4 or more in the last picture; one whose W is the same makes the same planes;
  - the map of stale colour is 1 over the whole surface after a luma stream, and 2 after a chroma stream that follows one, in every block of
    which the view has all; in the padding it stays 0. So a picture that is held to the screen has no stale pixel by the exact rule and of V1.

The self-test changes bits of every file, has the sessions read wrongly, and changes a byte of the map: all of it has to be noticed
(tests/recorded_self_test.py).
It needs a C compiler (cc), and makes the library first where that is not made (oracle/library.sh).
Last line `recorded: ...`; exit status 1 if something is wrong, with a line for each that says in which session and payload, and first where."""
import os
import struct
import subprocess
import sys
import tempfile
from collections import Counter

sys.dont_write_bytecode = True                          # nothing is left in the tree
from recorded_files import LIST, SUFFIXES, Wrong, held_in, listed, need, not_listed, read, session_of, up
from recorded_self_test import tried_bits, tried_readings

ROOT = os.path.dirname(os.path.dirname(os.path.abspath(__file__)))
RECORDINGS = os.path.join(ROOT, 'tests', 'recordings')
FAR = 4                                                 # what is off by so much on average is another picture
PARTS = 'cb', 'lc', 'n0', 'r0', 'q0', 'd0', 'n1', 'r1', 'q1', 'd1'
HABITS = 'row_below', 'even_column', 'filtered', 'no_threshold', 'every_other'


def stop(words):
    sys.exit(f'recorded: {words}')


def run(words, **more):
    try:
        return subprocess.run(words, check=True, **more)
    except FileNotFoundError:
        stop(f'there is no command {words[0]}')
    except subprocess.CalledProcessError as failed:
        stop(f'{os.path.basename(words[0])} ended with status {failed.returncode}')


def made_in(folder):
    """The program, over the library."""
    archive, program = os.path.join(ROOT, 'oracle', 'build', 'libhaythaw.a'), os.path.join(folder, 'recorded')
    run([os.path.join(ROOT, 'oracle', 'library.sh')], stdout=subprocess.DEVNULL)
    run(['cc', '-std=c99', '-O2', '-Wall', '-Wextra', '-Wpedantic', '-Werror', '-I' + os.path.join(ROOT, 'bind', 'c'),
         os.path.join(ROOT, 'tests', 'recorded.c'), archive, '-o', program])
    return program


def answers_of(program, session, left_out=0):
    """What the library and the habits answer: a line of words for each payload."""
    given = [struct.pack('<BBHHHH', session.version, left_out, session.width, session.height, *session.coded)]
    for payload in session.payloads:
        given += [struct.pack('<I', len(payload.bytes)), payload.bytes, bytes([len(payload.views)]), *payload.views, payload.planes,
                  bytes([payload.screen is not None]), payload.screen or b'']
    ran = subprocess.run([program], input=b''.join(given), capture_output=True, check=False)
    lines = ran.stdout.decode('ascii').splitlines()
    need(ran.returncode == 0, f'payload {len(lines)}: status {ran.returncode}, {ran.stderr.decode().strip()}')
    return [dict(word.split('=', 1) for word in line.split(' ')) for line in lines]


def wrong_in_parts(session, payload, answer):
    """The parts that were read, and what was written from them."""
    for name in PARTS:
        if answer[name] != payload.parsed[name]:
            yield f'{name} is {answer[name]}, and FreeRDP\'s parser took out {payload.parsed[name]}'
    kind, size = int(answer['lc']), int(answer['cb'])
    first = int.from_bytes(payload.bytes[:4], 'little')
    # The server's size is its first stream's bytes in every kind.
    if first != kind << 30 | size:
        yield f'the first number is {first:#x}, and not kind {kind} with the {size} bytes of the first stream'
    # SIZE OF KIND 2: the standard wants 0 there, and so it is written.
    wanted = 2 << 30 if kind == 2 else first
    number, count, written, differ, at = map(int, answer['written'].split(','))
    if (number, count) != (0, len(payload.bytes)):
        yield f'written back with the number {number} and {count} bytes of {len(payload.bytes)}'
    elif written != wanted or differ:
        yield f'written back otherwise: {written:#x} for {wanted:#x}, and {differ} bytes after it, the first at {at}'
    for k in range(2 if kind == 0 else 1):
        if answer[f'same_rectangles{k}'] != '1':
            yield f'the rectangles of stream {k} one by one are not those of the list'
        if answer[f'start_code{k}'] == '0' or answer[f'length_prefixed{k}'] != '0':
            yield f'the H.264 bytes of stream {k} do not begin with a start code, or are taken for length-prefixed'
        if answer[f'r{k}'] != f'0,0,{session.width},{session.height}':
            yield f'r{k} is {answer[f"r{k}"]}; the habits of FreeRDP are known for one rectangle, the whole surface'


def wrong_in_payload(session, payload, answer):
    if answer['number'] != '0':
        yield f'refused with {answer["number"]}'
        return
    yield from wrong_in_parts(session, payload, answer)
    if answer['differ'] != '0':
        yield ('after its habits {differ} samples are not those of FreeRDP\'s planes, first {plane} in row {row}, column {column}: {ours}, '
               'and FreeRDP has {theirs}').format(**answer)
    first = 'v1' if session.version == 1 else 'exact'
    if payload.screen is not None and mean(session, answer, first) >= FAR:
        yield f'the picture is off by {mean(session, answer, first):.2f} on average from the server\'s screen'


def wide_of(session, rule):
    """W of V2 by a rule."""
    return {'exact': session.width, 'to16': up(session.coded[0], 16), 'to32': up(session.width, 32)}[rule]


def taken_of(session, rule):
    """The columns and the rows of blocks of which the auxiliary view has all: V1 by R65 and R66, V2 by R68 and R69."""
    wide, high = session.coded
    columns, rows = range(up(session.width, 2) // 2), range(up(session.height, 2) // 2)
    if rule == 'v1':
        return [c for c in columns if 2 * c + 1 < wide], [r for r in rows if r // 8 * 16 + r % 8 + 8 < high]
    w = wide_of(session, rule)
    return [c for c in columns if w // 2 + c < wide and w // 4 + c // 2 < (wide + 1) // 2], [r for r in rows if 2 * r + 1 < high]


def maps_of(session, rule):
    """After each payload, how many blocks of the surface have 0, 1 and 2; each stream covers all of it."""
    columns, rows = taken_of(session, rule)
    taken, blocks = len(columns) * len(rows), up(session.width, 2) // 2 * (up(session.height, 2) // 2)
    state, rest = 0, 0              # of the blocks that an auxiliary view completes, and of the others
    for payload in session.payloads:
        if payload.parsed['lc'] != '2':
            state, rest = 1, 1
        if payload.parsed['lc'] != '1' and state == 1:
            state = 2
        counts = [0, 0, 0]
        counts[state] += taken
        counts[rest] += blocks - taken
        yield counts


def stale_of(session, rule):
    """How many pixels are stale once both views were there."""
    wide, high = (sum(min(2, side - 2 * block) for block in blocks)
                  for side, blocks in zip((session.width, session.height), taken_of(session, rule)))
    return session.width * session.height - wide * high


def wrong_in_maps(session, answers):
    for rule in rules_of(session):
        stale = stale_of(session, rule)
        for k, (payload, answer, counts) in enumerate(zip(session.payloads, answers, maps_of(session, rule))):
            if answer[f'map_{rule}'] != ','.join(map(str, [*counts, 0, 0])):
                yield f'payload {k}: by {rule} the map has {answer[f"map_{rule}"]} and not {counts} blocks at 0, 1 and 2, and none at else'
            if payload.screen is not None and int(answer[f'stale_{rule}']) != stale:
                yield f'payload {k}: by {rule} {answer[f"stale_{rule}"]} pixels are stale, and not {stale}'


def rules_of(session):
    return ('v1',) if session.version == 1 else ('exact', 'to16', 'to32')


def mean(session, answer, rule):
    return int(answer[f'error_{rule}']) / (3 * session.width * session.height)


def means(session, answers):
    """How far each picture is off, by each rule."""
    return {rule: [mean(session, answer, rule) for answer, payload in zip(answers, session.payloads) if payload.screen is not None]
            for rule in rules_of(session)}


def wrong_in_rules(session, answers):
    """The rules for the width of V2 beside the exact one."""
    if session.version == 1:
        return
    for rule in ('to16', 'to32'):
        wide = wide_of(session, rule)
        differ, far = sum(int(answer[f'else_{rule}']) for answer in answers), means(session, answers)[rule][-1]
        if wide == session.width and differ:
            yield f'{differ} samples are not the same by the exact rule and by {rule}, whose W is {wide}, too'
        if wide != session.width and far < FAR:
            yield f'by {rule}, whose W is {wide}, the last picture is off by {far:.2f} on average, and not by {FAR} or more'


def wrong_in(session, answers):
    """All that is wrong, with the payload's index."""
    if len(answers) != len(session.payloads):
        return [f'{len(session.payloads)} payloads have {len(answers)} answers']
    found = [f'payload {k}: {words}' for k, (payload, answer) in enumerate(zip(session.payloads, answers))
             for words in wrong_in_payload(session, payload, answer)]
    return found or [*wrong_in_rules(session, answers), *wrong_in_maps(session, answers)]


def told(name, session, answers, added):
    """Two lines about a session in which nothing is wrong."""
    kinds = Counter(payload.parsed['lc'] for payload in session.payloads)
    carried = ', '.join(f'{count} of kind {kind}' for kind, count in sorted(kinds.items()))
    far = ', '.join(f'{rule} {min(each):.2f} to {max(each):.2f} (last {each[-1]:.2f})' for rule, each in means(session, answers).items())
    return (f'recorded: {name}: V{session.version}, {len(session.payloads)} payloads ({carried}); mean error of the pictures: {far}\n'
            f'recorded: {name}: {added["apart"]} of {added["planes"]} samples of FreeRDP\'s planes are not ours; its habits: {habits_in(added)}')


def habits_in(counted):
    return ', '.join(f'{habit} {counted[habit]}' for habit in HABITS)


def count_of(session, answers):
    """What a session adds to the last line."""
    counted = Counter({name: sum(int(answer[name]) for answer in answers) for name in ('apart',) + HABITS})
    for payload in session.payloads:
        counted.update(payloads=1, streams=len(payload.views), views=sum(map(len, payload.views)), planes=len(payload.planes),
                       screens=payload.screen is not None,
                       blocks=len(rules_of(session)) * up(session.width, 16) // 2 * (up(session.height, 16) // 2))
    return counted


class Held:
    """Sessions of a folder held to the test, over one program: what is wrong in them, and what was counted in each."""

    def __init__(self, program, folder, sums):
        self.program, self.folder, self.sums, self.found, self.counted = program, folder, sums, [], {}

    def hold(self, name):
        """The list first, and then, whatever it says, all that is compared."""
        wrong = []
        try:
            files = read(self.folder, name)
            wrong += not_listed(self.sums, name, files) if self.sums is not None else []
            session = session_of(held_in(files))
            answers = answers_of(self.program, session)
            wrong += wrong_in(session, answers)
        except Wrong as one:
            wrong.append(str(one))
        self.found += [f'{name}: {words}' for words in wrong]
        if not wrong:
            self.counted[name] = count_of(session, answers)
            print(told(name, session, answers, self.counted[name]))

    def wrong_in_session(self, session, left_out=0):
        try:
            return wrong_in(session, answers_of(self.program, session, left_out))
        except Wrong as wrong:
            return [str(wrong)]

    def wrong_in_files(self, files):
        """Without the list."""
        try:
            return self.wrong_in_session(session_of(held_in(files)))
        except Wrong as wrong:
            return [str(wrong)]

    def self_test(self):
        """Words about it for the last line; what was not noticed is wrong."""
        bits, noticed, demanded, readings = Counter(), Counter(), Counter(), 0
        for name, counted in self.counted.items():
            files = read(self.folder, name)
            *counts, missed = tried_bits(name, files, self.sums, self.wrong_in_files)
            for added, count in zip((bits, noticed, demanded), counts):
                added.update(count)
            tried, unnoticed = tried_readings(name, files, {habit: counted[habit] for habit in HABITS}, self.wrong_in_session)
            readings += tried
            self.found += missed + unnoticed
        print('recorded: self-test: bits changed, noticed without the list, and had to be: '
              + ', '.join(f'{what} {bits[what]} {noticed[what]} {demanded[what]}' for what in bits))
        return f', {sum(bits.values())} changed bits and {readings} wrong readings noticed'


def names_in(folder):
    return sorted(file[:-len('.rdpgfx')] for file in os.listdir(folder) if file.endswith('.rdpgfx'))


def main(folder, names, own):
    """Our own recordings have their list, and the self-test over them."""
    sums = listed(folder)
    with tempfile.TemporaryDirectory() as made:
        held = Held(made_in(made), folder, sums)
        if own and sorted(sums or ()) != sorted(f'{name}.{suffix}' for name in names for suffix in SUFFIXES):
            held.found.append(f'{LIST} does not list the files of the sessions')
        for name in names:
            held.hold(name)
        tried = held.self_test() if own and not held.found else ''
    for line in held.found:
        print(f'recorded: wrong: {line}')
    total = sum(held.counted.values(), Counter())
    print(f'recorded: {total["payloads"]} payloads, {total["streams"]} H.264 streams, {total["views"]} view samples, '
          f'{total["planes"]} picture samples as FreeRDP\'s after its habits ({habits_in(total)}), '
          f'{total["screens"]} pictures held to the screen, {total["blocks"]} bytes of maps{tried}, {len(held.found)} wrong')
    sys.exit(bool(held.found))


if __name__ == '__main__':
    words = sys.argv[1:]
    if not words:
        main(RECORDINGS, names_in(RECORDINGS), True)
    if words[0] == '--folder' and len(words) > 2:
        main(words[1], words[2:], False)
    print(__doc__)
    sys.exit(0 if words == ['--help'] else 2)
