#!/usr/bin/env python3
"""The wrong programs of crates/*/must-fail, held to what each of them promises.

An .edit has several wrong programs, since one check refuses them all. Each is written so:

    # NAME: the sentence that it breaks
    # refuses: WHERE NEED
    file: src/lib.rt
    old: a line of the crate
    new: the line that is wrong

WHERE NEED is the place at which the prover has to refuse it: a function and what is left to prove of it (`units/Cursor/step returns`), or a
file of laws and a law of it (`Exactly view_3_exactly`). Only what shows the fact counts: what a function returns, a loop's invariant, a
law. A refusal at an index, at a length or at what a callee asks shows nothing, nor does a proof whose text no longer fits the code.

rt itself asks only that something of an edit was refused, and keeps nothing of what it said. So this applies every edit to a copy of the
crates that it stands on, has `rt check` check it there, over what a check of the crate as it stands kept in out/ (it makes that check
first), and keeps the log as target/must-fail/CRATE/EDIT.log, until the edit, a file that it stands on or the prover changes. It then fails
where a promised refusal is missing. It also fails where two wrong programs of one edit change the same function (one could hide the other),
where a wrong program is promised at another function than it changes, and where README.md counts otherwise.

  tests/wrong_programs.py             checks the edits of every crate that crates.txt lists, RT_JOBS at once (or one for each processor)
  tests/wrong_programs.py NAME..      those of these crates alone
  tests/wrong_programs.py --count     how many there are, and in how many checks
  tests/wrong_programs.py --self-test a small crate whose edits are wrong in each of these ways, through the prover where it decides: each is noticed
  --root DIR                          another repository
"""
import argparse
import fcntl
import functools
import glob
import hashlib
import os
import queue
import re
import shutil
import signal
import subprocess
import sys
import tempfile
import threading
import time

# What shows the fact, and what the prover says where a proof's text does not fit the code or rests on something that failed.
FACTS = re.compile(r'(returns|loop-\S+-(init|preserved))(-\S+)?$')
SHAPE = ('expected type `goal.', 'no occurrence of', 'not in scope', 'is not exported', 'can be named from here', 'was not admitted',
         'has no field')
# The places of a function's code, as the records that a proof goes through have them: where two of them differ, its paths lead elsewhere.
PLACES = re.compile(r'(?:one|other) has `\(?\S*\.Lts\.(?:Start\b|(?:After|At|In)-|(?:Then|Else)\d)')
# A sentence of a message goes on in the next line after a long text; the two types in full, which come after it, are no part of it.
GOES_ON = re.compile(r'(?<=`)\n  (?=\S)(?!expected type |but this has type )')


class Wrong:
    """One wrong program of an edit: its name, where it is promised to be refused, and the texts that it changes."""

    def __init__(self, name, sentence, edit):
        self.name, self.sentence, self.edit, self.refuses, self.pairs = name, sentence, edit, [], []

    def is_definition(self):
        return all(not file.startswith('src/') for file, _ in self.pairs)

    def __str__(self):
        return f'{self.edit}: {self.name}'


class NotApplied(Exception):
    """Why an edit cannot be applied."""


def edited(crate, path):
    """The texts of a crate's files that an edit changes, as they are with it. Its pairs are applied one after the other, as rt does."""
    texts, file, old = {}, '', None
    for line in open(path, encoding='utf-8').read().split('\n'):
        if line.startswith('file: '):
            file = line[6:].strip()
        elif line.startswith('old: '):
            old = line[5:]
        elif line.startswith('new:'):
            new = line[4:].removeprefix(' ')
            if file not in texts:
                if not os.path.isfile(os.path.join(crate, file)):
                    raise NotApplied(f'there is no file `{file}`')
                texts[file] = open(os.path.join(crate, file), encoding='utf-8').read()
            if not old or texts[file].count(old) != 1:
                raise NotApplied(f'`old: {old}` is in {file} {texts[file].count(old) if old else 0} times, and not once')
            texts[file] = texts[file].replace(old, new)
            old = None
    return texts


def read_edit(path, label):
    """The wrong programs of one .edit, and what is wrong with how they are written."""
    found, said, file, head = [], [], '', []
    for line in open(path, encoding='utf-8').read().split('\n'):
        if line.startswith('#'):
            head.append(line[1:].strip())
        elif line.startswith('file: '):
            file = line[6:]
        elif line.startswith('old: '):
            if head:
                prose = ' '.join(h for h in head if not h.startswith('refuses:'))
                named = re.match(r'([a-z0-9_]+): (.+)', prose)
                if not named:
                    said.append(f'{label}: no line `# NAME: the sentence that it breaks` before `{line}`')
                found.append(Wrong(named[1] if named else '?', named[2] if named else prose, label))
                found[-1].refuses = [tuple(h[8:].split()) for h in head if h.startswith('refuses:')]
                if not found[-1].refuses or any(len(r) != 2 for r in found[-1].refuses):
                    said.append(f'{found[-1]}: no line `# refuses: WHERE NEED`')
                    found[-1].refuses = []
                head = []
            if not found:
                said.append(f'{label}: a change without a word on what it breaks: `{line}`')
                found.append(Wrong('?', '', label))
            found[-1].pairs.append((file, line[5:]))
    return found, said


def function_of(crate, file, old):
    """The function that a text of src/ stands in, as proofs/ has its path. For a text of a constant or a static it is the one that names it, or that
    names the field of a static that is the constant."""
    text = open(os.path.join(crate, file), encoding='utf-8').read()
    at = text.find(old)
    last = item_before(text, at + len(old))
    if at < 0 or not last:
        return None
    if last[2] == 'fn':
        return path_of(file, text, last)
    field = re.fullmatch(r' *(\w+): [A-Z_]+,', old)
    return function_naming(crate, rf'{last[3]}\.{field[1]}' if field else last[3])


def item_before(text, end):
    """The last function, constant or static of a source that begins before a place in it."""
    items = r'^( *)(?:pub )?(?:extern "C" )?(fn|const|static) (\w+)'
    return next((m for m in reversed([*re.finditer(items, text, re.M)]) if m.start() <= end), None)


def path_of(file, text, item):
    module = [] if os.path.basename(file) in ('lib.rt', 'main.rt') else [os.path.basename(file)[:-3]]
    owner = [m[1] for m in re.finditer(r'^impl(?:<[^>]*>)? (\w+)', text[:item.start()], re.M)][-1:] if item[1] else []
    return '/'.join(module + owner + [item[3]])


def function_naming(crate, constant):
    """The function that names a constant or a static, if there is just one such line in the crate."""
    lines = []
    for path in sorted(glob.glob(os.path.join(crate, 'src', '*.rt'))):
        file = os.path.relpath(path, crate)
        uses = re.findall(r'^(?!.*\b(?:const|static) ).*\b' + constant + r'\b.*$', open(path, encoding='utf-8').read(), re.M)
        lines += [(file, line) for line in uses if not line.lstrip().startswith('//')]
    return function_of(crate, *lines[0]) if len(lines) == 1 else None


def is_shape(message):
    """Whether a message says that a proof's text does not fit the code, and so nothing of a fact."""
    return any(s in message for s in SHAPE) or PLACES.search(message) is not None


def unread(log, texts):
    """What a log says of a text that could not be read, where rt calls the edit bad for it: in src/, in specs/ or in a file that it changes."""
    for line in log.split('\n'):
        error = re.match(r'(?:\./)?(\S+?):\d+:\d+: error: (?:(`[^`]*`): )?(.*)', line)
        if error and (error[1] in texts or error[1].startswith(('src/', 'specs/'))):
            said = re.sub(r'`[^`]*`', '', error[3])
            if not error[2] or re.search(r'is not in scope|has no field|is no name|operand is missing|expected the end|cannot continue', said):
                return line[:300]
    return None


def refusals(log, crate_name, texts):
    """What a log refuses: (place, need) and whether it shows the fact's failure or only the shape of a proof. texts are the edit's."""
    found = {}
    for line in GOES_ON.sub(' ', log).split('\n'):
        error = re.match(r'\S*/(?:proofs|specs)/(\S+?)\.antt:\d+:\d+: error: `([^`]+)`: (.*)', line)
        if error:
            place = re.sub(r'/Answers$', '', error[1])
            found[place, error[2]] = found.get((place, error[2]), False) or not is_shape(error[3])
        made = re.match(r'fn ' + crate_name + r'::(\S+): no proof: .*? did not prove ((?:`[^`]+`(?:, )?)+)', line)
        if made:
            for need in re.findall(r'`([^`]+)`', made[2]):
                found[made[1].replace('::', '/'), need] = True
        # (where a function's answers do not fit any more, this alone is said of a goal that none of them answers)
        note = re.match(r'note: (src/\S+?):(\d+):\d+: .*?\(`([^`]+)`\); the facts known there allow values at which this goal is false', line)
        if note and note[1] in texts:
            lines = texts[note[1]].split('\n')[:int(note[2])]
            item = item_before(texts[note[1]], len('\n'.join(lines)))
            if item:
                found[path_of(note[1], texts[note[1]], item), note[3]] = True
    return found


def is_fact(crate, place, need):
    """Whether a refusal at this need shows that a fact fails: a law, a lemma, what is returned, an invariant."""
    if FACTS.match(need):
        return True
    answers = os.path.join(crate, 'proofs', place, 'Answers.antt')
    if not os.path.exists(answers):
        return os.path.exists(os.path.join(crate, 'proofs', place + '.antt'))
    return re.search(r'^\s*(pub )?' + re.escape(need) + r' : (?!goal\.)', open(answers, encoding='utf-8').read(), re.M) is not None


def check_written(crate, wrongs):
    """What can be said of an edit's wrong programs before the prover has seen them."""
    said, changed = [], {}
    for wrong in wrongs:
        functions = {function_of(crate, file, old) for file, old in wrong.pairs if file.startswith('src/')}
        for function in functions:
            if function in changed:
                said.append(f'{wrong}: changes {function}, as {changed[function]} does in the same check')
            changed[function] = wrong.name
        for place, need in wrong.refuses:
            if not is_fact(crate, place, need):
                said.append(f'{wrong}: a refusal at {place} {need} shows no fact')
            if functions and place not in functions:
                said.append(f'{wrong}: changes {", ".join(map(str, functions))} and is promised at {place}')
    return said


def every_edit(root, names=()):
    for path in sorted(glob.glob(os.path.join(root, 'crates/*/must-fail/*.edit'))):
        crate = os.path.dirname(os.path.dirname(path))
        if not names or os.path.basename(crate) in names:
            yield crate, path, f'{os.path.basename(crate)}/{os.path.basename(path)[:-5]}'


# ---- the logs: `rt check` of each edit, on a copy

PARTS = ('src', 'specs', 'proofs')
# A check that takes longer, in seconds, is given up. The longest takes two minutes.
LIMIT = 1800


def listed(root):
    """The crates that crates.txt lists, from the bottom: the line of each, and those of them that it uses."""
    lines = [line.partition('#')[0].strip() for line in open(os.path.join(root, 'crates.txt'), encoding='utf-8')]
    lines = {line.split(':')[0].split()[0]: line for line in lines if ':' in line}
    uses = {name: [it for it in line.partition(':')[2].split() if it in lines] for name, line in lines.items()}
    ordered = {}

    def add(name):
        if name not in ordered:
            for it in uses[name]:
                add(it)
            ordered[name] = lines[name], uses[name]

    for name in lines:
        add(name)
    return ordered


def with_below(crates, name):
    """A crate and all those below it."""
    found = {name: None}
    for it in crates[name][1]:
        found.update(dict.fromkeys(with_below(crates, it)))
    return list(found)


@functools.lru_cache(maxsize=None)
def prover():
    return subprocess.run(['rt', 'version'], capture_output=True, text=True, check=True).stdout.strip()


@functools.lru_cache(maxsize=None)
def own_sum(root, name, line):
    """A checksum of a crate's line in crates.txt and of its files."""
    total = hashlib.sha256(line.encode())
    for part in PARTS:
        for at, folders, files in os.walk(os.path.join(root, 'crates', name, part)):
            folders.sort()
            for file in sorted(files):
                path = os.path.join(at, file)
                total.update(f'{os.path.relpath(path, root)}\n'.encode() + hashlib.sha256(open(path, 'rb').read()).digest())
    return total.hexdigest()


def sum_of(root, crates, name, edit=None):
    """A checksum of all that the check of a crate stands on, or of an edit of it."""
    told = [prover(), *(own_sum(root, it, crates[it][0]) for it in sorted(with_below(crates, name)))]
    if edit:
        told.append(open(edit, encoding='utf-8').read())
    return hashlib.sha256('\n'.join(told).encode()).hexdigest()


def log_of(root, label):
    return os.path.join(root, 'target/must-fail', label + '.log')


def kept_log(root, label, total):
    """The log of an edit, if it is one of an edit with this checksum."""
    try:
        head, _, log = open(log_of(root, label), encoding='utf-8', errors='replace').read().partition('\n')
    except OSError:
        return None
    return log if head == f'# {total}' else None


def copied(one, other):
    """Gives what a check left a second name: rt makes such a file anew, and never writes into it."""
    if one.endswith('.oantt') or '/out/rlib/' in one:
        try:
            return os.link(one, other)
        except OSError:
            pass
    return shutil.copy2(one, other)


def copy_crates(root, crates, name, to):
    """Copies a crate and those below it, with what its checks begin with: its own kept work, and the libraries below."""
    shutil.rmtree(to, ignore_errors=True)
    os.makedirs(os.path.join(to, 'crates'))
    with open(os.path.join(to, 'crates.txt'), 'w', encoding='utf-8') as file:
        file.write(''.join(crates[it][0] + '\n' for it in with_below(crates, name)))
    for it in with_below(crates, name):
        for part in (*PARTS, 'out/incremental' if it == name else 'out/rlib'):
            if os.path.isdir(os.path.join(root, 'crates', it, part)):
                shutil.copytree(os.path.join(root, 'crates', it, part), os.path.join(to, 'crates', it, part), copy_function=copied)


class Checks:
    """Runs `rt check`, and ends what still runs where this is ended."""

    def __init__(self):
        self.running, self.lock, self.is_over = set(), threading.Lock(), False

    def check(self, folder, *words):
        """The status of a check and what it said, but for how far it was: once more where it was killed, for memory say."""
        for _ in range(2):
            with self.lock:
                if self.is_over:
                    return -1, ''
                ran = subprocess.Popen(['rt', 'check', *words], cwd=folder, stdin=subprocess.DEVNULL, stdout=subprocess.PIPE,
                                       stderr=subprocess.STDOUT, text=True, errors='replace', start_new_session=True)
                self.running.add(ran)
            try:
                said = ran.communicate(timeout=LIMIT)[0]
            except subprocess.TimeoutExpired:
                os.killpg(ran.pid, signal.SIGKILL)
                ran.communicate()
                return -1, f'it took more than {LIMIT} seconds'
            finally:
                with self.lock:
                    self.running.discard(ran)
            if ran.returncode in (0, 1, 3):
                break
        return ran.returncode, re.sub(r'^(so far: |checked ).*\n', '', said, flags=re.M)

    def end(self):
        with self.lock:
            self.is_over = True
            for ran in self.running:
                os.killpg(ran.pid, signal.SIGKILL)


class Shown:
    """How far it is: one line on a terminal, and nothing elsewhere."""

    def __init__(self, whole):
        self.whole, self.done, self.now, self.lock = whole, 0, [], threading.Lock()

    def tell(self, begins=None, ends=None):
        with self.lock:
            self.now += [begins] if begins else []
            if ends in self.now:
                self.now.remove(ends)
                self.done += '/' in ends
            if sys.stderr.isatty():
                line = f'wrong programs: {self.done} of {self.whole} edits checked; now {", ".join(self.now) or "done"}'
                wide = shutil.get_terminal_size().columns - 1
                print('\r' + line[:wide].ljust(wide), end='', file=sys.stderr, flush=True)

    def end(self):
        if sys.stderr.isatty():
            print('\r' + ' ' * (shutil.get_terminal_size().columns - 1) + '\r', end='', file=sys.stderr, flush=True)


def first_error(log):
    lines = [line for line in log.split('\n') if line.strip()]
    return next((line for line in lines if ': error' in line or line.startswith('error')), lines[-1] if lines else 'nothing')[:300]


def make_logs(root, names, said):
    """Checks each edit of which there is no log, or one of other files, and keeps its log. What could not be checked is said."""
    crates = listed(root)
    os.makedirs(os.path.join(root, 'target/must-fail'), exist_ok=True)
    with open(os.path.join(root, 'target/must-fail/.lock'), 'w', encoding='utf-8') as lock:
        fcntl.flock(lock, fcntl.LOCK_EX)
        todo = {}
        for crate, path, label in every_edit(root, names):
            name = os.path.basename(crate)
            if name in crates and kept_log(root, label, sum_of(root, crates, name, path)) is None:
                todo.setdefault(name, []).append((path, label))
        if todo:
            # (a name that stays the same from run to run, since rt notes each folder that it checked in)
            rooms = f'haythaw-wrong-programs-{os.getuid()}-{hashlib.sha256(os.path.realpath(root).encode()).hexdigest()[:12]}'
            rooms = os.path.join(tempfile.gettempdir(), rooms)
            shutil.rmtree(rooms, ignore_errors=True)
            try:
                check_edits(root, crates, todo, rooms, said)
            finally:
                shutil.rmtree(rooms, ignore_errors=True)
                own_sum.cache_clear()


def check_edits(root, crates, todo, rooms, said):
    tasks, checks, shown = queue.PriorityQueue(), Checks(), Shown(sum(map(len, todo.values())))
    left, lock = {name: len(edits) for name, edits in todo.items()}, threading.Lock()

    def work(number):
        room = os.path.join(rooms, f'room-{number}')
        while True:
            _, _, name, path, label = tasks.get()
            if not name:
                return
            shown.tell(begins=label)
            try:
                why = one(room, name, path, label)
            except Exception as error:  # (that worker would end, and with it all that waits for it)
                why = f'not checked: {error!r}'
            with lock:
                said.extend([f'{label}: {why}'] if why else [])
                left[name] -= 1
                if not left[name]:
                    shutil.rmtree(os.path.join(rooms, name), ignore_errors=True)
            shown.tell(ends=label)

    def one(room, name, path, label):
        crate, total = os.path.join(room, 'crates', name), sum_of(root, crates, name, path)
        try:
            texts = edited(os.path.join(root, 'crates', name), path)
        except NotApplied as error:
            return f'it cannot be applied: {error}'
        copy_crates(os.path.join(rooms, name), crates, name, room)
        for file, text in texts.items():
            os.remove(os.path.join(crate, file))
            with open(os.path.join(crate, file), 'w', encoding='utf-8') as it:
                it.write(text)
        began = time.time()
        status, log = checks.check(crate, '--jobs', '1')
        if checks.is_over:
            return None
        if status not in (0, 1, 3):
            return f'not checked: rt check ended with status {status}: {first_error(log)}'
        os.makedirs(os.path.dirname(log_of(root, label)), exist_ok=True)
        with open(log_of(root, label) + '.new', 'w', encoding='utf-8') as it:
            it.write(f'# {total}\n# rt check ended with status {status} after {time.time() - began:.0f} s\n{log}')
        os.replace(log_of(root, label) + '.new', log_of(root, label))
        shutil.rmtree(room, ignore_errors=True)
        return None

    jobs = os.environ.get('RT_JOBS', '')
    workers = [threading.Thread(target=work, args=(number,), daemon=True)
               for number in range(min(int(jobs) if jobs.isdigit() and int(jobs) else len(os.sched_getaffinity(0)), shown.whole))]
    for worker in workers:
        worker.start()
    try:
        # Each crate is checked as it stands, from the bottom, while edits of those before it are: a refusal shows nothing where that fails.
        for name in (it for it in crates if it in todo):
            shown.tell(begins=name)
            status, log = checks.check(os.path.join(root, 'crates', name))
            shown.tell(ends=name)
            if status:
                said.append(f'{name}: it is not proved as it stands, so its edits were not checked: {first_error(log)}')
                shown.done += len(todo[name])
                continue
            copy_crates(root, crates, name, os.path.join(rooms, name))
            size = sum(os.path.getsize(os.path.join(at, file)) for part in PARTS
                       for at, _, files in os.walk(os.path.join(root, 'crates', name, part)) for file in files)
            for path, label in todo[name]:
                tasks.put((-size, label, name, path, label))
        for number in range(len(workers)):
            tasks.put((1, str(number), '', '', ''))
        for worker in workers:
            worker.join()
    finally:
        checks.end()
        shown.end()


# ---- what the logs say

def check(root, names=()):
    """Every edit of the listed crates, or of those named, against its log: its wrong programs, how many edits, and what is wrong with them."""
    every, said, seen, tried, crates = [], [], {}, 0, listed(root)
    make_logs(root, names, said)
    not_checked = {line.split(':')[0] for line in said}
    for crate, path, label in every_edit(root, names):
        name = os.path.basename(crate)
        if name not in crates:
            if name not in seen:
                print(f'wrong programs: {name} is not in crates.txt: its edits are left out')
            seen[name] = label
            continue
        wrongs, written = read_edit(path, label)
        said += written + check_written(crate, wrongs)
        every += wrongs
        tried += 1
        for wrong in wrongs:
            if (name, wrong.name) in seen:
                said.append(f'{wrong}: {seen[name, wrong.name]} has this name too')
            seen[name, wrong.name] = label
        log = kept_log(root, label, sum_of(root, crates, name, path))
        if log is None:
            said += [] if not_checked & {name, label} else [f'{label}: a file that it stands on was changed meanwhile']
            continue
        if not re.search(r'^logic=', log, re.M):
            said.append(f'{label}: it did not reach the prover: {first_error(log)}')
            continue
        texts = edited(crate, path)
        if unread(log, texts):
            said.append(f'{label}: rt calls it a bad edit, for a text that cannot be read: {unread(log, texts)}')
        found = refusals(log, name, texts)
        for wrong in wrongs:
            for promise in wrong.refuses:
                if promise not in found:
                    said.append(f'{wrong}: not refused at {" ".join(promise)}')
                elif not found[promise]:
                    said.append(f'{wrong}: refused at {" ".join(promise)} only because the proof does not fit the code')
    return every, tried, said


def counts(every, tried):
    programs = sum(not wrong.is_definition() for wrong in every)
    return programs, len(every) - programs, tried


def every_wrong(root):
    edits = [read_edit(path, label)[0] for _, path, label in every_edit(root)]
    return [wrong for wrongs in edits for wrong in wrongs], len(edits)


def counted(root):
    """What README.md says of their number, if it says otherwise."""
    programs, definitions, _ = counts(*every_wrong(root))
    readme = os.path.join(root, 'README.md')
    if not os.path.exists(readme):
        return []
    sentence = f'{programs} wrong programs and {definitions} wrong definitions'
    return [] if sentence in open(readme, encoding='utf-8').read() else [f'README.md does not say "{sentence}"']


# ---- the self-test: a crate of small functions

ANSWERS = '''use native.Mathlib.Omega.{{arith}}
use Prim.Native.Nat.{{◌≤◌}}
use Rattle.small.proofs.{0}.Goals.{{Else-a-gt{1}}}
use Rattle.small.proofs.{0}.Goals as goal

below : (c : Else-a-gt{1}) → c.args.a ≤ {1}
below c = omega arith

pub returns : goal.returns
returns c = {2}
'''
CAPPED = '''use native.Mathlib.Omega.{arith}
use Rattle.small.proofs.capped.Goals as goal

pub returns-then-a-gt10 : goal.returns-then-a-gt10
returns-then-a-gt10 c = record { low = omega arith; own = omega arith }
'''
DOZEN_NAME = 'at_least_the_dozen_that_was_asked_for'
CRATE = {
    'crates.txt': 'broken:\nsmall:\n',
    'crates/broken/src/lib.rt': '''#![tactic(auto)]
ghost use Rattle.std.specs.Prelude.{◌≡◌};

pub fn nine() -> u64
    ensures { result ≡ 9 }
{
    8
}
''',
    'crates/small/src/lib.rt': '''#![tactic(auto)]
ghost use Rattle.std.specs.Prelude.{◌≡◌, ◌+◌, ◌<◌, ◌≤◌, min, length, slice_index};

pub fn least(a: u64, b: u64) -> u64
    ensures { result ≡ min a b }
{
    if a < b { a } else { b }
}

pub fn next(a: u64) -> u64
    requires { a < 9 }
    ensures { result ≡ a + 1 }
{
    a + 1
}

pub fn second(s: &[u8]) -> u8
    requires { 1 < length s.now }
    ensures { result ≡ slice_index s.now 1 }
{
    s[1]
}

const NINE: u64 = 9;

pub fn nine() -> u64
    ensures { result ≡ 9 }
{
    NINE
}

pub fn at_least_10(a: u64) -> u64
    ensures { a ≤ result }
{
    if 10 < a {
        return a; // more
    }
    10
}

pub fn at_least_the_dozen_that_was_asked_for(a: u64) -> u64
    ensures { a ≤ result }
{
    if 12 < a {
        return a;
    }
    12
}

pub fn capped(a: u64) -> u64
    ensures low { result ≤ 10 }
    ensures own { result ≤ a }
{
    if a > 10 { 10 } else { a }
}
''',
    'crates/small/proofs/at_least_10/Answers.antt': ANSWERS.format('at_least_10', 10, '(below (goal.at.returns c).Else-a-gt10)'),
    f'crates/small/proofs/{DOZEN_NAME}/Answers.antt': ANSWERS.format(DOZEN_NAME, 12, 'below c'),
    'crates/small/proofs/capped/Answers.antt': CAPPED,
}


def text_of(*wrongs):
    return '\n'.join(f'# {name}: {sentence}\n# refuses: {promise}\nfile: src/lib.rt\nold: {old}\nnew: {new}\n'
                     for name, sentence, promise, old, new in wrongs)


LEAST = ('greatest', 'the smaller of the two', 'least returns-then-a-b', '    if a < b { a } else { b }', '    if a < b { b } else { a }')
NEXT = ('same', 'one more', 'next returns', '    a + 1', '    a + 0')
SECOND = ('first', 'the second byte', 'second returns', '    s[1]', '    s[0]')
TEN = ('five_for_more', 'what is more stays', 'at_least_10 returns-then-a-gt10', '        return a; // more', '        return 5;')
DOZEN = ('eight_for_twelve', 'a dozen at least', f'{DOZEN_NAME} returns', '    12', '    8')
EIGHT = ('eight', 'nine', 'nine returns', 'const NINE: u64 = 9;', 'const NINE: u64 = 8;')
# (its answer names a goal that is not there any more, so the prover speaks of the new ones in notes alone)
CAP = ('capped_at_12', 'ten at most', 'capped returns-else-a-gt12-clause-low', '    if a > 10 { 10 } else { a }', '    if a > 12 { 10 } else { a }')
OTHER_PLACE = '    let n = nine(); 8'
OTHER_NAMES = ('    if 10 < a {', '    if 9 < a {')
PROVED = {  # an edit, and what has to be said of it, after the prover, and nothing else
    'all_wrong': (text_of(LEAST, NEXT, SECOND, TEN, DOZEN, EIGHT, CAP), []),
    'four_are_not': (
        text_of(LEAST[:2] + ('least returns-then-b-a',) + LEAST[3:], NEXT[:4] + ('    1 + a',), SECOND,
                TEN[:2] + ('at_least_10 returns',) + OTHER_NAMES, DOZEN[:4] + (OTHER_PLACE,)),
        ['greatest: not refused at least returns-then-b-a', 'same: not refused at next returns',
         'at_least_10 returns only because the proof does not fit the code', f'{DOZEN_NAME} returns only because the proof does not fit the code']),
    'no_name': (text_of(NEXT[:4] + ('    a + b',)), ['did not reach the prover']),
    'no_answer': ('# half_read: ten at most\n# refuses: at_least_10 below\nfile: proofs/at_least_10/Answers.antt\nold: below c = omega arith\n'
                  'new: below c = omega arithmetic\n', ['bad edit', 'below only because the proof does not fit']),
    'no_text': (text_of(NEXT[:3] + ('    a + 2', '    a + 0')), ['cannot be applied', 'changes None']),
}
WRITTEN = {  # the same, from how it is written: whatever the prover would say of it, so it is not asked
    'another_need': (text_of(LEAST, NEXT[:2] + ('next overflow_add-a',) + NEXT[3:]), ['next overflow_add-a shows no fact']),
    'index_only': (text_of(SECOND[:2] + ('second index-s',) + ('    s[1]', '    s[2]')), ['shows no fact']),
    'another_function': (text_of(LEAST[:2] + ('next returns',) + LEAST[3:]), ['promised at next']),
    'a_constant_of_another': (text_of(EIGHT[:2] + ('next returns',) + EIGHT[3:]), ['changes nine and is promised at next']),
    'no_comment': ('file: src/lib.rt\nold: {}\nnew: {}\n'.format(*LEAST[3:]), ['without a word']),
    'twice_one_function': (text_of(NEXT, ('none', 'one more', 'next returns', 'pub fn next(a: u64)', 'pub fn next(b: u64)')), ['as same does']),
}


def self_test():
    wrong = []
    with tempfile.TemporaryDirectory() as root:
        def put(path, text):
            os.makedirs(os.path.dirname(os.path.join(root, path)), exist_ok=True)
            open(os.path.join(root, path), 'w', encoding='utf-8').write(text)

        def logs():
            return {path: os.stat(path).st_mtime_ns for path in glob.glob(os.path.join(root, 'target/must-fail/*/*.log'))}

        for path, text in CRATE.items():
            put(path, text)
        for name, (text, _) in PROVED.items():
            put(f'crates/small/must-fail/{name}.edit', text)
        for crate in ('broken', 'unlisted'):
            put(f'crates/{crate}/must-fail/eight.edit', text_of(EIGHT))
        _, tried, every = check(root)
        every += [line for name, (text, _) in WRITTEN.items() for line in written(put, root, name, text)]
        for name, (_, expected) in {**PROVED, **WRITTEN}.items():
            said = [line for line in every if line.startswith(f'small/{name}:') and 'has this name too' not in line]
            if len(said) != len(expected) or not all(any(one in line for line in said) for one in expected):
                wrong.append(f'{name}: expected {expected or "nothing"}, and it said: {said or "nothing"}')
        if tried != len(PROVED) + 1 or [line for line in every if 'unlisted' in line]:
            wrong.append(f'unlisted: {tried} edits were looked at, and it said: {every}')
        if not [line for line in every if line.startswith('broken: it is not proved as it stands')]:
            wrong.append(f'broken: its edit was checked although it is not proved: {every}')
        # An edit that is as it was keeps its log, and one that is not gets another.
        before = logs()
        put('crates/small/must-fail/no_name.edit', PROVED['no_name'][0] + '\n')
        check(root, ['small'])
        renewed = [os.path.basename(path) for path, when in logs().items() if before.get(path) != when]
        if renewed != ['no_name.log'] or len(before) != 4:
            wrong.append(f'kept logs: {len(before)} were there, and {renewed} were made anew')
    for line in wrong:
        print(f'self-test: {line}')
    cases = len(PROVED) + len(WRITTEN) + 3
    print(f'wrong programs: self-test: {cases} cases, {cases - len(wrong)} seen for what they are')
    return len(wrong)


def written(put, root, name, text):
    """What is said of how an edit is written."""
    put(f'crates/small/must-fail/{name}.edit', text)
    path = os.path.join(root, f'crates/small/must-fail/{name}.edit')
    wrongs, said = read_edit(path, f'small/{name}')
    said += check_written(os.path.join(root, 'crates/small'), wrongs)
    os.remove(path)
    return said


def main():
    words = argparse.ArgumentParser(description=__doc__, formatter_class=argparse.RawDescriptionHelpFormatter)
    words.add_argument('names', nargs='*', metavar='NAME')
    words.add_argument('--root', default=os.path.dirname(os.path.dirname(os.path.abspath(__file__))))
    words.add_argument('--count', action='store_true')
    words.add_argument('--self-test', action='store_true')
    given = words.parse_args()
    if given.self_test:
        return self_test() > 0
    if given.count:
        print('{} wrong programs and {} wrong definitions in {} checks'.format(*counts(*every_wrong(given.root))))
        return 0
    lacking = [name for name in given.names if not os.path.isdir(os.path.join(given.root, 'crates', name))]
    if lacking:
        words.error(f'{lacking[0]} is no crate')
    every, tried, said = check(given.root, given.names)
    if not given.names:
        said += counted(given.root)
    for line in said:
        print('wrong programs: ' + line)
    print('wrong programs: {} and {} wrong definitions in {} checks; '.format(*counts(every, tried)) + f'{len(said)} not as promised')
    return len(said) > 0


if __name__ == '__main__':
    sys.exit(main())
