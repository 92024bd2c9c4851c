"""journal.py: what `cvr-audit journal` does. Over the files of examples/county it passes on what `cvr`
prints, and its lines have the sums that this file computes on its own; runs that are killed have
their lines; outputs and journals that fail end it as AUDITING says. Then each line of a journal is
changed, taken out and moved, and its end is cut off, and `--verify` has to find each, or to print
another last hash."""
import hashlib
import json
import os
import re
import shlex
import signal
import subprocess
import sys
import tempfile
import time
from concurrent.futures import ThreadPoolExecutor

import rows

SECONDS = 300
OPEN = 'open 1: this run was killed, or goes on'
TALLY = ['tally', 'definition.json', 'scan.json', 'damaged.json', 'adjudicated.json']
AT_ONCE = 4
# A program of version 1 that does something else than `cvr`.
SCRIPT = '#!/bin/sh\ncase $1 in --version) echo cvr 1.0.0;; *) %s;; esac\n'


def sum_of(held):
    return hashlib.sha256(held).hexdigest()


def held(path):
    with open(path, 'rb') as file:
        return file.read()


def ran(words, **more):
    """(status, text, log) of a command."""
    done = subprocess.run(words, stdin=subprocess.DEVNULL, stdout=subprocess.PIPE,
                          stderr=subprocess.PIPE, timeout=SECONDS, **more)
    return done.returncode, done.stdout, done.stderr


def sum_of_companion(folder):
    """The sum of `cvr-audit`, by the command that AUDITING has for it."""
    text = held(os.path.join(rows.TOP, 'docs', 'AUDITING.md')).decode('utf-8')
    command = re.search(r'^sha256sum cvr-audit .*$', text, re.M).group()
    return ran(['sh', '-c', command], cwd=folder)[1].decode('ascii').split()[0]


class Room:
    """A folder with the files of the county, and the companion and the program that are tried."""

    def __init__(self, companion, cvr, folder):
        self.companion, self.cvr, self.folder = companion, cvr, folder
        rows.lay(folder, {})

    def path(self, name):
        return os.path.join(self.folder, name)

    def words(self, *words):
        return [sys.executable, os.path.join(self.companion, 'cvr-audit'), 'journal', *words]

    def run(self, *words, cvr=None, redirected=''):
        """(status, text, log) of a journal's run."""
        command = ' '.join(map(shlex.quote, self.words(*words))) + ' ' + redirected
        env = dict(os.environ, CVR=cvr or self.cvr)
        return ran(['sh', '-c', command], cwd=self.folder, env=env)

    def script(self, text):
        """A program that does something else."""
        path = self.path('program')
        with open(path, 'w', encoding='utf-8') as file:
            file.write(SCRIPT % text)
        os.chmod(path, 0o700)
        return path

    def lines(self, journal):
        return held(self.path(journal)).splitlines()

    def values(self, journal):
        return [json.loads(it) for it in self.lines(journal)]

    def verified(self, journal):
        """(status, lines) of --verify."""
        status, text, _ = self.run(journal, '--verify')
        return status, text.decode('utf-8').splitlines()


def noted(room):
    """What the lines of a run have to say."""
    status, text, log = ran([room.cvr] + TALLY, cwd=room.folder)
    yield 'text, log and status are passed on', room.run('j', '--', *TALLY) == (status, text, log)
    begun, ended = room.values('j')
    mode = os.stat(room.path('j')).st_mode & 0o777
    yield 'a journal for its owner alone', mode == 0o600
    yield 'the words', begun['words'] == TALLY
    yield 'the folder', begun['folder'] == os.path.realpath(room.folder)
    sums = {it: sum_of(held(room.path(it))) for it in TALLY[1:]}
    yield 'the sums of the files', begun['files'] == sums
    yield 'the sum of the program', begun['program'] == sum_of(held(room.cvr))
    yield 'the sum of cvr-audit', begun['audit'] == sum_of_companion(room.companion)
    yield 'the sums of text and log', (ended['text'], ended['log']) == (sum_of(text), sum_of(log))
    yield 'the status, and no changed file', (ended['status'], ended['changed']) == (1, [])
    first, second = map(sum_of, room.lines('j'))
    yield 'the line before', (begun['before'], ended['before']) == ('0' * 64, first)
    yield 'the times', begun['begun'] <= ended['ended'] and begun['begun'].endswith('+00:00')
    yield '--verify', room.verified('j') == (0, ['lines 2', 'last ' + second])


def files(room):
    """Which files are noted."""
    with open(room.path('list'), 'w', encoding='utf-8') as file:
        file.write('scan.json\nnone.json\nadjudicated.json')
    words = ['tally', 'definition.json', '--files-from']
    status, *_ = room.run('files', '--', *words, 'list')
    wanted = {'definition.json', 'list', 'scan.json', 'adjudicated.json'}
    yield 'the files of a list', status == 3 and set(room.values('files')[0]['files']) == wanted
    for path in '-', '/dev/stdin', '/dev/fd/0':
        found = room.run('none', '--', *words, path)[:2], os.path.exists(room.path('none'))
        yield 'a list that is no file: ' + path, found == ((2, b''), False)
    status, text, _ = room.run('through', '--', *TALLY[:2], '/dev/fd/3', redirected='3<scan.json')
    plain = ran([room.cvr, *TALLY[:2], 'scan.json'], cwd=room.folder)[:2]
    yield 'a file that the shell opens', (status, text) == plain
    wanted = {'definition.json', '/dev/fd/3'}
    yield 'its sum', room.values('through')[0]['files'].keys() == wanted
    status, *_ = room.run('mark', '--', 'check', '--', 'definition.json', '--files-from', '-')
    yield 'files behind the mark, which are no list', status == 3
    room.run('files', '--', 'drill', 'definition.json', '2', '1=scan.json', '1>2')
    wanted = {'definition.json', 'scan.json'}
    yield 'the files of steps', set(room.values('files')[2]['files']) == wanted
    room.run('files', '--', *TALLY, cvr=room.script('echo >>scan.json'))
    yield 'a file that is changed meanwhile', room.values('files')[-1]['changed'] == ['scan.json']


def killed(room):
    """Runs that are killed, and the journal with them."""
    status, *_ = room.run('killed', '--', 'tally', cvr=room.script('kill -9 $$'))
    yield 'a killed run', (status, room.values('killed')[1]['status']) == (137, 137)
    for number, wanted, first in (signal.SIGTERM, 143, 'lines 2'), (signal.SIGKILL, -9, OPEN):
        journal = 'killed by %d' % number
        status = stopped(room, journal, number)
        found = room.verified(journal)
        yield 'after signal %d: %s' % (number, found), (found[0], found[1][0]) == (0, first)
        yield 'the status after signal %d: %d' % (number, status), status == wanted


def stopped(room, journal, number):
    """The status of a journal that gets a signal while its program runs, which says so by a file."""
    begun = room.path('begun')
    env = dict(os.environ, CVR=room.script('>begun; exec sleep 20'))
    child = subprocess.Popen(room.words(journal, '--', 'tally'), cwd=room.folder, env=env,
                             stdout=subprocess.DEVNULL, stderr=subprocess.DEVNULL)
    deadline = time.time() + SECONDS
    while not os.path.exists(begun) and time.time() < deadline:
        time.sleep(0.05)
    time.sleep(0.5)         # until the signal would go to it
    os.remove(begun)
    child.send_signal(number)
    return child.wait(SECONDS)


def failing(room):
    """Outputs and journals that fail, and words that fit nothing."""
    for redirected in '>/dev/full', '>&-':
        found = room.run('failing', '--', *TALLY, redirected=redirected)
        wanted = 3, b'damaged.json: E3 /CVR/0/UniqueId 2\nout: X1\n'
        yield 'an output that fails: %s' % redirected, found[::2] == wanted
        found = room.values('failing')[-1]['status'], room.verified('failing')[0]
        yield 'its line', found == (3, 0)
    for journal in '.', 'none/j':
        yield 'no journal at ' + journal, room.run(journal, '--', *TALLY)[:2] == (3, b'')
    report = held(room.path('scan.json'))
    found = room.run('scan.json', '--', *TALLY)[:2], held(room.path('scan.json'))
    yield 'a report in place of a journal', found == ((3, b''), report)
    for words in (['--', *TALLY], ['none'], ['none', '--'], ['none', 'x', '--', 'tally'],
                  ['none', '--verify', '--', 'tally']):
        found = room.run(*words)[:2], os.path.exists(room.path('none'))
        yield 'words: %s' % words, found == ((2, b''), False)
    yield 'a journal that is not there', room.verified('none')[0] == 3


def at_once(room):
    """Runs side by side."""
    with ThreadPoolExecutor(AT_ONCE) as pool:
        list(pool.map(lambda _: room.run('at once', '--', *TALLY), range(AT_ONCE)))
    status, told = room.verified('at once')
    yield 'runs at once', (status, told[0]) == (0, 'lines %d' % (2 * AT_ONCE))


def changed(room):
    """Journals in which something was changed."""
    for it in ['definition.json'], ['scan.json'], ['damaged.json']:
        room.run('whole', '--', 'check', 'definition.json', *it)
    whole = room.lines('whole')
    last = room.verified('whole')[1][-1]

    def found(lines, rest=b''):
        with open(room.path('changed'), 'wb') as file:
            file.write(b''.join(it + b'\n' for it in lines) + rest)
        return room.verified('changed')

    def is_found(number, lines):
        """Whether these lines are found broken at a number, or of the last one have another hash."""
        status, told = found(lines)
        if number > len(lines):
            return (status, told[-1] != last) == (0, True)
        return (status, told[0].split(':')[0]) == (1, 'broken %d' % number)

    for place, line in enumerate(whole):
        before, after, number = whole[:place], whole[place + 1:], place + 1
        other = [*before, line.replace(b'"2', b'"3', 1), *after]
        yield 'line %d is changed' % number, is_found(number + 1, other)
        yield 'line %d is taken out' % number, is_found(number, before + after)
        if after:
            moved = [*before, after[0], line, *after[1:]]
            yield 'line %d is moved' % number, is_found(number, moved)
    for rest in whole[-1][:-1], whole[-1]:
        status, told = found(whole[:-1], rest)
        yield 'the end is cut off', status == 1 and any(it.startswith('cut 6: ') for it in told)
        status, text, _ = room.run('changed', '--', *TALLY)
        yield 'nothing is added to a line without an end', (status, text) == (3, b'')
    ended = json.dumps({'ended': '', 'run': 'x', 'before': sum_of(whole[0])}).encode()
    yield 'a line without a run', found([whole[0], ended])[0] == 1
    ended = json.dumps({'ended': '', 'run': [], 'before': sum_of(whole[0])}).encode()
    yield 'a line whose run is a list', found([whole[0], ended])[0] == 1
    for line in b'x', b'[' * 100000:
        first = whole[0].replace(b'0' * 64, sum_of(line).encode())
        yield 'no JSON: %r' % line[:9], found([line, first])[0] == 1


PARTS = {it.__name__: it for it in (noted, files, killed, failing, at_once, changed)}


def differences(companion, cvr, name):
    """What is wrong in a part, as lines."""
    with tempfile.TemporaryDirectory() as folder:
        found = PARTS[name](Room(companion, cvr, folder))
        return ['journal: not so: ' + what for what, is_right in found if not is_right]
