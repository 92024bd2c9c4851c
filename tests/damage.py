#!/usr/bin/env python3
"""damage.py --cvr PATH [--tenth WORD]

What becomes of files that were damaged on their way, and of runs whose devices fail.

- The vector f11 and a volume, each byte in turn replaced by a quote, a zero, a space and 0xFF: one `check` of all
reports of each what tests/rows/rules.py does. Beside f2 each refused one alone, and all of them before and after it,
leave what is printed as it was.
- The output, the log or the reading fails at each call, with one byte a call, or reads or writes nothing: the bytes
before are left, and the fault is reported, for each command, for help and for refused words. A file can't be opened, as
it may not be read, or since memory is refused. The device is devices.c, which cc builds on the spot and LD_PRELOAD loads
with the program. Where there is no cc, or nothing can be loaded with the program, a line `left out` says so.
- A line of the log that has 4,096 bytes or fewer is one write, and a longer one comes in pieces.
- The program is killed at each such call of its output, and from outside while it writes a long volume to a file: what
is left is a prefix of the volume, and `check` refuses each proper prefix as no JSON.

The texts are those of tests/rows/printed.py; for help and refused words those of the rows. With --tenth a tenth of the
damaged files and of the runs with failing devices are tried. The last line is `damage: N right, M wrong`; the status is 0
only where M is 0 and N is not."""
import collections
import json
import multiprocessing
import os
import shutil
import signal
import socket
import subprocess
import sys
import tempfile
import time
from concurrent.futures import ProcessPoolExecutor

sys.dont_write_bytecode = True
HERE = os.path.dirname(os.path.abspath(__file__))
ROWS = os.path.join(HERE, 'rows')
sys.path[:0] = [HERE, ROWS]
import printed                # noqa: E402
import random_files           # noqa: E402
import rules as format_rules  # noqa: E402
import run as rows            # noqa: E402
import tenth                  # noqa: E402 (it stands here, the others in tests/rows)

SECONDS = 300
BYTES = b'"0 \xff'          # what each byte is replaced by
HEADING = ['2024-11-06T08:00:00Z', 'desk', '1']
TASKS = printed.LINES + ('merge',)
DRILL = ['drill', 'def.json', '3', '1=f2.json', '1=f6.json', '2=f2.json', '2=bad', '3=f6.json', '1>4', '3=f2.json']    # two steps are refused
BAD = rows.replaced(rows.VECTORS['f2.json'].decode('utf-8'), ',"UniqueId":"u1"', '').encode('utf-8')
WORDS = {row['name']: (row, short) for where, row, short in rows.all_rows() if where == 'words.json'}
RECORDS = 3000              # in the long volume
KILLS = 24                  # kills of a program that writes it
RULES = format_rules.Rules()
DEFINITION = format_rules.read(RULES, rows.VECTORS['def.json'])


def reading(data):
    """What a file is read as: its value, or its fault as a log line has it."""
    return random_files.read(RULES, data, DEFINITION)


def held(*names):
    """Vectors, each with what it is read as."""
    return [(name, reading(rows.VECTORS[name])) for name in names]


# A run: its words, the device that fails in it or None, and the output, the log and the status that it leaves.
Case = collections.namedtuple('Case', 'words device out log status')


def answered(words, files):
    """The run of words over files, (path, what it is read as), and what it leaves when no device fails."""
    out, log, status = printed.answer(printed.Texts(), words, DEFINITION, files)
    return Case(words, None, out.encode('utf-8'), log.encode('utf-8'), status)


def case(task, files):
    """The run of a task over files."""
    return answered([task, 'def.json'] + (HEADING if task == 'merge' else []) + [path for path, _ in files], files)


def drill(words):
    """The run of a drill over vectors and the file `bad`."""
    return answered(words, [(path, reading(BAD if path == 'bad' else rows.VECTORS[path])) for path in printed.paths(words)[1:]])


def stated(name):
    """The run of a row whose words ask for no task."""
    row, short = WORDS[name]
    return Case(row['words'], None, rows.spelled(row['out'], short).encode('utf-8'), rows.spelled(row['err'], short).encode('utf-8'), row['status'])


def with_device(device):
    """The variables with which a run in the program's folder has a device that fails, if any."""
    # without the path, since LD_PRELOAD takes a space for the end of a name
    return dict(os.environ, LD_PRELOAD='./devices.so', DEVICE=device) if device else None


class Program:
    """The program, in a folder with the files of its runs."""

    def __init__(self, cvr, folder):
        self.cvr, self.folder = cvr, folder
        for name in ('def.json', 'f2.json', 'f6.json', 'f8.json'):
            self.put(name, rows.VECTORS[name])

    def lacks_devices(self):
        """Builds the devices. Answers why there are none, or nothing."""
        if tenth.is_static(self.cvr):
            return 'the program is static'
        if not shutil.which('cc'):
            return 'cc is not there'
        words = ['cc', '-O1', '-shared', '-fPIC', '-o', self.path('devices.so'), os.path.join(HERE, 'devices.c')]
        subprocess.run(words, check=True, timeout=SECONDS)
        return ''

    def path(self, name):
        return os.path.join(self.folder, name)

    def data(self, name):
        with open(self.path(name), 'rb') as file:
            return file.read()

    def put(self, name, data):
        with open(self.path(name), 'wb') as file:
            file.write(data)
        return name

    def ran(self, words, device):
        """(output, log, status) of a run whose output is a file."""
        with tempfile.TemporaryFile() as out:
            try:
                done = subprocess.run([self.cvr] + words, cwd=self.folder, env=with_device(device), stdin=subprocess.DEVNULL, stdout=out,
                                      stderr=subprocess.PIPE, timeout=SECONDS)
            except subprocess.TimeoutExpired:
                return b'', b'', 'no end'
            out.seek(0)
            return out.read(), done.stderr, done.returncode

    def fault(self, asked):
        """What is wrong with a run, or None."""
        got = self.ran(asked.words, asked.device)
        told = ['%s %s, expected %s' % (what, repr(one)[:200], repr(other)[:200])
                for what, one, other in zip(('output', 'log', 'status'), got, asked[2:]) if one != other]
        return '%s, device %s: %s' % (' '.join(asked.words)[:200], asked.device, '; '.join(told)) if told else None

    def killed(self, merge, place):
        """Kills a merge from outside once a share of its volume is in a file. (what is left, status)"""
        path, end = self.path('killed-%d' % place), time.time() + SECONDS
        with open(path, 'wb') as out:
            done = subprocess.Popen([self.cvr] + merge.words, cwd=self.folder, stdin=subprocess.DEVNULL, stdout=out)
            while done.poll() is None and os.stat(path).st_size < len(merge.out) * place // KILLS and time.time() < end:
                pass
            done.kill()
            done.wait()
        with open(path, 'rb') as file:
            return file.read(), done.returncode


# ---- damaged files

def replaced(name, data):
    """The files that one becomes with each byte in turn replaced, by name."""
    return {'%s-%d-%02x' % (name, place, value): data[:place] + bytes([value]) + data[place + 1:]
            for place in range(len(data)) for value in BYTES if data[place] != value}


def told_otherwise(program, check):
    """What is wrong with a check of many files, line by line."""
    out, log, status = program.ran(check.words, None)
    if (out, log, status) == check[2:]:
        return []
    wanted, got = (set(one.splitlines()) for one in (check.out + check.log, out + log))
    return ['check, status %r: %r' % (status, line) for line in sorted(wanted ^ got) or [b'another order']]


def damaged(program, pool, data, word):
    """Yields what is wrong with each damaged file, or None."""
    files = dict(tenth.chosen(word, (one for whole in data.items() for one in replaced(*whole).items()), lambda it: it[0]))
    for name, one in files.items():
        program.put(name, one)
    read = list(zip(files, pool.map(reading, files.values(), chunksize=50)))
    wrong = told_otherwise(program, case('check', read))
    yield from wrong + [None] * (len(files) - len(wrong))
    refused = [(name, told) for name, told in read if isinstance(told, str)]
    f2, half = held('f2.json'), len(refused) // 2
    yield from pool.map(program.fault, [case(task, refused[:half] + f2 + refused[half:]) for task in TASKS])
    alone = case('currents', f2)
    asked = (alone._replace(words=alone.words + [name], log=('%s: %s\n' % (name, told)).encode('utf-8'), status=1) for name, told in refused)
    yield from pool.map(program.fault, asked, chunksize=50)


# ---- devices that fail

def cut_short(whole, stream, how, told=b'', status=None):
    """A run whose output (1) or log (2) fails at each byte of its text, with one byte a call, and one that doesn't
    fail."""
    text, status = whole[1 + stream], whole.status if status is None else status
    for taken in range(len(text)):
        out, log = (text[:taken], told) if stream == 1 else (whole.out, text[:taken])
        yield Case(whole.words, '%d %d %s' % (stream, taken + 1, how), out, log, status)
    yield whole._replace(device='%d %d %s' % (stream, len(text) + 1, how))


def cut_off(whole, names):
    """A run whose reading fails at each byte of the definition and of a file, at the end of each, and after all."""
    call = 0
    for name in names:
        for _ in range(len(rows.VECTORS[name]) + 1):
            call += 1
            yield Case(whole.words, '0 %d fails' % call, b'', b'%s: K1\n' % name.encode('ascii'), 3)
    yield whole._replace(device='0 %d fails' % (call + 1))


def unopened(whole, names):
    """A run in which the definition or a file may not be read, or memory is refused while it is opened."""
    for place, name in enumerate(names):
        for how, code, status in ('denied', 'K1', 3), ('lacking', 'K2', 4):
            yield Case(whole.words, '3 %d %s' % (place + 1, how), b'', ('%s: %s\n' % (name, code)).encode('ascii'), status)
    yield whole._replace(device='3 %d denied' % (len(names) + 1))


def failing():
    """The runs whose devices fail."""
    files = held('f2.json', 'f6.json', 'f8.json')
    for task in printed.LINES + ('check',):
        yield from cut_short(case(task, files), 1, 'fails', b'out: X1\n', 3)
        yield from cut_short(case(task, files), 1, 'nothing', b'out: X1\n', 3)
    yield from cut_short(case('merge', files), 1, 'fails', b'out: X1\n', 3)
    yield from cut_short(case('merge', files), 1, 'killed', b'', -signal.SIGKILL)
    refused = case('currents', [('half', 'E2')] + files)
    yield from cut_short(refused, 2, 'fails')
    yield from cut_short(refused, 2, 'nothing')
    yield from cut_off(case('check', files[:1]), ('def.json', 'f2.json'))
    yield from unopened(case('tally', files), ('def.json', 'f2.json', 'f6.json', 'f8.json'))
    yield from failing_drills()
    yield from failing_words()


def failing_drills():
    """The drills whose devices fail. The log reports a failed output after the refused steps; a log that fails changes
    nothing else."""
    refused = drill(DRILL)
    for how in ('fails', 'nothing'):
        yield from cut_short(refused, 1, how, refused.log + b'out: X1\n', 3)
        yield from cut_short(refused, 2, how)
    yield from cut_off(drill(DRILL[:2] + ['2', '1=f2.json', '1>2']), ('def.json', 'f2.json'))


def failing_words():
    """Help, the version and a code on an output that fails, and messages on refused words on a log that fails."""
    for how in ('fails', 'nothing'):
        for name in 'help-drill', 'version', 'explain-E1':
            yield from cut_short(stated(name), 1, how, b'out: X1\n', 3)
        for name in ('no-command-taly-alone', 'no-step-x', 'explain-J1'):
            yield from cut_short(stated(name), 2, how)


# ---- lines of the log

def writes(program, words):
    """What a run writes to its log, write by write: each is a packet of a socket."""
    theirs, ours = socket.socketpair(socket.AF_UNIX, socket.SOCK_SEQPACKET)
    with ours:
        with theirs:
            quiet = {'stdin': subprocess.DEVNULL, 'stdout': subprocess.DEVNULL}
            subprocess.run([program.cvr, *words], cwd=program.folder, stderr=theirs, timeout=SECONDS, **quiet)
        return list(iter(lambda: ours.recv(1 << 16), b''))


def lines(program):
    """Yields what is wrong with how lines come to the log, or None."""
    refused, most = ['check', 'def.json', 'bad', 'f2.json', 'bad'], 4096 - len(': K1\n')
    wanted = [(refused, [answered(refused[:3], [('bad', reading(BAD))]).log] * 2)]
    for count, pieces in (most, [b'%s: K1\n']), (most + 1, [b'%s', b': K1\n']):
        path = 'n' * count
        wanted.append((['check', 'def.json', path], [it.replace(b'%s', path.encode('utf-8')) for it in pieces]))
    for words, packets in wanted:
        found = writes(program, words)
        yield None if found == packets else 'lines: %d writes of %r' % (len(found), [it[-40:] for it in found])


# ---- prefixes of volumes

def many():
    """A report of many records."""
    report = json.loads(rows.VECTORS['f2.json'])
    report['CVR'] = [dict(report['CVR'][0], UniqueId='u%d' % n) for n in range(RECORDS)]
    return report


def stands(long, left):
    """Whether a run that was killed, or had ended before, has left what it may."""
    data, status = left
    return long.out.startswith(data) and (status == -signal.SIGKILL or (status, data) == (0, long.out))


def fronts(program):
    """Yields what is wrong with each prefix of a volume, or None: those of a short one, and what is left of a long
    one."""
    short, long = case('merge', held('f2.json', 'f6.json', 'f8.json')), case('merge', [('many', many())])
    program.put('many', json.dumps(many()).encode('utf-8'))
    left = {'killed-%d' % place: program.killed(long, place) for place in range(KILLS)}
    yield from (None if stands(long, one) else '%s: status %d, %d bytes' % (name, one[1], len(one[0])) for name, one in left.items())
    yield None if any(0 < len(data) < len(long.out) for data, _ in left.values()) else 'no run was killed while it wrote'
    read = [(program.put('front-%d' % taken, short.out[:taken]), 'E2') for taken in range(len(short.out))]
    read += [(name, many() if data == long.out else 'E2') for name, (data, _) in left.items()]
    wrong = told_otherwise(program, case('check', read))
    yield from wrong + [None] * (len(read) - len(wrong))


def main():
    words = tenth.words().parse_args()
    volume = case('merge', held('f2.json', 'f6.json', 'f8.json')).out
    with tempfile.TemporaryDirectory() as folder, ProcessPoolExecutor(len(os.sched_getaffinity(0)), multiprocessing.get_context('fork')) as pool:
        program = Program(words.cvr, folder)
        program.put('half', rows.VECTORS['f2.json'][:100])
        program.put('bad', BAD)
        found = list(damaged(program, pool, {'f11': rows.VECTORS['f11.json'], 'volume': volume}, words.tenth))
        lacking = program.lacks_devices()
        if lacking:
            tenth.leave_out('devices that fail', lacking)
        else:
            asked = tenth.chosen(words.tenth, failing(), lambda it: (it.words, it.device))
            found += pool.map(program.fault, asked, chunksize=50)
        found += lines(program)
        found += fronts(program)
    wrong = [one for one in found if one]
    for line in wrong[:50]:
        print('WRONG ' + line)
    print('damage: %d right, %d wrong' % (len(found) - len(wrong), len(wrong)))
    sys.exit(0 if found and not wrong else 1)


if __name__ == '__main__':
    main()
