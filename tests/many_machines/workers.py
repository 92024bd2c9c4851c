"""workers.py: what examples/many-machines/tally.py does where a worker or a program dies, where
memory is refused or a file changes, and what it keeps of parts for a later run. A program in the
place of `cvr` does what the files of a folder say, and else runs `cvr`."""
import glob
import os
import subprocess
import sys
import tempfile
import time

import sets
import ways

SECONDS = 120       # which a run may take
COUNTY = ['examples/county/%s.json' % name for name in ('scan', 'damaged', 'adjudicated', 'corrected')]
DEFINITION = os.path.join(ways.TOP, 'examples', 'county', 'definition.json')
# Notes each part in a file `log`. Where there is a file `kill`, it ends by a signal at the third part or
# later; with `worker` or `workers` one worker or each ends so; with `piece` it reports a piece as refused;
# and so on.
PROGRAM = '''#!/bin/sh
here=$(dirname "$0")
if [ "$3" = --files-from ]; then
    echo part >>"$here/log"
    if [ "$(wc -l <"$here/log")" -ge 3 ] && rm "$here/kill" 2>/dev/null; then kill -9 $$; fi
    if [ -e "$here/workers" ] || rm "$here/worker" 2>/dev/null; then kill -9 $PPID; fi
    if rm "$here/memory" 2>/dev/null; then echo memory >&2; exit 4; fi
    if rm "$here/change" 2>/dev/null; then for it in "$here"/scan-*; do echo >>"$it"; done; fi
    if rm "$here/piece" 2>/dev/null; then "%(cvr)s" "$@"; echo piece: E2 >&2; exit 1; fi
    if [ -e "$here/slow" ]; then sleep 1; fi
    if [ -e "$here/less" ]; then "%(cvr)s" "$@" | sed 1d; exit; fi
fi
exec "%(cvr)s" "$@"
'''


class Folder:
    """A folder with that program and with scans and a desk's file. The scans' records have names of
    their own, except for some that the desk has adjudicated."""

    def __init__(self, cvr, folder):
        self.cvr, self.folder = cvr, folder
        self.program = self.put('program', PROGRAM % {'cvr': cvr})
        os.chmod(self.program, 0o755)
        self.files = [self.scan(n) for n in range(6)]
        self.files.append(self.put('desk.json', text_of(COUNTY[2])))

    def put(self, name, text=''):
        path = os.path.join(self.folder, name)
        with open(path, 'w', encoding='utf-8') as file:
            file.write(text)
        return path

    def scan(self, number):
        """The scan of the county, where only the records `1-000N` and `2-000N` keep their names."""
        text = text_of(COUNTY[0])
        for n in range(1, 5):
            if n != number:
                text = text.replace('-000%d"' % n, '-%d-000%d"' % (number, n))
        return self.put('scan-%d.json' % number, text)

    def start(self, *more, **variables):
        """The script at work on the files."""
        words = [sys.executable, ways.SCRIPT, '--cvr', self.program, '--parts', '6', *more, '--', DEFINITION]
        return subprocess.Popen(words + self.files, cwd=ways.TOP, env=dict(os.environ, **variables),
                                stdin=subprocess.DEVNULL, stdout=subprocess.PIPE, stderr=subprocess.PIPE)

    def under_way(self, *more):
        """The script once it works on a part, which takes a second, and the folder of its pieces."""
        place = os.path.join(self.folder, 'pieces')
        os.mkdir(place)
        self.put('slow')
        process = self.start(*more, TMPDIR=place)
        wait_for(process, lambda: os.path.exists(os.path.join(self.folder, 'log')))
        return process, place

    def run(self, *more):
        """(status, output, log) of the script, and how many parts it works out."""
        log = os.path.join(self.folder, 'log')
        if os.path.exists(log):
            os.remove(log)
        told = left(self.start(*more))
        return told, len(text_of(log).split()) if os.path.exists(log) else 0

    def whole(self, command='tally'):
        return run([self.cvr, command, '--', DEFINITION] + self.files)


def text_of(path):
    with open(path, encoding='utf-8') as file:
        return file.read()


def run(words, folder=ways.TOP):
    done = subprocess.run(words, cwd=folder, stdin=subprocess.DEVNULL, stdout=subprocess.PIPE,
                          stderr=subprocess.PIPE, timeout=SECONDS)
    return done.returncode, done.stdout, done.stderr


def left(process):
    """(status, output, log) of a process that ends; one that doesn't is killed."""
    try:
        out, log = process.communicate(timeout=SECONDS)
        return process.returncode, out, log
    except subprocess.TimeoutExpired:
        process.kill()
        raise


def wait_for(process, is_so):
    """Waits until something is so; kills the process where it isn't in time, or once it has ended."""
    end = time.monotonic() + SECONDS
    while not is_so():
        if process.poll() is not None or time.monotonic() > end:
            process.kill()
            raise OSError('what the process had to do is not done')
        time.sleep(0.01)


def in_folder(work):
    """A try that has such a folder of its own."""
    def done(cvr):
        with tempfile.TemporaryDirectory() as folder:
            return work(Folder(cvr, folder))
    return done


def ends(name, status, log, *more):
    """The run ends with this status and log, and prints nothing, where the program does what the file `name` says."""
    def work(at):
        at.put(name)
        told = at.run(*more)[0]
        return '' if told[:2] == (status, b'') and log in told[2] else repr(told)
    return in_folder(work)


@in_folder
def nothing_amiss(at):
    """The program in the place of `cvr` answers as `cvr` does where no file says otherwise."""
    told, parts = at.run('--hold')
    return '' if told == at.whole() and not told[0] and parts == 6 else repr((told, parts))


@in_folder
def without_one(at):
    """What a worker that dies had to do, another does."""
    at.put('worker')
    told, parts = at.run()
    return '' if told == at.whole() and parts == 7 else repr((told, parts))


@in_folder
def kept(at):
    """After a run that died, the next works out only the parts that weren't done, and the one after it none."""
    keep = os.path.join(at.folder, 'keep')
    os.mkdir(keep)
    at.put('kill')
    first = at.run('--keep', keep, '--workers', '1')
    held = len(glob.glob(keep + '/*.part'))
    second, third = at.run('--keep', keep), at.run('--keep', keep)
    if first[0][:2] != (69, b''):
        return 'a run that died: %r' % (first,)
    return seen(at, held, second, third)


def seen(at, held, second, third):
    if [second[0], third[0]] != [at.whole()] * 2:
        return 'kept parts: %r, %r' % (second, third)
    parts = second[1] + held, third[1]
    return '' if 0 < held < 6 and parts == (6, 0) else '%d kept, %r worked out' % (held, parts)


@in_folder
def kept_of_other_bytes(at):
    """A part is worked out again where one of its files, what was kept of it, or the program has other
    bytes, and where the command is another."""
    keep, told = os.path.join(at.folder, 'keep'), []
    os.mkdir(keep)
    at.run('--keep', keep)
    at.put('scan-5.json', text_of(at.files[5]) + ' ')
    told.append(at.run('--keep', keep))
    with open(sorted(glob.glob(keep + '/*.part'))[0], 'r+b') as file:
        file.truncate(100)
    for name in glob.glob(keep + '/*.part')[1:3]:
        os.truncate(name, 0)
    told.append(at.run('--keep', keep))
    told.append(at.run('--keep', keep, '--command', 'currents'))
    at.put('program', text_of(at.program) + '#\n')
    told.append(at.run('--keep', keep))
    texts, parts = {it[0] for it in told[:2] + told[3:]}, [it[1] for it in told]
    is_right = texts == {at.whole()} and parts[0] == 1 and 0 < parts[1] < 4 and parts[2:] == [6, 6]
    return '' if is_right else repr((texts, parts))


@in_folder
def one_file_is_split(at):
    """Two scans share no record, and each shares one with the desk's file: only the desk's file is
    split."""
    module, split = ways.script(), []
    words = module.read_words(['--cvr', at.cvr, '--parts', '6', DEFINITION] + at.files)

    def each(work, jobs):
        split.extend(job[1] for job in jobs if work.__name__ == 'split')
        return sets.Watched(module).each(work, jobs)
    told = module.tried(words, each)
    return '' if told == at.whole() and split == at.files[-1:] else repr((told, split))


def processes_of(parent):
    """The child processes of a process."""
    held = []
    for path in glob.glob('/proc/[0-9]*/stat'):
        try:
            fields = text_of(path).rpartition(')')[2].split()
        except OSError:         # it has ended meanwhile
            continue
        held += [int(path.split('/')[2])] if int(fields[1]) == parent else []
    return held


@in_folder
def stopped(at):
    """SIGTERM ends the run, and leaves no piece."""
    process, place = at.under_way()
    before = glob.glob(place + '/*/*')
    process.terminate()
    told = left(process)[:2], os.listdir(place)
    return '' if before and told == ((143, b''), []) else repr((before, told))


@in_folder
def killed(at):
    """The workers of a run that is killed end, too."""
    process, _ = at.under_way()
    held = processes_of(process.pid)
    process.kill()
    left(process)
    end, stay = time.monotonic() + SECONDS, held
    while stay and time.monotonic() < end:
        stay = [it for it in held if os.path.exists('/proc/%d' % it)]
        time.sleep(0.1)
    return '' if held and not stay else 'of %r stay %r' % (held, stay)


def fewest_bytes(_):
    """A desk's file that bridges many is split, though it is the longest; one that is longer than all
    others together is not. Of copies one stays whole, and so does a file that shares nothing."""
    module = ways.script()
    cases = [([60] + [16] * 10, [[0, n] for n in range(1, 11)], set(range(1, 11))),
             ([60] + [1] * 10, [[0, n] for n in range(1, 11)], {0}),
             ([9, 9, 9, 1], [[0, 1, 2]], {0, 3}),
             ([5, 16, 16, 5], [[0, 1], [0, 2], [1, 3], [0, 3]], {1, 2})]
    for sizes, shared, whole in cases:
        told = module.staying(sizes, module.beside(len(sizes), dict(enumerate(shared))))
        if told != whole:
            return 'of %r %r stay' % (sizes, told)
    return ''


def corrections(_):
    """A file that shares records with one file alone goes with it, as long as both are no more than
    a worker's share; one that bridges several never does."""
    module, sizes = ways.script(), [16, 16, 16, 15, 9]
    shared = dict(enumerate([[0, 3], [0, 4], [1, 4], [2, 4], [3, 4]]))
    for workers, whole in (2, {0, 1, 2, 3}), (3, {0, 1, 2}):
        home, parts = module.homes(sizes, shared, 8, workers)
        if set(home) != whole or parts != 3 or home.get(3, home[0]) != home[0]:
            return 'with %d workers: %r' % (workers, home)
    return ''


TRIES = [
    ('a correction goes with what it corrects', corrections),
    ('the fewest bytes are split', fewest_bytes),
    ('a program in the place of cvr', nothing_amiss),
    ('a worker that dies', without_one),
    ('all workers die', ends('workers', 69, b'no worker is left')),
    ('a program that dies', ends('kill', 69, b'was ended by signal 9')),
    ('a part without memory', ends('memory', 4, b'memory\n')),
    ('a piece that is refused', ends('piece', 70, b'are not those of its files')),
    ('a file that is changed', ends('change', 70, b'was changed while it was read')),
    ('a part that lacks a row', ends('less', 70, b'answers otherwise', '--hold')),
    ('a folder for parts that is not there',
     ends('none', 3, b'No such file', '--keep', '/nonexistent')),
    ('a run that is stopped', stopped), ('a run that is killed', killed),
    ('parts that were kept', kept),
    ('parts of other bytes', kept_of_other_bytes),
    ('one file is split', one_file_is_split),
]
