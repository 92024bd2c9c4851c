#!/usr/bin/env python3
"""tally.py [--cvr PATH] [--command tally|currents|conflicts] [--parts N] [--workers N | --host HOST..]
[--check N] [--keep FOLDER] [--hold] [--] DEF FILE..

Prints what `cvr COMMAND DEF FILE..` prints, worked out in at most N parts, no two of which have a
record in common. A file stays whole in one part where it can; of files that share records, those
that bridge others are split by record. Status and log lines are those of `cvr`; 69 where all workers
are lost or can't be had, 70 where answers don't fit together or a file has other bytes. The workers
are N processes of this Python, or one for each HOST, through `ssh`. Jobs and answers are lines of
JSON. With --check another worker does N jobs of each worker and kind again; without it one, if
there are two hosts. With --keep the parts that are done stay in the folder, and a later run takes
them from there. With --hold the answer is compared with one run of `cvr` over all files."""
import argparse
import concurrent.futures
import gc
import hashlib
import heapq
import itertools
import json
import mmap
import os
import random
import re
import selectors
import shlex
import signal
import stat
import subprocess
import sys
import tempfile
from collections import namedtuple

FAILED, MEMORY, LOST, UNFIT = 3, 4, 69, 70
SPACE = rb'[ \t\n\r]*'
INSIDE = rb'"([^"\\]*(?:\\.[^"\\]*)*)"'                 # a JSON string; the group is what it spells
DEVICE = re.compile(rb'"CreatingDeviceId"' + SPACE + b':' + SPACE + INSIDE)
UNIQUE = re.compile(rb'"UniqueId"' + SPACE + b':' + SPACE + INSIDE)
CODED = re.compile(rb'\\u00[4-7]')                      # a letter that is spelled by its code
NAME = re.compile(INSIDE + b' ' + INSIDE + b' ')        # of a record, at the start of a line
ROW = re.compile(INSIDE + rb' (null|' + INSIDE + rb') (null|' + INSIDE + b') ')
WORD = re.compile(rb'"[^"\\]*(?:\\.[^"\\]*)*"|[^ \n]+')
BLANK = re.compile('[ \t\n\r]*')
WORKER = ['-I', '-X', 'utf8', os.path.abspath(__file__), '--work']
# a host can't reach back, one with another key is refused, and one that is gone is noticed
SSH = ['ssh', '-T', '-a', '-x'] + [word for it in (
    'BatchMode=yes', 'StrictHostKeyChecking=yes', 'ClearAllForwardings=yes', 'ConnectTimeout=30',
    'ServerAliveInterval=10') for word in ('-o', it)] + ['--']

# what all jobs need; `marks` has a mark of each file that all of them use
Task = namedtuple('Task', 'cvr command definition folder is_sure marks')
Part = namedtuple('Part', 'files marks pieces sums')


class Ended(Exception):
    """The end of the run without a text: a status, and lines for standard error."""


def ended(status, text):
    return Ended(status, ('tally.py: %s\n' % text).encode('utf-8', 'surrogateescape'))


def ending(fault):
    """The status and log of a run that an exception ends; never the status of one with a text."""
    if isinstance(fault, Ended):
        return fault.args
    if isinstance(fault, MemoryError):
        return ended(MEMORY, 'out of memory').args
    if isinstance(fault, OSError):
        return ended(FAILED, fault).args
    return ended(UNFIT, '%s: %s' % (type(fault).__name__, fault)).args


def run(words, given=b''):
    """(status, output, log) of a command that has ended."""
    try:
        done = subprocess.run(words, input=given, stdout=subprocess.PIPE, stderr=subprocess.PIPE)
    except OSError as fault:
        raise ended(LOST, '%s: %s' % (words[0], fault.strerror)) from None
    if done.returncode < 0:
        raise ended(LOST, '%s was ended by signal %d' % (words[0], -done.returncode))
    return done.returncode, done.stdout, done.stderr


def checked(words, given=b''):
    """The same for a command that has read its files; else the end of the run."""
    status, out, log = run(words, given)
    if status > 1:
        raise Ended(status, log)
    return status, out, log


# ---- the names of records

def text_of(inside):
    """The text that a JSON string spells, in UTF-8; `inside` is what stands between its quotes."""
    if b'\\' not in inside:
        return inside
    try:
        return json.loads(b'"%s"' % inside).encode('utf-8')
    except ValueError:          # no JSON; such a file is refused
        return inside


def digest(device, unique):
    """A number for the name of a record. Where two names have the same one, their records come to one
    part, which does no harm."""
    text = b'%d %s%s' % (len(device), device, unique)
    return int.from_bytes(hashlib.blake2b(text, digest_size=8).digest(), 'big')


def quick_names(data):
    """Digests of at least the names of an accepted file's records, without reading it as JSON; None
    where that isn't possible. Where no letter is spelled by its code, each member UniqueId is spelled
    with these letters between two quotes; with one device, its value gives the name."""
    if data.find(b'\\') >= 0 and CODED.search(data):
        return None
    devices = {text_of(it) for it in set(DEVICE.findall(data))}
    if len(devices) > 1:
        return None
    return {digest(device, text_of(it)) for device in devices for it in UNIQUE.findall(data)}


def names_by_cvr(task, path):
    """Digests of the names of the records of a file; none where the file is refused."""
    out = checked([task.cvr, 'currents', '--', task.definition, path])[1]
    return {digest(*map(text_of, NAME.match(line).groups())) for line in out.split(b'\n')[:-1]}


def sum_of(file):
    held = hashlib.blake2b()
    for data in iter(lambda: file.read(1 << 20), b''):
        held.update(data)
    return held.hexdigest()


def mark_of(path, is_sure):
    """What a file keeps while nobody changes it: a digest of its bytes, or else its length and date."""
    see_regular(path)
    with open(path, 'rb') as file:
        held = os.fstat(file.fileno())
        return sum_of(file) if is_sure else '%d %d' % (held.st_size, held.st_mtime_ns)


def see_same(path, mark, is_sure=True):
    if mark_of(path, is_sure) != mark:
        raise ended(UNFIT, '%s was changed while it was read, or has other bytes elsewhere' % path)


def see_regular(path):
    """Ends the run at a pipe or a device; whether there is a file at all, `cvr` reports."""
    mode = os.stat(path).st_mode if os.path.exists(path) else stat.S_IFREG
    if not stat.S_ISREG(mode) and not stat.S_ISDIR(mode):
        raise ended(FAILED, '%s: no regular file; it has to be read more than once' % path)


def scanned(task, paths, marks):
    """Of each file of a list, digests of the names of its records."""
    return [scan_of(task, *it) for it in zip(paths, marks)]


def scan_of(task, path, mark):
    with open(path, 'rb') as file:
        names = set()
        if os.fstat(file.fileno()).st_size:
            with mmap.mmap(file.fileno(), 0, access=mmap.ACCESS_READ) as data:
                names = quick_names(data)
    names = names_by_cvr(task, path) if names is None else names
    see_same(path, mark, task.is_sure)
    return sorted(names)


# ---- which files stay whole, and in which parts

def places_of(scans):
    """For each name that is in two files or more, the indices of these files."""
    seen, shared = set(), {}
    for it in scans:
        shared.update((name, []) for name in it & seen)
        seen |= it
    for place, it in enumerate(scans):
        for name in it & shared.keys():
            shared[name].append(place)
    return shared


def beside(count, shared):
    """For each file, the indices of the other files with which it shares a record."""
    near = {place: set() for place in range(count)}
    for places in set(map(tuple, shared.values())):
        for place in places:
            near[place].update(places)
    return {place: near[place] - {place} for place in near}


def staying(sizes, near):
    """The indices of files no two of which share a record, while each other file shares one with some
    of them. First come those that are long for each file that they bridge."""
    held = set()
    for place in sorted(near, key=lambda it: -sizes[it] / max(1, len(near[it]))):
        if not near[place] & held:
            held.add(place)
    return held


def grouped(sizes, near, held, most):
    """The group of each file that stays whole, and the length of each group. A group has one file of
    `held`, and such others as share records with its files alone, while it isn't too long."""
    group, lengths = {place: place for place in held}, {place: sizes[place] for place in held}
    for place in sorted(near.keys() - held, key=lambda it: (-sizes[it], it)):
        met = {group[it] for it in near[place] if it in group}
        first = min(met)
        if len(met) == 1 and lengths[first] + sizes[place] <= most:
            group[place] = first
            lengths[first] += sizes[place]
    return group, lengths


def dealt(lengths, count):
    """The part of each group; there are at most so many parts, of about equal length."""
    parts = [(0, part) for part in range(max(1, min(count, len(lengths))))]
    home = {}
    for group in sorted(lengths, key=lambda it: (-lengths[it], it)):
        length, part = parts[0]
        heapq.heapreplace(parts, (length + lengths[group], part))
        home[group] = part
    return home, len(parts)


def homes(sizes, shared, count, workers):
    """The part of each file that stays whole, and how many parts there are. A group of more than one
    file has at most a worker's share of all bytes."""
    near = beside(len(sizes), shared)
    group, lengths = grouped(sizes, near, staying(sizes, near), sum(sizes) / workers)
    home, parts = dealt(lengths, count)
    return {place: home[it] for place, it in group.items()}, parts


# ---- splitting a file

def skip(text, place):
    return BLANK.match(text, place).end()


def name_of(record):
    """The digest of the name of a record; None for what is no record."""
    try:
        return digest(*(record[it].encode('utf-8') for it in ('CreatingDeviceId', 'UniqueId')))
    except (AttributeError, KeyError, TypeError):
        return None


def items_of(text, place, decode):
    """For the array of records that begins at this index: where the first record may begin, where the
    closing bracket is, and for each record the digest of its name, its begin and its end."""
    items, first = [], place + 1
    place = skip(text, first)
    while text[place] != ']':
        value, end = decode(text, place)
        items.append((name_of(value), place, end))
        place = skip(text, end)
        place = skip(text, place + 1) if text[place] == ',' else place
    return first, place, items


def records_of(text):
    """The same for an accepted report. As in all JSON that `cvr` reads, of two members of one name the
    last counts, and the other may contain anything."""
    decode = json.JSONDecoder().raw_decode
    found, place = None, skip(text, skip(text, 0) + 1)
    while text[place] != '}':
        name, place = decode(text, place)
        place = skip(text, skip(text, place) + 1)
        if name == 'CVR' and text[place] == '[':
            found = items_of(text, place, decode)
            place = found[1] + 1
        else:
            place = decode(text, place)[1]
        place = skip(text, place)
        place = skip(text, place + 1) if text[place] == ',' else place
    return found


def text_at(path, mark, is_sure):
    with open(path, 'rb') as file:
        data = file.read()
    see_same(path, mark, is_sure)
    return data.decode('utf-8')


def put(path, data):
    """Writes a file, which is there whole or not at all: a job may be done twice. Its digest."""
    with tempfile.NamedTemporaryFile(dir=os.path.dirname(path), delete=False) as file:
        file.write(data)
    os.replace(file.name, path)
    return hashlib.blake2b(data).hexdigest()


def piece_at(task, place, part):
    return os.path.join(task.folder, '%d-%d.json' % (place, part))


def split(task, path, mark, home, parts, place):
    """Checks a whole file, and cuts it if it is accepted: for each part that has one of its records,
    its own bytes without the other records. (log, the part and digest of each piece.)"""
    status, _, log = checked([task.cvr, 'check', '--', task.definition, path])
    if status:
        return log.decode('utf-8'), []
    text, home, cut = text_at(path, mark, task.is_sure), dict(home), {}
    first, end, records = records_of(text)
    for name, start, stop in records:
        # the part of a file that stays whole and has the record, else one chosen by the name
        cut.setdefault(home.get(name, name % parts), []).append(text[start:stop])
    return '', [(part, put(piece_at(task, place, part),
                           (text[:first] + ','.join(cut[part]) + text[end:]).encode('utf-8')))
                for part in sorted(cut)]


def emptied(task, path, mark, place):
    """Writes the bytes of an accepted file without its records. Their digest."""
    text = text_at(path, mark, task.is_sure)
    found = records_of(text)
    data = (text[:found[0]] + text[found[1]:] if found else text).encode('utf-8')
    return put(piece_at(task, place, 0), data)


# ---- a part

def over(task, paths):
    """(status, output, log) of the command over files, however many."""
    # no list of files may follow `--`
    definition = os.path.join(*(['.'] if task.definition[:1] == '-' else []), task.definition)
    listed = b''.join(path.encode('utf-8') + b'\0' for path in paths)
    return checked([task.cvr, task.command, definition, '--files-from', '-', '--null'], listed)


def done(task, part):
    """The output of a part, and the log lines for each of its whole files."""
    part = Part(*part)
    held = worked(task, part)
    for path, mark in zip(part.files, part.marks):
        see_same(path, mark, task.is_sure)
    for path, mark in zip(part.pieces, part.sums):
        see_same(path, mark)
    return [it.decode('utf-8') for it in held]


def worked(task, part):
    """The same, by a run of the program. A check of each file shows which lines are its own: a path may
    contain anything that a line does."""
    status, out, log = over(task, part.files + part.pieces)
    words = [task.cvr, 'check', '--', task.definition]
    logs = [checked(words + [path])[2] if status else b'' for path in part.files]
    if b''.join(logs) != log:
        raise ended(UNFIT, 'the lines of a part are not those of its files')
    return [out] + logs


# ---- putting the answers together

def summed(lines):
    """One line whose numbers are the sums of those of these lines, which are of one row."""
    words = [WORD.findall(line) for line in lines]
    columns = zip(*(it[3:] for it in words))
    sums = [str(sum(map(int, it))).encode() if it[0][:1] != b'"' else it[0] for it in columns]
    return b' '.join(words[0][:3] + sums) + b'\n'


def added(texts, contests):
    """The tally whose rows are the sums of those of the texts: by the contest's index, then by unit and
    batch in byte order, none first."""
    rows = {}
    for line in b''.join(texts).splitlines(True):
        rows.setdefault(ROW.match(line).group(1, 3, 5), []).append(line)

    def order(row):
        contest, *names = [it if it is None else text_of(it) for it in row]
        return [contests[contest]] + [(it is not None, it or b'') for it in names]
    return b''.join(rows[row][0] if len(rows[row]) == 1 else summed(rows[row])
                    for row in sorted(rows, key=order))


def in_order(texts):
    """The lines that begin with the name of a record, in its order; those of one are all in one text."""
    lines = [line for line in b''.join(texts).splitlines(True) if line[:1] == b'"']
    return b''.join(sorted(lines, key=lambda it: list(map(text_of, NAME.match(it).groups()))))


def conflicts(texts, devices):
    """The lines of devices are those of all devices of all files, `devices`; those of a record are from
    its part; the last line has the greatest number."""
    most = max(int(it.split()[-1]) for it in texts + [devices])
    lines = [line for line in devices.splitlines(True) if line[:7] == b'device ']
    return b''.join(lines) + in_order(texts) + b'volumes %d\n' % most


def places_in(definition):
    """The index of each contest in the definition."""
    with open(definition, encoding='utf-8') as file:
        held = json.load(file)['Election'][0]['Contest']
    return {it['@id'].encode('utf-8'): place for place, it in enumerate(held)}


def together(task, texts, accepted, each):
    """The whole text; `accepted` has the path and mark of each accepted file."""
    if task.command == 'tally':
        return added(texts, places_in(task.definition))
    if task.command == 'currents':
        return in_order(texts)
    jobs = [(task, path, mark, place) for place, (path, mark) in enumerate(accepted)]
    heads = {mark: piece_at(task, place, 0) for place, mark in enumerate(each(emptied, jobs))}
    status, devices, _ = over(task, list(heads.values()))
    for mark, path in heads.items():
        see_same(path, mark)
    if status:
        raise ended(UNFIT, 'a file without its records is refused')
    return conflicts(texts, devices)


# ---- the whole

def marks_of(task, files):
    """The mark of each file, where the definition and all files can be read; else the run ends."""
    def mark(path):
        try:
            return mark_of(path, task.is_sure)
        except OSError:
            return None
    with concurrent.futures.ThreadPoolExecutor() as lanes:
        marks = list(lanes.map(mark, files))
    if None in marks:
        path = files[marks.index(None)]
        checked([task.cvr, 'check', '--', task.definition, path])
        raise ended(UNFIT, '%s was changed while it was read' % path)
    return marks


def scans_of(task, files, marks, each):
    """Digests of the names of each file's records."""
    some = max(1, len(files) // 256)
    cuts = [slice(place, place + some) for place in range(0, len(files), some)]
    lists = each(scanned, [(task, files[it], marks[it]) for it in cuts])
    return [set(it) for held in lists for it in held]


def parted(task, files, marks, words, each):
    """The index of each file that stays whole, with its part; the parts; the log of the other files."""
    scans, sizes = scans_of(task, files, marks, each), list(map(os.path.getsize, files))
    shared = places_of(scans)
    home, count = homes(sizes, shared, words.parts or 4 * words.workers, words.workers)
    names = {name: home[place] for name in shared for place in shared[name] if place in home}
    jobs = [(task, files[place], marks[place],
             [(name, names[name]) for name in scans[place] & names.keys()], count, place)
            for place in range(len(files)) if place not in home]
    cut = dict(zip((job[-1] for job in jobs), each(split, jobs)))
    parts = [Part([], [], [], []) for _ in range(count)]
    for place, part in sorted(home.items()):
        parts[part].files.append(files[place])
        parts[part].marks.append(marks[place])
    for place, (_, made) in cut.items():
        for part, mark in made:
            parts[part].pieces.append(piece_at(task, place, part))
            parts[part].sums.append(mark)
    return home, parts, {place: log.encode('utf-8') for place, (log, _) in cut.items()}


def texts_of(task, parts, keep, each):
    """What each part answers, from an earlier run over the same bytes where the folder has it."""
    paths = [keep and path_for(task, part, keep) for part in parts]
    told = [path and kept(path) for path in paths]
    missing = [place for place, it in enumerate(told) if it is None]

    def keep_it(number, texts):
        data = json.dumps(texts).encode('utf-8')
        put(paths[missing[number]], hashlib.sha256(data).hexdigest().encode('utf-8') + data)
    jobs = [(task, parts[place]) for place in missing]
    for place, texts in zip(missing, each(done, jobs, *[keep_it] * bool(keep))):
        told[place] = texts
    return [[it.encode('utf-8') for it in texts] for texts in told]


def path_for(task, part, keep):
    """Where the answer of a part is kept: its name is a digest of what it depends on."""
    held = [task.command, task.marks, list(zip(part.files, part.marks)), sorted(part.sums)]
    name = hashlib.sha256(json.dumps(held).encode('utf-8')).hexdigest()
    return os.path.join(keep, name + '.part')


def kept(path):
    """What an earlier run has kept of a part, or None."""
    try:
        with open(path, 'rb') as file:
            data = file.read()
    except FileNotFoundError:
        return None
    is_whole = hashlib.sha256(data[64:]).hexdigest().encode('utf-8') == data[:64]
    return json.loads(data[64:]) if is_whole else None


def answer(task, words, each):
    """(status, output, log) of the whole; `each` has workers do jobs, and gives the answers in
    order."""
    head = checked([task.cvr, 'check', '--', task.definition])
    files, marks = words.files, marks_of(task, words.files)
    if head[0]:         # the definition is refused: reported once all files have been read
        return head
    home, parts, logs = parted(task, files, marks, words, each)
    answers = texts_of(task, parts, words.keep, each)
    told = [iter(it[1:]) for it in answers]
    logs.update((place, next(told[home[place]])) for place in sorted(home))
    log = b''.join(logs[place] for place in range(len(files)))
    accepted = [(files[place], marks[place]) for place in sorted(logs) if not logs[place]]
    text = together(task, [it[0] for it in answers], accepted, each)
    for path, mark in task.marks:
        see_same(path, mark, task.is_sure)
    return int(bool(log)), text, log


def task_for(words, folder):
    is_sure = bool(words.host or words.keep)
    marks = [(path, mark_of(path, is_sure)) for path in (WORKER[3], words.cvr, words.definition)
             if os.path.isfile(path)]
    return Task(words.cvr, words.command, words.definition, folder, is_sure, marks)


def tried(words, each):
    """The same, however it ends."""
    asked = [words.cvr, words.command, '--', words.definition] + words.files
    try:
        ''.join(asked).encode('utf-8')
    except UnicodeEncodeError:      # `cvr` then opens no file
        return run(asked)
    try:
        see_regular(words.definition)
        with tempfile.TemporaryDirectory() as folder:
            told = answer(task_for(words, folder), words, each)
        if words.hold and told != run(asked):
            raise ended(UNFIT, 'one run over all files answers otherwise')
        return told
    except Exception as fault:
        status, log = ending(fault)
        return status, b'', log


# ---- workers

def line_of(job):
    return json.dumps(job).encode('ascii') + b'\n'


def reply(line):
    """The line that answers a job: what it gives, or the status and the log that end the run."""
    name, task, *more = json.loads(line)
    task = Task(*task)
    try:
        given = {it.__name__: it for it in (scanned, split, done, emptied)}[name](task, *more)
        for path, mark in task.marks:
            see_same(path, mark, task.is_sure)
        return line_of([given])
    except Exception as fault:
        status, log = ending(fault)
        return line_of([status, log.decode('utf-8', 'surrogateescape')])


def given(line):
    """What such a line gives, or the end of the run; never one that looks well."""
    told = json.loads(line)
    if len(told) == 1:
        return told[0]
    status, log = told
    is_end = status in (2, FAILED, MEMORY, LOST, UNFIT)
    raise Ended(status if is_end else UNFIT, log.encode('utf-8', 'surrogateescape'))


def work():
    """A worker answers line by line, until there is no more."""
    gc.disable()        # no value here refers to itself, and JSON makes many
    for line in sys.stdin.buffer:
        sys.stdout.buffer.write(reply(line))
        sys.stdout.buffer.flush()


class Worker:
    """A process here or on a host, which may be lost, and may lie."""

    def __init__(self, host, number):
        self.name = host or 'worker %d' % number
        words = SSH + [host, shlex.join(['python3'] + WORKER)] if host else [sys.executable] + WORKER
        try:
            self.process = subprocess.Popen(words, stdin=subprocess.PIPE, stdout=subprocess.PIPE,
                                            stderr=subprocess.DEVNULL)
        except OSError as fault:
            raise ended(LOST, '%s: %s' % (words[0], fault.strerror)) from None

    def fileno(self):
        return self.process.stdout.fileno()

    def takes(self, line):
        try:
            self.process.stdin.write(line)
            self.process.stdin.flush()
            return True
        except OSError:
            return False

    def answer(self):
        """Its next line, or None if it is lost."""
        line = self.process.stdout.readline()
        return line if line[-1:] == b'\n' else None


class Workers:
    """Some of them, on hosts or here."""

    def __init__(self, words):
        self.check, self.ready = words.check, selectors.DefaultSelector()
        for host, number in zip(words.host or [None] * words.workers, itertools.count(1)):
            self.ready.register(Worker(host, number), selectors.EVENT_READ)

    def all(self):
        return [it.fileobj for it in self.ready.get_map().values()]

    def lose(self, worker):
        self.ready.unregister(worker)
        worker.process.kill()
        worker.process.wait()

    def each(self, work, jobs, tell=lambda place, value: None):
        """What each job gives, in order. `tell` hears it, too: at once, or once all are checked."""
        lines, values = [line_of([work.__name__, *job]) for job in jobs], [None] * len(jobs)

        def hear(place, line):
            values[place] = given(line)
            if not self.check:
                tell(place, values[place])
        try:
            names = self.asked(lines, [None] * len(jobs), hear)
            if self.check:
                self.see(lines, names, values)
                for place, value in enumerate(values):
                    tell(place, value)
            return values
        except BaseException:
            self.close()        # so that none writes a piece while the pieces are removed
            raise

    def see(self, lines, names, values):
        """Has another worker do some jobs of each worker again; which ones, no worker can know."""
        by = {name: [place for place, it in enumerate(names) if it == name] for name in set(names)}
        places = [place for held in by.values()
                  for place in random.SystemRandom().sample(held, min(self.check, len(held)))]

        def hear(number, line):
            if given(line) != values[places[number]]:
                raise ended(UNFIT, '%s and another answer otherwise' % names[places[number]])
        self.asked([lines[it] for it in places], [names[it] for it in places], hear)

    def asked(self, lines, but, hear):
        """The name of the worker that did each job, which isn't that of `but`. What one that is lost had
        to do, another does."""
        names, waiting, busy = [None] * len(lines), list(range(len(lines))), {}
        while waiting or busy:
            self.hand_out(lines, but, waiting, busy)
            if not busy:
                raise ended(LOST, 'no worker is left, or no other one to check')
            for it, _ in self.ready.select():
                worker = it.fileobj
                place, line = busy.pop(worker, None), worker.answer()
                if line and place is not None:
                    names[place] = worker.name
                    hear(place, line)
                else:
                    self.lose(worker)
                    waiting[:0] = [] if place is None else [place]
        return names

    def hand_out(self, lines, but, waiting, busy):
        for worker in self.all():
            place = next((it for it in waiting if but[it] != worker.name), None)
            if worker in busy or place is None:
                continue
            if worker.takes(lines[place]):
                waiting.remove(place)
                busy[worker] = place
            else:
                self.lose(worker)

    def close(self):
        for worker in self.all():
            self.lose(worker)


def counted(text):
    if not text.isdigit():
        raise ValueError
    return int(text)


def positive(text):
    if not counted(text):
        raise ValueError
    return counted(text)


def read_words(given=None):
    words = argparse.ArgumentParser(usage=__doc__)
    words.add_argument('--cvr', default='./cvr', type=os.path.abspath)
    words.add_argument('--command', default='tally', choices=['tally', 'currents', 'conflicts'])
    words.add_argument('--parts', type=positive)
    words.add_argument('--workers', default=2, type=positive)
    words.add_argument('--host', action='append')
    words.add_argument('--check', type=counted)
    words.add_argument('--keep', type=os.path.abspath)
    words.add_argument('--hold', action='store_true')
    words.add_argument('definition')
    words.add_argument('files', nargs='*')
    words = words.parse_args(given)
    words.workers = len(words.host or []) or words.workers
    if words.check is None:
        words.check = int(len(set(words.host or [])) > 1)
    return words


def is_written(stream, data):
    """Whether the bytes could be written to standard output or error."""
    try:
        with open(stream.fileno(), 'wb', closefd=False) as out:
            out.write(data)
    except (AttributeError, OSError):       # it is closed, or can't be written
        return False
    return True


def main():
    words = read_words()
    # so that pieces are removed
    signal.signal(signal.SIGTERM, lambda number, _: sys.exit(128 + number))
    try:
        workers = Workers(words)
    except Ended as fault:
        status, text, log = fault.args[0], b'', fault.args[1]
    else:
        status, text, log = tried(words, workers.each)
        workers.close()
    if not is_written(sys.stdout, text):
        status, log = FAILED, log + b'out: X1\n'
    is_written(sys.stderr, log)
    sys.exit(status)


if __name__ == '__main__':
    if sys.getfilesystemencoding() != 'utf-8':      # paths are UTF-8, as for `cvr`, whatever the language
        os.execve(sys.executable, [sys.executable] + sys.argv, dict(os.environ, PYTHONUTF8='1'))
    (work if sys.argv[1:] == WORKER[-1:] else main)()
