#!/usr/bin/env python3
"""package.py [--installed | FOLDER]

Tries the package for Python, over the library that LIBCVR names, or the one that is installed, on the examples of a
county; with FOLDER the package that stands there, in place of python/. The answers are those that the guide works out by
hand, or follow from FORMAT; package_rows.py has those of the rows. The last line is `python: N right, M wrong`; as one
that is wrong also counts a part that doesn't come to its end."""
import copy
import ctypes
import functools
import gc
import io
import json
import multiprocessing
import os
import pathlib
import pickle
import subprocess
import sys
import tempfile
import threading
import time
import traceback
import tracemalloc

sys.dont_write_bytecode = True
TOP = os.path.dirname(os.path.dirname(os.path.dirname(os.path.abspath(__file__))))
if sys.argv[1:] != ['--installed']:
    sys.path.insert(0, sys.argv[1] if sys.argv[1:] else os.path.join(TOP, 'python'))
import cvr  # noqa: E402 (it stands there)

COUNTY = os.path.join(TOP, 'examples', 'county')
DEFINITION, SCAN, ADJUDICATED, CORRECTED, DAMAGED = (
    os.path.join(COUNTY, name + '.json') for name in ('definition', 'scan', 'adjudicated', 'corrected', 'damaged'))
MOMENT, DEVICE = '2024-11-06T08:00:00Z', 'scanner-1'


def refused(call, *words):
    """What a call raises."""
    try:
        call(*words)
    except (cvr.Fault, ValueError, OSError, RuntimeError, TypeError) as fault:
        return fault.with_traceback(None)       # which would hold what the call had
    return None


def changed(path, old, new):
    """A file under a name of its own, with other text in the place of what stands in it."""
    with open(path, 'rb') as file:
        before = file.read()
    after = before.replace(old, new)
    assert after != before
    return 'changed', after


def held(path):
    with open(path, 'rb') as file:
        return file.read()


def faulty():
    """A file for each code with which a file can be refused."""
    scan = held(SCAN)
    yield 'E1', ('long', b' ' * 67108865)
    yield 'E2', ('cut', scan[:-20])
    yield 'E3', changed(SCAN, b'"UniqueId"', b'"Unique"')
    yield 'E4', changed(SCAN, b'"ContestSelectionId": "council-', b'"ContestSelectionId": "nobody-')
    yield 'E5', changed(SCAN, b'"Name": "', b'"Name": "Not ')


def lines(result):
    return result.text.decode().split('\n')[:-1]


def of_rows():
    """Whether each row has what the line of the text has."""
    rows = cvr.tally(DEFINITION, [SCAN, ADJUDICATED])
    text = lines(cvr.run(['tally', DEFINITION, SCAN, ADJUDICATED], [DEFINITION, SCAN, ADJUDICATED]))
    yield 'there is a row for each line', len(rows) == len(text) > 0
    quoted = lambda it: 'null' if it is None else '"%s"' % it
    for row, line in zip(rows, text):
        votes = [it for pair in row.votes.items() for it in (quoted(pair[0]), pair[1])]
        parts = [quoted(row.contest), quoted(row.unit), quoted(row.batch), *row.numbers, *votes]
        yield 'a row is its line', ' '.join(map(str, parts)) == line


def of_commands():
    """Whether the other commands say the same as their texts."""
    scan = held(SCAN)
    currents = cvr.currents(DEFINITION, [SCAN])
    yield 'each record has a current snapshot', len(currents) == cvr.check(DEFINITION, [SCAN])[SCAN] > 0
    yield 'a type stands without quotes', {it.type for it in currents} <= {'original', 'interpreted', 'modified'}
    yield 'bytes are read as a file is', cvr.currents(DEFINITION, [('a name\nof two lines', scan)]) == currents
    yield 'so does a name with a line feed', cvr.check(DEFINITION, [('a\nb', scan)]) == {'a\nb': len(currents)}
    yield 'two files of one name add up', cvr.check(DEFINITION, [('a', scan), ('b', scan), ('a', scan)]) == {'a': 2 * len(currents), 'b': len(currents)}
    yield 'and are both read', cvr.currents(DEFINITION, [('a', held(ADJUDICATED)), ('a', scan)]) == cvr.currents(DEFINITION, [ADJUDICATED, SCAN])
    conflicts = cvr.conflicts(DEFINITION, [SCAN, CORRECTED])
    text = lines(cvr.run(['conflicts', DEFINITION, SCAN, CORRECTED], [DEFINITION, SCAN, CORRECTED]))
    yield 'a name in conflict has its line', len(conflicts.names) == len(text) - 1
    yield 'the volumes are those of the last line', text[-1] == 'volumes %d' % conflicts.volumes
    yield 'a name has two bodies at least', all(it.bodies > 1 for it in conflicts.names)


def of_faults():
    """Whether what is refused is raised, with its parts."""
    fault = refused(cvr.tally, DEFINITION, [SCAN, DAMAGED])
    yield 'a damaged file is refused', isinstance(fault, cvr.Fault) and fault.status == 1 and fault.file == DAMAGED
    yield 'as a text it is the line of the log', str(fault) + '\n' == cvr.run(['tally', DEFINITION, SCAN, DAMAGED], [DEFINITION, SCAN, DAMAGED]).log.decode()
    fault = refused(cvr.tally, DEFINITION, [('empty', b'{}')])
    yield 'a rule is a number', (fault.code, fault.path, fault.rule, str(fault)) == ('E3', '/@type', 2, 'empty: E3 /@type 2')
    fault = refused(cvr.tally, DEFINITION, [('empty', b'[]')])
    yield 'the path of the whole file is empty', (fault.path, fault.rule, str(fault)) == ('', 1, 'empty: E3  1')
    fault = refused(cvr.merge, DEFINITION, 'never', 'no device', 1, [SCAN])
    yield 'so is the fault of a merge', (fault.file, fault.code, fault.path) == ('merge', 'H1', None)
    yield 'a file comes before it', refused(cvr.merge, DEFINITION, 'never', 'no device', 1, [SCAN, DAMAGED]).file == DAMAGED
    yield 'the definition comes first', refused(cvr.tally, ('d', b'{}'), [DAMAGED, ('f', b'{}')]).file == 'd'
    yield 'then the files in order', [refused(cvr.check, DEFINITION, it).file for it in ([('a', b''), ('b', b'')], [('b', b''), ('a', b'')])] == ['a', 'b']
    yield 'a missing file is an OSError', isinstance(refused(cvr.tally, DEFINITION, ['none.json']), OSError)
    yield 'a path that begins with a dash is no option', refused(cvr.tally, DEFINITION, [('-h', b'{}')]).code == 'E3'


def of_words():
    """Whether a fault has words, and goes through pickle; a pool of processes waits for ever for one that can't."""
    faults = [refused(cvr.tally, DEFINITION, [file]) for _, file in faulty()]
    faults += [refused(cvr.merge, DEFINITION, *words, [SCAN]) for words in (('never', 'none', 9), (MOMENT, 'none', 9), (MOMENT, DEVICE, 9))]
    yield 'these are all codes', [it.code for it in faults] == ['E1', 'E2', 'E3', 'E4', 'E5', 'H1', 'H2', 'V1']
    logs = [cvr.run(['check', DEFINITION, name], [DEFINITION, (name, data)]).log.decode() for _, (name, data) in faulty()]
    yield 'each file has the line of the log', ['%s\n' % it for it in faults[:5]] == logs
    yield 'a path only where one stands', [it.path is None for it in faults] == [True, True, False, False, False, True, True, True]
    yield 'each is the same after a pickle', all(vars(pickle.loads(pickle.dumps(it))) == vars(it) for it in faults)
    yield 'and after a copy', all(str(copy.deepcopy(it)) == str(it) for it in faults)
    with open(os.path.join(TOP, 'docs/FAULTS.md'), encoding='utf-8') as file:
        text = file.read().replace('`', '')
    yield 'each has words of FAULTS', all(part in text for it in faults if it.code != 'E3' for part in it.words.split('. '))
    yield 'those of a rule are with it', faults[2].words.split('. ')[0] == 'The file does not have the form of a report: a required member is absent'
    yield 'which end with what to do', all(it.words.endswith('.') and '. ' in it.words for it in faults)
    yield 'of V1 it has how many there are', (str(faults[7]), faults[7].volumes) == ('merge: V1 1', 1)
    with multiprocessing.Pool(1) as pool:
        found = pool.map_async(functools.partial(refused, cvr.tally, DEFINITION), [[DAMAGED]]).get(20)
        raised = refused(pool.map_async(functools.partial(cvr.tally, DEFINITION), [[DAMAGED]]).get, 20)
    yield 'a pool of processes answers it, or raises it', [str(found[0]), str(raised)] == 2 * [str(refused(cvr.tally, DEFINITION, [DAMAGED]))]


def of_odd_names():
    """Whether a fault blames the file that was given, whatever its name is."""
    for name in 'good.json: E1\nevil.json', 'a: E3 /x 1', b'\xff\x1b[2J', '', '\udcff', 'merge':
        fault = refused(cvr.tally, DEFINITION, [('good.json', held(SCAN)), (name, b'[]')])
        yield 'it blames %r' % name, (fault.file, fault.code, fault.path, fault.rule) == (name, 'E3', '', 1)
        yield 'on one line', str(fault).isprintable() and str(fault).endswith(': E3  1')
    yield 'controls are escaped', str(refused(cvr.tally, DEFINITION, [('a\nb\x7f\u202e\udcffc', b'[]')])) == r'a\nb\x7f\u202e\udcffc: E3  1'
    fault = refused(cvr.tally, DEFINITION, [('a', b'{"b\\n/\\u009b":0.5}')])
    yield 'also of a path, which is as it is', (fault.path, str(fault)) == ('/b\n~1\x9b', r'a: E3 /b\n~1\x9b 14')
    with tempfile.TemporaryDirectory() as folder:
        path = os.path.join(os.fsencode(folder), b'\xff.json')
        with open(path, 'wb') as file:
            file.write(held(SCAN))
        count = cvr.check(DEFINITION, [SCAN])[SCAN]
        for it in path, os.fsdecode(path):
            yield 'a path that is not UTF-8 is read', cvr.check(DEFINITION, [it]) == {it: count}
            yield 'and may be given to a run', cvr.run(['check', DEFINITION, SCAN], [DEFINITION, SCAN, it]).status == 0
            yield 'but no word names it', isinstance(refused(cvr.run, ['check', DEFINITION, os.fsdecode(path)], [DEFINITION, it]), ValueError)


def of_files():
    """Whether a file may be given in each way, and is refused with words where it can't."""
    wanted, scan = cvr.tally(DEFINITION, [SCAN]), held(SCAN)
    with open(SCAN, 'rb') as opened, open(DEFINITION, 'rb') as definition, open(SCAN, 'rb') as paired:
        ways = [pathlib.Path(SCAN), os.fsencode(SCAN), opened, io.BytesIO(scan), ('a', bytearray(scan)), ('a', memoryview(scan)), (pathlib.Path('a'), paired)]
        yield 'a definition may be a file object', cvr.tally(definition, [SCAN]) == wanted
        for way in ways:
            yield 'a file may be given as %r' % type(way), cvr.tally(DEFINITION, iter([way])) == wanted
        yield 'a file object stays open, at its end', opened.read() == b''
        opened.seek(5)
        yield 'its name is in the fault', refused(cvr.tally, DEFINITION, [opened]).file == SCAN
    yield 'or its class, where it has none', refused(cvr.tally, DEFINITION, [io.BytesIO(b'[]')]).file == 'BytesIO'
    yield 'of a Path it is the text', refused(cvr.tally, DEFINITION, [pathlib.Path(DAMAGED)]).file == DAMAGED
    for odd, word in (io.StringIO('{}'), '"rb"'), (('a', 'text'), 'pair'), (('a',), 'pair'), (0, 'int'), (None, 'NoneType'):
        fault = refused(cvr.tally, DEFINITION, [odd])
        yield 'what has no bytes is refused', isinstance(fault, TypeError) and word in str(fault)
    with tempfile.TemporaryDirectory() as folder:
        path = os.path.join(folder, 'long.json')
        with open(path, 'wb') as file:
            file.truncate(67108865)
        yield 'a file that is too long is E1', refused(cvr.tally, DEFINITION, [path]).code == 'E1'
        with open(path, 'wb') as file:
            file.write(held(SCAN).replace(b'{', b'{' + b' ' * 100000, 1))
        yield 'one that is longer than most is read whole', cvr.tally(DEFINITION, [path]) == wanted
    tracemalloc.start()
    cvr.check(DEFINITION, [SCAN])
    yield 'a short file takes little memory', tracemalloc.get_traced_memory()[1] < 1 << 20
    tracemalloc.stop()
    yield 'files are read one after the other', in_turn(held(SCAN)) == ['asked', 'read', 'asked', 'read']
    yield 'and none after one that is refused', in_turn(b'') == ['asked', 'read']


def of_lists():
    """Whether one file in place of several is refused, with words."""
    for one in SCAN, os.fsencode(SCAN), pathlib.Path(SCAN), ('a', held(SCAN)), ('a', io.BytesIO()), io.BytesIO(), bytearray(b'a'):
        for call in (lambda it: cvr.tally(DEFINITION, it), lambda it: cvr.check(DEFINITION, it), lambda it: cvr.run(['check'], it)):
            fault = refused(call, one)
            yield 'one file is not several', isinstance(fault, TypeError) and 'give a list' in str(fault)
    yield 'two paths are', cvr.tally(DEFINITION, (SCAN, SCAN)) == cvr.tally(DEFINITION, [SCAN])


def in_turn(data):
    """What is done with two files that are made as they are asked for."""
    done = []

    class File(io.BytesIO):
        def read(self, *words):
            done.append('read')
            return super().read(*words)

    def files():
        for _ in range(2):
            done.append('asked')
            yield File(data)

    refused(cvr.tally, DEFINITION, files())
    return done


def of_values():
    """Whether what is answered can't be changed, and can be a key; and the rows as lists by name."""
    rows, again = (cvr.tally(DEFINITION, [SCAN, ADJUDICATED]) for _ in range(2))
    conflicts, currents = cvr.conflicts(DEFINITION, [SCAN, CORRECTED]), cvr.currents(DEFINITION, [SCAN])
    row, votes = rows[0], rows[0].votes
    yield 'equal rows are one key', len({*rows, *again}) == len(rows)
    yield 'so are the others', len({conflicts, conflicts.names[0], *currents, cvr.Receipt(1, 2), votes}) == 4 + len(currents)
    yield 'votes equal a dict, in any order', votes == dict(votes) and dict(votes) == votes and votes == cvr.Votes(dict(reversed([*votes.items()])))
    yield 'and then have one hash', hash(votes) == hash(cvr.Votes(dict(reversed([*votes.items()]))))
    yield 'and not another one', votes != dict(votes, more=1) and repr(votes) == repr(dict(votes))
    for change in (lambda: setattr(row, 'ballots', 9), lambda: setattr(row, 'more', 9), lambda: setattr(votes, 'more', 9), lambda: votes.update({}),
                   lambda: setattr(conflicts, 'volumes', 9), lambda: setattr(currents[0], 'type', ''), lambda: votes.__setitem__('a', 1)):
        try:
            change()
            yield 'it can not be changed', False
        except AttributeError:
            yield 'it can not be changed', True
    yield 'all go through pickle', all(pickle.loads(pickle.dumps(it)) == it for it in (rows, conflicts, currents, cvr.Receipt(1, 2)))
    table = cvr.columns(iter(rows))
    yield 'columns are the parts of rows', list(table) == [*cvr.Row._fields[:-1]]
    yield 'an entry a row', [*zip(*table.values())] == [it[:-1] for it in rows]
    table = cvr.vote_columns(iter(rows))
    yield 'those of votes are theirs', list(table) == ['contest', 'unit', 'batch', 'selection', 'votes']
    yield 'an entry a selection', [*zip(*table.values())] == [(*it[:3], *pair) for it in rows for pair in it.votes.items()]
    yield 'no rows have empty columns', set(map(len, [*cvr.columns([]).values(), *cvr.vote_columns([]).values()])) == {0}
    yield 'the version is that of the library', cvr.run(['--version']).text.decode() == 'cvr %s\n' % cvr.__version__
    yield 'all names are there', all(hasattr(cvr, it) for it in cvr.__all__)


def of_run():
    """Whether `run` gives what the program gives."""
    yield 'no words are refused', cvr.run([]).status == 2 and cvr.run([]).text == b''
    yield 'the version is printed', cvr.run(['--version']).text.startswith(b'cvr ')
    yield 'a word may not be odd bytes', isinstance(refused(cvr.run, ['\udcff']), ValueError)
    yield 'a file that is not given is missing', cvr.run(['tally', 'a', 'b']) == (b'', b'a: K1\n', 3)
    wanted, found = cvr.run(['currents', DEFINITION, SCAN], [DEFINITION, SCAN]), []
    work = lambda: found.append(cvr.run(['currents', DEFINITION, SCAN], [DEFINITION, SCAN]))
    threads = [threading.Thread(target=work) for _ in range(8)]
    for it in threads:
        it.start()
    for it in threads:
        it.join()
    yield 'eight threads get the same', found == [wanted] * 8


def of_offices():
    """Whether an office holds what it took in, and refuses what the commands refuse."""
    with cvr.Office(DEFINITION) as office:
        first, again = office.import_file(SCAN), office.import_file(SCAN)
        yield 'a receipt has the records', first.cvrs == again.cvrs == cvr.check(DEFINITION, [SCAN])[SCAN]
        yield 'a file once more brings nothing', first.new_facts > 0 == again.new_facts
        yield 'an office tallies', office.tally() == cvr.tally(DEFINITION, [SCAN])
        for code, file in faulty():
            fault, line = refused(office.import_file, file), refused(cvr.tally, DEFINITION, [file])
            yield 'a file is refused with the same line', (fault.code, str(fault)) == (code, str(line))
        with cvr.Office(DEFINITION) as other:
            other.import_file(ADJUDICATED)
            joined, again = other.join(office), other.join(office)
            yield 'it joins another', 0 < joined <= first.new_facts and again == 0
            yield 'and then has its currents', other.currents() == cvr.currents(DEFINITION, [SCAN, ADJUDICATED])
            other.import_file(CORRECTED)
            yield 'and conflicts', other.conflicts() == cvr.conflicts(DEFINITION, [SCAN, ADJUDICATED, CORRECTED])
        yield 'the other stays', office.tally() == cvr.tally(DEFINITION, [SCAN])
        yield 'an office joins itself', office.join(office) == 0
        with cvr.Office(changed(DEFINITION, b'"Name": "', b'"Name": "Not ')) as other:
            yield 'but none of another definition', isinstance(refused(office.join, other), ValueError)
        yield 'a closed one has no tally', isinstance(refused(other.tally), ValueError)
        yield 'nor can it be joined', isinstance(refused(office.join, other), ValueError)
    fault = refused(cvr.Office, ('empty', b'{}'))
    yield 'a definition is refused with its rule', (fault.file, fault.code, fault.path, fault.rule) == ('empty', 'E3', '/@type', 2)


def of_volumes():
    """Whether an office gives a volume, or says why there is none, as the program does."""
    with cvr.Office(DEFINITION) as office:
        office.import_file(SCAN)
        yield 'an office gives a volume', office.volume(MOMENT, DEVICE, 1) == cvr.merge(DEFINITION, MOMENT, DEVICE, 1, [SCAN])
        for words in ('never', 'none', 9), (MOMENT, 'none', 9), (MOMENT, DEVICE, 9):
            fault, log = refused(office.volume, *words), cvr.run(['merge', DEFINITION, *map(str, words), SCAN], [DEFINITION, SCAN]).log
            yield 'no volume has the same line', isinstance(fault, cvr.Fault) and '%s\n' % fault == log.decode()
        yield 'however great its number', str(refused(office.volume, MOMENT, DEVICE, 2 ** 64 + 1)) == 'merge: V1 1'
        yield 'volumes are numbered from 1', isinstance(refused(office.volume, MOMENT, DEVICE, 0), ValueError)
    yield 'a closed one has no volume', isinstance(refused(office.volume, MOMENT, DEVICE, 1), ValueError)


def of_copies():
    """Whether an office stays the only one of its kind, on its thread, and shows what it is."""
    with cvr.Office(DEFINITION) as office:
        count = office.import_file(SCAN).cvrs
        for copied in copy.copy, copy.deepcopy, pickle.dumps:
            fault = refused(copied, office)
            yield 'it can not be copied', isinstance(fault, TypeError) and 'office' in str(fault)
        gc.collect()
        yield 'and holds all after that', refused(office.tally) is None
        yield 'its length is the number of its records', len(office) == count > 0
        yield 'it says of what it is', repr(office) == '<cvr.Office of %r>' % DEFINITION
        found = in_thread(lambda: [refused(it) for it in (office.tally, office.close, office.__len__)])
        yield 'another thread may not use it', all(isinstance(it, RuntimeError) for it in found)
        yield 'but show it', in_thread(lambda: repr(office)) == repr(office)
    yield 'it says that it is closed', repr(office) == '<cvr.Office of %r, closed>' % DEFINITION and isinstance(refused(len, office), ValueError)


def in_thread(call):
    """What a call answers in a thread of its own, which then has ended."""
    found = []
    thread = threading.Thread(target=lambda: found.append(call()))
    thread.start()
    thread.join()
    return found.pop()


class Worker:
    """A thread that does what it is given, until it is ended."""

    def __init__(self):
        self.given, self.found = threading.Semaphore(0), threading.Semaphore(0)
        self.call = self.answer = None
        self.thread = threading.Thread(target=self.work)
        self.thread.start()

    def work(self):
        while True:
            self.given.acquire()
            call, self.call = self.call, None
            if call is None:
                return
            self.answer = call()
            del call
            self.found.release()

    def does(self, call):
        self.call = call
        self.given.release()
        self.found.acquire()
        answer, self.answer = self.answer, None
        return answer

    def end(self):
        self.given.release()
        self.thread.join()


def full(files=(SCAN,)):
    """An office of files, and its handle, which has nothing once it is freed."""
    office = cvr.Office(DEFINITION)
    for file in files:
        office.import_file(file)
    return [office, office._handle]


def of_threads():
    """Whether the thread that made an office alone uses and frees it, as long as it runs."""
    office, handle = in_thread(full)
    found = [in_thread(lambda: refused(office.tally)) for _ in range(50)]
    yield 'no later thread is taken for it', all(isinstance(it, RuntimeError) for it in found)
    yield 'nor is main', isinstance(refused(office.tally), RuntimeError) and handle.office
    del office
    yield 'once it has ended, who drops it frees it', not handle.office
    office, handle = full()
    del office
    yield 'who made it frees it at once', not handle.office
    worker = Worker()
    held_by = worker.does(full)
    other, handle = worker.does(full)[0], held_by[1]
    held_by[0] = None
    yield 'while it runs, no other thread frees it', bool(handle.office)
    cvr.tally(DEFINITION, [SCAN])
    yield 'nor at a call of its own', bool(handle.office)
    yield 'its own thread does at its next call', len(worker.does(other.tally)) > 0 and not handle.office
    handle, other = other._handle, None
    worker.end()
    yield 'or when it ends', not handle.office
    its, handles = threading.local(), []

    def leave():
        its.office, handle = full()
        handles.append(handle)

    in_thread(leave)
    yield 'so does what a thread leaves', not handles[0].office
    yield from of_turns()


def of_turns():
    """Whether offices of a thread that has ended are freed one at a time, since they may share facts."""
    def shared():
        offices = [full()[0] for _ in range(8)]
        for it in offices[1:]:
            it.join(offices[0])
        return offices

    offices, frees, most = in_thread(shared), [], []
    handles, free = [it._handle for it in offices], cvr._library.Home._free

    def slow(handle):
        frees.append(handle)
        most.append(len(frees))
        time.sleep(0.01)
        free(handle)
        frees.remove(handle)

    cvr._library.Home._free = staticmethod(slow)
    threads = [threading.Thread(target=offices.pop) for _ in handles]
    for it in threads:
        it.start()
    for it in threads:
        it.join()
    cvr._library.Home._free = free
    yield 'they are freed one at a time', most == [1] * 8 and not any(it.office for it in handles)


LEFT = '''
import builtins, sys, threading
import cvr
office, its, cycle, others = cvr.Office(sys.argv[1]), threading.local(), [cvr.Office(sys.argv[1])], []
builtins.held, its.office = cvr.Office(sys.argv[1]), cvr.Office(sys.argv[1])
cycle.append(cycle)
is_made = threading.Event()
threading.Thread(target=lambda: others.append(cvr.Office(sys.argv[1])) or is_made.set() or threading.Event().wait(), daemon=True).start()
is_made.wait()
others.clear()
'''


def of_ends():
    """Whether a process ends in silence, whatever offices it leaves and wherever they are."""
    env = dict(os.environ, PYTHONPATH=os.path.dirname(os.path.dirname(cvr.__file__)))
    ran = subprocess.run([sys.executable, '-c', LEFT, DEFINITION], stdout=subprocess.PIPE, stderr=subprocess.STDOUT, env=env, timeout=60)
    yield 'offices are left at the end: %s' % ran.stdout, (ran.returncode, ran.stdout) == (0, b'')


def resident(trim):
    """How many MB this process has, once what nothing uses is given back."""
    trim(0)
    with open('/proc/self/statm') as file:
        return int(file.read().split()[1]) * os.sysconf('SC_PAGE_SIZE') / 1e6


def of_leaks():
    """Whether offices that are made in threads and dropped here leave anything, where that can be measured."""
    trim = getattr(ctypes.CDLL(None), 'malloc_trim', None) if os.path.exists('/proc/self/statm') else None
    if not trim:
        return
    report = json.loads(held(SCAN))
    report['CVR'] = [dict(report['CVR'][0], UniqueId='r%05d' % it) for it in range(20000)]
    file = 'many', json.dumps(report, separators=(',', ':')).encode()
    in_thread(lambda: full([file]))
    before = resident(trim)
    offices = [in_thread(lambda: full([file])[0]) for _ in range(10)]
    most = resident(trim)
    del offices
    yield 'of ten offices less is left than two have', resident(trim) - before < (most - before) / 5


def main():
    tries = []
    for part in (of_rows, of_commands, of_faults, of_words, of_odd_names, of_files, of_lists, of_values, of_run, of_offices, of_volumes, of_copies,
                 of_threads, of_ends, of_leaks):
        try:
            tries.extend(part())
        except Exception:
            traceback.print_exc(file=sys.stdout)
            tries.append((part.__name__ + ' comes to its end', False))
    for name, is_right in tries:
        if not is_right:
            print('WRONG: not so: ' + name)
    wrong = [bool(is_right) for _, is_right in tries].count(False)
    print('python: %d right, %d wrong' % (len(tries) - wrong, wrong))
    sys.exit(1 if wrong else 0)


if __name__ == '__main__':
    main()
