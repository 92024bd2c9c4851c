#!/usr/bin/env python3
"""run.py --cvr PATH [--tenth WORD]

Tests `cvr-audit gather` with the given program. The exports of examples/exports are those that make.py makes, and each
has the tally of examples/county. Random exports of make.py have the votes that recount.py counts, whose few lines share no
code with the companion. The exports of faults.py are refused, and leave nothing. Those of planted.py, misread.py and
misread_ess.py, which would come out wrong without a rule, are refused or read as worked out by hand; where a copy of the
companion lacks the rule, the recount finds it. Documents of which a part is held at once are read as windows.py says. Then the slips of wrong_ways.py: each is made in a copy of the companion, and
the recount of random exports has to find it. With --tenth a tenth of the random exports and of the slips are tried. The last
line is `gather: N right, M wrong`; the status is 0 only where M is 0 and N is not."""
import csv
import hashlib
import io
import multiprocessing
import os
import shutil
import signal
import stat
import subprocess
import sys
import tempfile
import time
import zipfile
from concurrent.futures import ProcessPoolExecutor
from functools import partial
from operator import itemgetter

sys.dont_write_bytecode = True
HERE = os.path.dirname(os.path.abspath(__file__))
TOP = os.path.dirname(os.path.dirname(HERE))
sys.path[:0] = [HERE, os.path.dirname(HERE), os.path.join(TOP, 'examples', 'recipes'), os.path.join(TOP, 'companion')]
import companion   # noqa: E402
import faults      # noqa: E402
import make        # noqa: E402
import misread     # noqa: E402
import misread_ess # noqa: E402
import planted     # noqa: E402
import recount     # noqa: E402
import tenth       # noqa: E402
from cvr_audit import gather_source, gather_words, program  # noqa: E402
import wrong_ways  # noqa: E402 (they stand here, in tests/ and in examples/recipes)

SIDE_BY_SIDE = 4
SECONDS = 300
BALLOTS = 80
SEEDS = 1, 2, 3     # of the random exports of each kind
OTHER = 'contests are not those of the files before it'
NOT_THOSE = {'dominion': 'its election or its ' + OTHER, 'clearballot': 'its election or its ' + OTHER, 'ess': 'its ' + OTHER}
# what is said of records with such a column, which is left out
NOTES = {'remade': 'Remade that is not 0', 'status': 'Status ("Held" 3, "a, b" 1)'}
# the names of the county's batches in each kind; ES&S's form has none
BATCHES = {'dominion': {'1-1': 'batch-1', '2-1': 'batch-2'}, 'dominion-json': {'1-1': 'batch-1', '2-1': 'batch-2'},
           'clearballot': {'BOX-1-1': 'batch-1', 'BOX-2-1': 'batch-2'}, 'hart': {'1001': 'batch-1', '2001': 'batch-2'}, 'ess': {None: None}}

HELD = []           # the trials, which the processes that try them have, too


class Wrong(Exception):
    """What a trial finds wrong."""


def see(is_right, text):
    if not is_right:
        raise Wrong(text)


def run(words, cvr, copy=None, folder=None, **more):
    """(output, log, status) of cvr-audit, or of a copy of it."""
    words = [*companion.PYTHON, os.path.join(copy or companion.compiled(), 'cvr-audit'), *words]
    done = subprocess.run(words, cwd=folder, env=dict(os.environ, CVR=cvr, **more), stdin=subprocess.DEVNULL, stdout=subprocess.PIPE,
                          stderr=subprocess.PIPE, timeout=SECONDS)
    return done.stdout.decode('utf-8', 'replace'), done.stderr.decode('utf-8', 'replace'), done.returncode


def path_of(kind, folder):
    """The path of an export of a kind in a folder."""
    path = os.path.join(folder, kind)
    return path if os.path.isdir(path) else path + '.csv'


# ---- what was written

def see_sources(out, export, above=''):
    """The list of sources has each record once, by its name as `cvr` prints it, with its file, and each source with its length
    and SHA-256. No cell begins as a formula does. Paths are below `above`."""
    with open(os.path.join(out, 'sources.csv'), encoding='utf-8', newline='') as file:
        heads, *lines = csv.reader(file)
    see(heads == ['source', 'place', 'length', 'SHA-256', 'CreatingDeviceId', 'UniqueId', 'file'], 'the heads of sources.csv')
    held = {}
    for source, _, length, digest, device, unique, file in lines:
        if not file and not source.endswith('/'):
            data = faults.read(os.path.join(above, source))
            see(int(length) == len(data) and digest in ('', hashlib.sha256(data).hexdigest()), 'the line of ' + source)
        held.setdefault(file, []).append([device, unique])
    see(not any(cell.startswith(('=', '+', '-', '@')) for line in lines for cell in line), 'a cell begins as a formula does')
    below = make.files_below(os.path.join(above, export))
    files = [os.path.join(export, it) for it in below] or [export]
    see({it[0] for it in lines if not it[6]} == set(files), 'the sources of sources.csv')
    held.pop('')
    for file, names in held.items():
        records = make.json.loads(faults.read(os.path.join(out, file)))['CVR']
        see(names == [[make.json.dumps(it[name], ensure_ascii=False) for name in ('CreatingDeviceId', 'UniqueId')] for it in records], 'the names of ' + file)
    return {file: len(names) for file, names in held.items()}


def see_modes(out):
    modes = {stat.S_IMODE(os.stat(os.path.join(out, name)).st_mode) for name in os.listdir(out)}
    see(modes == {0o600} and stat.S_IMODE(os.stat(out).st_mode) == 0o700, 'others may read what is written')


def gathered(kind, export, cvr, out, copy=None, words=()):
    """Gathers an export, and compares it with the recount; answers how many votes were compared."""
    text, log, status = run(['gather', export, '-o', out, *words], cvr, copy)
    see((status, log) == (0, ''), 'status %d, %r' % (status, log))
    cuts, left, votes, means, heads = ([words[place + 1] for place, it in enumerate(words) if it == name]
                                       for name in ('--contests', '--left-out', '--votes', '--means', '--heads'))
    found, compared = recount.differences(kind, export, cvr, out, cuts, *heads, left=left, allowed=votes, means=means)
    see(not found, '\n    '.join(found[:5]))
    return text, compared


def see_random(kind, cvr, seed, copy=None):
    with tempfile.TemporaryDirectory() as folder:
        make.make(kind, folder, BALLOTS, seed)
        out = os.path.join(folder, 'out')
        text, compared = gathered(kind, path_of(kind, folder), cvr, out, copy)
        see(compared > 10, 'only %d votes were compared' % compared)
        if not copy:
            counts = see_sources(out, path_of(kind, folder))
            see(text.splitlines()[:2] == ['kind ' + kind, '%s/records-1.json %d' % (out, counts['records-1.json'])], 'what is printed')
            see_modes(out)


def county_votes(cvr):
    """The county's tally by the names of its contests, units and selections; the names of selections are those of make.py."""
    with tempfile.TemporaryDirectory() as folder:
        shutil.copy(os.path.join(make.COUNTY, 'definition.json'), folder)
        for number, name in enumerate(('scan', 'adjudicated'), 1):
            shutil.copy(os.path.join(make.COUNTY, name + '.json'), os.path.join(folder, 'records-%d.json' % number))
        votes = recount.tallied(cvr, folder, False)
    units = {'precinct-1': 'Old Mill', 'precinct-2': 'Ferry Landing', 'precinct-3': 'North Orchard'}
    names = {'council': 'County Council', 'parks': 'Measure 1: parks', 'council-iris': 'Iris Vale', 'council-omar': 'Omar Field',
             'council-other': 'write-in', 'parks-yes': 'Yes', 'parks-no': 'No'}
    return votes, {(names[contest], units[unit], batch, names.get(column, column)): number
                   for (contest, unit, batch, column), number in votes.items()}


def see_county(kind, cvr):
    """The example of a kind has the tally of the county."""
    with tempfile.TemporaryDirectory() as folder:
        out = os.path.join(folder, 'out')
        gathered(kind, path_of(kind, make.EXAMPLES), cvr, out)
        by_id, by_name = county_votes(cvr)
        if kind not in BATCHES:
            see(recount.tallied(cvr, out, False) == by_id, 'another tally than the county\'s')
            return
        batches = BATCHES[kind]
        found = {(contest, unit, batches[batch], column): number for (contest, unit, batch, column), number in recount.tallied(cvr, out, True).items()}
        wanted = {(contest, unit, batch if len(batches) > 1 else None, column): number for (contest, unit, batch, column), number in by_name.items()}
        see(found == wanted, 'another tally than the county\'s')


def see_examples():
    with tempfile.TemporaryDirectory() as folder:
        for kind in make.KINDS:
            make.make(kind, folder)
        see(make.is_same(folder, make.EXAMPLES), 'examples/exports is not what make.py makes')


# ---- what could be read wrongly

def see_misread(case, cvr):
    """An export that could be misread is refused, and leaves nothing; with its options it has the votes worked out by hand."""
    with tempfile.TemporaryDirectory() as folder:
        path, out = misread.written(case, folder), os.path.join(folder, 'out')
        if case.log:
            os.chdir(folder)
            got = run(['gather', os.path.basename(path), '-o', out], cvr)
            see(got == ('', 'cvr-audit: %s\n' % case.log, 1) and os.listdir(folder) == [os.path.basename(path)], '%r, and not %r' % (got, case.log))
        if case.words is None:
            return
        text, _ = gathered(case.kind, path, cvr, out, words=case.words)
        notes = [it for it in text.splitlines() if it.startswith('note')]
        see(case.note is None or len(notes) == bool(case.note) and all(it.endswith(case.note) for it in notes), repr(notes))
        found = {}
        for (contest, _, _, column), number in recount.tallied(cvr, out, case.kind not in ('cdf', 'vxsuite')).items():
            found[contest, column] = found.get((contest, column), 0) + number
        wanted = {(contest, column): number for contest, held in case.votes.items() for column, number in held.items()}
        see(all(found.get(it) == number for it, number in wanted.items()), '%r, and not %r' % (found, wanted))


def see_misread_way(case, way, cvr):
    """Without the rule such an export is read without a word, and the recount finds it."""
    with tempfile.TemporaryDirectory() as folder:
        copy, path = companion.made(folder, wrong_ways.Way(case.kind, *way)), misread.written(case, folder)
        try:
            gathered(case.kind, path, cvr, os.path.join(folder, 'out'), copy)
        except Wrong as wrong:
            see('status' not in str(wrong), 'the copy refuses it or doesn\'t run: %s' % wrong)
            return
    raise Wrong('not found by the recount')


def see_lists(_):
    """The words of ES&S that GATHER lists are those of the companion, and the recount knows each."""
    text = faults.read(os.path.join(TOP, 'docs', 'GATHER.md')).decode('utf-8')
    for start, end, held, known in (('| Blank,', ', by their', 'NOTHING', recount.NO_VOTE), ('digits None,', ' | refused', 'UNSURE', recount.UNSURE),
                                    ('| Write-in Type,', ', or with', 'DOUBTS', recount.OF_DOUBT)):
        place = text.index(start)
        listed = {recount.bare(it) for it in text[place + start.index(' '):text.index(end, place)].split(',')}
        see(listed == getattr(gather_words, held), '%r' % (listed ^ getattr(gather_words, held)))
        see(all(known.fullmatch(it) for it in listed), 'the recount knows others than ' + held)
    see(all(recount.OF_ORIGIN.fullmatch(it) for it in gather_words.ORIGINS), 'the recount knows other heads')


def devices(names):
    return [it for name in names for it in ('--device', name)]


def see_twice(case, cvr, way=None):
    """Two exports whose ballots have the same numbers are refused, and gathered with a name of each. Or the recount finds a slip."""
    with tempfile.TemporaryDirectory() as folder:
        copy = companion.made(folder, wrong_ways.Way(case.kind, *way)) if way else None
        os.chdir(folder)
        case.write(folder)
        exports, names = [path_of(case.kind, it) for it in ('evening', 'noon')], ['late', 'early']
        words, held = ['gather', *exports, '-o', 'out'], sorted(os.listdir())
        if case.log and not way:
            got = run(words + devices(case.given), cvr)
            see(got == ('', 'cvr-audit: %s\n' % case.log, 1) and sorted(os.listdir()) == held, '%r, and not %r' % (got, case.log))
        if case.votes or way:
            text, log, status = run(words + devices(names), cvr, copy)
            see((log, status) == ('', 0) and text.splitlines()[1:3] == ['device "%s" "%s"' % it for it in zip(names, exports)], repr(text + log))
            found, _ = recount.differences(case.kind, exports, cvr, 'out', devices=names)
            see(found if way else not found, 'not found by the recount' if way else '\n    '.join(found[:5]))
        sums = make.Counter()
        for (_, _, _, column), number in recount.tallied(cvr, 'out', True).items() if case.votes and not way else ():
            sums[column] += number
        see(way or all(sums[it] == number for it, number in case.votes.items()), '%r, and not %r' % (sums, case.votes))


# ---- what is refused

def see_words(words, wanted, status, cvr):
    """Words that don't fit an export are refused, and leave nothing."""
    with tempfile.TemporaryDirectory() as folder:
        os.chdir(shutil.copytree(make.EXAMPLES, os.path.join(folder, 'exports')))       # of this process alone
        shutil.copy('ess.csv', 'again.csv')
        for base in ('few.csv', 'less.csv'):
            misread_ess.rows(['Council'], [(1, ['Ann']), (1, ['Bob'])], base=base)('.')
        shutil.copytree('dominion-json', 'again')
        got = run(['gather', *words, '-o', '../out'], cvr)
        see(got == ('', 'cvr-audit: %s\n' % wanted, status) and os.listdir(folder) == ['exports'], '%r, and not %r' % (got, wanted))


def see_fault(fault, cvr):
    with tempfile.TemporaryDirectory() as folder:
        os.chdir(shutil.copytree(make.EXAMPLES, os.path.join(folder, 'exports')))       # of this process alone
        fault.change()
        text, log, status = run(['gather', fault.export, '-o', '../out', *fault.words], cvr)
        see(os.listdir(folder) == ['exports'] and not [it for it in os.listdir() if it.startswith('.')], 'something is left')
    wanted = 'cvr-audit: %s\n' % fault.log
    is_right = log == wanted or wanted.endswith('..\n') and log.startswith(wanted[:-3]) and log.count('\n') == 1
    see(is_right and text == '' and status == fault.status, 'status %d, %r, and not %r' % (status, log, wanted))


def see_there(cvr):
    """A folder that is there stays as it is."""
    with tempfile.TemporaryDirectory() as folder:
        out = os.path.join(folder, 'out')
        os.mkdir(out)
        got = run(['gather', path_of('cdf', make.EXAMPLES), '-o', out], cvr)
        see(got == ('', 'cvr-audit: %s: it is there already; name a folder that isn\'t\n' % out, 3) and os.listdir(folder) == ['out'] and not os.listdir(out), repr(got))


def see_two_kinds(cvr):
    """Two kinds in one folder: they are named, and `--as` chooses; what is of the other kind is listed as left out."""
    with tempfile.TemporaryDirectory() as folder:
        held = os.path.join(folder, 'held')
        for kind in ('vxsuite', 'cdf'):
            shutil.copytree(path_of(kind, make.EXAMPLES), os.path.join(held, kind))
        words = ['gather', held, '-o', os.path.join(folder, 'out')]
        got = run(words, cvr)
        see(got == ('', 'cvr-audit: %s: there is more than one kind here: vxsuite, cdf; name one with --as\n' % held, 1), repr(got))
        text, log, status = run(words + ['--as', 'vxsuite'], cvr)
        left = ['left out "%s/cdf/%s.json"' % (held, name) for name in ('adjudicated', 'scan')]
        see((log, status) == ('', 0) and text.splitlines()[2:4] == left and text.count('left out') == 3, repr(text))


def see_zip(kind, cvr):
    """An export in a ZIP has the records of the folder."""
    with tempfile.TemporaryDirectory() as folder:
        shutil.make_archive(os.path.join(folder, 'export'), 'zip', make.EXAMPLES, os.path.basename(path_of(kind, make.EXAMPLES)))
        texts = []
        for number, path in enumerate([os.path.join(folder, 'export.zip'), path_of(kind, make.EXAMPLES)]):
            out = os.path.join(folder, 'out-%d' % number)
            _, log, status = run(['gather', path, '-o', out], cvr)
            see((log, status) == ('', 0), repr(log))
            texts.append([faults.read(os.path.join(out, name)) for name in ('definition.json', 'records-1.json')])
        see(texts[0] == texts[1], 'other records than of the folder')


def see_long(cvr):
    """Records of more than 60 MB stand in several files, whose bytes are those of the source."""
    with tempfile.TemporaryDirectory() as folder:
        election = make.county()
        one = make.record(election, election.ballots[0])
        one['BallotImage'][0]['Location'] = 'x' * 1000000
        records = [dict(one, UniqueId=str(number)) for number in range(70)]
        path = os.path.join(folder, 'cdf', 'long.json')
        make.put(folder, 'cdf/long.json', make.json.dumps(dict(make.frame(election), CVR=records)))
        see(os.path.getsize(path) > 67108864, 'the file is too short')
        out = os.path.join(folder, 'out')
        text, log, status = run(['gather', path, '-o', out], cvr)
        see((log, status) == ('', 0), repr(log))
        held = sorted(it for it in os.listdir(out) if it.startswith('records'))
        see(text == 'kind cdf\n%s/records-1.json 49\n%s/records-2.json 21\n' % (out, out) and len(held) == 2, repr(text))
        see(all(os.path.getsize(os.path.join(out, it)) <= 60000000 for it in held), 'a file is too long')
        data = b''.join(faults.read(os.path.join(out, it)) for it in held)
        see(all(make.json.dumps(it).encode() in data for it in records[:3] + records[-3:]), 'other bytes')


def see_bytes(cvr):
    """The records of VxSuite are copied byte by byte; what isn't in them is listed, and an unknown file or member is named."""
    with tempfile.TemporaryDirectory() as folder:
        export, out = os.path.join(folder, 'vxsuite'), os.path.join(folder, 'out')
        make.make('vxsuite', folder, BALLOTS, 21)
        faults.write(os.path.join(export, 'notes.txt'), b'unknown')
        meta = os.path.join(export, 'metadata.json')
        faults.write(meta, faults.read(meta).replace(b'{"arePollsClosed"', b'{"mystery": 1, "arePollsClosed"'))
        text, log, status = run(['gather', export, '-o', out], cvr)
        data = faults.read(os.path.join(out, 'records-1.json'))
        held = [faults.read(os.path.join(export, it)) for it in make.files_below(export) if it.endswith('report.json')]
        see(log == '' and len(held) == BALLOTS and all(one[len(b'{"CVR": ['):-len(b']}')] in data for one in held), 'other bytes')
        left = [it for it in text.splitlines() if it.startswith('left out')]
        see(left[0] == 'left out "%s/notes.txt"' % export and len(left) == 2 and '/rejected-' in left[1], repr(left))
        see(text.endswith('\nnote: %s: its member "mystery" is left out\n' % meta), repr(text))
        see_sources(out, export)


def halves(kind, election, folder):
    """Writes an export in two parts: of VxSuite two folders by device, of a table two files of its rows."""
    if kind == 'vxsuite':
        for number in (0, 1):
            part = make.Election(election.name, election.contests, election.units, [it for it in election.ballots if it.device % 2 == number])
            make.vxsuite(part, os.path.join(folder, 'part-%d' % number))
        return
    make.KINDS[kind](election, folder)
    path, end = path_of(kind, folder), b'\r\n'
    lines, heads = faults.read(path).split(end)[:-1], 4 if kind == 'dominion' else 1
    half = (heads + len(lines)) // 2
    for number, part in enumerate([lines[:half], lines[:heads] + lines[half:]]):
        faults.write(os.path.join(folder, 'part-%d.csv' % number), end.join(part) + end)
    os.remove(path)


def see_halves(kind, cvr):
    """An export in two parts has the tally of the whole. One part given twice, under two names, is refused."""
    with tempfile.TemporaryDirectory() as folder:
        election, texts = make.random_election(make.random.Random(31), BALLOTS), []
        make.KINDS[kind](election, os.path.join(folder, 'whole'))
        halves(kind, election, os.path.join(folder, 'parts'))
        for name in ('whole', 'parts'):
            out = os.path.join(folder, 'out-' + name)
            text, log, status = run(['gather', os.path.join(folder, name), '-o', out], cvr)
            see((log, status) == ('', 0), repr(log))
            texts.append(recount.printed(cvr, 'tally', out))
        see(texts[0] == texts[1] and len(texts[0]) > 1, 'another tally than of the whole')
        parts = sorted(os.listdir(os.path.join(folder, 'parts')))
        one, copy = (os.path.join(folder, 'parts', it) for it in (parts[0], 'x' + parts[0]))
        shutil.copytree(one, copy) if os.path.isdir(one) else shutil.copy(one, copy)
        text, log, status = run(['gather', one, copy, '-o', os.path.join(folder, 'again')], cvr)
        see(status == 1 and ' stands here and in ' in log or ' the BallotID ' in log, repr(log))


def see_contests_missing(kind, cvr):
    """A first file without a contest doesn't stand for one that has some."""
    with tempfile.TemporaryDirectory() as folder:
        for name in ('a.csv', 'b.csv'):
            shutil.copy(path_of(kind, make.EXAMPLES), os.path.join(folder, name))
        faults.first_columns(os.path.join(folder, 'a.csv'), {'dominion': 8, 'clearballot': 10, 'ess': 3}[kind])()
        got = run(['gather', folder, '-o', os.path.join(folder, 'out')], cvr)
        see(got[0] == '' and got[1].endswith('/b.csv: line %d: %s\n' % (4 if kind == 'dominion' else 1, NOT_THOSE[kind])) and got[2] == 1, repr(got))


def see_variants(cvr):
    """Tables with a byte order mark, with other line ends, with choices of one name, with remade ballots and ballots of a
    status, with a unit that has the name of all of them, and with two columns for written names."""
    changes = {'a mark': lambda it: b'\xef\xbb\xbf' + it, 'line ends': lambda it: it.replace(b'\r\n', b'\n'),
               'names': lambda it: it.replace(b'Omar Field', b'Iris Vale'), 'remade': lambda it: it.replace(b',,0,', b',,1,'),
               'status': lambda it: it.replace(b'-1,,0,0,1', b'-1,"a, b",0,0,1').replace(b',,0,', b',Held,0,'),
               'scope': lambda it: it.replace(b'Ferry Landing', b'all units').replace(b'Old Mill', b'really all units'),
               'written': lambda it: it.replace(b'Omar Field', b'Write-in')}
    for kind in ('dominion', 'clearballot', 'ess'):
        for name, change in changes.items():
            with tempfile.TemporaryDirectory() as folder:
                path, out = os.path.join(folder, kind + '.csv'), os.path.join(folder, 'out')
                data = faults.read(path_of(kind, make.EXAMPLES))
                faults.write(path, change(data))
                columns = {'dominion': '9-11', 'clearballot': '11-13'}.get(kind) if name == 'written' else None
                text, _ = gathered(kind, path, cvr, out, words=['--contests', 'County Council=' + columns] if columns else [])
                for what, said in NOTES.items():
                    note = 'note: %s: 4 records have a %s; each is a record as the others\n' % (path, said)
                    see((note in text) == (name == what and kind == 'clearballot'), 'the note on %s of %s' % (what, kind))
                lines = recount.printed(cvr, 'tally', out)
                see(('"Iris Vale (LAR)"' in lines[0]) == (name == 'names' and kind != 'ess'), 'choices of one name in ' + kind)


def see_names(kind, cvr):
    """Names of contests and choices that are alike once they are put together."""
    with tempfile.TemporaryDirectory() as folder:
        contests = [make.Contest(name, 1, [(it, '') for it in choices]) for name, choices in
                    [('A', ['B / C', 'B/C', 'C']), ('A / B', ['C', 'B / C']), ('A/B', ['C', 'A']), ('A~1B', ['C', 'all units'])]]
        ballots = [make.Ballot(1, 1, k + 1, 0, {0: [k % 3], 1: [k % 2], 2: [0], 3: [1]}) for k in range(7)]
        make.KINDS[kind](make.Election('A / B', contests, ['A / B'], ballots), folder)
        # nothing else says of these columns that they are contests
        words = [it for k, one in enumerate(contests, 4) for it in ('--contests', '%s=%d' % (one.name, k)) if kind == 'ess']
        _, compared = gathered(kind, path_of(kind, folder), cvr, os.path.join(folder, 'out'), words=words)
        see(compared == 28, '%d votes were compared' % compared)


def see_formulas(cvr):
    """Paths and names that a spreadsheet would take for formulas."""
    with tempfile.TemporaryDirectory() as folder:
        shutil.copytree(path_of('cdf', make.EXAMPLES), os.path.join(folder, '=cdf'))
        for name in ('scan', 'adjudicated'):
            path = os.path.join(folder, '=cdf', name + '.json')
            faults.write(path, faults.read(path).replace(b'"1-0003"', b'"=1+1,\\"\\n2"').replace(b'"scanner-1"', b'"@SUM(A1)"'))
        text, log, status = run(['gather', '=cdf', '-o', 'out'], cvr, folder=folder)
        see((log, status) == ('', 0), repr(log))
        see_sources(os.path.join(folder, 'out'), './=cdf', folder)


def see_changed(cvr):
    """A source that is changed before it is counted again is refused."""
    with tempfile.TemporaryDirectory() as folder:
        path, false = os.path.join(folder, 'ess.csv'), os.path.join(folder, 'false')
        shutil.copy(path_of('ess', make.EXAMPLES), path)
        faults.write(false, b'#!/bin/sh\n[ "$1" = currents ] && sed -i s/Iris/Olga/ "$CHANGED"\nexec "$REAL" "$@"\n')
        os.chmod(false, 0o700)
        got = run(['gather', path, '-o', os.path.join(folder, 'out')], false, REAL=cvr, CHANGED=path)
        see(got == ('', 'cvr-audit: %s: it was changed while it was read\n' % path, 1) and sorted(os.listdir(folder)) == ['ess.csv', 'false'], repr(got))


def see_long_heads(cvr):
    """Heads of many contests are as long as they are, and a report may begin with its records."""
    with tempfile.TemporaryDirectory() as folder:
        path = os.path.join(folder, 'dominion.csv')
        faults.write(path, faults.read(path_of('dominion', make.EXAMPLES)).replace(b'County Council', b'County Council' + b'x' * 100000))
        gathered('dominion', path, cvr, os.path.join(folder, 'out'))
        make.county_cdf(folder)
        path = os.path.join(folder, 'cdf', 'scan.json')
        report = make.json.loads(faults.read(path))
        records = [dict(report['CVR'][0], UniqueId=str(k)) for k in range(2000)]
        faults.write(path, make.json.dumps({'CVR': records, **{name: it for name, it in report.items() if name not in ('@type', 'CVR')}, '@type': report['@type']}).encode())
        see(faults.read(path).index(b'CVR.CastVoteRecordReport') > 1 << 20, 'the class of the report stands too early')
        text, _, status = run(['gather', os.path.join(folder, 'cdf'), '-o', os.path.join(folder, 'again')], cvr)
        see(status == 0 and text.splitlines()[1].endswith('/records-1.json 2002'), repr(text))


def see_mac(cvr):
    """What a Mac adds to a ZIP isn't taken for a ballot, nor listed."""
    with tempfile.TemporaryDirectory() as folder:
        path, export = os.path.join(folder, 'export.zip'), path_of('vxsuite', make.EXAMPLES)
        with zipfile.ZipFile(path, 'w') as archive:
            for name in make.files_below(export):
                above, base = os.path.split(name)
                archive.write(os.path.join(export, name), name)
                archive.writestr(os.path.join('__MACOSX', above, '._' + base), b'\0\5\x16\7')
        text, log, status = run(['gather', path, '-o', os.path.join(folder, 'out')], cvr)
        see((log, status, text.count('left out')) == ('', 0, 1) and '/rejected-' in text, repr(text + log))


def see_replaced(_):
    """A file in whose place a link or another file stands, once it was looked at, isn't read."""
    with tempfile.TemporaryDirectory() as folder:
        path = os.path.join(folder, 'a')
        for put in lambda: os.symlink(os.path.join(folder, 'secret'), path), lambda: os.rename(os.path.join(folder, 'secret'), path):
            for name in 'a', 'secret':
                faults.write(os.path.join(folder, name), name.encode())
            source, _ = gather_source.sources_in([folder])
            os.remove(path)
            put()
            try:
                see(False, 'it is read: %r' % source.data())
            except program.Ended as end:
                see(end.log == ('cvr-audit: %s: it was changed while it was read\n' % path).encode(), repr(end.log))
            os.remove(path)


def see_limits(_):
    """A text of more bytes than are held at once isn't read whole."""
    source = gather_source.Source('a', 9, lambda: io.BytesIO('abc\u00e9\u00e9\u00e9'.encode()))
    see(source.text(9) == 'abc\u00e9\u00e9\u00e9', 'a text that is short enough')
    try:
        see(False, 'it is read: %r' % source.text(8))
    except program.Ended as end:
        see(end.log == b'cvr-audit: a: it has more than 8 bytes, which are too many to hold at once\n', repr(end.log))


def see_windows(way=None):
    """Documents of which a part is held are read rightly; a slip in that is found."""
    with tempfile.TemporaryDirectory() as folder:
        copy = companion.made(folder, way) if way else os.path.join(TOP, 'companion')
        words = [*companion.PYTHON, os.path.join(HERE, 'windows.py'), copy]
        done = subprocess.run(words, stdin=subprocess.DEVNULL, stdout=subprocess.PIPE, stderr=subprocess.STDOUT, timeout=SECONDS)
    *lines, last = done.stdout.decode().splitlines()
    is_found = done.returncode == 1 and lines and all(it.startswith('WRONG ') for it in lines)
    see(is_found if way else (done.returncode, lines) == (0, []), '\n    '.join([*lines[:5], last]))


def see_written(cvr):
    """Two written names of a contest are two votes. The root says where its schema is."""
    with tempfile.TemporaryDirectory() as folder:
        shutil.copytree(path_of('hart', make.EXAMPLES), os.path.join(folder, 'hart'))
        path, one = os.path.join(folder, faults.HART), b'<Option><Value>1</Value><WriteInData/></Option>'
        faults.write(path, faults.read(path).replace(b'<Options>', b'<Options>' + one * 2, 1).replace(
            b'<Cvr ', b'<Cvr xmlns:xsi="http://www.w3.org/2001/XMLSchema-instance" xsi:schemaLocation="a b" ', 1))
        gathered('hart', os.path.join(folder, 'hart'), cvr, os.path.join(folder, 'out'), words=['--votes', 'County Council=3'])


def see_stopped(cvr, number):
    """A run that is stopped leaves nothing."""
    with tempfile.TemporaryDirectory() as folder:
        false = os.path.join(folder, 'false')
        faults.write(false, b'#!/bin/sh\n[ "$1" = --version ] && exec "$REAL" --version\n: >"$0.seen"\nexec sleep 60\n')
        os.chmod(false, 0o700)
        words = [*companion.PYTHON, os.path.join(companion.compiled(), 'cvr-audit'), 'gather', path_of('cdf', make.EXAMPLES), '-o', os.path.join(folder, 'out')]
        process = subprocess.Popen(words, env=dict(os.environ, CVR=false, REAL=cvr), stdin=subprocess.DEVNULL, stdout=subprocess.PIPE, stderr=subprocess.PIPE)
        end = time.time() + 60
        while not os.path.exists(false + '.seen') and process.poll() is None and time.time() < end:
            time.sleep(0.05)
        process.send_signal(number)
        process.communicate(timeout=SECONDS)
        see(process.returncode == -number and sorted(os.listdir(folder)) == ['false', 'false.seen'], 'status %d, %r' % (process.returncode, os.listdir(folder)))


def lay(case, folder):
    """Lays the export of a planted case below a folder, which becomes that of this process."""
    os.chdir(folder)
    case.lay()


def path_in(case):
    """The path of a planted export that the recount takes."""
    return path_of(case.kind, 'export') if case.kind in NOT_THOSE else 'export'


def manifest_of(case):
    return case.given[1] if case.given else None


def see_planted(case, cvr, copy=None):
    """A planted case is refused, and with the options that the line names it is gathered rightly, and said to be what it is."""
    with tempfile.TemporaryDirectory() as folder:
        lay(case, folder)
        held = sorted(os.listdir())
        got = run(['gather', 'export', '-o', 'out', *case.given], cvr) if case.log else None
        see(not case.log or got == ('', 'cvr-audit: %s\n' % case.log, 1) and sorted(os.listdir()) == held, repr(got))
        text, log, status = run(['gather', 'export', '-o', 'out', *case.given, *case.words], cvr, copy)
        lines = [it for it in text.splitlines() if not it.startswith(('out/', 'left out'))]
        see((lines, log, status) == (case.text, '', 0), '%r, %r, %d' % (lines, log, status))
        found, _ = recount.differences(case.kind, path_in(case), cvr, 'out', is_meant='--test' in case.words, manifest=manifest_of(case))
        see(not found, '\n    '.join(found[:5]))


def see_way_said(case, cvr, copy):
    """What is printed of a case that isn't refused finds a slip."""
    try:
        see_planted(case, cvr, copy)
    except Wrong as wrong:
        see('Error' not in str(wrong), 'the copy doesn\'t run: %s' % wrong)
        return
    raise Wrong('not found by what is printed')


def see_planted_way(way, cvr):
    """Without its rule a planted case is gathered, and the recount finds it."""
    case = next(it for it in planted.CASES if it.name == way.kind)
    with tempfile.TemporaryDirectory() as folder:
        copy = companion.made(folder, way)
        if not case.log:
            return see_way_said(case, cvr, copy)
        lay(case, folder)
        got = run(['gather', 'export', '-o', 'out', *case.given], cvr, copy)
        see(got[1:] == ('', 0), repr(got))
        see(recount.differences(case.kind, path_in(case), cvr, 'out', manifest=manifest_of(case))[0], 'not found by the recount')


def see_way(way, cvr):
    """The recount of one of some random exports finds a slip."""
    with tempfile.TemporaryDirectory() as folder:
        copy = companion.made(folder, way)
        for seed in wrong_ways.SEEDS:
            try:
                see_random(way.kind, cvr, seed, copy)
            except Wrong as wrong:
                see('Error' not in str(wrong) or 'Traceback' not in str(wrong), 'the copy doesn\'t run: %s' % wrong)
                return
    raise Wrong('not found by the recount')


# ---- all trials

def trials(words):
    """Each trial: its name, and the call that makes it."""
    cvr = words.cvr
    few = [('%s, seed %d' % (kind, seed), partial(see_random, kind, cvr, seed)) for kind in make.KINDS for seed in SEEDS]
    few += [('wrong way %s of %s' % (it.name, it.kind), partial(see_way, it, cvr)) for it in wrong_ways.WAYS]
    few += [('wrong way %s of %s' % (it.name, it.kind), partial(see_planted_way, it, cvr)) for it in wrong_ways.PLANTED]
    of_kinds = [('the county in', see_county, make.KINDS), ('a ZIP of', see_zip, make.KINDS), ('no contest in a first file of', see_contests_missing, NOT_THOSE),
                ('names that meet in', see_names, BATCHES), ('two parts of', see_halves, ('vxsuite', 'dominion', 'ess', 'clearballot'))]
    every = [('%s %s' % (name, kind), partial(see_it, kind, cvr)) for name, see_it, held in of_kinds for kind in held]
    every += [(see_it.__name__, partial(see_it, cvr)) for see_it in (see_there, see_two_kinds, see_long, see_changed, see_bytes, see_variants,
                                                                   see_formulas, see_long_heads, see_mac, see_replaced, see_limits, see_written, see_lists)]
    every += [(it.name, partial(see_fault, it, cvr)) for it in faults.all_faults()]
    every += [('words ' + ' '.join(it[0]), partial(see_words, *it, cvr)) for it in misread_ess.REFUSED]
    every += [(it.name, partial(see_planted, it, cvr)) for it in planted.CASES]
    cases = [*misread.all_misread(), *misread_ess.all_misread()]
    every += [('%s of %s' % (it.name, it.kind), partial(see_misread, it, cvr)) for it in cases]
    every += [('%s of %s: %s' % (it.name, it.kind, way[0]), partial(see_misread_way, it, way, cvr)) for it in cases for way in it.ways]
    every += [('%s of %s: %s' % (it.name, it.kind, way and way[0]), partial(see_twice, it, cvr, way)) for it in misread_ess.all_twice() for way in (None, *it.ways)]
    every += [('signal %d' % number, partial(see_stopped, cvr, number)) for number in (signal.SIGINT, signal.SIGTERM)]
    every += [('windows: %s' % (way and way.name), partial(see_windows, way)) for way in (None, *wrong_ways.WINDOWS)]
    return [('examples', see_examples), *every, *tenth.chosen(words.tenth, few, itemgetter(0))]


def tried(place):
    """What the trial at a place finds wrong, or None."""
    name, call = HELD[place]
    os.chdir(TOP)
    try:
        call()
    except Wrong as wrong:
        return '%s: %s' % (name, wrong)
    except Exception as fault:
        return '%s: %s: %s' % (name, type(fault).__name__, fault)
    return None


def main():
    right = wrong = 0
    signal.signal(signal.SIGINT, signal.default_int_handler)        # what starts this in the background may have it ignored
    HELD.extend(trials(tenth.words().parse_args()))
    companion.compiled()
    with ProcessPoolExecutor(min(SIDE_BY_SIDE, len(os.sched_getaffinity(0))), multiprocessing.get_context('fork')) as pool:
        for found in pool.map(tried, range(len(HELD))):
            right, wrong = right + (found is None), wrong + (found is not None)
            if found:
                print('WRONG ' + found, flush=True)
    print('gather: %d right, %d wrong' % (right, wrong))
    return 1 if wrong or not right else 0


if __name__ == '__main__':
    sys.exit(main())
