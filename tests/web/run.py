#!/usr/bin/env python3
"""run.py --cvr PATH [--dist] [--tenth WORD] [--only chromium|firefox] [--pictures FOLDER]

Tests the page that tools/html makes of web/ and the module, in Chromium and in Firefox, each headless and driven by its
own protocol. The county of examples/, with a file that is refused and one that contradicts the others: each table, list
and sentence of the page is compared with what `cvr` prints, added up here, and with SHA-256 sums of the files; what its
buttons save, with the command's bytes; ballots, manifests and contests with what was worked out by hand (canvass.py);
which file is the definition, and what isn't in the tally (choosing.py); its warnings with those of cvr-audit in
tests/audit/rows.json; what it makes of exports of VxSuite and of ZIPs, with what cvr-audit gather makes, and the faults of
tests/gather; what it says of refused files, with the table of cvr-audit why, and of conflicts and other files that aren't
read (why.py). Names with markup, in Arabic and of 300 characters stand as texts. A run that is cancelled shows nothing,
and the next one is right. A page whose module is changed, or that gives another tally of its example, does nothing.
Chromium also shows it at the width
of a phone, in the dark, in forced colours and on paper, without a mouse, with a script that isn't run, with little
memory, and keeps what it asks the network for: nothing; a server here, which the page is made to call, hears nothing in
either. Another page imports the package for JavaScript from a server. In Chromium also slips of the page's own code
(slips.py) are each found, with --tenth a tenth of them.

tools/targets makes the module, or with --dist it is that of the release (dist_files.py). The page is made twice, and its
parts looked at; without the module or a browser only that is tried, which is said. The last line is `browser: N right, M
wrong`; the status is 0 only where M is 0 and N is not."""
import base64
import functools
import hashlib
import html.parser
import http.server
import json
import os
import re
import runpy
import shutil
import socket
import subprocess
import sys
import tempfile
import threading
import time

sys.dont_write_bytecode = True
HERE = os.path.dirname(os.path.abspath(__file__))
TOP = os.path.dirname(os.path.dirname(HERE))
sys.path[:0] = [HERE, *(os.path.join(TOP, it) for it in ('tests', 'tests/audit', 'tests/rows', 'companion'))]
import canvass      # noqa: E402
import choosing     # noqa: E402
import chromium     # noqa: E402
import dist_files   # noqa: E402
import exports      # noqa: E402
import firefox      # noqa: E402
import page_picture     # noqa: E402
import page_sets    # noqa: E402
import rows         # noqa: E402
import slips        # noqa: E402
import tenth        # noqa: E402
import why          # noqa: E402
from trial import CHOOSE, CLICK, COLUMNS, COUNTY, FILES, OPTIONS, PARTLY, PRESS, REFUSED, SETTLED, TEXTS, Found, Trial, given, saved, sum_of, tallied     # noqa: E402
from cvr_audit.advice import ADVICE         # noqa: E402
from cvr_audit.page_warnings import KINDS   # noqa: E402 (these stand beside this file, in tests, tests/audit or companion)

# The names of the county's definition, as the page has to show them.
NAMES = {'council': 'County Council council', 'council-iris': 'Iris Vale Heron Party council-iris', 'parks': 'Measure 1: parks parks',
         'council-omar': 'Omar Field Larch Party council-omar', 'council-other': 'Write-in council-other', 'parks-yes': 'Yes parks-yes',
         'parks-no': 'No parks-no', 'precinct-1': 'Old Mill precinct-1', 'precinct-2': 'Ferry Landing precinct-2', 'precinct-3': 'North Orchard precinct-3'}
SHORT = {'council-iris': 'Iris Vale', 'council-omar': 'Omar Field', 'council-other': 'Write-in', 'parks-yes': 'Yes', 'parks-no': 'No'}   # in the head of a column
TABLES = '''[...document.querySelectorAll('#answer table')].map(it => [it.caption.textContent, ...[...it.rows].map(row =>
  [...row.cells].map(cell => cell.textContent))])'''
LISTS = '''[...document.querySelectorAll('#answer dl')].map(it => [...it.children].map(one => one.textContent))'''
PAGES = 200         # of 64 KiB, for a browser with little memory
SOME = 2400         # records that it tallies, but can't look at
UNREAD = 'Starting. If this stays, this browser is too old for the page, or runs no JavaScript.'
REACHED = "[...document.querySelectorAll('input, select, button, summary')].filter(it => it.checkVisibility() && !it.disabled)"    # by the key Tab
ROLES = {'button', 'combobox', 'textbox', 'spinbutton', 'DisclosureTriangle'}      # of what has to have a name
READY = 'The page has tallied its own example rightly. It waits for files.'
ODD = {'Iris Vale': '<img src="x" onerror="document.title = 1">', 'Omar Field': 'عمر فيلد', 'County Council': 'x' * 300,
       'Alder County General Election': '</script><b>&amp;'}


def parts(line):
    """The parts of a line that `cvr` prints."""
    return [json.loads(it) if it[0] in '"n0123456789' else it for it in re.findall(r'"(?:[^"\\]|\\.)*"|[^ ]+', line)]


# ---- what the page has to show

def summed(rows, place):
    """The numbers of rows added up by what stands at a place, in the order of the first ones."""
    sums = {}
    for row in rows:
        numbers = row[3:9] + row[10::2]
        sums[row[place]] = [a + b for a, b in zip(sums.get(row[place], [0] * len(numbers)), numbers)]
    return sums


def texts(numbers):
    return ['{:,}'.format(it) for it in numbers]


def stated(contest, numbers):
    """The numbers of a contest, with a text in the place of those that none of the county's files states."""
    its = [it for path in FILES[1:-1] for record in read(path)['CVR'] for one in record['CVRSnapshot'] for it in one['CVRContest'] if it['ContestId'] == contest]
    lacking = {place for place in (1, 2) if not any(COLUMNS[place] in it for it in its)}
    return ['not stated' if place in lacking else it for place, it in enumerate(texts(numbers))]


def tables_of(text, records):
    """The tables of the contests, and those by unit, by batch and by device, that a tally and its records ask for."""
    rows = [parts(line) for line in text.splitlines()]
    contests, divided = [], []
    for contest, numbers in summed(rows, 0).items():
        held = [row for row in rows if row[0] == contest]
        selections, votes, name = held[0][9::2], numbers[6:], NAMES[contest].rpartition(' ')[0]
        contests.append(['Selections: ' + name, canvass.HEADS, *([NAMES[key], *canvass.cells(it, sum(votes), numbers[0])] for key, it in zip(selections, votes)),
                         ['All selections', *texts([sum(votes)]), '', '']])
        for what, its in ('unit', summed(held, 1)), ('batch', summed(held, 2)), ('device', canvass.by_device(records, contest, selections)):
            divided.append(['By %s: %s' % (what, name), [what, *COLUMNS, *(SHORT[key] for key in selections)],
                            *([NAMES.get(key, key), *stated(contest, it)] for key, it in its.items()), ['Sum', *stated(contest, numbers)]])
    return contests + divided


def lists_of(text, records):
    """The lists of the ballots, and of the contests: the ballots, and the other numbers."""
    yield canvass.counts_of(records)
    for contest, numbers in summed([parts(line) for line in text.splitlines()], 0).items():
        its = canvass.having(records, contest)
        yield ['Ballots', *texts(numbers[:1]), 'Adjudicated', str(len(list(filter(canvass.is_adjudicated, its))))]
        yield [it for name, number in zip(COLUMNS[1:], stated(contest, numbers)[1:]) for it in (name, canvass.on_ballots(its, contest, name, number))]


def inputs_of(trial):
    """The table of the files."""
    records = dict(line.rsplit(' ', 1) for line in trial.printed('check', 'definition.json', *FILES).decode().splitlines())
    states = ['definition; its records are not counted', *['accepted'] * 3,
              'refused, E3. The file does not have the form of a report: a required member is absent, at /CVR/0/UniqueId.Where: UniqueId of record 1Path: /CVR/0/UniqueId'
              'Record: "scanner-1" nullThere stands: nothingAround it: an object with "@type", "CreatingDeviceId", "ElectionId", "BallotStyleUnitId", "BatchId", "CurrentSnapshotId", '
              '"CVRSnapshot"Have it mended by the maker of the tool that wrote it, and exported again.']
    yield 'Definition and files'
    yield ['File', 'SHA-256', 'Bytes', 'Records', 'State']
    for name, state in zip(FILES, states):
        path = os.path.join(COUNTY, name)
        yield [name, sum_of(path), *texts([os.path.getsize(path)]), records.get(name, ''), state]


def conflicts_of(trial):
    """The table of the conflicts."""
    yield 'Names with several texts'
    yield ['What', 'Name', 'Texts']
    for line in trial.printed('conflicts', *FILES).decode().splitlines()[:-1]:
        its = parts(line)
        kind, names = (its[0], its[1:-1]) if its[0] == 'device' else (its[2], its[:2] + its[3:-1])
        yield [kind, ' '.join(names), '%d' % its[-1]]


def leaves(value, place=''):
    """The texts, numbers and empty parts of a value by their places, in the order of their names."""
    steps = sorted(value.items()) if isinstance(value, dict) else enumerate(value) if isinstance(value, list) else ()
    held = {}
    for step, part in steps:
        held.update(leaves(part, '%s/%s' % (place, step)))
    return held or {place: compact(value)}


def compact(value):
    return json.dumps(value, ensure_ascii=False, sort_keys=True, separators=(',', ':'))


def facts(report):
    """The kind and the name of each fact of a report, with its value."""
    for device in report['ReportingDevice']:
        yield ('device', device['@id']), device
    for record in report.get('CVR', []):
        name = record['CreatingDeviceId'], record['UniqueId']
        yield ('header', *name), {key: it for key, it in record.items() if key not in ('CVRSnapshot', 'CurrentSnapshotId')}
        for snapshot in record['CVRSnapshot']:
            yield ('snapshot', *name, snapshot['@id']), snapshot


def read(name):
    with open(os.path.join(COUNTY, name), encoding='utf-8') as file:
        return json.load(file)


def volume_of(trial):
    return json.loads(trial.printed('merge', 'definition.json', '2024-11-07T00:00:00Z', 'desk-1', '1', *FILES[1:]))


def beside_of(volume):
    """The tables of what differs in the conflicts, side by side: first the text of volume 1, then the others, the greatest first."""
    first, held = {name: compact(it) for name, it in facts(volume)}, {}
    for path in FILES[:-1]:     # the last one is refused
        report = read(path)
        for name, value in facts(dict(report, CVR=[]) if path == FILES[0] else report):
            held.setdefault(name, {}).setdefault(compact(value), []).append(path)
    for (kind, *names), texts in held.items():
        if len(texts) > 1:
            order = sorted(texts, key=lambda it: (it == first[(kind, *names)], it.encode()), reverse=True)
            parts = [leaves(json.loads(it)) for it in order]
            places = list(dict.fromkeys(place for it in parts for place in it))
            yield (kind, *names), ['Texts side by side', ['Member', *('Text %d' % (number + 1) for number in range(len(order)))], ['Files', *(' '.join(texts[it]) for it in order)],
                                   *([place, *(it.get(place, '') for it in parts)] for place in places if len({it.get(place) for it in parts}) > 1)]


# ---- what is tried

class Parts(html.parser.HTMLParser):
    """The scripts and the style of a page, its policy, and the names of its attributes."""

    def __init__(self, text):
        super().__init__()
        self.last, self.texts, self.policy, self.names = None, [], '', set()
        self.feed(text)

    def handle_starttag(self, tag, attributes):
        its = dict(attributes)
        self.last = tag if tag == 'style' or (tag == 'script' and 'type' not in its) else None
        self.names |= set(its)
        self.policy += its.get('content', '') if 'http-equiv' in its else ''

    def handle_endtag(self, tag):
        self.last = None

    def handle_data(self, text):
        self.texts += [text] if self.last else []


def see_made(trial, folder):
    """The path of the page with the module, which is made twice: the same bytes; its policy allows the script and the style in it."""
    paths, pages = [os.path.join(folder, it) for it in ('cvr.html', 'again.html')], []
    for path in paths:
        subprocess.run([sys.executable, TOP + '/tools/html', trial.module, path], stdout=subprocess.DEVNULL, check=True, timeout=dist_files.MAKING)
        with open(path, encoding='utf-8', newline='') as file:
            pages.append(file.read())
    trial.see('the page is the same each time', pages[0] == pages[1], True)
    its = Parts(pages[0])
    sums = [base64.b64encode(hashlib.sha256(it.encode()).digest()).decode() for it in its.texts]
    trial.see('its policy has the sums of its style and its script', [it in its.policy for it in sums], [True, True])
    for way in slips.WAYS + why.WAYS:
        with open(os.path.join(TOP, 'web', way.file), encoding='utf-8') as file:
            trial.see('a slip that fits: ' + way.name, file.read().count(way.old), 1)
    trial.see('nothing in it comes from elsewhere', its.names & {'src', 'href', 'srcset', 'action', 'onclick', 'onload'}, set())
    return paths[0]


def started(browser, trial, page):
    browser.open(page)
    trial.see('the page starts', browser.value(SETTLED), READY)


def see_county(browser, trial, page):
    trial.see('the county is tallied', tallied(browser, COUNTY, FILES), PARTLY + '.')
    text = trial.printed('tally', *FILES)
    trial.see('the text', browser.value(TEXTS % 'text'), text.decode())
    trial.see('its sum', browser.value(TEXTS % 'sum'), hashlib.sha256(text).hexdigest())
    volume = volume_of(trial)
    beside, names = dict(beside_of(volume)), [it[:2] for it in list(conflicts_of(trial))[2:]]
    besides = [beside[key] for key in sorted(beside, key=lambda key: names.index([key[0], ' '.join(key[1:])]))]
    trial.see('the tables', browser.value(TABLES), [list(conflicts_of(trial)), *besides, *canvass.tables_of(volume['CVR'], NAMES), *tables_of(text.decode(), volume['CVR']), list(inputs_of(trial))])
    head, *lists = browser.value(LISTS)
    trial.see('the lists', lists, list(lists_of(text.decode(), volume['CVR'])))
    version = trial.printed('--version').decode().splitlines()[0]
    trial.see('the head', head[2:], ['By', version + ', in a browser', 'Proved program', 'SHA-256 of its module ' + sum_of(trial.module), 'Page', 'SHA-256 ' + sum_of(page),
                                     'Command', 'cvr tally -- ' + ' '.join(FILES)])
    trial.see('the title', browser.value('document.title'), 'UNOFFICIAL: Alder County General Election')
    trial.see('the election', browser.value("document.querySelector('#answer h1').textContent"), 'Alder County General Election')
    widths = [[it.replace('%', '') for it in one] for one in browser.value(
        "[...document.querySelectorAll('.contest')].map(it => [...it.querySelectorAll('.bar')].map(one => one.style.width))")]
    votes = [it[6:] for it in summed([parts(line) for line in text.decode().splitlines()], 0).values()]
    trial.see('the bars', [[round(float(it)) for it in one] for one in widths], [[round(100 * it // max(one)) for it in one if it] for one in votes])


# The warnings that the page gives, of those of cvr-audit; conflicts have a section of their own.
WARNED = {*KINDS} - {'alone', 'device', 'header', 'snapshot', 'batch'}
BESIDE = """[...document.querySelectorAll('.conflict')].map(it => [it.querySelector('h3').textContent,
  ...[...it.querySelector('tbody tr').cells].slice(1).map(one => one.textContent)])"""
TITLES = {'device': 'Device', 'header': 'Header', 'snapshot': 'Snapshot'}
WARNINGS = """[...document.querySelectorAll('.warnings > li')].map(it => [it.firstChild.textContent, it.childNodes[1].textContent,
  ...[...it.querySelectorAll('.places > li')].map(one => one.textContent)])"""


def warnings_of(lines):
    """The warnings of the page that lines of cvr-audit ask for, by kind."""
    held = [line.rpartition(': @')[0].split(' ', 1) for line in lines]
    return [[KINDS[kind], ': %s ' % ADVICE[kind], *(parts for one, parts in held if one == kind)]
            for kind in KINDS if kind in WARNED and kind in [one for one, _ in held]]


def conflicts_in(lines):
    """The conflicts of the page that lines of cvr-audit ask for: each name, and the files of each of its texts."""
    for line in lines:
        kind, _, rest = line.rpartition(': @')[0].partition(' ')
        if kind in TITLES:
            name, *files = re.split(r' text \d+ ', rest)
            yield [' '.join([TITLES[kind], *map(str, parts(name))]), *(' '.join(parts(it)) for it in files)]


def see_warnings(browser, trial):
    """The rows of cvr-audit on warnings; not those of a manifest, of no file, or of another program, nor those with a line that is none."""
    held = [dict(it, words=[one for one in it['words'] if one != '--all']) for it in rows.held() if it['words'][0] == 'warnings']
    held = [it for it in held if len(it['words']) > 2 and '--manifest' not in it['words'] and 'program' not in it and all(': @' in line for line in it['out']) and (it['out'] or not it['status'])]
    for row in held:
        with tempfile.TemporaryDirectory() as folder:
            rows.lay(folder, row.get('files', {}))
            names = list(dict.fromkeys(os.path.normpath(it) for it in row['words'][1:]))        # a definition with records is one of the files by itself
            trial.see(row['name'], tallied(browser, folder, names, names[0]), 'Done.')
            trial.see('the warnings of ' + row['name'], browser.value(WARNINGS), warnings_of(row['out']))
            trial.see('the conflicts of ' + row['name'], sorted(browser.value(BESIDE)), sorted(conflicts_in(row['out'])))


FOLDED = "[...document.querySelectorAll('.warnings summary')].map(it => it.textContent)"


def see_folded(browser, trial):
    """The row of cvr-audit whose lines are folded: their number in each file."""
    row = next(it for it in rows.held() if it['name'].startswith('twelve lines of one kind, folded'))
    with tempfile.TemporaryDirectory() as folder:
        rows.lay(folder, row['files'])
        trial.see(row['name'], tallied(browser, folder, row['words'][1:]), 'Done.')
        trial.see('what is folded', browser.value(FOLDED), ['12 cases: one.json 7, two.json 5'])
    row = next(it for it in rows.held() if it['name'].startswith('twelve lines of one kind, of eleven files'))
    with tempfile.TemporaryDirectory() as folder:
        rows.lay(folder, {**row['files'], **{it: row['files']['f01.json'] for it in ('g01.json', 'g02.json')}})
        names = [*row['words'][1:], 'g01.json', 'g02.json']
        trial.see(row['name'], tallied(browser, folder, names), 'Done.')
        trial.see('what is folded, of many files', browser.value(FOLDED), ['12 cases: 13 files'])
        trial.see('a long command is folded', browser.value("document.querySelector('#answer header summary').textContent"), 'cvr tally of 13 files, as Inputs has them')


RANKS = [['Selections by rank: Mayor', ['Selection', 'Rank 1', 'Rank 2', 'Rank 3'], ['Ada ada', '10', '10', '0'], ['Bob bob', '10', '0', '10'], ['Cyd cyd', '10', '10', '0']],
         ['Selections by rank: Score', ['Selection', 'No rank'], ['Low low', '0'], ['High high', '30']],
         ['Selections: Tax', canvass.HEADS, ['Yes yes', '\u00a030', '100.0', '100.0'], ['No no', '0', '0.0', '0.0'], ['All selections', '30', '', '']]]


def see_ranks(browser, trial):
    """Contests of ranks and of scores, which page_sets.py makes: no bars, and no sum of all ranks."""
    with tempfile.TemporaryDirectory() as folder:
        for name, data in page_sets.texts_of(page_sets.ranked()).items():
            with open(os.path.join(folder, name), 'wb') as file:
                file.write(data)
        trial.see('ranks', tallied(browser, folder, ['def.json', 'ranked.json']), 'Done.')
        tables = browser.value(TABLES)
        trial.see('ranks: the tables', [it for it in tables if it[0].startswith('Selections')], RANKS)
        trial.see('ranks: by unit', [it[1][1:] for it in tables if it[0].startswith('By unit')], [COLUMNS, COLUMNS, [*COLUMNS, 'Yes', 'No']])
        trial.see('ranks: no sum', [[len(row) for row in it[1:]] for it in tables if it[0].startswith('By unit')], [[7, 7, 7], [7, 7, 7], [9, 9, 9]])
        trial.see('ranks: a sentence', browser.value("[...document.querySelectorAll('.contest')].map(it => it.textContent.includes('no rounds are computed'))"), [True, True, False])


def see_no_device(browser, trial, folder):
    """A definition without a device, for which `cvr merge` makes no volume."""
    with open(os.path.join(COUNTY, 'definition.json'), encoding='utf-8') as file:
        report = json.load(file)
    with open(os.path.join(folder, 'definition.json'), 'w', encoding='utf-8') as file:
        json.dump(dict(report, ReportingDevice=[], ReportGeneratingDeviceIds=[]), file)
    shutil.copy(os.path.join(COUNTY, 'scan.json'), folder)
    trial.see('no device', tallied(browser, folder, ['definition.json', 'scan.json']), 'Done.')
    warned = [it[0] for it in browser.value(WARNINGS)]
    trial.see('no device: its warnings', warned, ['Pending'])
    trial.see('no device: a note', 'no current snapshot was looked at' in browser.value(TEXTS % 'answer'), True)


def see_saved(browser, trial):
    text = trial.printed('tally', *FILES)
    trial.see('the text, as a file', saved(browser, 'Save the text', 'tally-incomplete.txt'), text)     # a file is refused
    trial.see('the totals as CSV', saved(browser, 'Save the totals as CSV', 'tally-incomplete.csv').decode(), csv_of(text.decode()))


def see_volume(browser, trial):
    """A volume of merge that is saved: the command's bytes; and fields of which there is none."""
    words, label = ['merge', '--', 'definition.json', '2024-11-07T00:00:00Z', 'desk-1', '2', *FILES[1:]], 'Save the volume'
    why.see_fields(browser, trial, PRESS % label)
    for key, value in ('date', '2024-11-07T00:00:00Z'), ('device', 'desk-1'), ('number', '2'):
        browser.value("(document.getElementById('%s').value = '%s')" % (key, value))
    trial.see('the volume', saved(browser, label, 'volume-2.json'), trial.printed(*words))
    trial.see('it is said', browser.value(SETTLED), 'Saved, as by: cvr ' + ' '.join(words))


def csv_of(text):
    """The CSV that a tally asks for: the sums of each contest, and the rows."""
    rows = [parts(line) for line in text.splitlines()]
    lines = [canvass.CSV_HEAD]
    for contest, numbers in summed(rows, 0).items():
        lines += csv_lines('sum,,,', contest, next(row[9::2] for row in rows if row[0] == contest), numbers)
    for contest, unit, batch, *its in rows:
        lines += csv_lines('row,%s,%s,%s' % (unit, NAMES[unit].rpartition(' ')[0], batch), contest, its[6::2], its[:6] + its[7::2])
    return '\ufeff%s\r\n"NOT IN THE TALLY: damaged.json: %s"\r\n' % (PARTLY, REFUSED) + ''.join(it + '\r\n' for it in lines)


def csv_lines(where, contest, selections, numbers):
    """The line of a contest with its numbers, and those of its selections with their votes."""
    head = '%s,%s,%s' % (where, contest, NAMES[contest].rpartition(' ')[0])
    yield '%s,,,%d,%s' % (head, sum(numbers[6:]), ','.join(it.replace(',', '') for it in stated(contest, numbers[:6])))
    yield from ('%s,%s,%s,%d,,,,,,' % (head, key, SHORT[key], votes) for key, votes in zip(selections, numbers[6:]))


def see_odd(browser, trial, folder):
    """Names that a page could take for something else."""
    for name in FILES[:3]:
        with open(os.path.join(COUNTY, name), encoding='utf-8') as file:
            text = file.read()
        for old, new in ODD.items():
            text = text.replace(json.dumps(old), json.dumps(new))
        with open(os.path.join(folder, name), 'w', encoding='utf-8') as file:
            file.write(text)
    trial.see('odd names are tallied', tallied(browser, folder, FILES[:3]), 'Done.')
    shown = browser.value("[document.querySelector('#answer h1').textContent, ...[...document.querySelectorAll('.contest bdi')].map(it => it.textContent)]")
    trial.see('odd names stand as texts', [it in shown for it in ODD.values()], [True] * len(ODD))
    trial.see('none is markup', browser.value("document.querySelectorAll('#answer img, #answer b, #answer script').length"), 0)
    trial.see('none is run', browser.value('document.title'), 'UNOFFICIAL: ' + ODD['Alder County General Election'])


def many(folder, count):
    """A file of many records, made of the county's."""
    with open(os.path.join(COUNTY, 'scan.json'), encoding='utf-8') as file:
        report = json.load(file)
    report['CVR'] = [dict(report['CVR'][0], UniqueId='many-%d' % it) for it in range(count)]
    with open(os.path.join(folder, 'many.json'), 'w', encoding='utf-8') as file:
        json.dump(report, file)


def see_cancel(browser, trial, folder, seconds=1):
    """A run that is cancelled shows nothing, also not `seconds` after the next one is done."""
    many(folder, 20000)
    given(browser, [os.path.join(COUNTY, 'definition.json'), os.path.join(folder, 'many.json')])
    browser.value(CLICK % 'tally')
    time.sleep(0.3)
    busy = browser.value("document.getElementById('cancel').hidden")
    browser.value(CLICK % 'cancel')
    trial.see('there is a run to cancel', busy, False)
    trial.see('a run is cancelled', browser.value(TEXTS % 'state'), 'Cancelled. Nothing is shown.')
    end = time.time() + seconds
    while browser.value(TEXTS % 'state').startswith('Cancelled') and time.time() < end:
        time.sleep(0.1)
    trial.see('nothing goes on', browser.value(TEXTS % 'state'), 'Cancelled. Nothing is shown.')
    trial.see('nothing is shown then', browser.value(TEXTS % 'answer'), '')
    trial.see('the next run is done', tallied(browser, COUNTY, FILES[:3]), 'Done.')
    trial.see('and right', browser.value(TEXTS % 'text'), trial.printed('tally', *FILES[:3]).decode())
    text, end = trial.printed('tally', *FILES[:3]).decode(), time.time() + seconds
    while browser.value(TEXTS % 'text') == text and time.time() < end:
        time.sleep(0.1)
    trial.see('and stays', browser.value(TEXTS % 'text'), text)


UNSEEN = 'Memory does not suffice to look at all records'


def see_unseen(browser, trial, folder):
    """Files for whose tally memory suffices, and not for volume 1."""
    many(folder, SOME)
    shutil.copy(os.path.join(COUNTY, 'definition.json'), folder)
    names = ['definition.json', 'many.json']
    trial.see('files without volume 1', tallied(browser, folder, names), 'Done.')
    trial.see('what was not looked at', UNSEEN in browser.value(TEXTS % 'answer'), True)
    text = trial.printed('tally', *(os.path.join(folder, it) for it in names))
    trial.see('their tally', browser.value(TEXTS % 'text'), text.decode())


def see_memory(trial, page):
    """A browser whose modules get little memory: files that need more are refused, and fewer are tallied then."""
    with tempfile.TemporaryDirectory() as folder:
        many(folder, 20000)
        browser = chromium.Browser(folder, '--js-flags=--wasm-max-mem-pages=%d' % PAGES)
        try:
            started(browser, trial, page)
            given(browser, [os.path.join(COUNTY, 'definition.json'), os.path.join(folder, 'many.json')])
            browser.value(CLICK % 'tally')
            said = 'This browser refused memory. Free memory, or hand in fewer files. Nothing is shown.'
            trial.see('files for which memory does not suffice', browser.value(SETTLED), said)
            trial.see('fewer files then', tallied(browser, COUNTY, FILES[:3]), 'Done.')
            trial.see('their text', browser.value(TEXTS % 'text'), trial.printed('tally', *FILES[:3]).decode())
            trial.see('they are looked at', UNSEEN in browser.value(TEXTS % 'answer'), False)
            see_unseen(browser, trial, folder)
        finally:
            browser.end()


def see_refused(browser, trial, folder):
    """A definition that is refused, and a file that is changed before it is read."""
    trial.see('a refused definition', tallied(browser, COUNTY, ['damaged.json', 'scan.json'], 'damaged.json'), 'The definition was refused, so there is no tally.')
    trial.see('shows why', 'refused, E3' in browser.value(TEXTS % 'answer'), True)
    path = os.path.join(folder, 'changing.json')
    for text in '{}', '{"a": 1, "b": 2}':
        with open(path, 'w') as file:
            file.write(text)
        if text == '{}':
            given(browser, [os.path.join(COUNTY, 'definition.json'), path])
    browser.value(CHOOSE % 'definition.json')
    browser.value(SETTLED)
    browser.value(CLICK % 'tally')
    # Chromium sees the change; Firefox reads as many bytes as there were, and the page has their sum.
    said, shown = browser.value(SETTLED), browser.value(TEXTS % 'answer')
    read = hashlib.sha256(text[:2].encode()).hexdigest() in shown and 'refused, E2' in shown
    trial.see('a changed file', said.startswith("changing.json can't be read") or read, True)


def see_network(browser, trial):
    with socket.socket() as server:
        server.bind(('127.0.0.1', 0))
        server.listen()
        server.settimeout(1)
        url = 'http://127.0.0.1:%d/' % server.getsockname()[1]
        trial.see('a request is refused', browser.value("fetch('%s').then(() => 'sent', () => 'refused')" % url), 'refused')
        browser.value("(document.body.append(Object.assign(new Image(), {src: '%s'})), 0)" % url)
        try:
            heard = server.accept()[1]
        except socket.timeout:
            heard = None
        trial.see('a server hears nothing', heard, None)
    asked = [it for it in getattr(browser, 'asked', []) if not it.startswith(('file:', 'blob:', 'data:', url))]
    trial.see('nothing is asked of the network', asked, [])


class Served(http.server.SimpleHTTPRequestHandler):
    """Files of a folder, for a page from anywhere."""

    def end_headers(self):
        self.send_header('Access-Control-Allow-Origin', '*')
        super().end_headers()

    def log_message(self, *_):
        """Says nothing."""


SCRIPT = """<!DOCTYPE html><meta charset="utf-8"><title>cvr</title><p id="state">Starting</p><script type="module">
const say = it => { document.getElementById('state').textContent = it }, from = it => 'http://127.0.0.1:%d/' + it
try {
  const cvr = await import(from('cvr.mjs')), names = %s
  const [definition, ...files] = await Promise.all(names.map(async it => new File([await (await fetch(from(it))).blob()], it)))
  const rows = await cvr.tally(definition, files.slice(0, 2)), [fault, path] = await Promise.all([[definition, files], [names[0], files]].map(it => cvr.tally(...it).catch(it => it)))
  say(JSON.stringify([rows.map(it => [...Object.values(it).slice(0, -1), ...[...it.votes].flat()]), [fault.file, fault.code, fault.path, fault.rule], path.name]))
} catch (fault) {
  say('fault: ' + fault)
}
</script>"""


def see_script(browser, trial, folder):
    """A page that imports the package for JavaScript from a server."""
    served, page, names = os.path.join(folder, 'served'), os.path.join(folder, 'script.html'), ['definition.json', 'scan.json', 'adjudicated.json', 'damaged.json']
    os.mkdir(served)
    for path in trial.module, TOP + '/javascript/cvr.mjs', *(os.path.join(COUNTY, it) for it in names):
        shutil.copy(path, os.path.join(served, 'cvr.wasm' if path == trial.module else os.path.basename(path)))
    with http.server.ThreadingHTTPServer(('127.0.0.1', 0), functools.partial(Served, directory=served)) as server:
        threading.Thread(target=server.serve_forever, daemon=True).start()
        with open(page, 'w', encoding='utf-8') as file:
            file.write(SCRIPT % (server.server_port, json.dumps(names)))
        browser.open(page)
        said = browser.value(SETTLED)
        server.shutdown()
    wanted = [[parts(it) for it in trial.printed('tally', *names[:3]).decode().splitlines()], ['damaged.json', 'E3', '/CVR/0/UniqueId', 2], 'TypeError']
    trial.see('a page that imports the package', json.loads(said) if said.startswith('[') else said, wanted)


def see_changed(browser, trial, page, folder):
    """A page with another module, and one whose example has another tally."""
    with open(page, encoding='utf-8') as file:
        text = file.read()
    other = os.path.join(folder, 'other.html')
    for what, old, new in ('another sum', r'"sum": "[0-9a-f]{64}"', '"sum": "%s"' % ('0' * 64)), ('another module', r'(?<=id="module">)[^<]{40}', 'A' * 40):
        with open(other, 'w', encoding='utf-8', newline='') as file:
            file.write(re.sub(old, new, text))
        browser.open(other)
        said = browser.value(SETTLED)
        trial.see('a page with ' + what, (said[:38], browser.value("document.getElementById('give').hidden")), ("This page can't work in this browser: ", True))


def see_unread(browser, trial, page, folder):
    """Chromium: a page whose script isn't run, as in a browser that is too old to read it, says so in words."""
    other = os.path.join(folder, 'unread.html')
    with open(page, encoding='utf-8', newline='') as file:
        text = file.read().replace("'use strict'\n// The page: ", "'use strict'\n// Another: ")      # not what its policy has the sum of
    with open(other, 'w', encoding='utf-8', newline='') as file:
        file.write(text)
    browser.open(other)
    told = browser.value('typeof start'), browser.value(TEXTS % 'state'), browser.value("document.getElementById('give').hidden")
    trial.see('a script that is not run', told, ('undefined', UNREAD, True))


def press(browser, key, number, text=''):
    """Presses a key, which has a number and may write a text."""
    its = {'key': key, 'code': key, 'windowsVirtualKeyCode': number}
    browser.call('Input.dispatchKeyEvent', type='keyDown', text=text, **its)
    browser.call('Input.dispatchKeyEvent', type='keyUp', **its)


def see_keys(browser, trial, page):
    """Chromium: the page without a mouse. Tab goes to each field, button and fold in turn, and each has a name; Enter has
    the files tallied, and opens a fold."""
    browser.open(page)
    browser.value(SETTLED)
    given(browser, [os.path.join(COUNTY, it) for it in FILES])
    browser.value("document.getElementById('definition').focus()")
    press(browser, 'Tab', 9)
    trial.see('Tab goes to the button', browser.value('document.activeElement.id'), 'tally')
    press(browser, 'Enter', 13, '\r')
    trial.see('Enter has the files tallied', browser.value(SETTLED), PARTLY + '.')
    trial.see('the focus goes to the heading', browser.value("document.activeElement === document.querySelector('#answer h1')"), True)
    first = browser.value("(%s).findIndex(it => it.closest('#answer'))" % REACHED)
    wanted, found = browser.value('(%s).length' % REACHED), []
    for _ in range(2 * wanted):     # it also stops at what can be scrolled, and at the end of the page
        press(browser, 'Tab', 9)
        found += [browser.value('(%s).indexOf(document.activeElement)' % REACHED)]
    found = [it for it in found if it >= 0][:wanted]
    trial.see('Tab goes to all in turn, from behind the heading', found, [*range(first, wanted), *range(first)])
    browser.call('Accessibility.enable')
    nodes = [it for it in browser.call('Accessibility.getFullAXTree')['nodes'] if not it['ignored']]
    nameless = [it['role']['value'] for it in nodes if it['role']['value'] in ROLES and not it.get('name', {}).get('value')]
    trial.see('all have names', (nameless, {it['role']['value'] for it in nodes} >= ROLES - {'DisclosureTriangle'}), ([], True))
    browser.call('Accessibility.disable')
    browser.value("document.querySelector('summary').focus()")
    before = browser.value("document.querySelector('details').open")
    press(browser, 'Enter', 13, '\r')
    trial.see('Enter folds', browser.value("document.querySelector('details').open"), not before)


def see_views(browser, trial, page, pictures):
    """How Chromium shows it: on a phone, in the dark, on paper."""
    for width, media, features in (1280, '', []), (390, '', []), (1280, '', [{'name': 'prefers-color-scheme', 'value': 'dark'}]), (800, 'print', []):
        browser.open(page, width=width)
        browser.value(SETTLED)
        browser.call('Emulation.setEmulatedMedia', media=media, features=features)
        tallied(browser, COUNTY, FILES)
        what = '%d%s%s' % (width, media, 'dark' if features else '')
        if width == 390:
            choosing.see_narrow(browser, trial)
        trial.see('nothing is wider than the window, %s' % what, browser.value('document.documentElement.scrollWidth') <= width, True)
        colours = browser.value('[getComputedStyle(document.documentElement).color, getComputedStyle(document.documentElement).backgroundColor]')
        wanted = ['rgb(232, 232, 232)', 'rgb(22, 24, 27)'] if features else ['rgb(27, 27, 27)', 'rgb(255, 255, 255)']
        trial.see('the colours, %s' % what, colours, wanted)
        shown = browser.value("[...document.querySelectorAll('.ours')].some(it => it.offsetParent !== null)")
        trial.see('the buttons, %s' % what, shown, media != 'print')
        if pictures:
            keep_picture(browser, pictures, what)
    browser.call('Emulation.setEmulatedMedia', media='', features=[])
    if pictures:        # that of README
        browser.open(page, width=900, height=1000)
        browser.value(SETTLED)
        given(browser, [os.path.join(COUNTY, it) for it in (*FILES[:3], 'manifest.csv')])
        browser.value(CLICK % 'tally')
        browser.value(SETTLED)
        browser.value("[...document.querySelectorAll('#answer h2')].find(it => it.textContent === 'Ballots').scrollIntoView()")
        keep_picture(browser, pictures, None)


def keep_picture(browser, pictures, what):
    """Writes what Chromium shows, with fewer colours."""
    with open(os.path.join(pictures, 'browser%s.png' % ('-' + what if what else '')), 'wb') as file:
        file.write(page_picture.smaller(browser.picture()))


FILLED = """new Promise(done => {
  const look = left => { const its = %s; its.length || !left ? done(its) : setTimeout(look, 20, left - 1) }
  look(3000)
})""" % OPTIONS


def see_dropped(browser, trial, folder):
    """Chromium: a folder and a file that are dropped on the page. It hands on none below /dev, where other files here may be."""
    above, other = os.path.join(folder, 'dropped'), os.path.join(COUNTY, 'damaged.json')
    os.makedirs(above + '/scans')
    for name, to in ('definition.json', ''), ('adjudicated.json', ''), ('scan.json', 'scans'), ('manifest.csv', ''):
        shutil.copy(os.path.join(COUNTY, name), os.path.join(above, to))
    browser.value(CLICK % 'clear')
    browser.drop('#drop', [above, other])
    trial.see('what was dropped', browser.value(FILLED), ['damaged.json', 'dropped/adjudicated.json', 'dropped/definition.json', 'dropped/scans/scan.json'])
    browser.value(CLICK % 'tally')
    trial.see('it is tallied', browser.value(SETTLED), 'INCOMPLETE: 1 of 3 files was refused.')
    trial.see('its text', browser.value(TEXTS % 'text'), trial.printed('tally', *FILES[:3]).decode())


def see_forced(browser, trial, page, pictures):
    """In forced colours, where a ground may be missing, the bars have an edge that is seen."""
    browser.open(page)
    browser.value(SETTLED)
    browser.call('Emulation.setEmulatedMedia', media='', features=[{'name': 'forced-colors', 'value': 'active'}])
    tallied(browser, COUNTY, FILES)
    edges = browser.value("""[...document.querySelectorAll('.bar')].filter(it => it.offsetWidth > 2).map(it => getComputedStyle(it)).map(it =>
      it.borderTopStyle === 'solid' && it.borderTopColor !== getComputedStyle(document.documentElement).backgroundColor)""")
    if pictures:
        keep_picture(browser, pictures, 'forced')
    trial.see('forced colours', [browser.value("matchMedia('(forced-colors: active)').matches"), edges != [] and all(edges)], [True, True])
    browser.call('Emulation.setEmulatedMedia', media='', features=[])


def slipped(way, module):
    """The page with a slip in its code."""
    html = runpy.run_path(os.path.join(TOP, 'tools/html'))
    held = html['held']

    def with_slip(*path):
        return held(*path).replace(way.old.encode(), way.new.encode()) if path[-1] == way.file else held(*path)
    html['page'].__globals__['held'] = with_slip
    return html['page'](held(module))


def see_ways(browser, trial, folder, word):
    """Each slip of the page is found, once the page has started."""
    page = os.path.join(folder, 'slip.html')
    seen = {
        'county': lambda own: see_county(browser, own, page), 'warnings': lambda own: see_warnings(browser, own),
        'ranks': lambda own: see_ranks(browser, own), 'folded': lambda own: see_folded(browser, own),
        'odd': lambda own: see_odd(browser, own, tempfile.mkdtemp(dir=folder)), 'cancel': lambda own: see_cancel(browser, own, folder, 240),
        'no device': lambda own: see_no_device(browser, own, tempfile.mkdtemp(dir=folder)),
        'gather': lambda own: exports.see_exports(browser, own, folder, True),
        'saved': lambda own: (tallied(browser, COUNTY, FILES), see_saved(browser, own)), 'keys': lambda own: see_keys(browser, own, page),
        'narrow': lambda own: (browser.open(page, width=390), browser.value(SETTLED), tallied(browser, COUNTY, FILES), choosing.see_narrow(browser, own)),
        **canvass.ways(browser, page), **why.seen(browser),
        **{it.__name__: lambda own, call=it: call(browser, own, tempfile.mkdtemp(dir=folder)) for it in choosing.ALL}}
    for way in tenth.chosen(word, slips.WAYS + why.WAYS, lambda it: it.name):
        own = Trial(trial.name, trial.cvr, trial.module, False)
        with open(page, 'w', encoding='utf-8', newline='') as file:
            file.write(slipped(way, trial.module))
        starts = False
        try:
            started(browser, own, page)
            starts = True
            seen[way.seen](own)
        except Found:
            pass
        except OSError:         # with some the page answers no more
            own.wrong += 1
        trial.see('a slip is found: ' + way.name, (starts, own.wrong > 0), (True, True))


def see_browser(kind, trial, page, words):
    with tempfile.TemporaryDirectory() as folder:
        browser = kind.Browser(tempfile.mkdtemp(dir=folder))
        try:
            started(browser, trial, page)
            see_county(browser, trial, page)
            see_saved(browser, trial)
            see_volume(browser, trial)
            see_warnings(browser, trial)
            see_folded(browser, trial)
            see_ranks(browser, trial)
            canvass.see_all(browser, trial, page, kind is chromium)
            see_no_device(browser, trial, folder)
            see_odd(browser, trial, tempfile.mkdtemp(dir=folder))
            exports.see_exports(browser, trial, folder, kind is chromium)
            choosing.see_choosing(browser, trial, folder, kind is chromium)
            see_refused(browser, trial, folder)
            why.see_all(browser, trial)
            see_cancel(browser, trial, folder)
            see_network(browser, trial)
            if kind is chromium:
                with tempfile.TemporaryDirectory(dir='/var/tmp') as shown:
                    see_dropped(browser, trial, shown)
                see_views(browser, trial, page, words.pictures)
                see_forced(browser, trial, page, words.pictures)
                see_keys(browser, trial, page)
                see_unread(browser, trial, page, folder)
                see_ways(browser, trial, folder, words.tenth)
            see_changed(browser, trial, page, folder)
            see_script(browser, trial, folder)
        finally:
            browser.end()


def main():
    words = tenth.words()
    words.add_argument('--dist', action='store_true', help='try the module of the release')
    words.add_argument('--only', help='the name of a browser')
    words.add_argument('--pictures', help='a folder for pictures of the page')
    words = words.parse_args()
    with tempfile.TemporaryDirectory() as folder:
        module = dist_files.taken('wasm/cvr.wasm', words.dist, folder)
        if not module:
            tenth.leave_out('cvr.html in a browser', dist_files.LACKS if words.dist else 'tools/targets makes no module')
        found = [Trial('page', words.cvr, module or os.path.join(HERE, 'run.py'))]
        page = see_made(found[0], folder)
        for name, kind in [('chromium', chromium), ('firefox', firefox)] if module else []:
            if words.only in (None, name) and not kind.program():
                tenth.leave_out('cvr.html in ' + name, 'it is not there')
            elif words.only in (None, name):
                found.append(Trial(name, words.cvr, module))
                see_browser(kind, found[-1], page, words)
                if kind is chromium:
                    see_memory(found[-1], page)
                print('%s: %d right, %d wrong' % (name, found[-1].right, found[-1].wrong), flush=True)
    right, wrong = sum(it.right for it in found), sum(it.wrong for it in found)
    print('browser: %d right, %d wrong' % (right, wrong))
    sys.exit(0 if right and not wrong else 1)


if __name__ == '__main__':
    main()
