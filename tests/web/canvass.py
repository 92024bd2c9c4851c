"""canvass.py: the page as the working paper of a canvass: ballots by unit, batch and device beside a manifest; per cents, sums
and sentences of contests; and what is saved and printed. What it has to show is worked out by hand (contests.json, and the
county of LINES here), added up from the records, or printed by cvr-audit; manifests are read by cvr-audit, too."""
import csv
import decimal
import html.parser
import io
import json
import os
import re
import shutil
import subprocess
import tempfile

import contests
import page_sets
import rows
from cvr_audit import manifest, program
from cvr_audit.advice import ADVICE
from trial import CLICK, COLUMNS, COUNTY, FILES, PARTLY, REFUSED, SECONDS, SETTLED, TEXTS, given, saved, sum_of, tallied

HEADS = ['Selection', 'Votes', '% of votes', '% of ballots']
CSV_HEAD = 'of,BallotStyleUnitId,unit,BatchId,ContestId,contest,ContestSelectionId,selection,votes,ballots,overvotes,undervotes,write-ins,pending,unassigned'
STATED = 'Overvotes', 'Undervotes'
GROUPS = [('unit', ['Unit'], ['BallotStyleUnitId']), ('batch', ['Batch', 'Device'], ['BatchId', 'CreatingDeviceId']), ('device', ['Device'], ['CreatingDeviceId'])]
TABLES = '''[...document.querySelectorAll('%s table')].map(it => [it.caption.textContent, ...[...it.rows].map(row => [...row.cells].map(one => one.textContent))])'''
SECTION = "[...document.querySelectorAll('#answer > section')].find(it => it.querySelector('h2').textContent === 'Ballots')"
BALLOTS = TABLES.replace("document.querySelectorAll('%s table')", SECTION + ".querySelectorAll('table')")
SAID = SECTION.join(['[...', ".querySelectorAll('p')].map(it => it.textContent)"])


# ---- what records ask for

def current(record):
    return next(it for it in record['CVRSnapshot'] if it['@id'] == record['CurrentSnapshotId'])


def is_adjudicated(record):
    notes = current(record).get('Annotation', [])
    return any('TimeStamp' in it or len(it.get('AdjudicatorName', [])) > 0 for it in notes)


def contest_in(record, key):
    return next((it for it in current(record).get('CVRContest', []) if it['ContestId'] == key), None)


def having(records, key):
    """The records with a contest."""
    return [it for it in records if contest_in(it, key) is not None]


def on_ballots(records, key, name, number):
    """A number of a contest, with how many ballots it is on."""
    count = len([it for it in records if contest_in(it, key).get(name, 0) > 0]) if name in STATED else 0
    return number + (', on %d ballot%s' % (count, 's' * (count != 1)) if count else '')


def by_device(records, key, selections):
    """The numbers of a contest on each device."""
    sums = {}
    for record in having(records, key):
        its = contest_in(record, key)
        numbers = dict.fromkeys(['ballots', *STATED, 'WriteIns', 'pending', None, *selections], 0)
        numbers.update({'ballots': 1}, **{it: its.get(it, 0) for it in (*STATED, 'WriteIns')})
        for chosen in its.get('CVRContestSelection', []):
            for one in chosen['SelectionPosition']:
                if one.get('IsAllocable', one['HasIndication']) == 'yes':
                    numbers[chosen.get('ContestSelectionId')] += one['NumberVotes']
                elif one['HasIndication'] == 'yes' and one.get('IsAllocable') == 'unknown':
                    numbers['pending'] += one['NumberVotes']
        held = sums.setdefault(record['CreatingDeviceId'], [0] * len(numbers))
        sums[record['CreatingDeviceId']] = [a + b for a, b in zip(held, numbers.values())]
    return dict(sorted(sums.items()))


def counts_of(records):
    """The list of the ballots, where each has one record."""
    types = [current(it)['Type'] for it in records]
    return ['Ballots', str(len(records)), 'Adjudicated', str(len(list(filter(is_adjudicated, records)))),
            'Snapshots', ', '.join('%s %d' % (it, types.count(it)) for it in sorted(set(types)))]


def tables_of(records, names):
    """The tables of the ballots, where each has one record with a unit and a batch, and no manifest is given."""
    for title, heads, members in GROUPS:
        keys = [tuple(record[it] for it in members) for record in records]
        yield ['Ballots by ' + title, [*heads, 'Ballots'], *([*(names.get(it, it) for it in key), str(keys.count(key))] for key in sorted(set(keys))),
               ['Sum', *[''] * (len(heads) - 1), str(len(records))]]


def per_cent(votes, whole):
    if not whole:
        return '–'
    return str((decimal.Decimal(100 * votes) / whole).quantize(decimal.Decimal('0.1'), decimal.ROUND_HALF_UP))


def cells(votes, every, ballots):
    """The cells of a selection."""
    return [('\u00a0' if votes else '') + '{:,}'.format(votes), per_cent(votes, every), per_cent(votes, ballots)]


# ---- contests worked out by hand

PARTS = '''[...document.querySelectorAll('.contest')].map(it => [it.querySelector('caption').textContent, [...it.querySelectorAll('tbody tr')].map(row =>
  [...row.cells].slice(1).map(one => one.textContent)), [...it.querySelectorAll('dd')].map(one => one.textContent), it.querySelector(':scope > p:last-child').textContent])'''


def wanted_of(case):
    """What the page has to show of the contests of a case."""
    for key, its in case['wanted'].items():
        numbers = contests.texts(map(its.get, contests.COLUMNS))
        others = [number + (', on %d ballot%s' % (its['on'][name], 's' * (its['on'][name] != 1)) if name in its['on'] else '') for name, number in zip(COLUMNS[1:], numbers[1:])]
        lines = [[('\u00a0' if votes else '') + '{:,}'.format(votes), *shares] for votes, *shares in zip(its['votes'].values(), its['of the votes'], its['of the ballots'])]
        yield ['Selections: ' + case['contests'][key]['name'], lines, [numbers[0], str(its['adjudicated']), *others], its['said']]


def see_cases(browser, trial):
    """The contests of contests.json, of which cvr-audit says the same; also by device."""
    for case in contests.held():
        with tempfile.TemporaryDirectory() as folder:
            trial.see(case['name'], tallied(browser, folder, contests.lay(folder, case)), 'Done.')
        trial.see('the contests of ' + case['name'], browser.value(PARTS), list(wanted_of(case)))
        found = {it[0]: it[2:-1] for it in browser.value(TABLES % '#answer') if it[0].startswith('By device')}
        wanted = {'By device: ' + case['contests'][key]['name']: [[one, *contests.texts(numbers)] for one, numbers in its['devices'].items()] for key, its in case['wanted'].items()}
        trial.see('by device: ' + case['name'], found, wanted)
    other = browser.value("(() => { try { seeSame('a', [3n], new Map([['d', [1n]], ['e', [1n]]])); return 'none' } catch (fault) { return fault.said } })()")
    trial.see('records that come to other sums', other, "the records don't come to what cvr tally prints of a")


def see_wide(browser, trial):
    """A contest with twelve selections: tables as wide as a sheet."""
    chosen = [('s%02d' % it, 'Selection %d' % it) for it in range(12)]
    with tempfile.TemporaryDirectory() as folder:
        for name, count in ('def.json', 0), ('records.json', 78):
            places = [place for place in range(12) for _ in range(place + 1)][:count]
            records = [page_sets.record(number, 'unit-%d' % (number % 3), 'batch', {'board': 's%02d' % place}) for number, place in enumerate(places)]
            with open(os.path.join(folder, name), 'w', encoding='utf-8') as file:
                json.dump(page_sets.report([('board', 'Board', 1, chosen)], [('unit-%d' % it, 'Unit %d' % it) for it in range(3)], records), file)
        trial.see('twelve selections', tallied(browser, folder, ['def.json', 'records.json']), 'Done.')
    found = [it for it in browser.value(TABLES % '#answer') if it[0] == 'By device: Board']
    trial.see('twelve selections: the columns', [it[1] for it in found], [['device', *COLUMNS, *(it for _, it in chosen[:4])], ['device', *(it for _, it in chosen[4:])]])
    trial.see('twelve selections: the votes', [found[0][2][7:], found[1][2][1:]], [['1', '2', '3', '4'], [str(it) for it in range(5, 13)]])
    trial.see('twelve selections: the names in each', [[row[0] for row in it[2:]] for it in found], [['scanner', 'Sum']] * 2)
    trial.see('twelve selections: the names of units', [[row[0] for row in it[2:]] for it in browser.value(TABLES % '#answer') if it[0] == 'By unit: Board'],
              [[*('Unit %d unit-%d' % (it, it) for it in range(3)), 'Sum']] * 2)
    trial.see('twelve selections: one fold for each', browser.value("[...document.querySelectorAll('summary')].filter(it => it.textContent.startsWith('By device')).length"), 1)


# ---- ballots worked out by hand

# So many records of a unit, a batch, a device and a sheet; the numbers of ballots of both sheets differ, and those of all groups.
LINES = [(7, 'alder', 'b1', 's1', '1'), (7, 'alder', 'b1', 's1', '2'), (3, 'birch', 'b1', 's1', '1'), (2, 'birch', 'b1', 's1', '2'), (11, 'birch', 'b2', 's1', None),
         (4, None, 'b2', 's2', None), (5, 'alder', 'b3', 's2', None), (8, 'birch', 'b4', 's1', None), (2, 'birch', 'b5', 's2', None), (6, 'alder', 'b6', 's2', None)]
NOTES = [{'TimeStamp': page_sets.MOMENT}, {'AdjudicatorName': ['R. Quill']}, {}]        # of the first records; an adjudication has one of these
HEADS_BESIDE = ['Batch', 'Device', 'Manifest', 'Ballots', 'Difference', 'Records']
BY_UNIT = ['Ballots by unit', ['Unit', 'Ballots', 'Records'], ['no unit', '4', '4'], ['Alder alder', '18', '25'], ['Birch birch', '24', '26'], ['Sum', '46', '55']]
BY_BATCH = ['Ballots by batch', ['Batch', 'Device', 'Ballots', 'Records'], ['b1', 's1', '10', '19'], ['b2', 's1', '11', '11'], ['b2', 's2', '4', '4'], ['b3', 's2', '5', '5'],
            ['b4', 's1', '8', '8'], ['b5', 's2', '2', '2'], ['b6', 's2', '6', '6'], ['Sum', '', '46', '55']]
BY_DEVICE = ['Ballots by device', ['Device', 'Ballots', 'Records'], ['s1', '29', '38'], ['s2', '17', '17'], ['Sum', '46', '55']]
OTHER = [['b10', '', '3', '0', '-3', '0'], ['b2', 's1 s2 ', '14', '15', '1', '15'], ['b5', 's2 ', 'not there', '2', '', '2'], ['b6', 's2 ', 'not there', '6', '', '6'],
         ['b7', '', '1', '0', '-1', '0'], ['b8', '', '9', '0', '-9', '0'], ['b9', '', '7', '0', '-7', '0']]
EVERY = [['b1', 's1 ', '10', '10', '0', '19'], *OTHER[:2], ['b3', 's2 ', '5', '5', '0', '5'], ['b4', 's1 ', '8', '8', '0', '8'], *OTHER[2:], ['Sum', '', '57', '46', '', '55']]
BESIDE = [['Batches that differ', HEADS_BESIDE, *OTHER], ['Batches of the manifest and of the records', HEADS_BESIDE, *EVERY]]
COUNTS = 'Batches with as many ballots as the manifest says: %d. With another number: %d. In the manifest alone: %d. In the records alone: %d.'
SAID_FIRST = ["Each record counts once. One is adjudicated where an AdjudicatorName or a TimeStamp stands with the snapshot that counts; others of Type modified are a machine's.",
              'Some records have a BallotSheetId', 'Precincts without a ballot: Cedar cedar.', 'No batch manifest was given to compare with.']
UNLOOKED = 'The definition has no device, so no record was looked at, and no ballots are counted here by unit, batch or device or compared with the manifest.'
MANIFEST = 'Batch,Ballots\nb1,10\nb2,14\nb3,5\nb4,8\nb7,1\nb8,9\nb9,7\nb10,3\n'
OF_DEVICES = 's1,b1,10\ns1,b2,11\ns2,b2,4\ns2,b3,5\ns1,b4,8\ns2,b5,2\ns2,b6,6\n'


def lay_ballots(folder):
    """Writes the county of LINES: of its records of one sheet three are of Type modified."""
    records = []
    for count, unit, batch, device, sheet in LINES:
        for _ in range(count):
            its = page_sets.record(len(records), unit, batch, {'bond': 'yes'})
            its.update({'CreatingDeviceId': device}, **{'BallotSheetId': sheet} if sheet else {})
            if len(records) < len(NOTES):
                its['CVRSnapshot'][0].update(Type='modified', Annotation=[dict(NOTES[len(records)], **{'@type': 'CVR.Annotation'})])
            records.append({key: it for key, it in its.items() if it is not None})
    for name, its in ('def.json', []), ('records.json', records):
        made = page_sets.report([('bond', 'School bond', None, [('yes', 'Yes'), ('no', 'No')])], [('alder', 'Alder'), ('birch', 'Birch'), ('cedar', 'Cedar')], its)
        made['ReportingDevice'] = [{'@type': 'CVR.ReportingDevice', '@id': it} for it in ('scanner', 's1', 's2')]
        with open(os.path.join(folder, name), 'w', encoding='utf-8') as file:
            json.dump(made, file)
    for name, text in ('manifest.csv', MANIFEST), ('devices.txt', OF_DEVICES), ('log.csv', 'scanner-1,one\n'):
        with open(os.path.join(folder, name), 'w', encoding='utf-8') as file:
            file.write(text)


def give_manifest(browser, path):
    browser.give('#manifest', [path])
    return browser.value(SETTLED)


def see_ballots(browser, trial):
    """The county of LINES without a manifest, with one that is chosen, and with one among the files."""
    with tempfile.TemporaryDirectory() as folder:
        lay_ballots(folder)
        trial.see('ballots', tallied(browser, folder, ['def.json', 'records.json']), 'Done.')
        trial.see('ballots: the tables', browser.value(BALLOTS), [BY_UNIT, BY_BATCH, BY_DEVICE])
        trial.see('ballots: the list', browser.value("[...%s.querySelectorAll('dd')].map(it => it.textContent)" % SECTION), ['46', '55', '2', 'modified 3, original 52'])
        trial.see('ballots: sheets, and no manifest', [it.split(',')[0] for it in browser.value(SAID)], SAID_FIRST)
        trial.see('a manifest that is chosen', give_manifest(browser, os.path.join(folder, 'devices.txt')), '2 files. Manifest devices.txt: 7 batches.')
        browser.value(CLICK % 'tally')
        trial.see('a manifest that is chosen: done', browser.value(SETTLED), 'Done.')
        trial.see('a manifest of devices', browser.value(SAID)[-1], COUNTS % (7, 0, 0, 0))
        trial.see('a manifest of devices: nothing differs', [it[0] for it in browser.value(BALLOTS)], [BY_UNIT[0], BESIDE[1][0], BY_DEVICE[0]])
        said = given(browser, [os.path.join(folder, it) for it in ('def.json', 'manifest.csv', 'records.json', 'log.csv')])
        trial.see('a manifest among the files', said, '3 files. Manifest manifest.csv: 8 batches.')
        browser.value(CLICK % 'tally')
        browser.value(SETTLED)
        trial.see('beside a manifest: the tables', browser.value(BALLOTS), [BY_UNIT, *BESIDE, BY_DEVICE])
        wanted = ['Manifest manifest.csv, SHA-256 %s.' % sum_of(os.path.join(folder, 'manifest.csv')), COUNTS % (3, 1, 4, 2)]
        trial.see('beside a manifest: the sentences', browser.value(SAID)[-2:], wanted)
        with open(os.path.join(folder, 'wrong.csv'), 'w', encoding='utf-8') as file:
            file.write('b1,10\nb2\n')
        both = [os.path.join(folder, it) for it in ('def.json', 'manifest.csv', 'records.json', 'devices.txt')]
        trial.see('two manifests', given(browser, both), '2 files. Manifest devices.txt in the place of manifest.csv: 7 batches.')
        said = given(browser, [both[0], os.path.join(folder, 'wrong.csv')])
        trial.see('a wrong manifest among the files', said, "What was given can't be read: " + manifest.FORM % ('wrong.csv', 2) + '. Nothing of it is added.')
        trial.see('nothing of it is added', browser.value("document.getElementById('list').hidden"), True)
        trial.see('no manifest is kept', given(browser, [os.path.join(folder, 'def.json')]), '1 files.')


# ---- manifests

# Each is read here as it is read by cvr-audit, and so is each that it refuses.
TEXTS_OF_MANIFESTS = ['', 'b1,3\n', '\ufeffbatch,ballots\r\nb1,3\r\n\r\nb2, 4 \r\n', 'b1,3\rb2,4', '"b ""1""","3"\n"b\n2",4\n', 'b"1",3\n"b"x,4\n', 'd,b,3\nd,c,4\ne,b,5\n', 'b1,3\nb1,4\n',
                      'd,b,3\nb,4\n', 'b1\n', 'a,b,c,4\n', 'b1,3\n\n\nb2,x\n', 'b1,"1,200"\n', 'b1,1.5\n', 'b1,-3\n', 'b1,٣\n', ',3\n', '"",3\n,4\n', 'b1,\n', 'b1,3\n"b2,4', 'b1,\t3\n', 'b1,3\n,\n',
                      'number,of ballots\nb1,00012345678901234567890\n', 'a,b\nc,d\n', 'b1,3,\n', '"b1",3 "x"\n']
# What is taken for a manifest where it is dropped: its path, its text, and whether it is one.
KNOWN = [('a.csv', 'b1,3\n', True), ('a.CSV', 'batch,ballots\nb1,3\n', True), ('a.txt', 'device,batch,ballots\nd,b1,3\n', True), ('x/a.csv', 'b1,3', True), ('a.csv', '\ufeffb1,3', True),
         ('a.csv', 'b1,1.5\n', True), ('a.csv', 'batch,ballots\n', False), ('a.csv', 'scanner-1,one\nscanner-2,two\n', False), ('a.csv', 'a,b,c,4\n', False), ('a.csv', '', False),
         ('a.json', 'b1,3\n', False), ('a', 'b1,3\n', False), ('a.csv', '{"a": 1}\n', False)]
READ = '''((text, path) => { try { return [...manifestIn(text, path)].map(([name, count]) => [...JSON.parse(name), String(count)]) } catch (fault) { return fault.message } })(%s, "m.csv")'''
BATCHES = """[...document.querySelectorAll('.warnings > li')].filter(it => it.firstChild.textContent === 'Batch').map(it => [it.childNodes[1].textContent,
  ...[...it.querySelectorAll('.places > li')].map(one => one.textContent)])"""


def read_by_audit(text, folder):
    """The batches of a manifest as cvr-audit reads it, or what it says."""
    path = os.path.join(folder, 'm.csv')
    with open(path, 'w', encoding='utf-8', newline='') as file:
        file.write(text)
    try:
        return [[*name, str(count)] for name, count in manifest.manifest_in(path).items()]
    except program.Ended as fault:
        return fault.log.decode('utf-8').replace('cvr-audit: ', '').replace(path, 'm.csv').rstrip('\n')


def see_manifests(browser, trial):
    """Manifests as cvr-audit reads them; its rows on them; and which sources are taken for one."""
    with tempfile.TemporaryDirectory() as folder:
        for text in TEXTS_OF_MANIFESTS:
            trial.see('the manifest %r' % text, browser.value(READ % json.dumps(text.removeprefix('\ufeff'))), read_by_audit(text, folder))
    for path, text, wanted in KNOWN:
        source = "{path: '%s', file: new Blob([%s]), size: %d}" % (path, json.dumps(text), len(text.encode()))
        trial.see('a manifest? %s: %r' % (path, text), browser.value('isManifest(%s)' % source), wanted)
    for row in rows.held():
        if row['words'][0] == 'warnings' and '--manifest' in row['words'] and 'none.csv' not in row['words']:
            with tempfile.TemporaryDirectory() as folder:
                rows.lay(folder, row.get('files', {}))
                if 'before' in row:
                    subprocess.run(['sh', '-c', row['before']], cwd=folder, check=True, timeout=SECONDS)
                see_row(browser, trial, row, folder)


def see_row(browser, trial, row, folder):
    """A row of cvr-audit on a manifest: the same warnings of batches, or the same words on why it is refused."""
    place = row['words'].index('--manifest')
    given(browser, [os.path.join(folder, it) for it in row['words'][1:place]])
    said = give_manifest(browser, os.path.join(folder, row['words'][place + 1]))
    if row['status'] == 2:
        wanted = row['err'][0].replace('cvr-audit: ', '')
        trial.see('a manifest: ' + row['name'], said, "What was given can't be read: %s. Nothing of it is added." % wanted)
        return
    browser.value(CLICK % 'tally')
    trial.see(row['name'], browser.value(SETTLED), PARTLY + '.' if 'damaged.json' in row['words'] else 'Done.')
    lines = [it.rpartition(': @')[0].partition(' ')[2] for it in row['out'] if it.startswith('batch ')]
    trial.see('a manifest: ' + row['name'], browser.value(BATCHES), [[': %s ' % ADVICE['batch'], *lines]] if lines else [])


# ---- what is saved

def kept(browser, label, name):
    """The bytes of the file that a button saves; none where there is no such file."""
    return saved(browser, label, name) or b''


def printed(trial, folder, *words):
    """What cvr-audit prints."""
    script = os.path.join(contests.rows.TOP, 'companion', 'cvr-audit')
    return subprocess.run(['python3', script, *words], cwd=folder, env=dict(os.environ, CVR=trial.cvr), stdout=subprocess.PIPE, stderr=subprocess.DEVNULL, timeout=SECONDS).stdout


NOT_IN = 'NOT IN THE TALLY'
OUT = [{'path': 'notes, "old".txt', 'reason': 'no report'}, {'path': '=cmd.csv', 'reason': 'a table'}]
SAYS_OUT = "(() => { const held = show; show = answer => held({...answer, out: [...%s, ...answer.out]}); return typeof held })()" % json.dumps(OUT)
NAMED = {'Iris Vale': '=1+2', 'Omar Field': '＝x', 'County Council': '@', 'Old Mill': '-7', 'Ferry Landing': '\t+', 'North Orchard': '\nx', 'Measure 1: parks': 'a "b", c'}
LONG = 2 ** 32 - 1       # the greatest NumberVotes


def lay_named(folder):
    """The county with names that a spreadsheet takes for formulas, and the greatest number of votes."""
    for name in FILES[:3]:
        with open(os.path.join(COUNTY, name), encoding='utf-8') as file:
            text = file.read()
        for old, new in NAMED.items():
            text = text.replace(json.dumps(old), json.dumps(new))
        report = json.loads(text)
        for record in report.get('CVR', [])[:1]:
            current(record)['CVRContest'][0]['CVRContestSelection'][0]['SelectionPosition'][0]['NumberVotes'] = LONG
        with open(os.path.join(folder, name), 'w', encoding='utf-8') as file:
            json.dump(report, file)


def see_totals(browser, trial, folder, names, what):
    """The totals that are saved: JSON byte for byte as cvr-audit prints it, and CSV with its cells."""
    trial.see(what, tallied(browser, folder, names), 'Done.')
    trial.see(what + ': JSON', kept(browser, 'Save the totals as JSON', 'totals.json'), printed(trial, folder, 'totals', *names, '--format', 'json'))
    wanted = list(csv.reader(io.StringIO(printed(trial, folder, 'totals', *names, '--format', 'csv', '--spreadsheet').decode(), newline='')))
    data = kept(browser, 'Save the totals as CSV', 'tally.csv')
    found = [it for it in csv.reader(io.StringIO(data.decode('utf-8-sig'), newline='')) if it[0] in ('of', 'sum')]
    trial.see(what + ': CSV', [it[4:] for it in found], [it for it in wanted if len(it) > 1])
    trial.see(what + ': a byte order mark', data[:3], b'\xef\xbb\xbf')
    return data.decode('utf-8-sig')


def see_saved(browser, trial):
    """The totals of several sets, and names of files that say what isn't in them."""
    with tempfile.TemporaryDirectory() as folder:
        lay_named(folder)
        text = see_totals(browser, trial, folder, FILES[:3], 'odd names')
        units = {it[2] for it in csv.reader(io.StringIO(text, newline='')) if it[0] == 'row'}
        trial.see('odd names: units', units, {"'-7", "'\t+", "'\nx"})
        trial.see('odd names: a long number', ',%d,' % LONG in text, True)
    with tempfile.TemporaryDirectory() as folder:
        for name, data in page_sets.texts_of(page_sets.ranked()).items():
            with open(os.path.join(folder, name), 'wb') as file:
                file.write(data)
        text = see_totals(browser, trial, folder, ['def.json', 'ranked.json'], 'ranks')
        trial.see('ranks: said', [it for it in text.split('\r\n')[:3]], ['"RANKED: %s: %s"' % (it, ADVICE['ranked']) for it in ('mayor', 'score')] + [CSV_HEAD])
    row = next(it for it in rows.held() if it['name'] == 'the totals of a test')
    with tempfile.TemporaryDirectory() as folder:
        rows.lay(folder, row['files'])
        trial.see('a test', tallied(browser, folder, row['words'][1:]), 'Done.')
        trial.see('a test: JSON', kept(browser, 'Save the totals as JSON', 'totals-test.json'), printed(trial, folder, 'totals', *row['words'][1:], '--format', 'json'))


class Read(html.parser.HTMLParser):
    """The elements of a page, the names of their attributes, and its text."""

    def __init__(self, text):
        super().__init__()
        self.tags, self.names, self.text = set(), set(), ''
        self.feed(text)

    def handle_starttag(self, tag, attributes):
        self.tags.add(tag)
        self.names |= {name for name, _ in attributes}

    def handle_data(self, data):
        self.text += data


def see_out(browser, trial, page):
    """What isn't in the tally stands first in what is saved, or in its name; the page that is saved shows the same tables."""
    browser.open(page)
    browser.value(SETTLED)
    browser.value(SAYS_OUT)
    trial.see('numbers of JSON', browser.value('JSON.stringify([2n ** 53n, 2n ** 53n + 1n].map(whole))'), '[9007199254740992,"9007199254740993"]')
    trial.see('with files that are left out', tallied(browser, COUNTY, FILES), PARTLY + '.')
    lines = kept(browser, 'Save the totals as CSV', 'tally-incomplete.csv').decode('utf-8-sig').split('\r\n')
    out = ['%s: %s: %s' % (NOT_IN, it['path'], it['reason']) for it in OUT] + ['%s: damaged.json: %s' % (NOT_IN, REFUSED)]
    trial.see('CSV says what is out', lines[:5], [PARTLY, *('"%s"' % it.replace('"', '""') if ',' in it else it for it in out), CSV_HEAD])
    trial.see('the text is what cvr prints', kept(browser, 'Save the text', 'tally-incomplete.txt'), trial.printed('tally', *FILES))
    told = json.loads(printed(trial, COUNTY, 'totals', *FILES, '--format', 'json'))
    trial.see('JSON is what cvr-audit prints, and what is out', json.loads(kept(browser, 'Save the totals as JSON', 'totals-incomplete.json')), dict(told, said=[PARTLY, *out]))
    tables, shown = browser.value(TABLES % '#answer'), browser.value("getComputedStyle(document.querySelector('#answer .unofficial')).backgroundColor")
    text = kept(browser, 'Save this page', 'tally-incomplete.html').decode()
    its = Read(text)
    trial.see('the page that is saved: its elements', its.tags & {'script', 'button', 'input', 'select', 'link', 'img', 'iframe'}, set())
    trial.see('the page that is saved: its attributes', {it for it in its.names if it.startswith('on')} | its.names & {'src', 'href', 'srcset'}, set())
    trial.see('the page that is saved says what is out', [it in its.text for it in (PARTLY, 'Not in this tally', '=cmd.csv: a table', 'damaged.json: refused, E3. ')], [True] * 4)
    trial.see('the page that is saved: its length', len(text) < 100000, True)
    browser.open(os.path.join(browser.saved, 'tally-incomplete.html'))
    trial.see('the page that is saved: its tables', browser.value(TABLES % '#answer'), tables)
    trial.see('the page that is saved: its title and style', browser.value("[document.title, getComputedStyle(document.querySelector('#answer .unofficial')).backgroundColor]"),
              ['UNOFFICIAL: Alder County General Election', shown])
    browser.open(page)
    browser.value(SETTLED)


# ---- paper

MARGIN = """[[...document.styleSheets[0].cssRules].at(-1).cssText.match(/"(.*)"/)?.[1], document.querySelector('.margin')?.textContent,
  'Alder County General Election, made ' + new Date().toLocaleDateString('sv')]"""


def see_margin(browser, trial):
    """The margin of each sheet has the election and the day: in a box where the browser prints one, or else in a line."""
    tallied(browser, COUNTY, FILES)
    box, line, wanted = browser.value(MARGIN)
    trial.see('the margin', box or line, wanted)
    trial.see('no line beside a box', None in (box, line), True)


def see_paper(browser, trial):
    """Chromium: each sheet has its margin; no button is printed."""
    see_margin(browser, trial)
    browser.call('Emulation.setEmulatedMedia', media='print', features=[])
    trial.see('on paper: no buttons', browser.value("[...document.querySelectorAll('button, input, select')].filter(it => it.offsetParent !== null).length"), 0)
    browser.call('Emulation.setEmulatedMedia', media='', features=[])
    if not shutil.which('pdftotext'):
        return
    day = browser.value("new Date().toLocaleDateString('sv')")
    with tempfile.TemporaryDirectory() as folder:
        pdf = os.path.join(folder, 'page.pdf')
        browser.printed(pdf, 'A4')
        text = subprocess.run(['pdftotext', '-raw', pdf, '-'], stdout=subprocess.PIPE, check=True, timeout=SECONDS).stdout.decode('utf-8', 'replace')
    sheets = text.split('\f')[:-1]
    trial.see('on paper: sheets', len(sheets) > 1, True)
    trial.see('on paper: the margin', ['Alder County General Election, made ' + day in re.sub(r'\s+', ' ', it) for it in sheets], [True] * len(sheets))
    trial.see('on paper: the number', ['%d / %d' % (number, len(sheets)) in it for number, it in enumerate(sheets, 1)], [True] * len(sheets))


def see_unlooked(browser, trial):
    """A definition without a device, so no record is looked at: beside a manifest, too, that is said."""
    with tempfile.TemporaryDirectory() as folder:
        for name in FILES[1], 'manifest.csv':
            shutil.copy(os.path.join(COUNTY, name), folder)
        with open(os.path.join(COUNTY, FILES[0]), encoding='utf-8') as file:
            report = dict(json.load(file), ReportingDevice=[], ReportGeneratingDeviceIds=[])
        with open(os.path.join(folder, FILES[0]), 'w', encoding='utf-8') as file:
            json.dump(report, file)
        trial.see('not looked at', tallied(browser, folder, [*FILES[:2], 'manifest.csv']), 'Done.')
    trial.see('not looked at: ballots', browser.value(SAID), [UNLOOKED])
    trial.see('not looked at: no device', browser.value(TEXTS % 'answer').count('No record was looked at, so nothing stands by device.'), 2)


def see_all(browser, trial, page, is_whole):
    """All of these; on paper, and where files are left out, in Chromium alone."""
    see_cases(browser, trial)
    see_ballots(browser, trial)
    see_manifests(browser, trial)
    see_unlooked(browser, trial)
    see_saved(browser, trial)
    see_wide(browser, trial)
    see_margin(browser, trial)
    if is_whole:
        see_paper(browser, trial)
        see_out(browser, trial, page)


def ways(browser, page):
    """What finds slips, by name."""
    return {'cases': lambda own: see_cases(browser, own), 'ballots': lambda own: see_ballots(browser, own), 'manifests': lambda own: see_manifests(browser, own),
            'totals': lambda own: see_saved(browser, own), 'wide': lambda own: see_wide(browser, own), 'paper': lambda own: see_paper(browser, own),
            'out': lambda own: see_out(browser, own, page), 'unlooked': lambda own: see_unlooked(browser, own)}
