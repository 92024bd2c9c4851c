"""contests.py: the cases of contests.json: ballots, and what they come to, worked out by hand. `cvr-audit totals` and
`cvr-audit page` have to say so, and in tests/web/canvass.py the page for a browser: so both go by the same rules.

A case has its contests, each with its VotesAllowed or null, and ballots, each line so many alike: which votes count, with null
for one that is unassigned, which are pending, and what is stated. Of what is wanted, a number that no file states is null;
`on`, `adjudicated` and `devices` are shown by the page for a browser alone."""
import json
import os
import subprocess

import page_sets
import page_text
import rows

HERE = os.path.dirname(os.path.abspath(__file__))
UNITS = [('north', 'North'), ('south', 'South')]
COLUMNS = 'ballots', 'overvotes', 'undervotes', 'write-ins', 'pending', 'unassigned'


def held():
    with open(os.path.join(HERE, 'contests.json'), encoding='utf-8') as file:
        return json.load(file)['cases']


# ---- the files of a case

def position_of(selection, more):
    its = dict({'@type': 'CVR.SelectionPosition', 'HasIndication': 'yes', 'NumberVotes': 1}, **more)
    return dict({'@type': 'CVR.CVRContestSelection', 'SelectionPosition': [its]}, **({'ContestSelectionId': selection} if selection else {}))


def contest_of(key, marks):
    chosen = [position_of(it, {}) for it in marks.get('votes', [])] + [position_of(it, {'IsAllocable': 'unknown'}) for it in marks.get('pending', [])]
    stated = {name: it for name, it in marks.items() if name in ('Overvotes', 'Undervotes', 'WriteIns')}
    return dict({'@type': 'CVR.CVRContest', 'ContestId': key, 'CVRContestSelection': chosen}, **stated)


def records_of(case):
    number = 0
    for line in case['ballots']:
        contests = [contest_of(key, line[key]) for key in case['contests'] if key in line]
        its = {'@type': 'CVR.CVRSnapshot', '@id': 'a', 'Type': 'original', 'CVRContest': contests}
        if line.get('adjudicated'):
            its['Annotation'] = [{'@type': 'CVR.Annotation', 'AdjudicatorName': ['R. Quill'], 'TimeStamp': page_sets.MOMENT}]
        for _ in range(line['count']):
            number += 1
            yield {'@type': 'CVR.CVR', 'CreatingDeviceId': line['device'], 'UniqueId': '%04d' % number, 'ElectionId': 'election',
                   'BallotStyleUnitId': line['unit'], 'BatchId': line['batch'], 'CurrentSnapshotId': 'a', 'CVRSnapshot': [its]}


def lay(folder, case):
    """Writes the files of a case, and answers their names."""
    contests = [(key, it['name'], it['allowed'], list(it['selections'].items())) for key, it in case['contests'].items()]
    for name, records in ('def.json', []), ('records.json', records_of(case)):
        made = page_sets.report(contests, UNITS, list(records), case['name'])
        made['ReportingDevice'] = [{'@type': 'CVR.ReportingDevice', '@id': it} for it in ('scanner', 's1', 's2')]
        with open(os.path.join(folder, name), 'w', encoding='utf-8') as file:
            json.dump(made, file)
    return ['def.json', 'records.json']


# ---- what cvr-audit says

def printed(copy, cvr, folder, *words):
    script = os.path.join(copy, 'cvr-audit')
    return subprocess.run([*rows.companion.PYTHON, script, *words, 'def.json', 'records.json'], cwd=folder, env=dict(os.environ, CVR=cvr), stdin=subprocess.DEVNULL,
                          stdout=subprocess.PIPE, stderr=subprocess.DEVNULL, timeout=rows.SECONDS, check=False).stdout.decode('utf-8')


def totals_of(text):
    """Each contest of `totals`: its numbers, and its votes."""
    return {it['contest']['id']: dict({name: it[name] for name in COLUMNS}, votes={one['id']: one['votes'] for one in it['selections']})
            for it in json.loads(text)['totals']}


def paged(text):
    """Each contest of a page: its votes and per cents, its numbers, and its sentence."""
    for part in page_text.sections(page_text.read(text))['contests'].all('div'):
        if part.attributes.get('class') == 'contest':
            _, *lines, _ = map(lambda row: [it.text() for it in row], page_text.rows(next(part.all('table'))))
            numbers = [it.text() for it in part.all('dd')]
            yield [[it[1] for it in lines], [it[2] for it in lines], numbers, list(part.all('p'))[-1].text()]


def texts(numbers):
    return ['not stated' if it is None else '{:,}'.format(it) for it in numbers]


def differences(copy, cvr, case):
    """What is wrong with what cvr-audit says of a case."""
    wanted = case['wanted']
    with rows.tempfile.TemporaryDirectory() as folder:
        lay(folder, case)
        totals = totals_of(printed(copy, cvr, folder, 'totals', '--format', 'json'))
        page = list(paged(printed(copy, cvr, folder, 'page')))
    of_page = [[texts(it['votes'].values()), it['of the votes'], texts(map(it.get, COLUMNS)), it['said']] for it in wanted.values()]
    of_totals = {key: {name: it[name] for name in (*COLUMNS, 'votes')} for key, it in wanted.items()}
    return ['case %s: %s\n    got      %r\n    expected %r' % (case['name'], what, got, expected)
            for what, got, expected in (('totals', totals, of_totals), ('page', page, of_page)) if got != expected]
