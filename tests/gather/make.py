#!/usr/bin/env python3
"""make.py KIND FOLDER [--ballots N] [--seed N]

Writes an invented export of a kind that `cvr-audit gather` reads: of the county of examples/, or of N random ballots.
It shares no code with the companion: what it writes follows docs/GATHER.md, read a second time. `make.py --check`
compares examples/exports with what it makes, and `make.py --examples` writes that."""
import argparse
import csv
import filecmp
import io
import json
import os
import random
import shutil
import sys
import tempfile
import uuid
from collections import Counter

TOP = os.path.dirname(os.path.dirname(os.path.dirname(os.path.abspath(__file__))))
EXAMPLES = os.path.join(TOP, 'examples', 'exports')
COUNTY = os.path.join(TOP, 'examples', 'county')
SPACE = 'http://tempuri.org/CVRDesign.xsd'
WRITTEN = 'Write-in', 'Unresolved Write-In', '*Write-in*', 'WRITEIN 2', 'Write In', 'W/I'


class Contest:
    """A contest with its choices, each with its party. The forms that have ranks mark the choices of a ranked one by these."""

    def __init__(self, name, allowed, choices, is_ranked=False):
        self.name, self.allowed, self.choices, self.is_ranked = name, allowed, choices, is_ranked


class Ballot:
    """A ballot: `marks` has the indices of the marked choices by contest, and no contest that isn't on it. `before` has
    them as scanned, where someone changed them later, and `unsure` pairs of contest and choice with an ambiguous mark."""

    def __init__(self, device, batch, number, unit, marks, before=None, unsure=()):
        self.device, self.batch, self.number, self.unit = device, batch, number, unit
        self.marks, self.before, self.unsure = marks, before, unsure


class Election:
    def __init__(self, name, contests, units, ballots):
        self.name, self.contests, self.units, self.ballots = name, contests, units, ballots


def county():
    """The county of examples/, with two batches, as it is after adjudication."""
    contests = [Contest('County Council', 1, [('Iris Vale', 'HER'), ('Omar Field', 'LAR'), ('Write-in', '')]),
                Contest('Measure 1: parks', 1, [('Yes', ''), ('No', '')])]
    units = ['Old Mill', 'Ferry Landing', 'North Orchard']
    ballots = [Ballot(1, 1, 1, 0, {0: [0], 1: [0]}), Ballot(1, 1, 2, 1, {0: [1], 1: [1]}, before={0: [0, 1], 1: [1]}),
               Ballot(1, 1, 3, 1, {0: [2], 1: []}, before={0: [], 1: []}), Ballot(2, 1, 1, 2, {0: [1], 1: [1]})]
    ballots[2].unsure = [(0, 2)]
    return Election('Alder County General Election', contests, units, ballots)


def random_election(chance, count):
    """An election of some contests with odd names, and ballots of few styles."""
    contests = []
    for k in range(chance.randint(2, 30)):
        choices = [('Choice %d-%d%s' % (k, i, chance.choice(['', ', Jr.', ' "Al"', ' é'])), chance.choice(['', 'HER', 'LAR']))
                   for i in range(chance.randint(2, 6))]
        choices += [(chance.choice(WRITTEN), '')] * chance.randint(0, 1)
        contests.append(Contest('Contest %d%s' % (k, chance.choice(['', ': a, b', ' "x"', ' é', ' (part)'])),
                                min(chance.choice([1, 1, 1, 2, 3]), len(choices)), choices, chance.random() < 0.1))
    units = ['Unit %d' % k for k in range(chance.randint(1, 12))]
    styles = {unit: sorted(chance.sample(range(len(contests)), chance.randint(1, len(contests)))) for unit in range(len(units))}
    ballots = []
    for k in range(count):
        unit = chance.randrange(len(units))
        device, batch = 1 + k % 3, 1 + k // 60
        marks = {it: random_marks(chance, contests[it]) for it in styles[unit]}
        before = {it: random_marks(chance, contests[it]) for it in marks} if chance.random() < 0.1 else None
        unsure = [(it, i) for it in marks for i in range(len(contests[it].choices)) if i not in marks[it] and chance.random() < 0.02]
        ballots.append(Ballot(device, batch, 1 + k % 60 // 3, unit, marks, before, unsure))
    return Election('Invented, "%d" ballots' % count, contests, units, ballots)


def random_marks(chance, contest):
    more = chance.choice([0] * 30 + [-1] * 8 + [1] + [-contest.allowed] * 4)      # about one in forty is overvoted
    number = min(len(contest.choices), max(0, contest.allowed + more))
    return sorted(chance.sample(range(len(contest.choices)), number))


# ---- writing

def put(folder, name, text):
    path = os.path.join(folder, name)
    os.makedirs(os.path.dirname(path), exist_ok=True)
    with open(path, 'w', encoding='utf-8', newline='') as file:
        file.write(text)


def csv_text(rows, end='\r\n'):
    text = io.StringIO()
    csv.writer(text, lineterminator=end).writerows(rows)
    return text.getvalue()


def columns(election):
    return [(k, contest, i, choice) for k, contest in enumerate(election.contests) for i, choice in enumerate(contest.choices)]


def flags(election, ballot):
    """A cell for each choice: 1, 0, or nothing where the contest isn't on the ballot."""
    return ['' if k not in ballot.marks else int(i in ballot.marks[k]) for k, _, i, _ in columns(election)]


def dominion(election, folder):
    held = columns(election)
    fixed = ['CvrNumber', 'TabulatorNum', 'BatchId', 'RecordId', 'ImprintedId', 'CountingGroup', 'PrecinctPortion', 'BallotType']
    rows = [[election.name, '5.11.3.1'] + [''] * (len(held) + 6),
            [''] * 8 + ['%s (Vote For=%d)' % (contest.name, contest.allowed) for _, contest, _, _ in held],
            [''] * 8 + [choice for _, _, _, (choice, _) in held], fixed + [party for _, _, _, (_, party) in held]]
    for k, it in enumerate(election.ballots, 1):
        name = '%d-%d-%d' % (it.device, it.batch, it.number)
        rows.append([k, it.device, it.batch, it.number, '="%s"' % name, 'In person', election.units[it.unit], 'Style %d' % it.unit]
                    + flags(election, it))
    put(folder, 'dominion.csv', csv_text(rows))


def clearballot(election, folder):
    heads = ['RowNumber', 'BoxID', 'BoxPosition', 'BallotID', 'PrecinctID', 'BallotStyleID', 'PrecinctStyleName', 'ScanComputerName',
             'Status', 'Remade']
    heads += ['Choice_%d_1:%s:Vote For %d:%s:%s' % (n, contest.name, contest.allowed, choice, party or 'Non-Partisan')
              for n, (_, contest, _, (choice, party)) in enumerate(columns(election), 1)]
    rows = [heads]
    for k, it in enumerate(election.ballots, 1):
        box = 'BOX-%d-%d' % (it.device, it.batch)
        rows.append([k, box, it.number, '%s+%05d' % (box, it.number), election.units[it.unit], 'S%d' % it.unit,
                     'Style %d' % it.unit, 'ScanStation-%d' % it.device, '', 0] + flags(election, it))
    put(folder, 'clearballot.csv', csv_text(rows))


def ess_cells(election, k, ballot):
    """The cells of a contest, one for each vote."""
    contest, marks = election.contests[k], ballot.marks.get(k)
    if marks is None:
        return [''] * contest.allowed
    if len(marks) > contest.allowed:
        return ['overvote'] * contest.allowed
    word = 'Undervote' if ballot.number % 7 == 0 else 'undervote'
    cells = [contest.choices[i][0] for i in marks]
    written = [it for it in cells if it in WRITTEN and ballot.number % 2 and len(cells) < contest.allowed]     # a second written name
    return cells + written + [word] * (contest.allowed - len(cells + written))


def ess(election, folder):
    heads = ['Cast Vote Record', 'Precinct', 'Ballot Style'] + [it.name for it in election.contests for _ in range(it.allowed)]
    rows = [heads]
    for k, it in enumerate(election.ballots):
        rows.append([104001 + k, election.units[it.unit], 'Style %d' % it.unit]
                    + [cell for place in range(len(election.contests)) for cell in ess_cells(election, place, it)])
    put(folder, 'ess.csv', csv_text(rows))


def escaped(text):
    return text.replace('&', '&amp;').replace('<', '&lt;')


def hart_option(choice, name, ballot):
    """A marked choice; a written name mostly has no name and id of its own."""
    held = '<Name>%s</Name><Id>%s</Id>' % (escaped(choice), name)
    if choice in WRITTEN and ballot.number % 3:
        named = '<Name>Somebody</Name><Id>%s-x</Id>' % name if ballot.number % 3 == 1 else ''
        held = named + '<WriteInData><ImageId>%d</ImageId></WriteInData>' % ballot.number
    return '<Option>%s<Value>1</Value></Option>' % held


def hart_contest(election, k, ballot):
    contest, marks = election.contests[k], ballot.marks[k]
    is_over = len(marks) > contest.allowed
    # an overvoted contest has no marked option, or all of them
    options = ''.join(hart_option(contest.choices[i][0], 'c%d-%d' % (k, i), ballot) for i in ([] if is_over and ballot.number % 3 else marks))
    lost = contest.allowed - len(marks)
    numbers = '<Undervotes>%d</Undervotes><Overvotes>%d</Overvotes>' % (max(lost, 0), contest.allowed if is_over else 0)
    return '<Contest><Name>%s</Name><Id>c%d</Id><Options>%s</Options>%s</Contest>' % (escaped(contest.name), k, options, numbers)


def hart(election, folder):
    for it in election.ballots:
        guid = uuid.uuid5(uuid.NAMESPACE_URL, '%d-%d-%d' % (it.device, it.batch, it.number))
        contests = ''.join(hart_contest(election, k, it) for k in it.marks)
        put(folder, 'hart/%s.xml' % guid, '<?xml version="1.0" encoding="utf-8"?>\n<Cvr xmlns="%s"><Contests>%s</Contests>'
            '<BatchSequence>%d</BatchSequence><SheetNumber>1</SheetNumber><PrecinctSplit><Name>%s</Name><Id>p%d</Id></PrecinctSplit>'
            '<BatchNumber>%d</BatchNumber>%s<CvrGuid>%s</CvrGuid></Cvr>\n'
            % (SPACE, contests, it.number, election.units[it.unit], it.unit, 1000 * it.device + it.batch,
               '<Party><Name>Heron</Name></Party>' * (it.number % 5 == 0), guid))


# ---- the JSON of Dominion

def listed(election):
    """The lists of Dominion's JSON, by the names of their files."""
    candidates = [{'Description': choice, 'Id': 100 * k + i, 'ExternalId': '', 'ContestId': k, 'Type': 'Regular'} for k, _, i, (choice, _) in columns(election)]
    for it in candidates:
        if it['Description'] in WRITTEN:        # its name says so, its Type, or both
            it.update([{'Type': 'WriteIn'}, {'Type': 'QualifiedWriteIn', 'Description': 'Somebody'}, {}][it['ContestId'] % 3])
    contests = [{'Description': it.name, 'Id': k, 'ExternalId': '', 'DistrictId': 1, 'VoteFor': it.allowed, 'NumOfRanks': 5 * it.is_ranked}
                for k, it in enumerate(election.contests)]
    units = [{'Description': it, 'Id': k, 'ExternalId': '', 'PrecinctId': k} for k, it in enumerate(election.units)]
    return {'ContestManifest': contests, 'CandidateManifest': candidates, 'PrecinctPortionManifest': units}


def dominion_version(election, ballot, marks, is_current, cards):
    """The Original or the Modified of a session."""
    held = []
    for k in marks:
        contest, lost = election.contests[k], election.contests[k].allowed - len(marks[k])
        is_over = lost < 0 and not contest.is_ranked
        # an overvoted contest has marks that are votes, or none; those for more votes than are allowed state no overvote either
        is_vote, is_stated = not is_over or ballot.number % 3 == 0, ballot.number % 6
        found = [(i, is_vote, False) for i in marks[k]] + [(i, False, (i + ballot.number) % 3 > 0) for place, i in ballot.unsure if place == k and i not in marks[k]]
        held.append({'Id': k, 'ManifestationId': k, 'Undervotes': max(lost, 0), 'Overvotes': contest.allowed if is_over and is_stated else 0,
                     'OutstackConditionIds': [],
                     'Marks': [{'CandidateId': 100 * k + i, 'ManifestationId': i, 'PartyId': 0, 'Rank': rank if contest.is_ranked else 1,
                                'MarkDensity': 50 if unsure else 99, 'IsAmbiguous': unsure, 'IsVote': is_vote, 'OutstackConditionIds': []}
                               for rank, (i, is_vote, unsure) in enumerate(found, 1)]})
    parts = [held[place::cards] for place in range(cards)]
    head = {'PrecinctPortionId': ballot.unit, 'BallotTypeId': ballot.unit, 'IsCurrent': is_current}
    if not cards:       # as in older exports
        return dict(head, Contests=held)
    return {**head,
            'Cards': [{'Id': place, 'KeyInId': place, 'PaperIndex': place, 'Contests': part, 'OutstackConditionIds': []}
                      for place, part in enumerate(parts)]}


def dominion_json(election, folder):
    sessions = []
    for k, it in enumerate(election.ballots):
        cards = 0 if k % 15 == 7 else 2 if len(election.contests) > 2 and k % 10 == 0 else 1
        session = {'TabulatorId': it.device, 'BatchId': it.batch, 'RecordId': str(it.number) if k % 11 == 5 else it.number,
                   'CountingGroupId': 1, 'ImageMask': '', 'SessionType': 'ScannedVote',
                   'VotingSessionIdentifier': '', 'UniqueVotingIdentifier': ''}
        first = it.marks if it.before is None else it.before
        session['Original'] = dominion_version(election, it, first, it.before is None, cards)
        if it.before is not None:
            session['Modified'] = dominion_version(election, it, it.marks, True, cards)
        sessions.append(session)
    put(folder, 'dominion-json/CvrExport.json', json.dumps({'Version': '5.10.50.85', 'ElectionId': election.name, 'Sessions': sessions}, indent=1))
    for name, held in listed(election).items():
        put(folder, 'dominion-json/%s.json' % name, json.dumps({'Version': '5.10.50.85', 'List': held}, indent=1))


# ---- reports of the standard

def frame(election):
    """A report of the standard without records."""
    contests = [{'@id': 'contest-%d' % k, '@type': 'CVR.CandidateContest', 'Name': it.name, 'VotesAllowed': it.allowed,
                 'ContestSelection': [{'@id': 'choice-%d-%d' % (k, i), '@type': 'CVR.CandidateSelection'} for i in range(len(it.choices))]}
                for k, it in enumerate(election.contests)]
    return {'@type': 'CVR.CastVoteRecordReport', 'Version': '1.0.0', 'GeneratedDate': '2024-11-05T21:40:00Z',
            'ReportGeneratingDeviceIds': ['scanner-%d' % election.ballots[0].device],
            'ReportingDevice': [{'@id': 'scanner-%d' % k, '@type': 'CVR.ReportingDevice'} for k in sorted({it.device for it in election.ballots})],
            'GpUnit': [{'@id': 'county', '@type': 'CVR.GpUnit', 'Type': 'county'}] + [{'@id': 'unit-%d' % k, '@type': 'CVR.GpUnit', 'Type': 'precinct', 'Name': it}
                                                                                    for k, it in enumerate(election.units)],
            'Party': [], 'Election': [{'@id': 'election', '@type': 'CVR.Election', 'Name': election.name, 'ElectionScopeId': 'county', 'Contest': contests}]}


def snapshot(election, ballot, marks, name, kind):
    held = []
    for k in marks:
        lost = election.contests[k].allowed - len(marks[k])
        found = [{'@type': 'CVR.CVRContestSelection', 'ContestSelectionId': 'choice-%d-%d' % (k, i), 'SelectionPosition': [
            dict({'@type': 'CVR.SelectionPosition', 'HasIndication': 'yes', 'NumberVotes': 1}, **({} if lost >= 0 else {'IsAllocable': 'no'}))]}
                 for i in marks[k]]
        held.append({'@type': 'CVR.CVRContest', 'ContestId': 'contest-%d' % k, 'Undervotes': max(lost, 0),
                     'Overvotes': election.contests[k].allowed if lost < 0 else 0, 'CVRContestSelection': found})
    return {'@id': name, '@type': 'CVR.CVRSnapshot', 'Type': kind, 'CVRContest': held}


def record(election, ballot):
    name = '%d-%d-%d' % (ballot.device, ballot.batch, ballot.number)
    versions = [('original', ballot.before or ballot.marks)] + [('modified', ballot.marks)] * (ballot.before is not None)
    return {'@type': 'CVR.CVR', 'CreatingDeviceId': 'scanner-%d' % ballot.device, 'UniqueId': str(uuid.uuid5(uuid.NAMESPACE_URL, name)),
            'ElectionId': 'election', 'BallotStyleUnitId': 'unit-%d' % ballot.unit, 'BatchId': 'batch-%d-%d' % (ballot.device, ballot.batch),
            'BallotImage': [{'@type': 'CVR.ImageData', 'Location': 'file:%s-front.jpg' % name}], 'CurrentSnapshotId': versions[-1][0],
            'CVRSnapshot': [snapshot(election, ballot, marks, kind, kind) for kind, marks in versions]}


def cdf(election, folder):
    """Two reports: the second has the later half of the records."""
    held, half = [record(election, it) for it in election.ballots], len(election.ballots) // 2
    for name, part in ('first', held[:half]), ('second', held[half:]):
        put(folder, 'cdf/%s.json' % name, json.dumps(dict(frame(election), CVR=part), indent=1))


def county_cdf(folder):
    """The reports of the county themselves."""
    for name in 'scan.json', 'adjudicated.json':
        os.makedirs(os.path.join(folder, 'cdf'), exist_ok=True)
        shutil.copy(os.path.join(COUNTY, name), os.path.join(folder, 'cdf', name))


def folder_of(record):
    return str(uuid.uuid5(uuid.NAMESPACE_URL, record['CreatingDeviceId'] + record['UniqueId']))


def batches(records):
    """The batches of records, each with its number of sheets, as VxSuite lists them."""
    counts = Counter((it['CreatingDeviceId'], it['BatchId']) for it in records)
    return [{'id': batch, 'label': 'Batch %d' % number, 'batchNumber': number, 'startTime': '2024-11-05T12:00:00.000Z',
             'endTime': '2024-11-06T01:00:00.000Z', 'sheetCount': count, 'scannerId': device} for number, ((device, batch), count) in enumerate(counts.items(), 1)]


def vx(folder, head, records):
    """A folder as VxSuite writes it, of a report's head and records; the first has an image, and one ballot was rejected."""
    meta = {'arePollsClosed': True, 'castVoteRecordReportMetadata': head, 'castVoteRecordRootHash': '0' * 64, 'batchManifest': batches(records)}
    put(folder, 'vxsuite/metadata.json', json.dumps(meta))
    for one in records:
        name = folder_of(one)
        put(folder, 'vxsuite/%s/cast-vote-record-report.json' % name, json.dumps({'CVR': [one]}))
        put(folder, 'vxsuite/%s/%s-front.layout.json' % (name, name), '{}')
    put(folder, 'vxsuite/rejected-%s/front.layout.json' % uuid.uuid5(uuid.NAMESPACE_URL, 'rejected'), '{}')


def vxsuite(election, folder):
    vx(folder, frame(election), [record(election, it) for it in election.ballots])


def county_vxsuite(folder):
    """The records of the county, each with all its snapshots."""
    texts = [open(os.path.join(COUNTY, name), encoding='utf-8').read() for name in ('scan.json', 'adjudicated.json')]
    scan, adjudicated = map(json.loads, texts)
    records = {(it['CreatingDeviceId'], it['UniqueId']): it for it in scan['CVR']}
    for it in adjudicated['CVR']:
        held = records[it['CreatingDeviceId'], it['UniqueId']]
        known = {one['@id'] for one in held['CVRSnapshot']}
        held['CVRSnapshot'] += [one for one in it['CVRSnapshot'] if one['@id'] not in known]
        held['CurrentSnapshotId'] = it['CurrentSnapshotId']
    scan.pop('CVR')
    vx(folder, scan, records.values())


KINDS = {'vxsuite': vxsuite, 'cdf': cdf, 'dominion': dominion, 'dominion-json': dominion_json, 'ess': ess, 'hart': hart, 'clearballot': clearballot}
COUNTIES = {'vxsuite': county_vxsuite, 'cdf': county_cdf}


def make(kind, folder, count=0, seed=1):
    """Writes an export of the county, or of random ballots."""
    if count:
        KINDS[kind](random_election(random.Random(seed), count), folder)
    elif kind in COUNTIES:
        COUNTIES[kind](folder)
    else:
        KINDS[kind](county(), folder)


def files_below(folder):
    return sorted(os.path.relpath(os.path.join(above, name), folder) for above, _, names in os.walk(folder) for name in names)


def is_same(one, other):
    names = files_below(one)
    return names == files_below(other) and not any(filecmp.cmpfiles(one, other, names, shallow=False)[1:])


def main():
    words = argparse.ArgumentParser()
    words.add_argument('kind', nargs='?', choices=list(KINDS))
    words.add_argument('folder', nargs='?')
    words.add_argument('--ballots', type=int, default=0, help='random ones, in place of the county')
    words.add_argument('--seed', type=int, default=1)
    words.add_argument('--examples', action='store_true', help='write examples/exports')
    words.add_argument('--check', action='store_true', help='compare examples/exports')
    words = words.parse_args()
    if words.kind:
        make(words.kind, words.folder, words.ballots, words.seed)
        return 0
    with tempfile.TemporaryDirectory() as folder:
        for kind in KINDS:
            make(kind, folder)
        if words.examples:
            shutil.rmtree(EXAMPLES, ignore_errors=True)
            shutil.copytree(folder, EXAMPLES)
        return 0 if is_same(folder, EXAMPLES) else 1


if __name__ == '__main__':
    sys.exit(main())
