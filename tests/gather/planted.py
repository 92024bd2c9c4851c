"""planted.py: exports of which a number would come out wrong if a rule of `cvr-audit gather` weren't there. Each is
refused with a line, and gathered with the options that the line names; then its first and last lines are printed, and the
recount finds nothing. The numbers were worked out by hand, and differ pairwise within a case. A slip of wrong_ways.py that
names a case takes its rule out: then the export passes, and the recount has to find it."""
import json
import os
import shutil
from collections import namedtuple

import make

# `lay` writes the export below a folder; `log` is why it is refused, or None, with the words `given`; with `words`, too, it isn't, and
# `text` has what is then printed, but for the lines of the files and of what is left out.
Planted = namedtuple('Planted', 'name kind lay log words text given', defaults=[()])
VX = 'vxsuite/metadata.json'


def election(counts, device=1):
    """An election of one contest, with batches of so many ballots each; each third ballot votes for the second choice."""
    ballots = [make.Ballot(device, batch, number, 0, {0: [int(number % 3 == 0)]})
               for batch, count in enumerate(counts, 1) for number in range(1, 1 + count)]
    return make.Election('Invented', [make.Contest('Council', 1, [('Ann', ''), ('Bob', '')])], ['Unit 0'], ballots)


def changed(path, change):
    with open(path, encoding='utf-8') as file:
        value = json.load(file)
    change(value)
    with open(path, 'w', encoding='utf-8') as file:
        json.dump(value, file)


def of_a_test(report, said='test'):
    report.update(ReportType=['originating-device-export', 'other'], OtherReportType=said)


# ---- ballots of a test

def vxsuite_of_both():
    """37 ballots of an election, and 23 of a test by another scanner."""
    for name, counts, device in ('machine_A__2024-11-05', [20, 17], 1), ('TEST__machine_B__2024-10-30', [14, 9], 2):
        make.vxsuite(election(counts, device), '.')
        os.makedirs('export', exist_ok=True)
        if device == 2:
            changed(VX, lambda it: of_a_test(it['castVoteRecordReportMetadata']))
        os.rename('vxsuite', os.path.join('export', name))


def cdf_of_both():
    """Reports of 7 and 5 records, and one of 13 that says that it is of something like a test."""
    os.makedirs('export')
    for name, count, device in ('a', 7, 1), ('b', 13, 2), ('c', 5, 3):
        held = election([count], device)
        report = dict(make.frame(held), CVR=[make.record(held, it) for it in held.ballots])
        if device == 2:
            of_a_test(report, 'L&A, Test Deck')
        make.put('.', 'export/%s.json' % name, json.dumps(report))


def cdf_undone():
    """Five records in one report, and three of them again in another: adjudicated twice, where the first choice is named as the
    current one and the later one counts; once, where the earlier report has the original alone; and once, where the original is
    named again and has the same marks."""
    held = election([5])
    records = [make.record(held, it) for it in held.ballots]
    for one, name in zip(records, ('twice', 'once', 'same')):
        one['UniqueId'] = name
    later = []
    for one, snapshots, current in ((records[0], (('last', 1, '2024-11-06T10:00:00Z'), ('first', 0, '2024-11-06T09:00:00Z')), 'first'),
                                    (records[1], (('modified', 1, '2024-11-06T09:00:00Z'),), 'modified'),
                                    (records[2], (('modified', 1, '2024-11-06T09:00:00Z'),), 'original')):
        made = [dict(make.snapshot(held, None, {0: [choice]}, name, 'modified'), Annotation=[{'@type': 'CVR.Annotation', 'TimeStamp': moment}])
                for name, choice, moment in snapshots]
        later.append(dict(one, CurrentSnapshotId=current, CVRSnapshot=one['CVRSnapshot'] + made))
    os.makedirs('export')
    for name, some in ('a', records), ('b', later):
        make.put('.', 'export/%s.json' % name, json.dumps(dict(make.frame(held), CVR=some)))


def vxsuite_misnamed():
    """A folder of test mode whose metadata says nothing of it."""
    make.vxsuite(election([4, 3]), '.')
    os.makedirs('export')
    os.rename('vxsuite', 'export/TEST__machine_A__2024-10-30')


# ---- exports that aren't whole

def vxsuite_short():
    """Of batches of 11, 9 and 10 ballots three of the second and two of the third are missing."""
    make.vxsuite(election([11, 9, 10]), '.')
    for batch, numbers in (2, (3, 5, 9)), (3, (1, 10)):
        for number in numbers:
            name = make.folder_of(make.record(election([1]), make.Ballot(1, batch, number, 0, {0: [0]})))
            shutil.rmtree(os.path.join('vxsuite', name))
    os.rename('vxsuite', 'export')


def vxsuite_given_back():
    """Of 6 ballots one more was given back, with a report. The text of the OtherReportType is of no test."""
    make.vxsuite(election([6]), '.')
    os.rename('vxsuite', 'export')
    one = make.record(election([1]), make.Ballot(1, 1, 7, 0, {0: [1]}))
    make.put('.', 'export/rejected-7/cast-vote-record-report.json', json.dumps({'CVR': [one]}))
    changed('export/metadata.json', lambda it: it['castVoteRecordReportMetadata'].update(OtherReportType='latest'))


def vxsuite_with(change):
    """Batches of 6 and 2 ballots, with a change of what is said of them."""
    def lay():
        make.vxsuite(election([6, 2]), '.')
        os.rename('vxsuite', 'export')
        changed('export/metadata.json', change)
    return lay


def sessions_short():
    """A file that states nine sessions, of which seven came."""
    make.dominion_json(election([4, 3]), '.')
    os.rename('dominion-json', 'export')
    changed('export/CvrExport.json', lambda it: it.update(SessionCount=9))


def dominion_short():
    """A manifest of the county with batches of 8, 6 and 2 ballots, of which 8, 5 and none came."""
    make.dominion(election([8, 5]), 'export')
    make.put('.', 'batches.csv', 'batch,ballots\n1-1,8\n1-2,6\n1-3,2\n')


def dominion_more():
    """A manifest of batches by device: the second, of 5 ballots, isn't there."""
    make.dominion(election([8, 5]), 'export')
    make.put('.', 'batches.csv', '1,1-1,8\n')


META = 'export/metadata.json: '
GO_ON = '; look for what is missing, or go on with --incomplete'
MIXED = ('%s is of a test by its OtherReportType, and %s is not: %d reports of a test and %d others; leave out those of one '
         'sort, or go on with --test')
HAS = '/batchManifest: the batch %s has %d ballots there, and %d came'
NOT_THERE = '/batchManifest: the batch %s is not there, and %d ballots of it came'
NO_BATCHES = 'it has no batchManifest, so nothing says how many sheets there are'
OPEN = 'arePollsClosed is false, so ballots may follow'
PART = 'INCOMPLETE: ballots are missing, as %d notes below say'
BOTH = 'TEST: all of it is of a test by --test, and %d of %d reports by themselves'
UNDONE = ('note: export/%s.json: /CVR/%d: the record "scanner-%d" "%s" names "%s" as its current snapshot, and "%s" counts: %s; look at '
          'both in the adjudication log')
READINGS = '"%s" has {"%s":1} in the first, and {"%s":1} in the second'
CASES = [
    Planted('a report of a ballot that was given back', 'vxsuite', vxsuite_given_back, None, [], [
        'kind vxsuite', 'note: export/metadata.json: its OtherReportType "latest" is left out, as it names no test']),
    Planted('an adjudication that was undone', 'cdf', cdf_undone, None, [], ['kind cdf', UNDONE % (
        'b', 0, 1, 'twice', 'first', 'last', READINGS % ('contest-0', 'choice-0-0', 'choice-0-1')), UNDONE % (
        'b', 2, 1, 'same', 'original', 'modified', 'both say the same of all contests')]),
    Planted('an export of a test beside another', 'vxsuite', vxsuite_of_both,
            MIXED % ('export/TEST__machine_B__2024-10-30/metadata.json', 'export/machine_A__2024-11-05/metadata.json', 1, 1), ['--test'],
            [BOTH % (1, 2), 'kind vxsuite']),
    Planted('a report of a test beside others', 'cdf', cdf_of_both, MIXED % ('export/b.json', 'export/a.json', 1, 2), ['--test'], [BOTH % (1, 3), 'kind cdf']),
    Planted('a folder of a test', 'vxsuite', vxsuite_misnamed,
            'export/TEST__machine_A__2024-10-30/metadata.json: its folder has a name that begins with TEST__, as of a test, and its OtherReportType says '
            'nothing of one; give the folder another name, or go on with --test', ['--test'], [BOTH % (0, 1), 'kind vxsuite']),
    Planted('ballots that are missing', 'vxsuite', vxsuite_short, META + HAS % ('"batch-1-2"', 9, 6) + GO_ON, ['--incomplete'],
            [PART % 2, 'kind vxsuite', 'note: ' + META + HAS % ('"batch-1-2"', 9, 6), 'note: ' + META + HAS % ('"batch-1-3"', 10, 8)]),
    Planted('a batch of which nothing came', 'vxsuite', vxsuite_with(lambda it: it['batchManifest'].append({'id': 'batch-1-3', 'sheetCount': 3})),
            META + HAS % ('"batch-1-3"', 3, 0) + GO_ON, ['--incomplete'], [PART % 1, 'kind vxsuite', 'note: ' + META + HAS % ('"batch-1-3"', 3, 0)]),
    Planted('a batch that is not listed', 'vxsuite', vxsuite_with(lambda it: it['batchManifest'].pop()), META + NOT_THERE % ('"batch-1-2"', 2) + GO_ON,
            ['--incomplete'], [PART % 1, 'kind vxsuite', 'note: ' + META + NOT_THERE % ('"batch-1-2"', 2)]),
    Planted('ballots that a manifest has', 'dominion', dominion_short, 'batches.csv: the batch "1-2" has 6 ballots there, and 5 came' + GO_ON, ['--incomplete'],
            [PART % 2, 'kind dominion', 'note: batches.csv: the batch "1-2" has 6 ballots there, and 5 came',
             'note: batches.csv: the batch "1-3" has 2 ballots there, and 0 came'], ['--manifest', 'batches.csv']),
    Planted('ballots that a manifest lacks', 'dominion', dominion_more, 'batches.csv: the batch "1" "1-2" is not there, and 5 ballots of it came' + GO_ON,
            ['--incomplete'], [PART % 1, 'kind dominion', 'note: batches.csv: the batch "1" "1-2" is not there, and 5 ballots of it came'], ['--manifest', 'batches.csv']),
    Planted('sessions that are missing', 'dominion-json', sessions_short, 'export/CvrExport.json: its "SessionCount" is 9, and it has 7 sessions' + GO_ON,
            ['--incomplete'], [PART % 1, 'kind dominion-json', 'note: export/CvrExport.json: its "SessionCount" is 9, and it has 7 sessions']),
    Planted('no list of batches', 'vxsuite', vxsuite_with(lambda it: it.pop('batchManifest')), META + NO_BATCHES + GO_ON, ['--incomplete'],
            [PART % 1, 'kind vxsuite', 'note: ' + META + NO_BATCHES]),
    Planted('polls that are open', 'vxsuite', vxsuite_with(lambda it: it.update(arePollsClosed=False)), META + OPEN + GO_ON, ['--incomplete'], [PART % 1, 'kind vxsuite', 'note: ' + META + OPEN]),
]
