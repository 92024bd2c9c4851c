#!/usr/bin/env python3
"""recount.py KIND EXPORT OUT [--cvr PATH] [--contests CONTEST=COLUMNS] [--left-out COLUMN] [--heads ORDER] [--means TEXT=MEANING] [--test] [--manifest CSV]

Counts the votes of an export anew, by a few lines for each kind that share nothing with `cvr-audit`, and compares them
with `cvr tally` of what `cvr-audit gather` made of the export (OUT). Each difference has a line; the status is 0 where
there is none. What is counted: for each contest, unit and batch the ballots, overvotes, undervotes, write-ins, and the votes of
each choice by its name; and the number of records and of their names. Of reports of the standard and of VxSuite also what
they say of a test, and of VxSuite how many sheets each batch has. Where an export can be read in several ways, a line
says so, unless the options of `cvr-audit gather` say which is meant."""
import argparse
import csv
import glob
import json
import os
import re
import subprocess
import sys
import xml.etree.ElementTree as ElementTree
from collections import Counter
from datetime import datetime
from itertools import combinations

COLUMNS = 'ballots', 'overvotes', 'undervotes', 'write-ins', 'pending', 'unassigned'
WORD = re.compile(r'"(?:[^"\\]|\\.)*"|[^ ]+')
SPACE = '{http://tempuri.org/CVRDesign.xsd}'
WRITTEN = 'write-in'
TYPES = 'original', 'interpreted', 'modified'


# of ES&S, by letters and digits: heads that say where a ballot comes from, and those that may say whether it counts; cells
# without a vote, and those of which it isn't known what they say
OF_ORIGIN = re.compile('(batch|box|scanner|tabulator|machine|device|ballotimage|image|sheet|session)(id|name|number)?|(counter|counting|reporting|tabulator)group'
                       '|(ballot|vote)type|votingmethod|(ballot)?language|tabulatorcvr|(cvr|audit|ballot)(id|number)|imprintedid|serialnumber|row(number)?'
                       '|poll(ing)?place|location|votecenter|county|election(id)?|batchsequence|image(file|path)|(scan)?(date|time)|timestamp'
                       '|precinct(id|name|number|split)|ballotstyleid')
OF_DOUBT = re.compile('writeintype|resultsreport|remade|duplicated|party|.*(exceptions?|status|flags?|reason)')
NO_VOTE = re.compile('blank(vote)?|leftblank|noselections?|noselectionmade|(not|none|nothing)selected|novotes?|notvoted|didnotvote|unvoted|nochoice(made)?|nomarks?'
                     '|notmarked|unmarked|skip(ped)?')
UNSURE = re.compile('(under|over)vote.*|none|null|nil|nan?|notapplicable|noton?ballot|noteligible|nocontest|undefined|unknown|empty|missing|error|spoiled|void(ed)?|invalid'
                    '|rejected|unreadable|ambiguous|multiple(votes)?|toomany(votes)?|doublevote|crossover|pending|under|over|uv|ov|totals?|sum|true|false|x')


def label(choice):
    words = ' %s ' % re.sub('[^a-z/]+', ' ', choice.lower())
    return WRITTEN if re.search('^ *wi *$| (write ?ins?|w/i|uwi|por escrito) ', words) else choice


class Count:
    """Votes by contest, unit, batch and column, and the names of the records. `over` has for each contest how many ballots
    mark it, and how many of these too often; `doubts` are lines on what can be read in several ways."""

    def __init__(self, cuts=(), order=None, left=(), means=()):
        self.means = dict(it.replace('\\u200b', '\u200b').rsplit('=', 1) for it in means)
        self.left, self.device, self.ballots, self.now = left, None, {}, []
        self.votes, self.names, self.records = Counter(), set(), 0
        self.cuts, self.order, self.over, self.doubts = dict(it.rsplit('=', 1) for it in cuts), order, {}, []

    def said(self, cell):
        """A cell of ES&S: as --means has it, and else `undervote` where it says that there is no vote."""
        if cell in self.means:
            return {'absent': '', 'choice': cell}.get(self.means[cell], self.means[cell])
        return 'undervote' if NO_VOTE.fullmatch(bare(cell)) else cell.lower() if cell.lower() in ('undervote', 'overvote') else cell

    def is_one(self, name):
        return ',' not in self.cuts.get(name, ',')

    def place_of(self, name, i):
        """The contest of a column: --contests parts those of one name."""
        for part in [] if self.is_one(name) else self.cuts.get(name, '').split(','):
            if part and int(part.split('-')[0]) <= i + 1 <= int(part.split('-')[-1]):
                return '%s (column%s %s)' % (name, 's' * ('-' in part), part)
        return name

    def columns(self, name, allowed, choices):
        """Notes a contest with more columns for written names than votes."""
        if sum(label(it) == WRITTEN for it in choices) > allowed and not self.is_one(name):
            self.doubts.append('%s: more columns for written names than votes' % name)

    def melted(self):
        """The contests that ten ballots and one in twenty of those that mark it overvote, or two ballots and more than half."""
        return ['%s: %d of %d ballots are overvoted' % (name, over, marked) for name, (marked, over) in self.over.items()
                if (over >= 10 and 20 * over > marked or over >= 2 and over > marked / 2) and not self.is_one(name)]

    def again(self):
        """Whether three ballots or more of two devices have one number, and nine of ten of these one text."""
        for (one, held), (other, its) in combinations(self.ballots.items(), 2):
            both = held.keys() & its.keys()
            if len(both) >= 3 and sum(held[it] == its[it] for it in both) * 10 >= len(both) * 9:
                yield '%s and %s have the same ballots' % (one, other)

    def record(self, *name):
        self.names.add((self.device, *name))
        self.now = self.ballots.setdefault(self.device, {}).setdefault(name, [])
        self.records += 1

    def contest(self, row, chosen, over, under):
        """A contest of a record: the choices that get a vote or are marked too often. A written name of these is none."""
        written = 0 if over else sum(label(it) == WRITTEN for it in chosen)
        contest, unit, batch = row
        self.now.append((contest, unit, sorted(chosen), over, under))
        row = contest, unit, '%s/%s' % (self.device, batch) if self.device and batch else batch
        held = {'ballots': 1, 'overvotes': over, 'undervotes': under, 'write-ins': written}
        for column, number in held.items():
            self.votes[(*row, column)] += number
        for choice in chosen if not over else ():
            self.votes[(*row, label(choice))] += 1


def table(path):
    with open(path, encoding='utf-8-sig', newline='') as file:
        return list(csv.reader(file))


def flagged(count, row, allowed, cells):
    """A contest of (choice, cell): an overvote where more cells than allowed are 1."""
    chosen = [choice for choice, cell in cells if cell == '1']
    marked, over = count.over.get(row[0], (0, 0))
    count.over[row[0]] = marked + bool(chosen), over + (len(chosen) > allowed)
    if any(cell for _, cell in cells):
        count.contest(row, chosen, allowed if len(chosen) > allowed else 0, max(0, allowed - len(chosen)))


def rows_of(count, rows, held, key_of):
    """Counts the rows of a table: `held` has for each (contest, votes) the (choice, index) of its columns."""
    for (name, allowed), places in held.items():
        count.columns(name, allowed, [choice for choice, _ in places])
    for row in rows:
        unit, batch = key_of(row)
        for (name, allowed), places in held.items():
            flagged(count, (name, unit, batch), allowed, [(choice, row[i]) for choice, i in places])


def dominion(count, path):
    (_, contests, choices, heads, *rows) = table(path)
    at = {name: heads.index(name) for name in ('TabulatorNum', 'BatchId', 'RecordId', 'PrecinctPortion')}
    held = {}
    for i, head in enumerate(contests):
        if head:
            title, allowed = re.fullmatch(r'(.*) \(Vote For=(\d+)\)', head).groups()
            held.setdefault((count.place_of(title, i), int(allowed)), []).append((choices[i], i))

    def key_of(row):
        device, batch, number, unit = (row[at[name]].strip('="') for name in at)
        count.record(device, batch, number)
        return unit, device + '-' + batch

    rows_of(count, rows, held, key_of)


def is_unclear(text, ends):
    """Whether another part of the end of a head may be the choice than the one before the last colon; `ends` are the parties of others."""
    *first, party = text.split(':')
    none = [re.sub('[^a-z]', '', it.lower()) in ('', 'nonpartisan', 'noparty', 'nopartypreference', 'np', 'npp', 'none', 'na') for it in (*first, party)]
    words = [it.lower() in ('yes', 'no', 'for', 'against', 'approve', 'reject') for it in (*first, party)]
    return (not first or any(none[:-1]) or words[-1] or label(party) == WRITTEN or words[0] and len(first) == 1 and not none[-1]
            or first[-1].endswith(' ') or party.startswith(' ') or len(first) > 1 and not none[-1] and party not in ends)


def choices_of(count, texts):
    """What of the ends of heads is the choice: --heads says it, or else what stands before the last colon. Notes each that isn't clear."""
    if count.order:
        return [it if count.order == 'choice' else it.partition(':')[2] if count.order == 'party:choice' else it.rpartition(':')[0] for it in texts]
    ends = {it.split(':')[1] for it in texts if it.count(':') == 1}
    count.doubts += ['%s: the choice may be another part' % it for it in texts if is_unclear(it, ends)]
    pairs = {tuple(it.rsplit(':', 1)) for it in texts}
    choices, parties = ({it[place] for it in pairs} for place in (0, -1))
    if not any(it.replace('-', '').lower() in ('', 'nonpartisan') for it in parties) and not len(parties) < len(pairs) == len(choices):
        count.doubts.append('%s: the party may stand first' % texts[0])
    return [it.rpartition(':')[0] for it in texts]


def clearballot(count, path):
    heads, *rows = table(path)
    at = {name: heads.index(name) for name in ('ScanComputerName', 'BoxID', 'BoxPosition', 'PrecinctID')}
    held, found = {}, [(i, re.fullmatch(r'Choice_\d+_1:(.*):Vote For (\d+):(.*)', head)) for i, head in enumerate(heads)]
    found = [(i, *it.groups()) for i, it in found if it]
    for (i, name, allowed, _), choice in zip(found, choices_of(count, [it[3] for it in found])):
        held.setdefault((count.place_of(name, i), int(allowed)), []).append((choice, i))

    def key_of(row):
        device, box, place, unit = (row[at[name]] for name in at)
        count.record(device, box, place)
        return unit, box

    rows_of(count, rows, held, key_of)


def bare(text):
    return re.sub('[^a-z0-9]', '', text.lower())


def may_be_other(count, name, columns, is_named):
    """What the columns of a contest of ES&S may be beside that, as lines: `columns` has the cells of each where the contest is on the
    ballot. Where --contests names them, words alone are asked for."""
    cells = {it for column in columns for it in column}
    chosen = {it for it in cells if count.said(it) not in ('undervote', 'overvote')}
    yield from ('%s: what says %s?' % (name, it) for it in sorted(chosen) if UNSURE.fullmatch(bare(it)) and it not in count.means)
    if is_named or not cells:
        return
    if not chosen or chosen == cells and all(label(it) != WRITTEN for it in chosen):
        yield '%s: nothing says that it is a contest' % name
    joined = '(%s)' % '|'.join(sorted((bare(it) for it in chosen), key=len, reverse=True))
    yield from ('%s: %s may be several choices, a number or a path' % (name, it) for it in sorted(chosen)
                if re.search(r'[;|\r\n\\]|\.(jpe?g|png|tiff?|bmp|gif|pdf)$', it.lower()) or not re.search(r'[^\W\d_]', it))
    yield from ('%s: %s is put together of choices' % (name, it) for it in chosen if re.fullmatch(r'%s((and)?%s)+' % (joined, joined), bare(it)))
    plain = Counter(bare(it) for it in chosen if label(it) != WRITTEN)
    yield from ('%s: %s stands in two ways' % (name, it) for it, number in plain.items() if number > 1)
    names = [{it for it in column if it in chosen and label(it) != WRITTEN} for column in columns]
    if len(names) > 1 and len(columns[0]) >= 10 and all(names) and len(set().union(*names)) == sum(map(len, names)):
        yield '%s: no choice stands in two columns' % name


def ess(count, path):
    heads, *rows = table(path)
    number, unit = heads.index('Cast Vote Record'), heads.index('Precinct')
    held, left = {}, [i for i, it in enumerate(heads) if it in count.left or it not in count.cuts and OF_ORIGIN.fullmatch(bare(it))]
    for i, it in enumerate(heads):
        if it not in ('Cast Vote Record', 'Precinct', 'Ballot Style') and i not in left:
            held.setdefault(count.place_of(it, i), []).append(i)
            is_unclear = OF_DOUBT.fullmatch(bare(it)) or re.search(r'(choice|rank|ranking|preference) ?#?\d|(\d(st|nd|rd|th)|first|second|third) (choice|rank|preference)', it.lower())
            count.doubts += ['%s: may say whether a ballot counts, or have ranks' % it] * (it not in count.cuts and bool(is_unclear))
    count.doubts += ['%s: has undervotes' % heads[i] for i in left if heads[i] not in count.left and {'undervote', 'overvote'} & {row[i].lower() for row in rows}]
    words = {it.lower() for row in rows for places in held.values() for it in (row[i] for i in places) if it not in count.means and count.said(it) == 'undervote'}
    count.doubts += ['%s both say that there is no vote' % ' and '.join(sorted(words))] * (len(words) > 1)
    alike = {}
    for name, places in held.items():
        columns = [[row[i] for row in rows if count.said(row[i])] for i in places]
        count.doubts += may_be_other(count, name, columns, heads[places[0]] in count.cuts)
        chosen = {it for column in columns for it in column if count.said(it) not in ('undervote', 'overvote') and label(it) != WRITTEN
                  and re.split('[^a-zí]', it.lower())[0] not in ('yes', 'no', 'for', 'against', 'approve', 'approved', 'reject', 'rejected', 'retain', 'do', 'si', 'sí')}
        others = alike.setdefault(re.sub(r'\d+', '#', name), [])
        count.doubts += ['%s and %s have two choices in common' % (one, name) for one, its in others if len(its & chosen) > 1 and not {one, name} <= {*count.cuts}]
        others.append((name, chosen))
    for row in rows:
        count.record(row[number])
        for name, places in held.items():
            words = [count.said(row[i]) for i in places]
            if any(words):
                chosen = [it for it in words if it not in ('undervote', 'overvote')]
                count.contest((name, row[unit], None), chosen, words.count('overvote'), words.count('undervote'))


def hart(count, folder):
    sums = {}
    for path in glob.glob(os.path.join(folder, '*.xml')):
        root = ElementTree.parse(path).getroot()
        count.record(root.findtext(SPACE + 'CvrGuid'))
        place = root.findtext('%sPrecinctSplit/%sName' % (SPACE, SPACE)), root.findtext(SPACE + 'BatchNumber')
        for contest in root.iter(SPACE + 'Contest'):
            chosen = [it.findtext(SPACE + 'Name') if it.find(SPACE + 'WriteInData') is None else WRITTEN for it in contest.iter(SPACE + 'Option') if it.findtext(SPACE + 'Value') == '1']
            over, under = (int(contest.findtext(SPACE + it, '0')) for it in ('Overvotes', 'Undervotes'))
            name, key = (contest.findtext(SPACE + it) for it in ('Name', 'Id'))
            allowed = count.allowed.get(key, count.allowed.get(name))
            if allowed and len(chosen) > allowed:
                over = over or allowed
            if not over and not allowed and (contest.find(SPACE + 'Undervotes') is not None or len(chosen) > 1):
                sums.setdefault(key, set()).add(len(chosen) + under if contest.find(SPACE + 'Undervotes') is not None else None)
            count.contest((name, *place), chosen, over, under)
    count.doubts += ['%s: more may be marked than is allowed' % key for key, held in sums.items() if len(held) > 1 or None in held]


def dominion_json(count, folder):
    lists = {name: {it['Id']: it for it in json.load(open(os.path.join(folder, name + 'Manifest.json'), encoding='utf-8'))['List']}
             for name in ('Contest', 'Candidate', 'PrecinctPortion')}
    for path in glob.glob(os.path.join(folder, 'CvrExport*.json')):
        for session in json.load(open(path, encoding='utf-8'))['Sessions']:
            current = session.get('Modified') or session['Original']
            device, batch = session['TabulatorId'], session['BatchId']
            unit = lists['PrecinctPortion'][current['PrecinctPortionId']]['Description']
            for number, card in enumerate(current.get('Cards', [current])):
                count.record(device, batch, session['RecordId'], number)
                for contest in card['Contests']:
                    listed, over = lists['Contest'][contest['Id']], contest['Overvotes']
                    row = listed['Description'], unit, '%s-%s' % (device, batch)
                    marks = [it for it in contest['Marks'] if it['IsVote'] and not it['IsAmbiguous']]
                    single = Counter(it['Rank'] for it in marks)
                    if listed['NumOfRanks'] and max(single.values(), default=0) > 1 or not listed['NumOfRanks'] and len(marks) > listed['VoteFor']:
                        over = over or listed['VoteFor']
                    marks = [it for it in marks if not listed['NumOfRanks'] or single[it['Rank']] == 1]
                    chosen = [lists['Candidate'][it['CandidateId']] for it in marks]
                    chosen = [WRITTEN if re.search('WriteIns?$', it['Type']) else it['Description'] for it in chosen]
                    count.contest(row, chosen, 0 if listed['NumOfRanks'] else over, contest['Undervotes'])
                    count.votes[(*row, 'overvotes')] += over if listed['NumOfRanks'] else 0


def choosing(snapshot):
    stamps = [datetime.fromisoformat(it['TimeStamp'].replace('Z', '+00:00')).timestamp() for it in snapshot.get('Annotation', []) if 'TimeStamp' in it]
    return TYPES.index(snapshot['Type']), max(stamps, default=float('-inf')), json.dumps(snapshot, sort_keys=True)


def reports(count, folder):
    held = {}
    for path in glob.glob(os.path.join(folder, '**', '*.json'), recursive=True):
        found = json.load(open(path, encoding='utf-8'))
        for one in found.get('CVR', []) if os.path.basename(path) != 'metadata.json' and '/rejected-' not in path else ():
            count.record(one['CreatingDeviceId'], one['UniqueId'])
            held.setdefault((one['CreatingDeviceId'], one['UniqueId']), []).append(one)
    for versions in held.values():
        current = max((it for one in versions for it in one['CVRSnapshot']), key=choosing)
        for contest in current.get('CVRContest', []):
            row = contest['ContestId'], versions[0].get('BallotStyleUnitId'), versions[0].get('BatchId')
            count.contest(row, [], contest.get('Overvotes', 0), contest.get('Undervotes', 0))
            count.votes[(*row, 'write-ins')] += contest.get('WriteIns', 0)
            for one in contest.get('CVRContestSelection', []):
                for it in one['SelectionPosition']:
                    if it.get('IsAllocable', it['HasIndication']) == 'yes':
                        count.votes[(*row, one['ContestSelectionId'])] += it['NumberVotes']


KINDS = {'vxsuite': reports, 'cdf': reports, 'dominion': dominion, 'dominion-json': dominion_json, 'ess': ess, 'hart': hart, 'clearballot': clearballot}


# ---- what `cvr` counts

class Labels:
    """What the texts of a tally are called in the source: by name, and in reports of the standard by id."""

    def __init__(self, path, is_named):
        report = json.load(open(path, encoding='utf-8'))
        election, self.is_named = report['Election'][0], is_named
        self.candidates = {it['@id']: it['Name'] for it in election.get('Candidate', [])}
        self.contests = {it['@id']: it for it in election['Contest']}
        self.units = {it['@id']: it.get('Name') for it in report['GpUnit']}

    def row(self, contest, unit, batch):
        if self.is_named:
            contest, unit = self.contests[contest]['Name'], self.units[unit] if unit is not None else None
        return contest, unit, batch

    def choice(self, contest, key):
        found = next(it for it in self.contests[contest]['ContestSelection'] if it['@id'] == key)
        if not self.is_named:
            return key
        return WRITTEN if found.get('IsWriteIn') else ' / '.join(self.candidates[it] for it in found['CandidateIds'])


def printed(cvr, task, out):
    files = [os.path.join(out, 'definition.json')] + sorted(glob.glob(os.path.join(out, 'records-*.json')))
    return subprocess.run([cvr, task, '--'] + files, stdout=subprocess.PIPE, check=True).stdout.decode('utf-8').splitlines()


def tallied(cvr, out, is_named):
    """The tally by contest, unit, batch and column or choice."""
    labels, votes = Labels(os.path.join(out, 'definition.json'), is_named), Counter()
    for line in printed(cvr, 'tally', out):
        words = WORD.findall(line)
        contest, unit, batch = map(json.loads, words[:3])
        row, end = labels.row(contest, unit, batch), 3 + len(COLUMNS)
        for column, number in zip(COLUMNS, words[3:end]):
            votes[(*row, column)] += int(number)
        for name, number in zip(words[end::2], words[end + 1::2]):
            votes[(*row, labels.choice(contest, json.loads(name)))] += int(number)
    return votes


def said_in(export):
    """What reports say of themselves: whether each is of a test, and what is missing. In an export of VxSuite each folder with a
    report beside the others is a sheet of its batch."""
    is_test, lacking = set(), []
    for path in glob.glob(os.path.join(export, '**', '*.json'), recursive=True):
        found = json.load(open(path, encoding='utf-8'))
        head = found.get('castVoteRecordReportMetadata', found)
        if 'Election' in head:
            is_test.add(re.search(r'\b(pre)?test', head.get('OtherReportType', ''), re.I) is not None or '/TEST__' in path)
        if head is not found:
            sheets = Counter(json.load(open(it, encoding='utf-8'))['CVR'][0].get('BatchId')
                             for it in glob.glob(os.path.join(os.path.dirname(path), '*', 'cast-vote-record-report.json')) if '/rejected-' not in it)
            stated = Counter({it['id']: it['sheetCount'] for it in found.get('batchManifest', [])})
            lacking += ['batch %s' % it for it in {**sheets, **stated} if sheets[it] != stated[it]] + ['open polls'] * (found.get('arePollsClosed') is False)
    return is_test, lacking


def sessions_in(folder):
    """The files of which a number beside the sessions isn't how many there are."""
    held = {path: json.load(open(path, encoding='utf-8')) for path in glob.glob(os.path.join(folder, 'CvrExport*.json'))}
    every = sum(len(it['Sessions']) for it in held.values())
    return [path for path, it in held.items() for name, number in it.items()
            if 'ession' in name and name != 'Sessions' and number not in (len(it['Sessions']), every)]


def lacking_in(out, manifest):
    """The batches of which a manifest has another number than there are; a ballot is a record here."""
    records = [one for path in glob.glob(os.path.join(out, 'records-*.json')) for one in json.load(open(path, encoding='utf-8'))['CVR']]
    rows = [row for row in table(manifest) if row and row[-1].strip().isdigit()]
    came = Counter((it['CreatingDeviceId'], it.get('BatchId'))[-len(rows[0]) + 1:] for it in records)
    stated = Counter({tuple(row[:-1]): int(row[-1]) for row in rows})
    return ['batch %s' % (it,) for it in {**came, **stated} if came[it] != stated[it]]


def unsaid(out, is_test, lacking, is_meant):
    """What the export says of a test, or of ballots that are missing, and the definition doesn't; and reports of a test beside
    others, unless that is meant."""
    words = json.load(open(os.path.join(out, 'definition.json'), encoding='utf-8')).get('OtherReportType', '')
    found = ['the export is of a test, and the definition is not'] * (True in is_test and 'test' not in words)
    found += ['reports of a test stand beside others'] * (len(is_test) == 2 and not is_meant)
    return found + ['the export lacks: ' + ', '.join(lacking)] * (lacking != [] and 'incomplete' not in words)


def differences(kind, export, cvr, out, cuts=(), order=None, is_meant=False, manifest=None, left=(), devices=(), allowed=(), means=()):
    """Where the export and the tally differ, as lines; with it the number of votes that were compared. With names of devices there
    is an export of each."""
    count = Count(cuts, order, left, means)
    count.allowed = {name: int(number) for name, number in (it.rsplit('=', 1) for it in allowed)}
    for path, count.device in zip(export if devices else [export], devices or [None]):
        KINDS[kind](count, path)
    votes, found = tallied(cvr, out, KINDS[kind] is not reports), count.doubts + count.melted() + [*count.again()]
    for key in sorted({*votes, *count.votes}, key=repr):
        if votes[key] != count.votes[key]:
            found.append('%r: the export has %d, the tally %d' % (key, count.votes[key], votes[key]))
    is_test, lacking = said_in(export) if KINDS[kind] is reports else (set(), sessions_in(export) if kind == 'dominion-json' else [])
    found += unsaid(out, is_test, lacking + (lacking_in(out, manifest) if manifest else []), is_meant)
    lines = [sum(int(it.rpartition(' ')[2]) for it in printed(cvr, 'check', out)), len(printed(cvr, 'currents', out))]
    if lines != [count.records, len(count.names)]:
        found.append('the export has %d records with %d names, cvr reads %d with %d' % (count.records, len(count.names), *lines))
    compared = sum(number for (*_, column), number in count.votes.items() if column not in COLUMNS)
    return found, compared


def main():
    words = argparse.ArgumentParser()
    words.add_argument('kind', choices=list(KINDS))
    words.add_argument('export')
    words.add_argument('out')
    words.add_argument('--cvr', default=os.environ.get('CVR', 'cvr'), help='the program that makes the tally')
    words.add_argument('--contests', metavar='CONTEST=COLUMNS', action='append', default=[], help='as given to cvr-audit gather')
    words.add_argument('--left-out', metavar='COLUMN', action='append', default=[], help='as given to cvr-audit gather')
    words.add_argument('--heads', metavar='ORDER', help='as given to cvr-audit gather')
    words.add_argument('--means', metavar='TEXT=MEANING', action='append', default=[], help='as given to cvr-audit gather')
    words.add_argument('--votes', metavar='CONTEST=N', action='append', default=[], help='as given to cvr-audit gather')
    words.add_argument('--test', action='store_true', help='reports of a test beside others are meant')
    words.add_argument('--manifest', metavar='CSV', help='as given to cvr-audit gather')
    words = words.parse_args()
    found, compared = differences(words.kind, words.export, words.cvr, words.out, words.contests, words.heads, words.test, words.manifest, words.left_out,
                                  allowed=words.votes, means=words.means)
    print('\n'.join(found + ['%d votes compared, %d differences' % (compared, len(found))]))
    sys.exit(1 if found else 0)


if __name__ == '__main__':
    main()
