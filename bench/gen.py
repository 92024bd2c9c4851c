#!/usr/bin/env python3
"""gen.py records --out FOLDER --records N [--seed S]
gen.py special --out FOLDER [--seed S]
gen.py lists --out FOLDER --contests C --selections S --units U --records N [--seed S]
gen.py volumes --out FOLDER --records N [--seed S]

Makes invented reports, the same for the same seed. `records` and `special` are of one large county. `records` writes
definition.json, the scanners' reports scan-*.json with N cast vote records, and the desks' reports desk-*.json: one
record in twenty again with a modified snapshot, a tenth of these with a second one. `special` writes definition.json,
large.json (a scanner's report as long as a file may be), snapshots.json (one record with 200,000 snapshots) and
devices.json (a report with 1,000,000 reporting devices). `lists` writes definition.json with C contests of S selections
each and U units, in no order, and report.json with the same lists and N records, each with one unit and one vote in one
contest. `volumes` writes the same with 10 contests, 5 selections and 100 units; its report-001.json and so on are as
long as a file may be. Every file is a report of the profile, is accepted beside the definition.json of its folder, and
is below 67,108,864 bytes."""
import argparse
import itertools
import json
import os
import random

LIMIT = 67108864
FILE_BYTES = 16000000       # a scanner's or desk's report ends at this length
OFFICES, MEASURES, ON_A_BALLOT = 24, 8, 14
PRECINCTS, SCANNERS, DESKS = 200, 10, 2
BATCH = 200
PAPERS = 240                # different ways in which each contest is marked
AGAIN, TWICE = 0.05, 0.1
SNAPSHOTS, DEVICES = 200000, 1000000
REPEATS = (10000, 100000)      # records of the files that repeat one record


def compact(value):
    return json.dumps(value, ensure_ascii=False, separators=(',', ':'))


class County:
    """The definition, and the ballot of each precinct."""

    def __init__(self, rng):
        self.contests = [self.office(n) for n in range(OFFICES)] + [self.measure(n) for n in range(MEASURES)]
        self.ballots = [sorted(rng.sample(range(len(self.contests)), ON_A_BALLOT)) for _ in range(PRECINCTS)]

    @staticmethod
    def office(number):
        name = 'office-%02d' % number
        people = ['%s-%s' % (name, letter) for letter in 'abcdef'[:2 + number % 5]]
        return {'id': name, 'class': 'CandidateContest', 'choices': people, 'write_in': name + '-other'}

    @staticmethod
    def measure(number):
        name = 'measure-%d' % number
        return {'id': name, 'class': 'BallotMeasureContest', 'choices': [name + '-yes', name + '-no'], 'write_in': None}

    def candidates(self):
        return [{'@id': 'person-' + choice, '@type': 'CVR.Candidate', 'Name': 'Person %s' % choice,
                 'PartyId': ('red', 'blue', 'gr\u00fcn')[place % 3]}
                for contest in self.contests if contest['write_in'] for place, choice in enumerate(contest['choices'])]

    @staticmethod
    def contest_object(contest):
        if contest['write_in']:
            choices = [{'@id': choice, '@type': 'CVR.CandidateSelection', 'CandidateIds': ['person-' + choice]}
                       for choice in contest['choices']]
            choices.append({'@id': contest['write_in'], '@type': 'CVR.CandidateSelection', 'IsWriteIn': True})
        else:
            choices = [{'@id': choice, '@type': 'CVR.BallotMeasureSelection', 'Selection': choice.split('-')[-1]}
                       for choice in contest['choices']]
        return {'@id': contest['id'], '@type': 'CVR.' + contest['class'], 'Name': contest['id'].replace('-', ' '),
                'VoteVariation': 'plurality', 'ContestSelection': choices}

    def devices(self):
        scanners = [{'@id': 'scanner-%02d' % n, '@type': 'CVR.ReportingDevice', 'SerialNumber': 'S%05d' % (n * 733)}
                    for n in range(SCANNERS)]
        return scanners + [{'@id': 'desk-%d' % n, '@type': 'CVR.ReportingDevice', 'Application': 'Adjudication'}
                           for n in range(DESKS)]

    def head(self, made_by):
        """A report without its CVRs."""
        units = [{'@id': 'county', '@type': 'CVR.GpUnit', 'Type': 'county'}]
        units += [{'@id': 'precinct-%03d' % n, '@type': 'CVR.GpUnit', 'Type': 'precinct', 'Name': 'Precinct %d' % n}
                  for n in range(PRECINCTS)]
        parties = [{'@id': name, '@type': 'CVR.Party', 'Name': name} for name in ('red', 'blue', 'gr\u00fcn')]
        election = {'@id': 'election', '@type': 'CVR.Election', 'Name': 'Invented election', 'ElectionScopeId': 'county',
                    'Candidate': self.candidates(), 'Contest': [self.contest_object(c) for c in self.contests]}
        return {'@type': 'CVR.CastVoteRecordReport', 'Version': '1.0.0', 'GeneratedDate': '2024-11-06T02:00:00Z',
                'ReportGeneratingDeviceIds': [made_by], 'ReportType': ['originating-device-export'],
                'ReportingDevice': self.devices(), 'GpUnit': units, 'Party': parties, 'Election': [election]}


def marked(choice, indication='yes', allocable='yes', mark='0.9', more=''):
    return ('{"@type":"CVR.CVRContestSelection","ContestSelectionId":"%s","SelectionPosition":[{"@type":'
            '"CVR.SelectionPosition","HasIndication":"%s","IsAllocable":"%s","MarkMetricValue":["%s"],"NumberVotes":1%s}]}'
            % (choice, indication, allocable, mark, more))


def voted(contest, selections, more=''):
    return ('{"@type":"CVR.CVRContest","CVRContestSelection":[%s],"ContestId":"%s"%s}'
            % (','.join(selections), contest['id'], more))


def paper(rng, contest):
    """One way in which a contest is marked: mostly one vote, else none, too many, a faint mark or a write-in."""
    first, second = rng.sample(contest['choices'], 2)
    mark, faint = '0.%d' % rng.randrange(400, 999), '0.0%d' % rng.randrange(10, 99)
    kind = rng.random()
    if kind < 0.05:
        return voted(contest, [], ',"Status":["undervoted"],"Undervotes":1')
    if kind < 0.07:
        return voted(contest, [marked(first, allocable='no', mark=mark), marked(second, allocable='no', mark=mark)],
                     ',"Overvotes":1,"Status":["overvoted"]')
    if kind < 0.12:
        return voted(contest, [marked(first, mark=mark), marked(second, 'unknown', 'no', faint)])
    if kind < 0.14 and contest['write_in']:
        text = ',"CVRWriteIn":{"@type":"CVR.CVRWriteIn","Text":"Somebody %d"}' % rng.randrange(90)
        return voted(contest, [marked(contest['write_in'], allocable='unknown', mark=mark, more=text)], ',"WriteIns":1')
    return voted(contest, [marked(first, mark=mark)])


class Series:
    """Reports of one device: a new file begins where the last one is long enough."""

    def __init__(self, folder, stem, head, most=FILE_BYTES, is_numbered=True):
        self.folder, self.stem, self.most, self.is_numbered = folder, stem, most, is_numbered
        self.opening = compact(head)[:-1] + ',"CVR":['
        self.file, self.size, self.count = None, 0, 0

    def put(self, cvr):
        length = len(cvr.encode('utf-8')) + 1
        if self.file is None or self.size + length + 2 > self.most:
            self.end()
            self.count += 1
            name = '%s-%03d.json' % (self.stem, self.count) if self.is_numbered else self.stem + '.json'
            self.file = open(os.path.join(self.folder, name), 'w', encoding='utf-8')
            self.file.write(self.opening)
            self.size = len(self.opening.encode('utf-8'))
            self.file.write(cvr)
        else:
            self.file.write(',' + cvr)
        self.size += length

    def is_full(self, cvr):
        return self.file is not None and self.size + len(cvr.encode('utf-8')) + 3 > self.most

    def end(self):
        if self.file:
            self.file.write(']}')
            self.file.close()
            self.file = None


class Count:
    """The records of a count, one after the other."""

    def __init__(self, seed):
        self.rng = random.Random(seed)
        self.county = County(self.rng)
        self.papers = [[paper(self.rng, contest) for _ in range(PAPERS)] for contest in self.county.contests]

    def record(self, number):
        """(scanner, members of the header, contests by place) of a record."""
        batch, place = divmod(number, BATCH)
        precinct = (batch * 37 + place // 100 * 11) % PRECINCTS
        scanner = batch % SCANNERS
        header = ('"@type":"CVR.CVR","BallotStyleId":"style-%03d","BallotStyleUnitId":"precinct-%03d","BatchId":"batch-%05d",'
                  '"BatchSequenceId":%d,"CreatingDeviceId":"scanner-%02d","ElectionId":"election","UniqueId":"%05d.%03d"'
                  % (precinct, precinct, batch, place + 1, scanner, batch, place + 1))
        chosen = {c: self.papers[c][int(self.rng.random() * PAPERS)] for c in self.county.ballots[precinct]}
        return scanner, header, chosen

    @staticmethod
    def cvr(header, snapshots, current):
        return '{%s,"CurrentSnapshotId":"%s","CVRSnapshot":[%s]}' % (header, current, ','.join(snapshots))

    @staticmethod
    def original(chosen):
        return '{"@id":"scan","@type":"CVR.CVRSnapshot","CVRContest":[%s],"Type":"original"}' % ','.join(chosen.values())

    def modified(self, name, chosen, desk, minute):
        """The contests again, one of them decided by an adjudicator. Desk 1 stamps its time five hours behind UTC."""
        place = self.rng.choice(list(chosen))
        contest = self.county.contests[place]
        decided = dict(chosen)
        decided[place] = voted(contest, [marked(self.rng.choice(contest['choices']), more=',"Status":["adjudicated"]')])
        hour, zone = (14, 'Z') if desk == 0 else (9, '-05:00')
        note = ('"Annotation":[{"@type":"CVR.Annotation","AdjudicatorName":["Adjudicator %d"],"TimeStamp":'
                '"2024-11-%02dT%02d:%02d:00%s"}]' % (desk, 6 + minute // 60 % 20, hour, minute % 60, zone))
        return ('{"@id":"%s","@type":"CVR.CVRSnapshot",%s,"CVRContest":[%s],"Type":"modified"}'
                % (name, note, ','.join(decided.values())))

    def adjudicated(self, number, header, chosen):
        """(desk, CVR) for each adjudication of a record: none, one or two."""
        if self.rng.random() >= AGAIN:
            return
        turns = 2 if self.rng.random() < TWICE else 1
        for turn in range(turns):
            desk = (number + turn) % DESKS
            name = 'desk-%d-%d' % (desk, turn)
            yield desk, self.cvr(header, [self.modified(name, chosen, desk, number + 7 * turn)], name)


def write(folder, name, text):
    with open(os.path.join(folder, name), 'w', encoding='utf-8') as file:
        file.write(text)


def write_definition(folder, county):
    write(folder, 'definition.json', compact(dict(county.head('desk-0'), CVR=[])))


def records(folder, amount, seed):
    count = Count(seed)
    write_definition(folder, count.county)
    scans = [Series(folder, 'scan-%02d' % n, count.county.head('scanner-%02d' % n)) for n in range(SCANNERS)]
    desks = [Series(folder, 'desk-%d' % n, count.county.head('desk-%d' % n)) for n in range(DESKS)]
    for number in range(amount):
        scanner, header, chosen = count.record(number)
        scans[scanner].put(count.cvr(header, [count.original(chosen)], 'scan'))
        for desk, cvr in count.adjudicated(number, header, chosen):
            desks[desk].put(cvr)
    for series in scans + desks:
        series.end()


def write_repeated(folder, count, amount):
    """Writes a file that has one record so many times."""
    snapshot = '{"@id":"a","@type":"CVR.CVRSnapshot","Type":"original"}'
    cvr = count.cvr('"@type":"CVR.CVR","CreatingDeviceId":"scanner-00","ElectionId":"election","UniqueId":"one"',
                    [snapshot], 'a')
    head = compact(count.county.head('scanner-00'))[:-1]
    write(folder, 'repeated-%d.json' % amount, head + ',"CVR":[' + ','.join([cvr] * amount) + ']}')


def special(folder, seed):
    count = Count(seed)
    county = count.county
    write_definition(folder, county)
    large = Series(folder, 'large', county.head('scanner-00'), LIMIT - 1, False)
    for number in itertools.count():
        _, header, chosen = count.record(number)
        cvr = count.cvr(header, [count.original(chosen)], 'scan')
        if large.is_full(cvr):
            break
        large.put(cvr)
    large.end()
    snapshots = ['{"@id":"%06d","@type":"CVR.CVRSnapshot","Type":"original"}' % n for n in range(SNAPSHOTS)]
    cvr = count.cvr('"@type":"CVR.CVR","CreatingDeviceId":"scanner-00","ElectionId":"election","UniqueId":"one"',
                    snapshots, '000000')
    write(folder, 'snapshots.json', compact(county.head('scanner-00'))[:-1] + ',"CVR":[' + cvr + ']}')
    for amount in REPEATS:
        write_repeated(folder, count, amount)
    devices = ','.join('{"@id":"d%06d","@type":"CVR.ReportingDevice"}' % n for n in range(DEVICES))
    head = dict(county.head('d000000'))
    del head['ReportingDevice']
    write(folder, 'devices.json', compact(head)[:-1] + ',"ReportingDevice":[' + devices + ']}')


def shuffled(rng, names):
    held = list(names)
    rng.shuffle(held)
    return held


def listed(rng, contests, selections, units):
    """A report with these ids, without its CVRs. Short names leave room for records."""
    choices = [{'@id': name, '@type': 'CVR.CandidateSelection'} for name in selections]
    election = {'@id': 'e', '@type': 'CVR.Election', 'ElectionScopeId': units[0],
                'Contest': [{'@id': name, '@type': 'CVR.CandidateContest', 'ContestSelection': choices}
                            for name in shuffled(rng, contests)]}
    return {'@type': 'CVR.CastVoteRecordReport', 'Version': '1.0.0', 'GeneratedDate': '2024-11-06T02:00:00Z',
            'ReportGeneratingDeviceIds': ['d'], 'ReportingDevice': [{'@id': 'd', '@type': 'CVR.ReportingDevice'}],
            'GpUnit': [{'@id': name, '@type': 'CVR.GpUnit', 'Type': 'precinct'} for name in shuffled(rng, units)],
            'Election': [election]}


def lists(folder, words, is_numbered):
    rng = random.Random(words.seed)
    contests = ['c%d' % n for n in range(words.contests)]
    selections = ['s%d' % n for n in range(words.selections)]
    units = ['u%d' % n for n in range(words.units)]
    head = listed(rng, contests, selections, units)
    write(folder, 'definition.json', compact(dict(head, CVR=[])))
    report = Series(folder, 'report', head, LIMIT - 1, is_numbered)
    for number in range(words.records):
        report.put('{"@type":"CVR.CVR","BallotStyleUnitId":"%s","CVRSnapshot":[{"@id":"a","@type":"CVR.CVRSnapshot",'
                   '"CVRContest":[{"@type":"CVR.CVRContest","CVRContestSelection":[{"@type":"CVR.CVRContestSelection",'
                   '"ContestSelectionId":"%s","SelectionPosition":[{"@type":"CVR.SelectionPosition","HasIndication":"yes",'
                   '"NumberVotes":1}]}],"ContestId":"%s"}],"Type":"original"}],"CreatingDeviceId":"d",'
                   '"CurrentSnapshotId":"a","ElectionId":"e","UniqueId":"%06d"}'
                   % (units[number % len(units)], rng.choice(selections), rng.choice(contests), number))
    report.end()
    assert is_numbered or report.count == 1, 'so many records take more than one file'


def main():
    words = argparse.ArgumentParser()
    words.add_argument('what', choices=['records', 'special', 'lists', 'volumes'])
    words.add_argument('--out', required=True)
    words.add_argument('--contests', type=int, default=10)
    words.add_argument('--selections', type=int, default=5)
    words.add_argument('--units', type=int, default=100)
    words.add_argument('--records', type=int, default=10000)
    words.add_argument('--seed', type=int, default=1)
    words = words.parse_args()
    os.makedirs(words.out)
    if words.what == 'records':
        records(words.out, words.records, words.seed)
    elif words.what == 'special':
        special(words.out, words.seed)
    else:
        lists(words.out, words, words.what == 'volumes')
    sizes = [os.path.getsize(os.path.join(words.out, name)) for name in os.listdir(words.out)]
    assert max(sizes) < LIMIT
    print('%s: %d files, %.1f MB, the longest %.1f MB' % (words.out, len(sizes), sum(sizes) / 1e6, max(sizes) / 1e6))


if __name__ == '__main__':
    main()
