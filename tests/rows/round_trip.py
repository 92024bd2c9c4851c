#!/usr/bin/env python3
"""round_trip.py --cvr PATH [--cases N] [--seed N]

Writes what an office holds as volumes, reads them back in another order, and compares the two offices. Each case is a
small random election: one to five reports, with few names, so that most names come again with another body. All their
volumes are read back shuffled, some twice and some beside the reports themselves; then `currents`, `conflicts`, `tally`
and each volume have to be the same bytes as before. One seed gives the same cases on every machine. The last line is
`round trips: N right, M wrong`; the status is 0 only where M is 0 and N is not, and where every kind of conflict and
three volumes have occurred."""
import json
import os
import random
import re
import subprocess
import sys
import tempfile
from collections import Counter
from concurrent.futures import ThreadPoolExecutor

sys.dont_write_bytecode = True
sys.path.insert(0, os.path.dirname(os.path.dirname(os.path.abspath(__file__))))
import make_vectors  # noqa: E402
import tenth         # noqa: E402 (they stand here and in tests/)

DEFINITION = make_vectors.vectors()['def.json']
HEADING = ['2024-11-07T09:30:00-05:00', 'desk']
SELECTIONS = {'mayor': ['ann', 'bob', 'wi'], 'q1': ['no', 'yes']}
# Names before, between and after those that a volume's writer looks for, and names that need an escape.
UNKNOWN = ['', '@', 'A"', 'B\\', 'CVRSnapshos', 'CVRSnapshot ', 'CVRSnapshotx', 'CurrentSnapshotI', 'CurrentSnapshotId\n', 'Dx', '{', 'z\x7f', '\u00e9',
           '\u2028', '\ue000', '\U0001f600']
VALUES = [None, True, 0, -9223372036854775808, 18446744073709551615, 'x', '', '"', '\\', ',"CVRSnapshot":[', '}', '\x01\t\n', '\u20ac', '\U0001f5f3', [], {}]
KIND = re.compile(rb'(?:%s %s )?(device|header|snapshot) ' % ((rb'"(?:[^"\\]|\\.)*"',) * 2))      # of a line of conflicts
MOMENTS = ['2024-11-05T23:30:00-05:00', '2024-11-06T04:30:00Z', '2024-11-06T04:30:00.000000001Z', '2024-11-06T01:00:00Z']


class Case:
    """The reports of a random election."""

    def __init__(self, chance):
        self.chance = chance
        self.files = [self.report() for _ in range(chance.randint(1, 5))]

    def some(self, share):
        return self.chance.random() < share

    def value(self, deep=2):
        if deep and self.some(0.3):
            return [self.value(deep - 1), {self.chance.choice(UNKNOWN): self.value(deep - 1)}]
        return self.chance.choice(VALUES)

    def with_unknown(self, members, share=0.3):
        while self.some(share):
            members[self.chance.choice(UNKNOWN)] = self.value()
        return members

    def position(self):
        return self.with_unknown({'@type': 'CVR.SelectionPosition', 'HasIndication': self.chance.choice(['yes', 'yes', 'no', 'unknown']),
                                  'NumberVotes': self.chance.randint(1, 3)}, 0.05)

    def contest(self, name):
        chosen = [{'@type': 'CVR.CVRContestSelection', 'ContestSelectionId': one, 'SelectionPosition': [self.position()]}
                  for one in SELECTIONS[name] if self.some(0.6)]
        return {'@type': 'CVR.CVRContest', 'ContestId': name, 'CVRContestSelection': chosen}

    def snapshot(self, name):
        held = {'@id': name, '@type': 'CVR.CVRSnapshot', 'Type': self.chance.choice(['original', 'interpreted', 'modified']),
                'CVRContest': [self.contest(one) for one in SELECTIONS if self.some(0.7)]}
        if self.some(0.4):
            held['Annotation'] = [{'@type': 'CVR.Annotation', 'TimeStamp': self.chance.choice(MOMENTS)}]
        return self.with_unknown(held, 0.15)

    def record(self):
        names = self.chance.sample(['a', 'b', 'a"b', '\u00e9'], self.chance.randint(1, 3))
        held = {'@type': 'CVR.CVR', 'ElectionId': 'e', 'CreatingDeviceId': self.chance.choice(['s1', 's2']),
                'UniqueId': self.chance.choice(['1', '2', '10', 'u"', '\u20ac']), 'CurrentSnapshotId': self.chance.choice(names),
                'CVRSnapshot': [self.snapshot(name) for name in names]}
        if self.some(0.6):
            held['BallotStyleUnitId'] = self.chance.choice(['p1', 'p2'])
        if self.some(0.4):
            held['BatchId'] = self.chance.choice(['1', '2'])
        return self.with_unknown(held, 0.25)

    def report(self):
        held = json.loads(DEFINITION)
        held['CVR'] = [self.record() for _ in range(self.chance.randint(0, 6))]
        for device in held['ReportingDevice']:
            if self.some(0.3):
                device['SerialNumber'] = self.chance.choice(['7', '11'])
        if self.some(0.3):
            held['ReportingDevice'].append({'@id': self.chance.choice(['s3', 'new']), '@type': 'CVR.ReportingDevice', self.chance.choice(UNKNOWN): self.value()})
        return json.dumps(self.shuffled(held), ensure_ascii=self.some(0.5)).encode('utf-8')

    def shuffled(self, value):
        """The same value, with the members of each object in any order."""
        if isinstance(value, list):
            return [self.shuffled(one) for one in value]
        if not isinstance(value, dict):
            return value
        members = list(value.items())
        self.chance.shuffle(members)
        return {name: self.shuffled(one) for name, one in members}


class Office:
    """What the program prints for files in a folder."""

    def __init__(self, cvr, folder, files):
        self.cvr, self.folder, self.files, self.told = cvr, folder, files, ''
        self.texts = [self.text([task]) for task in ('currents', 'conflicts', 'tally')]
        self.count = int(self.texts[1].split()[-1]) if self.texts[1] else 0
        self.texts += [self.text(['merge'] + HEADING + [str(n)]) for n in range(1, self.count + 1)]

    def text(self, words):
        """Standard output. A log, and another status than 0, is kept."""
        done = subprocess.run([self.cvr, words[0], 'definition'] + words[1:] + self.files, cwd=self.folder, stdout=subprocess.PIPE, stderr=subprocess.PIPE,
                              timeout=tenth.SECONDS)
        if done.returncode or done.stderr:
            self.told += 'status %d, %r; ' % (done.returncode, done.stderr)
        return done.stdout

    def volumes(self):
        return self.texts[3:]


def put(folder, name, data):
    with open(os.path.join(folder, name), 'wb') as file:
        file.write(data)
    return name


def tried(cvr, seed):
    """What is wrong with a case, or nothing; and what occurred in it."""
    chance = random.Random(seed)
    case = Case(chance)
    with tempfile.TemporaryDirectory() as folder:
        put(folder, 'definition', DEFINITION)
        reports = [put(folder, 'report-%d' % n, data) for n, data in enumerate(case.files)]
        first = Office(cvr, folder, reports)
        back = [put(folder, 'volume-%d' % n, data) for n, data in enumerate(first.volumes())]
        back += chance.sample(back, chance.randint(0, len(back)))
        back += chance.sample(reports, 1) if chance.random() < 0.3 else []
        chance.shuffle(back)
        second = Office(cvr, folder, back)
    occurred = {'volumes %d' % min(first.count, 3)}
    occurred.update(KIND.match(line).group(1).decode() for line in first.texts[1].splitlines()[:-1])
    told = first.told + second.told
    if not told and not first.count:
        told = 'no volume'
    if not told and first.texts != second.texts:
        told = 'text %s differs' % [place for place, pair in enumerate(zip(first.texts, second.texts)) if pair[0] != pair[1]]
    return told, occurred


def main():
    words = tenth.words()
    words.add_argument('--cases', type=int, default=300)
    words.add_argument('--seed', type=int, default=1)
    words, wrong, occurred = words.parse_args(), 0, Counter()
    seeds = ['%d %d' % (words.seed, number) for number in range(words.cases)]
    with ThreadPoolExecutor(os.cpu_count()) as lanes:
        for seed, (told, kinds) in zip(seeds, lanes.map(lambda it: tried(words.cvr, it), seeds)):
            occurred.update(kinds)
            if told:
                wrong += 1
                print('WRONG: case %s: %s' % (seed, told))
    for kind in ('device', 'header', 'snapshot', 'volumes 1', 'volumes 2', 'volumes 3'):
        if not occurred[kind]:
            wrong += 1
            print('WRONG: no case had %s' % kind)
    print('round trips: %d right, %d wrong' % (max(0, words.cases - wrong), wrong))
    sys.exit(0 if words.cases > wrong == 0 else 1)


if __name__ == '__main__':
    main()
