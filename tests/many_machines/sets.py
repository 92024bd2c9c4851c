"""sets.py: random sets of files. What examples/many-machines/tally.py answers for them is compared
with one run of `cvr` over all files: output, log and status have to be the same.

A set is one to five reports, made as those of round_trip.py. In some sets most records come again
in another file; in others each file has records of its own, from one device, and a few that others
have too. Devices, headers and snapshots are in conflict. In a third of the sets a file is refused.
Some files spell letters by their codes, have a member twice, have members of other objects that
look like the name of a record, or come twice in the set."""
import json
import os
import random
import re
import sys
import tempfile
from types import SimpleNamespace

sys.dont_write_bytecode = True
TOP = os.path.dirname(os.path.dirname(os.path.dirname(os.path.abspath(__file__))))
sys.path.insert(0, os.path.join(TOP, 'tests', 'rows'))
import round_trip  # noqa: E402 (it stands in rows/)

COMMANDS = 'tally', 'currents', 'conflicts'
BATCHES = ['', ' ', '1', '10', '9', 'null', '"', '" 7 "', '\\', '\u2028', '\u20ac', '\ue000',
           '\U0001f600', '\x0b\n']
LOOKALIKES = [{'UniqueId': '1'}, {'CreatingDeviceId': 's9'}, {'"UniqueId': 'u"'},
              {'CVR': [{'UniqueId': '2', 'CreatingDeviceId': 's2'}]},
              ',"UniqueId":"1"', '"UniqueId":"', 'CreatingDeviceId']
UNIQUE = re.compile(rb'"UniqueId"')


class Case(round_trip.Case):
    """The reports of a set."""

    def __init__(self, chance):
        self.is_apart, self.place = chance.random() < 0.7, 0
        super().__init__(chance)

    def report(self):
        self.place += 1
        self.is_alone = self.some(0.4)
        return super().report()

    def value(self, deep=2):
        return self.chance.choice(LOOKALIKES) if self.some(0.15) else super().value(deep)

    def record(self):
        held = super().record()
        if self.is_apart and (self.is_alone or self.some(0.7)):
            held['UniqueId'] = '%d-%d' % (self.place, self.chance.randint(1, 9))
            held['CreatingDeviceId'] = 's%d' % (1 + self.place % 2)
        if self.some(0.1):
            held['UniqueId'] = self.chance.choice(['u"', 'uA', 'u\\', 'u'])
        if self.some(0.5):
            held['BatchId'] = self.chance.choice(BATCHES)
        return held


def spelled(chance, report):
    """The same report in other bytes."""
    ways = [
        lambda: json.dumps(json.loads(report), ensure_ascii=False,
                           separators=(',', ':')).encode('utf-8'),
        lambda: json.dumps(json.loads(report), indent=1).encode('utf-8'),
        lambda: UNIQUE.sub(rb'"Uniq\\u0075eId"', report),
        lambda: UNIQUE.sub(b'"UniqueId" : "1", "UniqueId"', report),
        lambda: report.replace(b'{', b'{"CVR":[{"UniqueId":7}],"CVR":7,', 1),
    ]
    return chance.choice(ways)() if chance.random() < 0.6 else report


def refused(chance, report):
    return chance.choice([report[:-1], report.replace(b'"1.0.0"', b'"1.0.1"')])


def reports_of(chance):
    """The bytes of a set's files."""
    held = [spelled(chance, it) for it in Case(chance).files]
    if chance.random() < 1 / 3:
        place = chance.randrange(len(held))
        held[place] = refused(chance, held[place])
    return held + [chance.choice(held)] if chance.random() < 0.25 else held


def words_for(cvr, definition, files, **more):
    return SimpleNamespace(**dict(dict(cvr=cvr, command='tally', definition=definition, files=files,
                                       parts=3, workers=2, host=None, keep=None, hold=False),
                                  **more))


class Watched:
    """Does jobs one after the other, as workers do, and checks their answers."""

    def __init__(self, module):
        self.module, self.told = module, ''

    def each(self, work, jobs, _=None):
        return [self.looked(work, job) for job in jobs]

    def looked(self, work, job):
        line = self.module.line_of([work.__name__, *job])
        given = self.module.given(self.module.reply(line))
        if work.__name__ == 'split':
            pieces = [self.module.piece_at(job[0], job[5], part) for part, _ in given[1]]
            if max([0] + list(map(os.path.getsize, pieces))) > os.path.getsize(job[1]):
                self.told = 'a part is longer than its file'
        return given


def tried(module, cvr, seed):
    """What is wrong with a set, or nothing."""
    chance = random.Random(seed)
    with tempfile.TemporaryDirectory() as folder:
        data = [round_trip.DEFINITION] + reports_of(chance)
        if chance.random() < 0.5:       # the second contest's name comes first
            data = [it.replace(b'"q1"', b'"a1"') for it in data]
        definition, *files = [os.path.join(folder, round_trip.put(folder, 'file-%d' % n, it))
                              for n, it in enumerate(data)]
        more = {'parts': chance.randint(1, 7), 'workers': chance.randint(1, 4),
                'host': chance.choice([None, ['first']])}
        told = [one(module, words_for(cvr, definition, files, command=it, **more))
                for it in COMMANDS]
    return '; '.join(filter(None, told))


def one(module, words):
    """The same for one command."""
    watched = Watched(module)
    answer = module.tried(words, watched.each)
    whole = module.run([words.cvr, words.command, '--', words.definition] + words.files)
    return watched.told or ('' if answer == whole else
                            '%s: in parts %r, else %r' % (words.command, answer, whole))
