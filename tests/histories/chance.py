"""chance.py: random definitions, files and histories, from a seed. There are so few names that most
come again with another body. Of `random` only `random()` is used: its numbers are the same in every version
of Python for one seed."""
import random

from model import RANKS, TEXTS, Exchange, History, Import, Pool, Step

STAMPS = ['2024-11-05T23:30:00-05:00', '2024-11-06T04:30:00Z', '2024-11-06T01:00:00Z',
          '2024-11-06T04:30:00.001Z', None]
CONTESTS = [('mayor', ['ann', 'bob']), ('q1', ['yes', 'no'])]


class Chance:
    def __init__(self, seed):
        self.next = random.Random(seed).random

    def below(self, bound):
        return int(self.next() * bound)

    def pick(self, items):
        return items[self.below(len(items))]

    def is_one_in(self, count):
        return not self.below(count)

    def some(self, items, least, most):
        """From `least` to `most` of the items, in any order."""
        return sorted(items, key=lambda _: self.next())[:least + self.below(most - least + 1)]


# ---- reports

def typed(kind, **members):
    return dict({'@type': 'CVR.' + kind}, **members)


def named(kind, name, **members):
    return dict({'@id': name}, **typed(kind, **members))


def election(more):
    contests = []
    for (name, selections), kind in zip(CONTESTS, ['Candidate', 'BallotMeasure']):
        held = [named(kind + 'Selection', it) for it in selections]
        contests.append(named(kind + 'Contest', name, ContestSelection=held))
    return named('Election', 'e', Contest=contests, ElectionScopeId='p1', **more)


def report(units=('p1', 'p2'), devices=('desk', 's1', 's2'), more={}):
    return typed('CastVoteRecordReport', CVR=[], Election=[election(more)],
                 GeneratedDate='2024-11-05T20:00:00Z', GpUnit=[named('GpUnit', it) for it in units],
                 ReportGeneratingDeviceIds=['desk'],
                 ReportingDevice=[named('ReportingDevice', it) for it in devices], Version='1.0.0')


# The second has the first's election and units, and fewer devices; the third has a unit less, the last another
# election.
DEFINITIONS = [report(), report(('p2', 'p1'), ('s2', 'desk')), report(('p1',)),
               report(more={'Name': 'x'})]
OFFICES = [[0, 1], [0, 0, 1], [0, 1, 0], [0, 0, 2], [2, 0, 0], [0, 1, 3], [0, 3, 0], [1, 0, 0, 0]]


def position(chance):
    indication, votes = chance.pick(['yes', 'yes', 'no', 'unknown']), chance.pick([1, 1, 1, 2, 0])
    made = typed('SelectionPosition', HasIndication=indication, NumberVotes=votes)
    if chance.is_one_in(2):
        made['IsAllocable'] = chance.pick(['yes', 'no', 'unknown'])
    return made


def vote(chance, contest, selections):
    chosen = []
    for name in chance.some(selections + selections[:1] + [None], 0, 4):
        held = typed('CVRContestSelection',
                     SelectionPosition=[position(chance) for _ in range(1 + chance.below(2))])
        chosen.append(dict(held, ContestSelectionId=name) if name else held)
    stated = {name: chance.below(3) for name in chance.some(TEXTS.stated.values(), 0, 2)}
    return typed('CVRContest', ContestId=contest, CVRContestSelection=chosen, **stated)


def snapshot(chance, name):
    votes = [vote(chance, *it) for it in chance.some(CONTESTS, 0, 2) or CONTESTS]
    made = named('CVRSnapshot', name, CVRContest=votes, Type=chance.pick(sorted(RANKS)))
    notes = [typed('Annotation', **({'TimeStamp': it} if it else {}))
             for it in chance.some(STAMPS, 0, 3)]
    return dict(made, Annotation=notes) if notes else made


def record(chance, devices, units):
    names = chance.pick(['a', 'am', 'ma', '\u00e9a'])
    snapshots = [snapshot(chance, name) for name in names]
    device, unique = chance.pick(devices[:1] * 3 + devices), chance.pick(['1', '1', '2', '10'])
    made = typed('CVR', CVRSnapshot=snapshots, CreatingDeviceId=device, ElectionId='e',
                 CurrentSnapshotId=snapshots[0]['@id'], UniqueId=unique)
    more = {'BallotStyleUnitId': chance.pick(units), 'BatchId': chance.pick(['b', 'c']),
            'BallotStyleId': 'x'}
    return dict(made, **{name: more[name] for name in chance.some(sorted(more), 0, 3)})


def file_of(chance, counts=(0, 1, 1, 2, 2)):
    """A report, which some offices refuse."""
    more = {'Name': 'x'} if chance.is_one_in(10) else {}
    units = chance.pick([('p1', 'p2'), ('p1', 'p2'), ('p1',)])
    devices = ['desk', 's1'] + chance.some(['s2', 's3'], 0, 2)
    made = report(units, devices, more)
    for device in made['ReportingDevice']:
        if chance.is_one_in(6):
            device['Model'] = chance.pick(['x', 'y'])
    made['CVR'] = [record(chance, devices[1:], units) for _ in range(chance.pick(counts))]
    return in_any_order(chance, made)


def without_name(chance):
    """A report that is refused, since a record has no UniqueId."""
    made = file_of(chance, [1])
    del made['CVR'][0]['UniqueId']
    return made


def of_no_contest(chance):
    """A report that is refused, since it has votes of a contest that isn't there."""
    made = file_of(chance, [1])
    made['CVR'][0]['CVRSnapshot'][0]['CVRContest'] = [vote(chance, 'q9', ['yes'])]
    return made


def in_any_order(chance, value):
    if isinstance(value, list):
        return [in_any_order(chance, it) for it in value]
    if not isinstance(value, dict):
        return value
    names = chance.some(sorted(value), len(value), len(value))
    return {name: in_any_order(chance, value[name]) for name in names}


# ---- histories

def step(chance, offices, files):
    """Imports, an exchange, or imports of an office's volumes in any order, with repeats; sometimes
    of an office or a file that isn't there."""
    kind, taker, giver = chance.below(20), chance.below(offices), chance.below(offices)
    if kind < 9:
        return Step(None, [Import(taker, chance.below(files)) for _ in range(1 + chance.below(3))])
    if kind < 14:
        return Step(None, [Exchange(giver, taker)])
    if kind < 19:
        return Step(giver, [Import(taker, it) for it in chance.some([0, 1, 2, 0, 1], 1, 4)])
    return Step(None, [Import(taker + 9, files), Exchange(taker, giver + 9), Import(taker, files)])


def made(seed, cases, files, steps):
    """So many files, two more that are refused, and histories of them."""
    chance, histories = Chance(seed), []
    held = [without_name(chance), of_no_contest(chance)] + [file_of(chance) for _ in range(files)]
    for _ in range(cases):
        offices = chance.pick(OFFICES)
        events = [step(chance, len(offices), len(held)) for _ in range(steps)]
        histories.append(History(offices, events))
    return Pool(DEFINITIONS, held, histories)
