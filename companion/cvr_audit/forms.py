"""Forms of `records` that other tools read; docs/AUDITING.md says how well each is known."""
from collections import Counter
from functools import partial

from .program import WORDS, ended
from .table import AUDIT, BATCH, DEVICE, NUMBERS, SEQUENCE, STYLE, UNIQUE, UNIT, contests_in

ARLO = ['CvrNumber', 'TabulatorNum', 'BatchId', 'RecordId', 'ImprintedId', 'CountingGroup',
        'PrecinctPortion', 'BallotType']
TIED = 'the record %s %s has two selections of one Rank in %s, which this form cannot have'


def apart(ids, name_of):
    """The name of each id; where several have one name, with the id behind it."""
    names = {key: name_of(key) for key in ids}
    counts = Counter(names.values())
    return {key: name if counts[name] == 1 else '%s (%s)' % (name, key) for key, name in names.items()}


def heads_of(about):
    """For each selection the heads of its column: its contest, and its own name."""
    for contest, name in apart(about.selections, about.names.plain_contest).items():
        names = apart(about.selections[contest], partial(about.names.plain_selection, contest))
        head = '%s (Vote For=%d)' % (name, about.allowed.get(contest) or 1)
        yield from ((head, it) for it in names.values())


def arlo(lines, about):
    """Dominion's CSV of cast vote records, as Arlo reads it."""
    heads, blank = list(heads_of(about)), [None] * len(ARLO)
    yield [about.names.election, 'cvr-audit'] + blank[2:] + [None] * len(heads)
    yield from (blank + list(it) for it in zip(*heads))
    yield ARLO + [None] * len(heads)
    places = {}
    for number, cells in enumerate(lines, 1):
        batch = cells[DEVICE], cells[BATCH]
        places[batch] = places.get(batch, 0) + 1
        votes = [vote for _, numbers in contests_in(cells, about.selections)
                 for vote in numbers[len(NUMBERS):]]
        place = places[batch] if cells[SEQUENCE] is None else cells[SEQUENCE]
        yield [number, *batch, place, cells[AUDIT] or cells[UNIQUE], None, cells[UNIT],
               cells[STYLE]] + votes


def ranks(lines, about):
    """A line for each position that counts, with its Rank."""
    yield ['CreatingDeviceId', 'UniqueId', 'BallotStyleUnitId', 'BatchId', 'ContestId', 'Rank',
           'ContestSelectionId', 'NumberVotes']
    for cells in lines:
        for contest, rank, selection, votes in about.marks[cells[DEVICE], cells[UNIQUE]]:
            yield [*(cells[it] for it in (DEVICE, UNIQUE, UNIT, BATCH)), contest, rank, selection,
                   votes]


def in_order(name, contest, marks):
    """The selections of a contest, the most preferred first."""
    held = {}
    for one, rank, selection, _ in marks:
        if one == contest and selection is not None:
            held.setdefault(rank, set()).add(selection)
    if any(len(tied) > 1 for tied in held.values()):
        raise ended(WORDS, TIED % (*name, contest))
    order = sorted(held, key=lambda it: (it is None, it or 0))
    return dict.fromkeys(selection for rank in order for selection in held[rank])


def raire(lines, about):
    """The ranked contests, and of each ballot its order of selections, as RAIRE reads them."""
    contests = [it for it in about.selections if about.is_ranked(it)]
    yield [len(contests)]
    for contest in contests:
        chosen = about.selections[contest]
        yield ['Contest', contest, len(chosen), *chosen]
    for cells in lines:
        name = cells[DEVICE], cells[UNIQUE]
        has = {contest for contest, numbers in contests_in(cells, about.selections)
               if numbers[0] is not None}
        for contest in filter(has.__contains__, contests):
            yield [contest, '-'.join(name), *in_order(name, contest, about.marks[name])]
