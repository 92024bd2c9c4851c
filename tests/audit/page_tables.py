"""page_tables.py: all tables of small counties that give the same page for the public.

A reader who knows the rule can make each county that there could be, and see which ones give the page.
In small counties this is tried out, with a lower bound in place of ten, and where every ballot has all
its votes: in each contest of a unit they come to the same ballots, or to several times as many. Every
withheld number has to take as many values as the bound says, or all below it, in the counties that give
the page."""
import itertools
from collections import namedtuple
from math import inf

# A contest: the number of its selections, its units, the votes of a ballot, and the places of write-ins.
Contest = namedtuple('Contest', 'count units allowed write_ins', defaults=[1, frozenset()])
# Of each county the bound, its contests, and the greatest sum of ballots, or the ballots of each unit, which a reader
# knows then.
COUNTIES = [
    # which selections of a contest are withheld
    ('two votes for four selections', 3, [Contest(4, (0,), 2)], 13),
    ('two votes, and a write-in', 3, [Contest(4, (0,), 2, {3})], 13),
    ('two votes, and two write-ins', 3, [Contest(4, (0,), 2, {0, 3})], 13),
    ('four selections', 3, [Contest(4, (0,))], 24),
    ('two write-ins among four', 3, [Contest(4, (0,), 1, {1, 2})], 24),
    ('five selections, two of them write-ins', 2, [Contest(5, (0,), 1, {1, 4})], 16),
    # also by unit
    ('three units whose ballots are known', 3, [Contest(2, (0, 1, 2))], (12, 8, 10)),
    ('four units whose ballots are known', 2, [Contest(2, (0, 1, 2, 3))], (7, 5, 6, 7)),
    ('three units whose ballots are known, and a write-in', 2, [Contest(3, (0, 1, 2), 1, {2})], (5, 4, 6)),
    ('three units', 2, [Contest(2, (0, 1, 2))], 13),
    ('three selections', 2, [Contest(3, (0, 1))], 12),
    ('a write-in among three selections', 2, [Contest(3, (0, 1), 1, {1})], 12),
    ('two votes for three selections', 2, [Contest(3, (0, 1), 2)], 11),
    ('a write-in, and two votes', 2, [Contest(3, (0, 1), 2, {2})], 11),
    ('two contests', 2, [Contest(2, (0, 1)), Contest(2, (0, 1))], 10),
    ('a contest of two votes beside one of one vote', 2, [Contest(2, (0, 1)), Contest(3, (0, 1), 2)], 7),
    ('a contest of two units of three', 2, [Contest(2, (0, 1, 2)), Contest(2, (0, 1))], 8),
    ('a contest of two units of three, and more that is small', 3, [Contest(2, (0, 1, 2)), Contest(2, (0, 1))], 8),
    ('a contest of each unit', 2, [Contest(2, (0, 1)), Contest(2, (0,)), Contest(2, (1,))], 9),
]


def splits(total, count, most):
    """Each way in which a total is the sum of so many numbers, none of which is above the greatest."""
    if count == 1:
        yield from [(total,)] * (total <= most)
        return
    for first in range(min(total, most) + 1):
        for rest in splits(total - first, count - 1, most):
            yield (first, *rest)


def unit_tables(contests, unit, ballots):
    """Each table of a unit: the votes in each of its contests."""
    inside = [it for it in contests if unit in it.units]
    return itertools.product(*(list(splits(ballots * it.allowed, it.count, ballots)) for it in inside))


def sums_up_to(most, count):
    """Each way in which so many numbers from 1 on come to the greatest sum or less."""
    return (it for it in itertools.product(range(1, most), repeat=count) if sum(it) <= most)


def tables(contests, most):
    """Each county: of each contest its units with ballots and votes."""
    units = sorted({unit for it in contests for unit in it.units})
    for ballots in [most] if isinstance(most, tuple) else sums_up_to(most, len(units)):
        each = [list(unit_tables(contests, unit, ballots[unit])) for unit in units]
        for votes in itertools.product(*each):
            left = [iter(it) for it in votes]
            yield [{unit: [ballots[unit], *next(left[unit])] for unit in it.units} for it in contests]


def numbers_of(masks, county):
    """The numbers of a county by name, and whether each is shown."""
    for place, (mask, held) in enumerate(zip(masks, county)):
        sums = list(map(sum, zip(*held.values())))
        yield (place, 'ballots'), sums[0], not mask.is_loose
        for one, number in enumerate(sums[1:]):
            yield (place, one), number, not mask.is_whole and one not in mask.selections
            for unit, votes in held.items():
                is_shown = not mask.is_whole and one not in mask.apart and unit not in mask.units
                yield (place, one, unit), votes[1 + one], is_shown


def pages(masking, contests, most):
    """For each page the counties that give it: of each withheld number, by name, its values; and the
    least sum of ballots."""
    held, singles, write_ins = {}, [it.allowed == 1 for it in contests], [it.write_ins for it in contests]
    for county in tables(contests, most):
        masks = masking.masks(county, singles, write_ins)
        shown, hidden = [], []
        for name, number, is_shown in numbers_of(masks, county):
            (shown if is_shown else hidden).append((name, number))
        key = str(masks), tuple(shown)
        values, ballots = held.get(key, ({}, inf))
        for name, number in hidden:
            values.setdefault(name, set()).add(number)
        held[key] = values, min(ballots, sum({unit: votes[0] for it in county
                                              for unit, votes in it.items()}.values()))
    return held


def is_safe(values, least):
    return len(values) >= least or values >= set(range(least))


def wrong_of(masking, is_all=True):
    """What a reader finds in small counties, or in some still smaller ones, as lines."""
    old = masking.LEAST, masking.EACH
    try:
        for what, bound, contests, most in COUNTIES:
            masking.LEAST, masking.EACH = bound, bound // 2
            yield from county_wrong(masking, what, contests, less_of(most, is_all), bound)
    finally:
        masking.LEAST, masking.EACH = old


def less_of(most, is_all):
    return most if is_all or isinstance(most, tuple) else most - 2


def county_wrong(masking, what, contests, most, bound):
    for (masks, shown), (values, ballots) in pages(masking, contests, most).items():
        # where a page doesn't show all ballots, a county with more than were tried could give it, too
        is_tried = isinstance(most, tuple) or ballots + 2 * bound <= most or ((0, 'ballots'), ballots) in shown
        for name, held in values.items():
            if is_tried and name[1] != 'ballots' and not is_safe(held, bound):
                yield '%s: %s is one of %s on the page %s %s' % (what, name, sorted(held), masks, shown)
