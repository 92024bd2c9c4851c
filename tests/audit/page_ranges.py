"""page_ranges.py: the least and the greatest value that each withheld number of a page for the public can
have, by a solver (`glpsol` of Debian's glpk-utils) over all that a page shows together.

A reader knows the ballots that are shown, that the contests of a unit are over the same ballots, and how
many votes a ballot may have. One reader knows that every ballot has all its votes; another one only that
it has no more. Where the solver is missing, a line `left out` says so."""
import os
import random
import re
import shutil
import subprocess
import tempfile
from collections import namedtuple

LEAST = 10
RANDOM = 8      # counties beside those of COUNTIES
SECONDS = 120

# A contest: of each unit the ballots and the votes; how many a ballot may have; whether the page knows
# that it is one; and the places of write-ins.
Contest = namedtuple('Contest', 'held allowed is_single write_ins', defaults=[1, True, frozenset()])
# Counties by name, in which every ballot has all its votes.
COUNTIES = {
    # a contest of all units, and one of all but the smallest: together they show its ballots
    'smallest': [Contest({'u0': [50, 30, 20], 'u1': [60, 35, 25], 'u2': [4, 3, 1]}),
                 Contest({'u0': [50, 30, 20], 'u1': [60, 25, 35]})],
    # a unit of few ballots, beside the first unit of each contest, which are two units
    'few ballots': [Contest({'u0': [100, 50, 50], 'u1': [90, 45, 45], 'u2': [4, 3, 1]}),
                    Contest({'u1': [90, 50, 40], 'u2': [4, 1, 3]})],
    # the other votes of a unit, whose ballots the first contest shows
    'other votes': [Contest({'u0': [102, 51, 51], 'u1': [53, 30, 23]}),
                    Contest({'u0': [102, 30, 35, 37], 'u1': [53, 48, 3, 2]})],
    # nearly all ballots have a vote for the selection that is withheld beside a small one; and nearly all of
    # two units, of which one is small
    'nearly all': [Contest({'u0': [14, 8, 13, 11, 10]}, 3, False)],
    'nearly all of units': [Contest({'u0': [60, 30, 30], 'u1': [80, 40, 40], 'u2': [40, 20, 20]}),
                            Contest({'u0': [60, 10, 59, 55, 56], 'u1': [80, 60, 60, 60, 60],
                                     'u2': [40, 4, 38, 39, 39]}, 3, False)],
    # one selection with few votes for its units, whose ballots the other contest shows
    'one alone': [Contest({'u0': [92, 40, 40, 12], 'u1': [92, 45, 35, 12], 'u2': [92, 38, 42, 12]}),
                  Contest({'u0': [92, 50, 42], 'u1': [92, 42, 50], 'u2': [92, 46, 46]})],
    # few votes for write-ins alone, of which two are withheld, and many for the others in each unit
    'write-ins': [Contest({'u0': [600, 330, 260, 6, 4], 'u1': [500, 240, 258, 1, 1]}, write_ins={2, 3}),
                  Contest({'u0': [600, 300, 298, 2], 'u1': [500, 250, 250, 0]}, write_ins={2})],
}


def county(chance):
    """A random county of contests over the ballots of their units, and whether every ballot has all its
    votes."""
    units = ['u%d' % place for place in range(chance.randint(1, 5))]
    ballots = {it: chance.choice([1, 3, 9, 15, 30, 60, 120, 400]) for it in units}
    is_full, contests = chance.random() < 0.5, []
    for place in range(chance.randint(1, 4)):
        inside = units if place == 0 or chance.random() < 0.6 else \
            [it for it in units if chance.random() < 0.6]
        allowed = chance.choice([1, 1, 2, 3])
        weights = [chance.choice([0.02, 0.3, 1, 1]) for _ in range(allowed + chance.randint(1, 3))]
        held = {it: votes_of(chance, ballots[it], weights, allowed, is_full) for it in inside}
        if held:
            is_single = allowed == 1 and chance.random() < 0.8
            contests.append(Contest(held, allowed, is_single, chance.choice([set(), {0}, {0, 1}])))
    return contests, is_full


def votes_of(chance, ballots, weights, allowed, is_full):
    """The ballots of a unit, and its votes: by the weights and, where a ballot may have less, fewer."""
    votes = [0] * len(weights)
    for _ in range(ballots):
        left = list(range(len(weights)))
        for _ in range(allowed):
            if is_full or chance.random() < 0.95:
                one = chance.choices(left, [weights[it] for it in left])[0]
                left.remove(one)
                votes[one] += 1
    return [ballots, *votes]


# ---- what a reader knows

def name_of(*parts):
    return '_'.join(map(str, parts))


def known(contests, masks, is_full):
    """The lines of what is known, in the solver's form; and each withheld number: its name in words, the
    number, and a sum of unknowns that comes to it."""
    lines, hidden = [], []
    for place, ((held, allowed, *_), mask) in enumerate(zip(contests, masks)):
        for unit, numbers in held.items():
            names = [name_of('x', place, unit, one) for one in range(len(numbers) - 1)]
            lines.append('%s - %d b_%s %s 0' % (' + '.join(names), allowed, unit, '=' if is_full else '<='))
            lines += ['%s - b_%s <= 0' % (it, unit) for it in names if allowed > 1]
        if not mask.is_loose:
            lines.append('%s = %d' % (' + '.join('b_' + it for it in held),
                                      sum(it[0] for it in held.values())))
        for one in range(len(next(iter(held.values()))) - 1):
            see_votes(place, one, held, mask, lines, hidden)
    return lines, hidden


def see_votes(place, one, held, mask, lines, hidden):
    """Notes what is known of a selection's votes, and which are withheld."""
    names = {unit: name_of('x', place, unit, one) for unit in held}
    votes = {unit: numbers[1 + one] for unit, numbers in held.items()}
    total = ' + '.join(names.values())
    is_shown = not mask.is_whole and one not in mask.selections
    if is_shown:
        lines.append('%s = %d' % (total, sum(votes.values())))
    else:
        hidden.append(('contest %d, selection %d' % (place, one), sum(votes.values()), total))
    # the votes of a contest's only unit are those of the contest
    for unit, name in names.items() if not mask.is_whole and len(names) > is_shown else ():
        if one in mask.apart or unit in mask.units:
            what = 'contest %d, selection %d, unit %s' % (place, one, unit)
            hidden.append((what, votes[unit], name))
        else:
            lines.append('%s = %d' % (name, votes[unit]))


def program_of(lines, term, is_most, units):
    """What the solver reads (CPLEX LP)."""
    text = ['Maximize' if is_most else 'Minimize', ' goal: ' + term, 'Subject To']
    text += [' c%d: %s' % pair for pair in enumerate(lines)]
    names = sorted(set(re.findall(r'\b[xb]_\w+', ' '.join(lines))))
    return '\n'.join(text + ['Bounds'] + [' b_%s >= 1' % it for it in units]
                     + ['General'] + [' ' + it for it in names] + ['End', ''])


def bound(solver, lines, term, is_most, units):
    """The least or the greatest value of a sum; None where there is no greatest."""
    with tempfile.TemporaryDirectory() as folder:
        path = os.path.join(folder, 'p.lp')
        with open(path, 'w', encoding='ascii') as file:
            file.write(program_of(lines, term, is_most, units))
        done = subprocess.run([solver, '--lp', path, '-o', path + '.out'], stdin=subprocess.DEVNULL,
                              stdout=subprocess.PIPE, stderr=subprocess.STDOUT, timeout=SECONDS)
        text = done.stdout.decode('ascii', 'replace')
        if is_most and re.search('UNBOUNDED|NO DUAL FEASIBLE|unbounded', text):
            return None
        with open(path + '.out', encoding='ascii') as file:
            text = file.read()
    if 'Status:     INTEGER OPTIMAL' not in text:
        raise ValueError('no answer of the solver: ' + text[:300])
    return round(float(re.search(r'Objective: +goal = (\S+)', text).group(1)))


def is_safe(least, most):
    """Whether a number has ten values at least, or all from 0 to 9."""
    return most is None or most - least + 1 >= LEAST


def ranges(solver, contests, masks, is_full):
    """Each withheld number with the least and the greatest value that it may have."""
    lines, hidden = known(contests, masks, is_full)
    units = sorted({unit for it in contests for unit in it.held})
    for what, number, term in hidden:
        ends = [bound(solver, lines, term, it, units) for it in (False, True)]
        if ends[0] > number or ends[1] is not None and ends[1] < number:
            raise ValueError('%s is %d, and the solver says %s' % (what, number, ends))
        yield what, number, ends


def wrong_of(masking):
    """What a reader finds in counties, as lines; None where there is no solver."""
    solver = shutil.which('glpsol')
    if not solver:
        return None
    found, tried = [], [(name, held, True) for name, held in COUNTIES.items()]
    tried += [(it, *county(random.Random(it))) for it in range(1, 1 + RANDOM)]
    for name, contests, is_full in tried:
        masks = masking.masks(*zip(*((it.held, it.is_single, it.write_ins) for it in contests)))
        for what, votes, ends in ranges(solver, contests, masks, is_full):
            if not is_safe(*ends):
                found.append('county %s: %s is %d, and is seen to be from %d to %s' % (name, what, votes, *ends))
    return found
