"""What a page for the public withholds, so that no number below ten follows from what it shows. All
contests and units are looked at together. docs/PAGE.md has the rule and its reason.

A contest is its numbers by unit: the ballots, then the votes of each selection. Where a ballot may have
several votes, the ballots without a vote for a selection count as its votes do: a reader knows that no
selection has more votes than there are ballots, so that few without one lead to its votes."""
import math
from collections import namedtuple
from itertools import accumulate

LEAST = 10          # the least number that may be shown, or follow
EACH = 20           # a selection with fewer votes a unit is shown by unit of no unit

# What is withheld of a contest: everything; its ballots and its sum; the places of its selections;
# those of which nothing is shown by unit; and units.
Mask = namedtuple('Mask', 'is_whole is_loose selections apart units')
NOTHING = Mask(False, False, frozenset(), frozenset(), frozenset())


def is_enough(rows):
    """Whether rows hide each other: two at least, in each column with ten more than there are rows."""
    return len(rows) > 1 and all(sum(column) >= LEAST + len(rows) for column in zip(*rows))


def covered(rows, small):
    """The places of units that are withheld: the small ones, the first, and more by their place, never
    by their size, until they hide each other; or all."""
    hidden = {*small}
    for place in range(len(rows) if small else 0):
        if 0 in hidden and is_enough([rows[it] for it in hidden]):
            break
        hidden.add(place)
    return hidden


def grouped(styles):
    """The units by their contests."""
    held = {}
    for unit, style in styles.items():
        held.setdefault(style, []).append(unit)
    return held


def ballots_of(contests, style, units):
    """The ballots of each of these units, in each contest of their style."""
    return [[contests[place][unit][0] for place in style] for unit in units]


def is_known(contests, styles):
    """Whether somewhere the sums of contests leave few ballots between them."""
    return any(style and not is_many(ballots_of(contests, style, units))
               for style, units in grouped(styles).items())


def is_many(rows):
    return all(sum(column) >= LEAST + len(rows) for column in zip(*rows))


def styles_of(contests):
    """The contests of each unit whose sums are shown: each, in its turn, with which no few ballots are
    known."""
    styles = {}
    for place, held in enumerate(contests):
        tried = {unit: styles.get(unit, ()) + (place,) * (unit in held) for unit in {**styles, **held}}
        if held and not is_known(contests, tried):
            styles = tried
    return styles


def joined(contests, styles):
    """The units that are withheld in every contest, in groups: those of few ballots, with others that
    have the same contests."""
    for style, units in grouped(styles).items():
        rows = ballots_of(contests, style, units) if style else []
        hidden = covered(rows, [place for place, row in enumerate(rows) if min(row) < LEAST])
        if hidden:
            yield [units[place] for place in sorted(hidden)]


def sides_of(numbers, is_single):
    """Of each selection its votes and, where a ballot may have several, the ballots without one."""
    ballots, *votes = numbers
    return [(it,) if is_single else (it, ballots - it) for it in votes]


def added(rows):
    """The sums of rows of sides, by selection."""
    return [tuple(map(sum, zip(*column))) for column in zip(*rows)]


def ordered(sums, write_ins, small=()):
    """The places of a contest's selections: write-ins, then the others; of both first those that are
    small, then those with fewer votes."""
    return sorted(range(len(sums)), key=lambda it: (it not in write_ins, it not in small, sums[it]))


def turned(sums, write_ins):
    """The sides of each selection, of which the first one orders them: the ballots without a vote where
    these alone are small and no write-in comes first."""
    least = list(map(min, zip(*sums)))
    return [sides[::-1] for sides in sums] if least[-1] < LEAST <= least[0] and not write_ins else sums


def limits(rows, kinds):
    """What the first one, two .. rows, but not all, have to stay below together. A next one of the first
    one's kind is shown since it is greater: so a row may have none only if the others, which then have all,
    may still be less than that one. Where their other sides are small, too, nothing is known to be enough."""
    is_known = all(it >= LEAST for sides in rows for it in sides[1:])
    for count, (following, kind) in enumerate(zip(rows[1:], kinds[1:]), 1):
        yield (count - 1) * (following[0] - 1) * is_known if kind == kinds[0] else math.inf


def selections_withheld(sums, write_ins, is_loose):
    """The places of a contest's selections whose votes are withheld: all small ones, and as few as hide
    each other; None where that is not enough."""
    small = {place for place, sides in enumerate(sums) if min(sides) < LEAST}
    if not small and not is_loose:
        return small
    sums = turned(sums, write_ins)
    order = ordered(sums, write_ins, small)
    least = max([2] + [count for count, place in enumerate(order, 1) if place in small])
    rows, kinds = [sums[it] for it in order], [it in write_ins for it in order]
    for count, (most, *totals) in enumerate(zip(limits(rows, kinds), *map(accumulate, zip(*rows))), 1):
        if count >= least and min(totals) >= LEAST and totals[0] < most:
            return {*order[:count]}
    return {*order} if is_enough(rows) else None


def apart_of(sums, hidden, write_ins, count):
    """The places of the selections of which nothing is shown by unit: those that are withheld, and those
    whose votes are few for so many units; with the next one, where all these together are few."""
    few = EACH * count if count > 1 else 0      # the votes of one unit are those of the contest
    apart = {*hidden} | {place for place, sides in enumerate(sums) if min(sides) < few}
    others = [place for place in ordered(sums, write_ins) if place not in apart]
    is_few = any(sum(column) < few for column in zip(*(sums[place] for place in apart)))
    return apart | {*others[:is_few]}


def units_withheld(held, apart, groups):
    """The units of a contest, with their sides, that are withheld: those of the groups, and those with a
    small number."""
    inside = [group for group in groups if group[0] in held]
    names = {unit for group in inside for unit in group}
    parts = inside + [[unit] for unit in held if unit not in names]
    rows = [columns_of(added(held[unit] for unit in part), apart) for part in parts]
    small = [place for place, row in enumerate(rows) if place < len(inside) or min(row) < LEAST]
    return {unit for place in covered(rows, small) for unit in parts[place]}


def columns_of(sums, apart):
    """The sides of each selection that is shown by unit, and of all others together."""
    shown = [it for place, sides in enumerate(sums) if place not in apart for it in sides]
    return shown + list(map(sum, zip(*(sums[place] for place in apart))))


def mask_of(held, is_single, write_ins, is_loose, groups):
    sides = {unit: sides_of(numbers, is_single) for unit, numbers in held.items()}
    sums = added(sides.values())
    hidden, every = selections_withheld(sums, write_ins, is_loose) if sums else None, {*range(len(sums))}
    if hidden is None or is_loose and hidden == every or \
            sum(numbers[0] for numbers in held.values()) < LEAST:
        return Mask(True, True, every, every, {*held})
    if is_loose:
        return Mask(False, True, hidden, every, {*held})
    apart = apart_of(sums, hidden, write_ins, len(held))
    return Mask(False, False, hidden, apart, units_withheld(sides, apart, groups))


def masks(contests, singles, write_ins):
    """What is withheld of each contest; `singles` says of each whether a ballot has one vote at most,
    `write_ins` which places of selections are write-ins."""
    styles = styles_of(contests)
    groups, tight = list(joined(contests, styles)), {place for style in styles.values() for place in style}
    return [mask_of(held, is_single, places, place not in tight, groups)
            for place, (held, is_single, places) in enumerate(zip(contests, singles, write_ins))]
