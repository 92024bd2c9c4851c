"""Which columns of a table are a contest: by their heads, and by the option --contests."""
import re
import shlex
from collections import Counter, namedtuple

from .gather_frame import Contest
from .gather_source import fault
from .program import WORDS, ended

RANGE = re.compile('([1-9][0-9]{0,4})(?:-([1-9][0-9]{0,4}))?')
BAD = ('--contests: %s has to be the name of a contest and the columns of each contest of that name, '
       'from 1, such as Council=4-5,6-7')
# a contest may be several where so many ballots overvote it, and more than one in so many of those that
# mark it; and where some do, and more than one in two
MANY, SHARE = 10, 20
SOME, HALF = 2, 2
SEVERAL = 'where these are several contests of one name, name the columns of each, as in --contests %s'
ONE = '; where they are one, go on with --contests %s'

# A column of a selection, from 1: the name of its contest, all that its head says of the contest, the
# number of votes, the choice and its party.
Head = namedtuple('Head', 'column name head allowed choice party')


def cuts_in(texts):
    """The columns of the contests that --contests names: by name (first, last) of each, from 1."""
    cuts = {}
    for text in texts or ():
        name, _, columns = text.rpartition('=')
        found = [RANGE.fullmatch(it.strip()) for it in columns.split(',')]
        ranges = [(int(it[1]), int(it[2] or it[1])) for it in found if it]
        is_rising = all(one[1] < other[0] for one, other in zip(ranges, ranges[1:]))
        if not name.strip() or None in found or name.strip() in cuts or not is_rising \
                or any(first > last for first, last in ranges):
            raise ended(WORDS, BAD % text)
        cuts[name.strip()] = ranges
    return cuts


def told(first, last):
    return '%d-%d' % (first, last) if first < last else str(first)


def runs(columns):
    """Columns as ranges, such as 9-11,13."""
    ranges = []
    for it in columns:
        if ranges and ranges[-1][1] == it - 1:
            ranges[-1][1] = it
        else:
            ranges.append([it, it])
    return ','.join(told(*it) for it in ranges)


def split_name(name, columns):
    """The name of a contest that shares its name with others, by its columns."""
    return '%s (column%s %s)' % (name, 's' * (not columns.isdigit()), columns)


def shown(heads):
    """A contest with its columns, by the heads of these."""
    return split_name(heads[0].name, runs(it.column for it in heads))


def may_be_several(over, marked):
    """Whether so many overvotes may be those of several contests that are read as one."""
    return over >= MANY and over * SHARE > marked or over >= SOME and over * HALF > marked


class Contests:
    """The contests of the tables of an export: columns side by side under one head are one, unless
    --contests names others. `heads` has the columns of each, and `marks` the number of records with
    so many marks."""

    def __init__(self, words):
        self.cuts, self.heads, self.marks, self.place = cuts_in(words.contests), {}, {}, None
        self.meanings = words.meanings

    def key_of(self, head):
        """The contest of a column: its name, with its columns where --contests parts those."""
        ranges = self.cuts.get(head.name, ())
        inside = [it for it in ranges if it[0] <= head.column <= it[1]]
        return split_name(head.name, told(*inside[0])) if inside and len(ranges) > 1 else head.name

    def take(self, table, frame, heads):
        """Adds the contests of a table; answers the index and the id of each selection, by contest."""
        held = {}
        for it in heads:
            held.setdefault(self.key_of(it), []).append(it)
        self.see_cuts(table, heads)
        self.place = self.place or (table.source.name, 'line %d' % table.line)
        self.heads = self.heads or held
        return {key: self.contest(table, frame, key, it) for key, it in held.items()}

    def see_cuts(self, table, heads):
        """Stops where --contests names other columns than the contests of a name have."""
        for name, ranges in self.cuts.items():
            there = runs(it.column for it in heads if name in (it.name, self.key_of(it)))
            if runs(it for ends in ranges for it in range(ends[0], ends[1] + 1)) != there:
                raise table.fault('--contests names other columns of %s than it has here: %s'
                                  % (name, there or 'none'))

    def contest(self, table, frame, key, heads):
        """Adds a contest; answers the index and the id of each selection."""
        made = frame.contests[key] = Contest(key, key, heads[0].allowed)
        self.marks.setdefault(key, Counter())
        columns = []
        for place, it in enumerate(heads):
            if it.head != heads[0].head or it.column != heads[0].column + place:
                raise table.fault('the contest %s stands in two places, or under two heads; %s'
                                  % (key, self.ways(heads, place)))
            selection = made.key_of(it.choice, it.party)
            if selection is None:
                raise table.fault('the choice %s stands twice in %s; %s'
                                  % (it.choice, key, self.ways(heads, place)))
            self.meanings.see_listed(table.fault, it.choice, key)
            made.add(selection, it.choice)
            columns.append((it.column - 1, selection))
        self.see_write_ins(table, made, heads)
        return columns

    def is_one(self, key):
        """Whether --contests says that these columns are one contest."""
        return len(self.cuts.get(key, ())) == 1

    def ways(self, heads, cut, may_be_one=''):
        """What goes on where columns may be several contests, here up to a place and behind it."""
        columns, name = [it.column for it in heads], heads[0].name
        parts = [runs(columns[:cut]), runs(columns[cut:])]
        others = [told(*it) for it in self.cuts.get(name, ()) if it[0] not in columns]
        before = [it for it in others if int(it.partition('-')[0]) < columns[0]]
        ranges = ','.join(before + parts + others[len(before):])
        one = ONE % shlex.quote('%s=%s' % (may_be_one, runs(columns))) if may_be_one else ''
        return SEVERAL % shlex.quote('%s=%s' % (name, ranges)) + one

    def see_write_ins(self, table, contest, heads):
        """Stops where a contest has more columns for written names than votes."""
        written = [place for place, it in enumerate(contest.selections.values(), 1) if it]
        if len(written) > contest.allowed and not self.is_one(contest.key):
            ways = self.ways(heads, written[contest.allowed - 1], contest.key)
            raise table.fault('the contest %s has %d columns for written names, and %d may be marked; %s'
                              % (shown(heads), len(written), contest.allowed, ways))

    # ---- of a record

    def texts(self, table, frame, columns, cells):
        """The texts of the contests that a row has."""
        held = []
        for key, places in columns.items():
            chosen = self.chosen(table, key, places, cells)
            if chosen is not None:
                self.marks[key][len(chosen)] += 1
                held.append(frame.contests[key].marked(chosen))
        return held

    def chosen(self, table, key, places, cells):
        """The selections of a contest that a row marks with 1; None where the cells are empty, as the
        contest isn't on the ballot."""
        held = [cells[place] for place, _ in places]
        found = set(held)
        if found == {''}:
            return None
        for text in found - {'0', '1', ''}:
            raise table.fault('a mark is neither 1, 0 nor empty, but %s' % text)
        if '' in found:
            cut = next(it for it in range(1, len(held)) if ('' == held[it]) != ('' == held[0]))
            raise table.fault('some cells of the contest %s are empty and others are not; %s'
                              % (key, self.ways(self.heads[key], cut)))
        return [selection for place, selection in places if cells[place] == '1']

    def see_overvoted(self, frame, out):
        """Stops where a contest is overvoted on so many ballots that it may be several of one name;
        notes one that so large a share of few ballots overvotes."""
        for key, numbers in self.marks.items():
            over = sum(it for mark, it in numbers.items() if mark > frame.contests[key].allowed)
            marked, heads = sum(numbers.values()) - numbers[0], self.heads[key]
            if over * SHARE <= marked or self.is_one(key):
                continue
            text = ('the contest %s is overvoted on %d of the %d ballots that mark it'
                    % (shown(heads), over, marked))
            if may_be_several(over, marked):
                ways = self.ways(heads, len(heads) // 2, key)
                raise fault(self.place[0], '%s; %s' % (text, ways), self.place[1])
            out.note('%s: %s' % (self.place[0], text))
