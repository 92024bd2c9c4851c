"""The numbers of the page: of each contest, in all, by unit and by batch."""
from . import counting, page_masking, page_names
from .page_tree import element, folded, listed, section, table
from .program import mismatch

MANY = 12           # a table with more rows is folded; with more contests every table is
COLUMNS = 10        # columns of numbers in one table, as a sheet of paper has room for
WITHHELD = '*'
UNKNOWN = ('The definition does not say how many votes a ballot has (VotesAllowed), so nothing is '
           'said of whether they come to the ballots.')
ALLOWED = ('Votes and unassigned come to {:,}, with overvotes, undervotes and pending to {:,}, and the '
           'ballots have {:,}{}.')
SUMS = 'Votes, overvotes, undervotes, pending and unassigned come to {:,}, the ballots to {:,}: {}.'
RANKED = 'The votes of this contest are ranks or scores: {}, and no rounds are computed.'
BY_RANK, ELSEWHERE = 'they stand by rank', 'they stand on the whole page alone'
# what the words of the numbers mean
UNITS = 'A unit is a precinct or another district.'
NUMBERS = ('Pending are votes of which nobody has decided yet whether they count; no selection has '
           'them. Unassigned are votes that count, and name no selection.')
LEADER = ('The votes of its leader are withheld, too. To show them, add up more units first: make one page '
          'of the files of all of them.')
NOTE = ('* stands for a number that is withheld: it is below ten, or one below ten would follow '
        'from it.')
HEADS = [it.capitalize() for it in counting.COLUMNS]


def added(rows):
    """The sums of the columns of rows."""
    return [sum(column) for column in zip(*rows)]


def by(rows, place):
    """The sums of rows by unit (1) or by batch (2), None first."""
    held = {}
    for row, numbers in rows.items():
        held.setdefault(row[place], []).append(numbers)
    return {key: added(held[key]) for key in sorted(held, key=counting.nothing_first)}


class Contest:
    """A contest with its rows of the tally, its sums, and which of its numbers are withheld."""

    def __init__(self, facts, key, rows):
        self.key, self.rows, self.selections = key, rows, facts.selections[key]
        self.numbers = added(rows.values()) or [0] * (len(HEADS) + len(self.selections))
        held, self.votes = counting.parts(self.numbers)
        self.ballots = held['ballots']
        self.allowed, self.is_whole = facts.allowed.get(key), not facts.is_public
        self.plain, self.is_ranked = facts.names.plain_contest(key), facts.is_ranked(key)
        self.is_single = self.allowed == 1 and not self.is_ranked       # a ballot has one vote at most
        self.stated = [facts.seen.notes.is_stated(key, it) for it in counting.COLUMNS]
        self.write_ins, self.mask = facts.write_ins[key], page_masking.NOTHING

    def title(self, facts):
        return element('h3', facts.names.contest(self.key))

    def units(self):
        """The ballots and the votes of each unit."""
        return {unit: numbers[:1] + numbers[len(HEADS):] for unit, numbers in by(self.rows, 1).items()}


def contests_of(facts):
    rows = {key: {} for key in facts.selections}
    for row, numbers in facts.rows.items():
        rows[row[0]][row] = numbers
    contests = [Contest(facts, key, held) for key, held in rows.items()]
    if facts.is_public:
        masks = page_masking.masks([it.units() for it in contests], [it.is_single for it in contests],
                                   [it.write_ins for it in contests])
        for contest, mask in zip(contests, masks):
            contest.mask = mask
    return contests


# ---- by contest

def share(votes, counted):
    """Per cent to one decimal, half rounded up."""
    if not counted:
        return '–'
    tenths = (2000 * votes + counted) // (2 * counted)
    return '%d.%d' % divmod(tenths, 10)


def barred(votes, most):
    """A cell with votes, beside a bar in proportion to the most votes in the contest."""
    width = '%.1f%%' % (100 * votes / most) if most else '0'
    bar = element('span', '\u00a0', class_='bar', style='width: ' + width, aria_hidden='true')
    return element('td', element('span', bar, class_='track'), votes, class_='number')


def selection_rows(facts, contest):
    """The selections: votes and, where none of them is withheld, per cent."""
    hidden, counted = contest.mask.selections, sum(contest.votes)
    most = max([it for place, it in enumerate(contest.votes) if place not in hidden], default=0)
    for place, (key, votes) in enumerate(zip(contest.selections, contest.votes)):
        name = facts.names.selection(contest.key, key)
        if place in hidden:
            yield [name, WITHHELD]
        else:
            yield [name, barred(votes, most)] + [share(votes, counted)] * (not hidden)


def selections(facts, contest):
    """The table of the selections."""
    hidden = contest.mask.selections
    heads = ['Selection', 'Votes'] + ['Per cent'] * (not hidden)
    foot = None if hidden else ['Votes counted', sum(contest.votes), '']
    return table('Selections', heads, selection_rows(facts, contest), foot, contest.plain)


def rank_tables(facts, contest):
    """The votes of each selection by rank, in parts that a sheet has room for."""
    held = facts.seen.notes.ranks.by_rank(contest.key, contest.selections)
    if [sum(votes) for votes in zip([0] * len(contest.votes), *held.values())] != contest.votes:
        raise mismatch('the votes by rank don\'t come to those of `cvr tally`')
    for ranks in chunks(list(held)):
        heads = ['Selection'] + ['No rank' if it is None else 'Rank %d' % it for it in ranks]
        rows = [[facts.names.selection(contest.key, key)] + [held[it][place] for it in ranks]
                for place, key in enumerate(contest.selections)]
        yield table('Selections by rank', heads, rows, None, contest.plain)


def sums_of(contest):
    """A sentence that says whether the sums add up to the ballots."""
    counted, total = counting.come_to(contest.numbers)
    if contest.allowed is None:
        return UNKNOWN
    if contest.allowed > 1:
        most = contest.ballots * contest.allowed
        return ALLOWED.format(counted, total, most, ': too many' if counted > most else '')
    return SUMS.format(total, contest.ballots, 'the same' if total == contest.ballots else
                       'not the same')


def others_of(contest):
    """The numbers besides ballots and votes."""
    for head, number, is_stated in list(zip(HEADS, contest.numbers, contest.stated))[1:]:
        yield head, number if is_stated else 'not stated'


def contest_parts(facts, contest):
    """What the page has about a contest."""
    yield contest.title(facts)
    if contest.mask.is_whole:
        yield element('p', 'Its numbers are withheld.')
        yield element('p', LEADER)
        return
    yield listed([('Ballots', WITHHELD if contest.mask.is_loose else contest.ballots)])
    if contest.is_ranked:
        yield element('p', RANKED.format(BY_RANK if contest.is_whole else ELSEWHERE))
        yield from rank_tables(facts, contest) if contest.is_whole else ()
    else:
        yield selections(facts, contest)
    if 0 < len(contest.selections) == len(contest.mask.selections) and not contest.is_ranked:
        yield element('p', LEADER)
    if contest.is_whole:
        yield listed(others_of(contest))
        yield None if contest.is_ranked else element('p', sums_of(contest))


def totals(facts, contests):
    """Each contest with its sums."""
    parts = [element('div', *contest_parts(facts, it), class_='contest') for it in contests]
    note = element('p', NOTE) if facts.is_public else None
    said = element('p', UNITS if facts.is_public else '%s %s' % (UNITS, NUMBERS))
    return section('contests', 'Contests', note, *parts, said)


# ---- by unit and by batch

def chunks(columns):
    return [columns[place:place + COLUMNS] for place in range(0, len(columns), COLUMNS)]


def columns_of(facts, contest):
    """The heads of the columns with their indices in a row, in parts that a sheet has room for."""
    votes = [(facts.names.short_selection(contest.key, key), len(HEADS) + place)
             for place, key in enumerate(contest.selections)
             if place not in contest.mask.apart and not contest.is_ranked]
    numbers = [(head, place) for place, head in enumerate(HEADS) if contest.stated[place]]
    return chunks(numbers * contest.is_whole + votes)


def masked(held, contest):
    """The numbers of each row; those of a unit that is withheld are marks."""
    return {key: [WITHHELD] * len(numbers) if key in contest.mask.units else numbers
            for key, numbers in held.items()}


def tables(facts, contest, what, held, name):
    """The tables of a contest by unit or by batch."""
    rows = masked(held, contest)
    for columns in columns_of(facts, contest):
        heads = [what] + [head for head, _ in columns]
        lines = [[name(key)] + [numbers[place] for _, place in columns]
                 for key, numbers in rows.items()]
        sums = ['Sum'] + [contest.numbers[place] for _, place in columns]
        caption = 'By ' + what.lower()
        is_many = max(len(lines), len(facts.selections)) > MANY
        yield folded(is_many, '{}: {:,} lines'.format(caption, len(lines)),
                     table(caption, heads, lines, sums, contest.plain))


def parts_of(facts, contest):
    """What the page has about a contest by unit and by batch."""
    yield contest.title(facts)
    if not contest.rows or not columns_of(facts, contest):
        yield element('p', 'No record has this contest.' if contest.is_whole else 'Withheld.')
        return
    yield from tables(facts, contest, 'Unit', by(contest.rows, 1), facts.names.unit)
    if contest.is_whole:
        yield from tables(facts, contest, 'Batch', by(contest.rows, 2), page_names.batch)


def details(facts, contests):
    """The same numbers by unit and by batch."""
    title = 'By unit' if facts.is_public else 'By unit and by batch'
    parts = [element('div', *parts_of(facts, it)) for it in contests]
    return section('units', title, *parts)
