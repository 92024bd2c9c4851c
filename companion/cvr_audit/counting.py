"""What a record adds to the tally; the rows and the text of a tally (FORMAT, Printed texts)."""
import json

from . import reading
from .reading import spelled

COLUMNS = 'ballots', 'overvotes', 'undervotes', 'write-ins', 'pending', 'unassigned'
STATED = {'overvotes': 'Overvotes', 'undervotes': 'Undervotes', 'write-ins': 'WriteIns'}
WANTED = 'overvotes', 'undervotes'      # where no file states these, their zeros mean nothing


def selections_of(definition):
    """The selections of each contest, in the definition's order."""
    contests = definition['Election'][0]['Contest']
    return {it['@id']: [one['@id'] for one in it.get('ContestSelection', [])] for it in contests}


def write_ins_of(definition):
    """The places of the write-ins among the selections of each contest."""
    contests = definition['Election'][0]['Contest']
    return {it['@id']: {place for place, one in enumerate(it.get('ContestSelection', []))
                        if one.get('IsWriteIn') is True} for it in contests}


def counts(position):
    """Whether the votes of a position count."""
    allocable = position.get('IsAllocable')
    return allocable == 'yes' or allocable is None and position['HasIndication'] == 'yes'


def is_pending(position):
    return position['HasIndication'] == 'yes' and position.get('IsAllocable') == 'unknown'


def positions_of(contest):
    """Each position: the index of its CVRContestSelection, its own index there, the id of the
    selection or None, and the position itself."""
    for i, chosen in enumerate(contest.get('CVRContestSelection', [])):
        for k, position in enumerate(chosen['SelectionPosition']):
            yield i, k, chosen.get('ContestSelectionId'), position


def places_of(contest, selection):
    """The places of the positions that count for a selection, each with its votes."""
    return [(i, k, position['NumberVotes']) for i, k, one, position in positions_of(contest)
            if one == selection and counts(position)]


def sums(contest, selections):
    """What a contest of a snapshot adds to its row: to the columns, then to each selection."""
    counted, pending = dict.fromkeys([None] + selections, 0), 0
    for _, _, selection, position in positions_of(contest):
        if counts(position):
            counted[selection] += position['NumberVotes']
        elif is_pending(position):
            pending += position['NumberVotes']
    added = {'ballots': 1, 'pending': pending, 'unassigned': counted.pop(None)}
    added.update((column, contest.get(member, 0)) for column, member in STATED.items())
    return [added[column] for column in COLUMNS] + list(counted.values())


def parts(numbers):
    """The numbers of a row by column, and the votes of its selections."""
    return dict(zip(COLUMNS, numbers)), numbers[len(COLUMNS):]


def come_to(numbers):
    """The votes of a row that count; with them, what makes up ballots of one vote each."""
    held, votes = parts(numbers)
    counted = sum(votes) + held['unassigned']
    return counted, counted + held['overvotes'] + held['undervotes'] + held['pending']


def row_of(contest, header):
    """The row to which a record belongs by a contest of its current snapshot."""
    return contest['ContestId'], header.get('BallotStyleUnitId'), header.get('BatchId')


def rows_of(header, snapshot, selections):
    """The numbers that a record adds to each of its rows."""
    return {row_of(it, header): sums(it, selections[it['ContestId']])
            for it in snapshot.get('CVRContest', [])}


def add(rows, row, numbers):
    held = rows.get(row)
    rows[row] = [a + b for a, b in zip(held, numbers)] if held else list(numbers)


def added(rows, key_of):
    """The sums of rows by a key of each row."""
    held = {}
    for row, numbers in rows.items():
        add(held, key_of(row), numbers)
    return held


def nothing_first(name):
    """The key that sorts a name among names and None: None comes first."""
    return name is not None, name or ''


def in_order(rows, selections):
    """Rows by the contest's index in the definition, then by unit and batch, None first."""
    places = {contest: place for place, contest in enumerate(selections)}
    return sorted(rows, key=lambda row: (places[row[0]], *map(nothing_first, row[1:])))


def named(row):
    """Contest, unit and batch of a row, as printed."""
    return ' '.join(map(spelled, row))


def columns_of(contest, selections):
    """The columns of a row, as printed: words, and selections as JSON strings."""
    return list(COLUMNS) + list(map(spelled, selections[contest]))


def text_of(rows, selections):
    """The text of a tally of these rows."""
    lines = []
    for row in in_order(rows, selections):
        held, votes = parts(rows[row])
        votes = [part for pair in zip(map(spelled, selections[row[0]]), votes) for part in pair]
        lines.append(' '.join(map(str, [named(row), *held.values(), *votes])) + '\n')
    return ''.join(lines)


def rows_in(text):
    """The rows of a printed tally."""
    rows, end = {}, 3 + len(COLUMNS)
    for line in text.split('\n')[:-1]:
        words = reading.words_of(line)
        rows[tuple(map(json.loads, words[:3]))] = list(map(int, words[3:end] + words[end + 1::2]))
    return rows
