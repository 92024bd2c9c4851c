"""The CSV of Dominion: four lines of heads, then a line for each record."""
import re

from .gather_columns import Contests, Head
from .gather_frame import Frame, snapshot
from .gather_table import Table, rows_of

NEEDED = 'TabulatorNum', 'BatchId', 'RecordId', 'PrecinctPortion', 'BallotType'
OPTIONAL = 'CvrNumber', 'ImprintedId', 'CountingGroup', 'UniqueVotingIdentifier'
CONTEST = re.compile(r'(.*\S)\s*\(Vote For=([1-9][0-9]{0,8})\)', re.S)
RANKED = re.compile(r'.+\(\d+\)', re.S)       # a choice at a rank, as in rounds
HEADS, LINES = 4, 'its four lines of heads'


def fits(source):
    return source.is_of('dominion')


def stays(source):
    return False


class Heads:
    """The four lines of heads: `fixed` has the index of each column before those of contests, and
    `contests` a Head for each column of a selection."""

    def __init__(self, table, rows):
        self.table = table
        title, contests = table.head(rows, LINES), table.head(rows, LINES)
        table.see_distinct(contests)
        choices, self.cells = table.head(rows, LINES), table.head(rows, LINES)
        width = len(self.cells)
        contests, choices = (it + [''] * (width - len(it)) for it in (contests, choices))
        first = next((place for place, it in enumerate(contests) if it), width)
        table.see_head(self.cells[:first] if width > 1 else self.cells, NEEDED, OPTIONAL)
        self.fixed = {name: place for place, name in enumerate(self.cells[:first])}
        self.title = title[0]
        self.contests = [self.head(place + 1, contests[place], choices[place], self.cells[place])
                         for place in range(first, width)]

    def head(self, column, contest, choice, party):
        """The head of a column of a selection."""
        found = CONTEST.fullmatch(contest)
        if not contest or not choice:
            raise self.table.fault('column %d has a contest without a choice, or a choice without '
                                   'a contest' % column)
        if not found:
            raise self.table.fault('column %d: no (Vote For=N) behind %s' % (column, contest))
        if RANKED.fullmatch(choice):
            raise self.table.fault('column %d: %s has a number behind it, as choices with ranks '
                                   'have; ranked contests are not read in this form'
                                   % (column, choice))
        return Head(column, found.group(1), contest, int(found.group(2)), choice, party)


def name_of(table, held):
    """The parts of the name of a record, by the cells of its fixed columns."""
    parts = [held[name] for name in ('TabulatorNum', 'BatchId', 'RecordId')]
    if '' in parts:
        raise table.fault('TabulatorNum, BatchId or RecordId is empty')
    if '-' in parts[0]:
        raise table.fault('the TabulatorNum %s has a `-`, which parts it from the BatchId in the name '
                          'of a batch' % parts[0])
    return parts


def read_row(table, heads, frame, cells, texts):
    """The record of a row."""
    held = {name: cells[place] for name, place in heads.fixed.items()}
    parts = name_of(table, held)
    header = {'BallotAuditId': held.get('ImprintedId'), 'BallotStyleId': held['BallotType'],
              'BallotStyleUnitId': frame.unit(held['PrecinctPortion']),
              'BatchId': '-'.join(parts[:2])}
    place = 'line %d' % table.line
    return frame.record(table.source, place, (parts[0], '-'.join(parts)), header,
                        [('a', snapshot('a', 'interpreted', texts))])


def read(sources, out, cvr, words):
    """Adds the records; answers the definition."""
    frame, contests = Frame('dominion'), Contests(words)
    for source in filter(fits, sources):
        table, own = Table(source), Frame('dominion')
        rows = table.rows()
        heads = Heads(table, rows)
        own.name, columns = heads.title, contests.take(table, own, heads.contests)
        frame.see_same(own, table)
        for cells in rows:
            table.see_row(cells, heads.cells)
            texts = contests.texts(table, frame, columns, cells)
            out.add(read_row(table, heads, frame, cells, texts))
    contests.see_overvoted(frame, out)
    return frame.report()


def count(sources):
    """The number of records and of names, counted in another way: one for each row."""
    return rows_of(filter(fits, sources), HEADS)
