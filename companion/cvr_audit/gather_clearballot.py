"""The CSV of Clear Ballot: a line of heads, then a line for each record."""
import re
from collections import Counter

from .gather_choices import choices_of
from .gather_columns import Contests, Head
from .gather_frame import Frame, snapshot
from .gather_table import Table, rows_of
from .reading import spelled

NEEDED = ['BoxID', 'BoxPosition', 'BallotID', 'PrecinctID', 'BallotStyleID', 'ScanComputerName']
OPTIONAL = ['RowNumber', 'PrecinctStyleName', 'Status', 'Remade']
CHOICE = re.compile(r'Choice_\d+_1:(.+):Vote For ([1-9][0-9]{0,8}):(.+)', re.S)
HEADS = 1
SHOWN = 5           # texts of Status in a note


def fits(source):
    return source.is_of('clearballot')


def stays(source):
    return False


class Heads:
    """The heads: `fixed` has the index of each column that is no selection's, and `contests` a Head
    for each of the others."""

    def __init__(self, table, rows, order):
        self.table = table
        self.cells = table.head(rows, 'its heads')
        fixed = [it for it in self.cells if not it.startswith('Choice_')]
        table.see_head(fixed, NEEDED, OPTIONAL)
        self.fixed = {name: self.cells.index(name) for name in fixed}
        held = [self.parts(place, cell) for place, cell in enumerate(self.cells, 1)
                if cell.startswith('Choice_')]
        choices = choices_of(table, [(column, rest) for column, _, _, rest in held], order)
        self.contests = [Head(column, name, (name, allowed), int(allowed), *choice)
                         for (column, name, allowed, _), choice in zip(held, choices)]

    def parts(self, column, cell):
        """The contest of a column, its number of votes, and what stands behind."""
        found = CHOICE.fullmatch(cell)
        if not found or cell.count(':Vote For ') > 1:
            raise self.table.fault('column %d has no contest, `Vote For N` once, and choice: %s'
                                   % (column, cell))
        return (column, *found.groups())


class Reader:
    """The rows of a source as records."""

    def __init__(self, source, out, ballots, order):
        self.out, self.table, self.ballots = out, Table(source), ballots
        self.remade, self.statuses = 0, Counter()
        self.rows = self.table.rows()
        self.heads = Heads(self.table, self.rows, order)

    def read(self, frame, contests):
        own = Frame('clearballot')
        columns = contests.take(self.table, own, self.heads.contests)
        frame.see_same(own, self.table)
        for cells in self.rows:
            self.table.see_row(cells, self.heads.cells)
            self.out.add(self.record(frame, cells, contests.texts(self.table, frame, columns, cells)))
        if self.remade:
            self.note(self.remade, 'Remade that is not 0')
        if self.statuses:
            self.note(sum(self.statuses.values()), 'Status (%s)' % self.told_statuses())

    def note(self, number, what):
        """Says what is left out of so many records."""
        self.out.note('%s: %d records have a %s; each is a record as the others'
                      % (self.table.source.name, number, what))

    def told_statuses(self):
        """The texts of Status, the most frequent first, each with its number of records."""
        told = ['%s %d' % (spelled(text), number) for text, number in self.statuses.most_common(SHOWN)]
        more = len(self.statuses) - len(told)
        return ', '.join(told + ['%d more texts' % more] * bool(more))

    def see_ballot(self, ballot):
        """Stops where an id of a ballot stands twice."""
        source = self.table.source
        if (source.device, ballot) in self.ballots:
            first, line = self.ballots[source.device, ballot]
            raise self.table.fault('the BallotID %s stands here and in %s: line %d%s'
                                   % (ballot, first, line, self.out.way_beside(source, first)))
        if ballot:
            self.ballots[source.device, ballot] = source.name, self.table.line

    def record(self, frame, cells, texts):
        """The record of a row."""
        held = {name: cells[place] for name, place in self.heads.fixed.items()}
        parts = [held['BoxID'], held['BoxPosition']]
        if '' in parts or not held['ScanComputerName']:
            raise self.table.fault('ScanComputerName, BoxID or BoxPosition is empty')
        self.see_ballot(held['BallotID'])
        self.remade += held.get('Remade', '') not in ('', '0')
        self.statuses.update(filter(None, [held.get('Status')]))
        header = {'BallotAuditId': held['BallotID'], 'BallotStyleId': held['BallotStyleID'],
                  'BallotStyleUnitId': frame.unit(held['PrecinctID']), 'BatchId': held['BoxID']}
        name = held['ScanComputerName'], '-'.join(parts)
        return frame.record(self.table.source, 'line %d' % self.table.line, name, header,
                            [('a', snapshot('a', 'interpreted', texts))])


def read(sources, out, cvr, words):
    """Adds the records; answers the definition."""
    frame, ballots, contests = Frame('clearballot'), {}, Contests(words)
    for source in filter(fits, sources):
        Reader(source, out, ballots, words.heads).read(frame, contests)
    contests.see_overvoted(frame, out)
    return frame.report()


def count(sources):
    """The number of records and of names, counted in another way: one for each row."""
    return rows_of(filter(fits, sources), HEADS)
