"""The CSV of ES&S: a line of heads, then a line for each record, with a choice in each cell."""
from .gather_ess_columns import NEEDED, NUMBER, STYLE, UNIT, Columns
from .gather_frame import Frame, snapshot
from .gather_table import Table, rows_of

DEVICE = 'ess'              # the form names no device
HEADS = 1


class Reader:
    """The rows of a source as records."""

    def __init__(self, source, frame, columns):
        self.table, self.frame, self.columns = Table(source), frame, columns
        self.rows = self.table.rows()
        self.cells = self.table.head(self.rows, 'its heads')
        self.table.see_distinct(self.cells)
        fixed = [it for it in self.cells if it in NEEDED]
        self.table.see_head(fixed if len(self.cells) > 1 else self.cells, NEEDED, [])
        self.fixed = {name: self.cells.index(name) for name in NEEDED}
        self.contests, self.left = columns.read(self.table, frame, self.cells)

    def record(self, cells):
        """The record of a row."""
        held = {name: cells[place] for name, place in self.fixed.items()}
        if not held[NUMBER] or not held[UNIT]:
            raise self.table.fault('the %s or the %s is empty' % (NUMBER, UNIT))
        for head in self.left:
            self.columns.leave_out(self.table, head, cells[head.column - 1])
        texts = [self.columns.text(self.table, self.frame.contests[key],
                                   tuple(cells[it] for it in places))
                 for key, places in self.contests.items()]
        header = {'BallotStyleUnitId': self.frame.unit(held[UNIT]), 'BallotStyleId': held[STYLE]}
        return self.frame.record(self.table.source, 'line %d' % self.table.line,
                                 (DEVICE, held[NUMBER]), header,
                                 [('a', snapshot('a', 'interpreted', [it for it in texts if it]))])

    def read(self, out):
        for cells in self.rows:
            self.table.see_row(cells, self.cells)
            out.add(self.record(cells))
        if not self.table.is_ended:
            raise self.table.fault('the last line has no end, so its last cell may be cut off')


def fits(source):
    return source.is_of('ess')


def stays(source):
    return False


def in_order(contest):
    """Puts the selections in order; the form has no list of them."""
    contest.selections = {key: contest.selections[key] for key in sorted(contest.selections)}


def read(sources, out, cvr, words):
    """Adds the records; answers the definition."""
    frame, columns = Frame('ess'), Columns(words)
    for source in filter(fits, sources):
        Reader(source, frame, columns).read(out)
    columns.see(frame, out)
    for contest in frame.contests.values():
        in_order(contest)
    return frame.report()


def count(sources):
    """The number of records and of names, counted in another way: one for each row."""
    return rows_of(filter(fits, sources), HEADS)
