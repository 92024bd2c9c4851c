"""An export in CSV: its rows with the numbers of their lines."""
import csv
import re

from .gather_said import NO_TEXT, TOO_LARGE, TOO_WIDE, TREE, WIDEST
from .gather_source import fault

QUOTED = re.compile(r'="(.*)"')     # as a spreadsheet keeps a text from being a number
OTHERS = {';': 'semicolons', '\t': 'tabs'}
csv.field_size_limit(1 << 20)


def bare(cell):
    """A cell without what a spreadsheet needs around it, and without spaces at its ends."""
    found = QUOTED.fullmatch(cell.strip())
    return (found.group(1) if found else cell).strip()


class Table:
    """The rows of a source. `line` is the number of the line where the last row began, and `raw` has
    the cells of that row as they stand."""

    def __init__(self, source):
        self.source, self.line, self.read, self.is_ended, self.raw = source, 0, 0, True, []
        self.size = 0       # of the row that is read

    def fault(self, text):
        return fault(self.source.name, text, 'line %d' % self.line)

    def texts(self):
        """The lines as texts."""
        for line in self.source.lines():
            self.read += 1
            self.size += len(line)
            if self.size >= TREE:
                self.line = self.read
                raise self.fault(TOO_LARGE % TREE)
            self.is_ended = line.endswith(b'\n')
            try:
                text = line.decode('utf-8-sig' if self.read == 1 else 'utf-8')
            except UnicodeDecodeError:
                self.line = self.read
                raise self.fault(NO_TEXT) from None
            if '\0' in text:
                self.line = self.read
                raise self.fault(NO_TEXT)
            yield text

    def rows(self):
        """The rows that aren't empty, as cells without spaces at their ends."""
        rows = csv.reader(self.texts(), strict=True)
        while True:
            first = self.read + 1
            try:
                cells = next(rows)
            except StopIteration:
                return
            except csv.Error as wrong:
                self.line = first
                raise self.fault('it is no row of CSV: %s' % wrong) from None
            self.line, self.size, self.raw = first, 0, cells
            if cells:
                yield [bare(it) for it in cells]

    def head(self, rows, what):
        """The next row, which has to be there."""
        cells = next(rows, None)
        if cells is None:
            raise self.fault('the file ends here, before %s' % what)
        if len(cells) > WIDEST:
            raise self.fault(TOO_WIDE % WIDEST)
        return cells

    def see_distinct(self, cells):
        """Stops where heads of the last row become one text only once they are bare."""
        if len({it for it in self.raw if bare(it)}) > len(set(filter(None, cells))):
            raise self.fault('two heads are one only without the spaces at their ends')

    def see_head(self, cells, needed, known):
        """Stops where a head of a column is missing, is there twice or isn't known."""
        for sign, name in OTHERS.items():
            if len(cells) == 1 and sign in cells[0]:
                raise self.fault('the cells are parted by %s; this form has commas' % name)
        lacking = [it for it in needed if it not in cells]
        if lacking:
            raise self.fault('there is no column %s' % lacking[0])
        for place, name in enumerate(cells):
            if name in cells[:place]:
                raise self.fault('the column %s is there twice' % name)
            if name not in needed and name not in known:
                raise self.fault('the column %s is not of this form as it is known' % name)

    def see_row(self, cells, heads):
        """Stops at a row that is cut off, or is a head again."""
        if len(cells) != len(heads):
            raise self.fault('it has %d cells, and the head %d: it is cut off, or has a comma that '
                             'is not in quotes' % (len(cells), len(heads)))
        if cells == heads:
            raise self.fault('the head stands here again: two files in one')


def rows_of(sources, heads):
    """The number of rows behind the first ones, counted in another way than they are gathered."""
    number = 0
    for source in sources:
        texts = (line.decode('utf-8-sig') for line in source.lines())
        number += sum(1 for cells in csv.reader(texts) if cells) - heads
    return number, number
