"""A batch manifest: a file of lines `batch,ballots` or `device,batch,ballots`, counted by hand."""
import csv

from .program import WORDS, ended

FORM = ('%s: line %d is no `batch,ballots` or `device,batch,ballots` as the others, or names a batch '
        'again')
MARKED = '%s: line %d: write the number %s with digits alone'
LONG = '%s: line %d: the number has more than 18 digits'
NO_CSV = '%s: no CSV in UTF-8'


def is_number(cell):
    return cell.isascii() and cell.strip().isdigit()


def is_heading(place, cells):
    """Whether the line is the first one, and has a word in place of the number."""
    return place == 1 and len(cells) in (2, 3) and not any(it.isdigit() for it in cells[-1])


def manifest_in(path):
    """The ballots of each batch, by the device or None, and by the batch."""
    held, width = {}, None
    with open(path, encoding='utf-8-sig', newline='') as file:
        for place, cells in lines_in(file, path):
            if not cells or is_heading(place, cells):
                continue
            name = tuple([None, *cells[:-1]][-2:])
            if len(cells) not in (2, 3) or width not in (None, len(cells)) or name in held:
                raise ended(WORDS, FORM % (path, place))
            if not is_number(cells[-1]):
                raise ended(WORDS, MARKED % (path, place, cells[-1]))
            if len(cells[-1].strip()) > 18:
                raise ended(WORDS, LONG % (path, place))
            held[name], width = int(cells[-1]), len(cells)
    return held


def lines_in(file, path):
    """The number and the cells of each line of CSV."""
    try:
        yield from enumerate(csv.reader(file), 1)
    except (UnicodeDecodeError, csv.Error):
        raise ended(WORDS, NO_CSV % path) from None


def has_devices(expected):
    """Whether a manifest names the device of each batch."""
    return any(device is not None for device, _ in expected)


class Sizes:
    """The records of each batch of a device, by BallotSheetId. It is taken for the number of a sheet in
    its ballot, so a batch has as many ballots as records of one sheet."""

    def __init__(self):
        self.sheets = {}

    def take(self, record):
        sheets = self.sheets.setdefault((record['CreatingDeviceId'], record.get('BatchId')), {})
        sheet = record.get('BallotSheetId')
        sheets[sheet] = sheets.get(sheet, 0) + 1

    def by(self, expected):
        """The ballots and the records of each batch, under the names that a manifest has."""
        held, is_whole = {}, has_devices(expected)
        for (device, batch), sheets in self.sheets.items():
            name = device if is_whole else None, batch
            ballots, records = held.get(name, (0, 0))
            alone = sheets.get(None, 0)
            most = max((count for sheet, count in sheets.items() if sheet is not None), default=0)
            held[name] = ballots + alone + most, records + sum(sheets.values())
        return held
