"""The lines of records: their columns, what they add up to, and the forms in which they are
printed as CSV."""
from . import counting

HEADER = ['CreatingDeviceId', 'UniqueId', 'BallotStyleUnitId', 'BatchId', 'BallotStyleId',
          'BallotAuditId']
PILE = ['BatchSequenceId', 'BallotSheetId', 'BallotPrePrintedId']      # where the paper lies
NAMES = HEADER + ['CurrentSnapshotId', 'Type', 'TimeStamp', 'AdjudicatorName', 'files'] + PILE
NAMES += ['device']
DEVICE, UNIQUE, UNIT, BATCH, STYLE, AUDIT = range(len(HEADER))
FILES, SEQUENCE, _, _, MACHINE = range(len(NAMES) - 5, len(NAMES))
NUMBERS = counting.COLUMNS[1:]      # of a contest in a line, before the votes of its selections
MARKS = ',', '"', '\n', '\r'
# what a spreadsheet takes for the beginning of a formula: also signs of full width
FORMULAS = '=', '+', '-', '@', '\t', '\r', '\n', '＝', '＋', '－', '＠'


def heads_of(selections, columns):
    """The names of the columns of contests: `CONTEST COLUMN` for each of these columns, and
    `CONTEST: SELECTION` for each selection."""
    heads = []
    for contest, chosen in selections.items():
        heads += ['%s %s' % (contest, column) for column in columns]
        heads += ['%s: %s' % (contest, selection) for selection in chosen]
    return heads


def contests_in(cells, selections):
    """The numbers of each contest in a line; all None where the record's current snapshot doesn't
    have it."""
    place = len(NAMES)
    for contest, chosen in selections.items():
        end = place + len(NUMBERS) + len(chosen)
        yield contest, cells[place:end]
        place = end


def added(lines, selections, name_of):
    """What the lines add up to, the number of ballots first, by contest and by a line's `name_of`."""
    rows = {}
    for cells in lines:
        for contest, numbers in contests_in(cells, selections):
            if numbers[0] is not None:
                counting.add(rows, (contest, *name_of(cells)), [1] + numbers)
    return rows


def unit_and_batch(cells):
    return cells[UNIT], cells[BATCH]


def device_and_batch(cells):
    return cells[DEVICE], cells[BATCH]


def sizes_of(lines):
    """How many records each batch of a device has, in the order of these names, None first."""
    sizes = {}
    for cells in lines:
        name = device_and_batch(cells)
        sizes[name] = sizes.get(name, 0) + 1
    return sorted(sizes.items(), key=lambda it: list(map(counting.nothing_first, it[0])))


def in_pile(cells):
    """The key that sorts records as their paper lies: by device, batch and place in the batch, then by
    UniqueId; those without a batch or a place come first."""
    place = cells[SEQUENCE]
    return (cells[DEVICE], counting.nothing_first(cells[BATCH]), place is not None, place or 0,
            cells[UNIQUE])


def whole(lines, about):
    """Each record with all its columns."""
    yield NAMES + heads_of(about.selections, NUMBERS)
    yield from lines


def manifest(lines, about):
    """Each batch of a device, with the number of its records."""
    yield ['CreatingDeviceId', 'BatchId', 'ballots']
    yield from ([*name, size] for name, size in sizes_of(lines))


def batches(lines, about):
    """Each batch of a device, with the number of its records and the sums of each contest."""
    selections = about.selections
    rows = added(lines, selections, device_and_batch)
    absent = {it: [None] * len(counting.columns_of(it, selections)) for it in selections}
    yield ['CreatingDeviceId', 'BatchId', 'ballots'] + heads_of(selections, counting.COLUMNS)
    for name, size in sizes_of(lines):
        sums = [rows.get((contest, *name), absent[contest]) for contest in selections]
        yield [*name, size] + [number for numbers in sums for number in numbers]


def cvrs(lines, about):
    """Each record, with the votes of each selection alone."""
    selections = about.selections
    kept = DEVICE, BATCH, UNIQUE, AUDIT, UNIT
    yield [NAMES[place] for place in kept] + heads_of(selections, [])
    for cells in lines:
        votes = [vote for _, numbers in contests_in(cells, selections)
                 for vote in numbers[len(NUMBERS):]]
        yield [cells[place] for place in kept] + votes


def cell(value):
    """A cell of CSV (RFC 4180). None is an empty cell, and the empty text one in quotes."""
    if value is None:
        return ''
    text = str(value)
    is_quoted = text == '' or any(mark in text for mark in MARKS)
    return '"%s"' % text.replace('"', '""') if is_quoted else text


def plain(value):
    """A value that no spreadsheet takes for a formula: a text that might be one has an apostrophe before
    it."""
    is_formula = isinstance(value, str) and value.startswith(FORMULAS)
    return "'" + value if is_formula else value


def text_of(lines, is_plain=False):
    """The lines as CSV; for a spreadsheet without formulas."""
    held = (map(plain, cells) for cells in lines) if is_plain else lines
    return ''.join(','.join(map(cell, cells)) + '\n' for cells in held)
