"""cvr-audit records: a line of CSV for each record; together they add up to the tally."""
from . import counting, forms, notes, page_names, ranks, reading, table
from .excess import allowed_of

BETWEEN = '; '              # between several texts in one cell
FORMS = {'manifest': table.manifest, 'batches': table.batches, 'cvrs': table.cvrs,
         'ranks': forms.ranks, 'arlo': forms.arlo, 'raire': forms.raire}
MARKED = 'ranks', 'raire'   # the forms that need each mark
WORDS = 'Manufacturer', 'Model', 'SerialNumber'


class About:
    """What the forms need beside the lines: the contests of DEF, and the marks of each record by its
    name."""

    def __init__(self, files, form):
        self.selections = counting.selections_of(files.report)
        self.names = page_names.Names(files.report)
        self.allowed, self.notes = allowed_of(files.report), notes.Notes(files)
        self.marks, self.has_marks = {}, form in MARKED

    def is_ranked(self, contest):
        return self.notes.ranks.is_ranked(contest)

    def take(self, record):
        """Notes a record of volume 1."""
        self.notes.take(record)
        if self.has_marks:
            marks = list(ranks.marks_in(reading.current_of(record)))
            self.marks[reading.name_of(record)] = marks


def contests_of(snapshot, selections):
    """The numbers of each contest, without its ballots; None where the snapshot doesn't have it."""
    found = {it['ContestId']: counting.sums(it, selections[it['ContestId']])[1:]
             for it in snapshot.get('CVRContest', [])}
    return [number for contest, chosen in selections.items()
            for number in found.get(contest, [None] * (len(table.NUMBERS) + len(chosen)))]


def cells_of(record, selections):
    """The cells of a record of volume 1; those of its files and its device are still empty."""
    current = reading.current_of(record)
    annotations = current.get('Annotation', [])
    moments = [it['TimeStamp'] for it in annotations if 'TimeStamp' in it]
    adjudicators = [name for it in annotations for name in it.get('AdjudicatorName', [])]
    lists = [BETWEEN.join(it) if it else None for it in (moments, adjudicators)]
    header = [record.get(name) for name in table.HEADER]
    pile = [record.get(name) for name in table.PILE]
    return [*header, current['@id'], current['Type'], *lists, None, *pile, None,
            *contests_of(current, selections)]


def words_of(device):
    """What a device says of itself."""
    return ' '.join(device[it] for it in WORDS if isinstance(device.get(it), str)) or None


def lines_of(files, about):
    """The cells of each record, as the paper lies. What else is said of the records is noted."""
    lines, volume = [], files.volume(1)
    for record in volume:
        about.take(record)
        lines.append(cells_of(record, about.selections))
    files.each_report(about.notes.take_file)
    devices = {it['@id']: words_of(it) for it in volume.rest['ReportingDevice']}
    for cells in lines:
        paths = about.notes.origins.paths_of((cells[table.DEVICE], cells[table.UNIQUE]))
        cells[table.FILES], cells[table.MACHINE] = BETWEEN.join(paths), devices[cells[table.DEVICE]]
    return sorted(lines, key=table.in_pile)


def run(files, words):
    """The text, and whether there is something to look at."""
    about = About(files, words.columns)
    lines = lines_of(files, about)
    files.notes = about.notes.text()
    # what is printed is what is held against the tally
    files.recount.rows = table.added(lines, about.selections, table.unit_and_batch)
    form = FORMS.get(words.columns, table.whole)
    return table.text_of(form(lines, about), words.spreadsheet), False
