"""cvr-audit trace: from a number of the tally to the records, files and places that make it up."""
from collections import namedtuple

from . import counting, notes, reading
from .program import WORDS, ended, mismatch
from .reading import pointer, spelled

# A record that belongs to a row that is traced: digests of its header and of its current snapshot,
# the snapshot's id, what it adds to the number, and where it is found.
Traced = namedtuple('Traced', 'header snapshot current votes places')


def is_asked(row, words):
    """Whether the words ask for a row."""
    contest, unit, batch = row
    return contest == words.contest and words.unit in (None, unit) and words.batch in (None, batch)


def contest_in(snapshot, contest):
    return next((it for it in snapshot.get('CVRContest', []) if it['ContestId'] == contest), None)


def votes_in(contest, words):
    """What a contest of a current snapshot adds to the number."""
    if words.selection is None:
        return 1
    return sum(votes for _, _, votes in counting.places_of(contest, words.selection))


def traced(volume, words, said):
    """The records of each row that is asked for, by the row and by the record's name."""
    rows = {}
    for record in volume:
        said.take(record)
        current = reading.current_of(record)
        contest = contest_in(current, words.contest)
        row = counting.row_of(contest, record) if contest else None
        votes = votes_in(contest, words) if row and is_asked(row, words) else 0
        if votes:
            digests = reading.digest(reading.header_of(record)), reading.digest(current)
            found = Traced(*digests, current['@id'], votes, [])
            rows.setdefault(row, {})[reading.name_of(record)] = found
    return rows


def places_in(snapshot, words):
    """The places below a snapshot that have the number, each with its votes: the contest, or the
    positions of the selection."""
    contests = snapshot['CVRContest']
    place = next(k for k, it in enumerate(contests) if it['ContestId'] == words.contest)
    at = pointer('CVRContest', place)
    if words.selection is None:
        yield at, 1
        return
    for i, k, votes in counting.places_of(contests[place], words.selection):
        yield at + pointer('CVRContestSelection', i, 'SelectionPosition', k), votes


def find(path, report, records, words):
    """Notes where in a file the traced records are."""
    for k, cvr in enumerate(report.get('CVR', [])):
        record = records.get(reading.name_of(cvr))
        if not record:
            continue
        at = pointer('CVR', k)
        if reading.digest(reading.header_of(cvr)) == record.header:
            record.places.append(['header', spelled(path), spelled(at)])
        for i, snapshot in enumerate(cvr['CVRSnapshot']):
            if snapshot['@id'] == record.current and reading.digest(snapshot) == record.snapshot:
                for place, votes in places_in(snapshot, words):
                    place = at + pointer('CVRSnapshot', i) + place
                    record.places.append(['votes', spelled(path), spelled(place), str(votes)])


def row_lines(row, records, column, number):
    """The lines for a row, whose number in a column this is, and for its records."""
    if sum(it.votes for it in records.values()) != number:
        raise mismatch('the records don\'t come to the number of the row ' + counting.named(row))
    yield ['row', counting.named(row), column, str(number)]
    for name, record in records.items():
        yield ['record', *map(spelled, name), spelled(record.current), str(record.votes)]
        yield from record.places


def see_words(words, selections):
    """Stops where the definition doesn't have what is asked for."""
    if words.contest not in selections:
        raise ended(WORDS, 'DEF has no contest ' + spelled(words.contest))
    if words.selection not in [None] + selections[words.contest]:
        raise ended(WORDS, 'the contest has no selection ' + spelled(words.selection))


def run(files, words):
    """The text, and whether there is something to look at."""
    selections = counting.selections_of(files.report)
    see_words(words, selections)
    said = notes.Notes(files)
    rows, tally = traced(files.volume(1), words, said), counting.rows_in(files.tally())
    records = {name: record for held in rows.values() for name, record in held.items()}

    def take(path, report):
        said.take_file(path, report)
        find(path, report, records, words)

    files.each_report(take)
    files.notes = said.text()
    column = 'ballots' if words.selection is None else spelled(words.selection)
    place, lines = counting.columns_of(words.contest, selections).index(column), []
    for row, numbers in tally.items():
        if is_asked(row, words):
            lines += row_lines(row, rows.get(row, {}), column, numbers[place])
    return ''.join(' '.join(it) + '\n' for it in lines), False
