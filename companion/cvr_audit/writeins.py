"""cvr-audit writeins: the texts that voters wrote in, since somebody has to decide them."""
from . import counting, notes, reading
from .reading import spelled


def written_in(snapshot):
    """Each position of a snapshot with a write-in: contest, selection, text or None, the position."""
    for contest in snapshot.get('CVRContest', []):
        for _, _, selection, position in counting.positions_of(contest):
            if 'CVRWriteIn' in position:
                text = position['CVRWriteIn'].get('Text')
                yield (contest['ContestId'], selection, text if isinstance(text, str) else None), \
                    position


class Text:
    """A text that was written in: its votes that count, those that are pending, and its records."""

    def __init__(self):
        self.votes, self.pending, self.records = 0, 0, []

    def take(self, name, position):
        votes = position['NumberVotes']
        self.votes += votes * counting.counts(position)
        self.pending += votes * counting.is_pending(position)
        if name not in self.records[-1:]:
            self.records.append(name)


def texts_in(files, said):
    """The texts of the current snapshots, by contest, selection and text."""
    held = {}
    for record in files.volume(1):
        said.take(record)
        for key, position in written_in(reading.current_of(record)):
            held.setdefault(key, Text()).take(reading.name_of(record), position)
    files.each_report(said.take_file)
    return held


def run(files, words):
    """The text, and whether there is something to look at."""
    said, selections = notes.Notes(files), counting.selections_of(files.report)
    held, lines = texts_in(files, said), []
    for key in counting.in_order(held, selections):
        text = held[key]
        lines.append('writein %s %d %d %d\n' % (' '.join(map(spelled, key)), text.votes,
                                                text.pending, len(text.records)))
        lines += ['record %s %s\n' % tuple(map(spelled, name)) for name in text.records]
    files.notes = said.text()
    return ''.join(lines), False
