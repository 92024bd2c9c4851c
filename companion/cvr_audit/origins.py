"""In which files each record stands, and which of them have the snapshot that counts."""
from . import reading, undone
from .moments import instant
from .program import mismatch
from .reading import spelled


class Record:
    """A record: its current snapshot by id and digest; whether a moment but no adjudicator stands with
    it, or neither, and the latest moment; how many files have the record, and which have that
    snapshot."""

    __slots__ = 'current', 'digest', 'is_unnamed', 'is_unsigned', 'moment', 'files', 'having'

    def __init__(self, snapshot):
        notes = snapshot.get('Annotation', [])
        moments = [instant(it['TimeStamp']) for it in notes if 'TimeStamp' in it]
        named = any(name for it in notes for name in it.get('AdjudicatorName', []))
        self.current, self.digest = snapshot['@id'], reading.digest(snapshot)
        self.moment = max(moments, default=None)
        self.is_unnamed = bool(moments) and not named
        self.is_unsigned = not moments and not named
        self.files, self.having = (), ()

    def stands_in(self, record):
        """Whether a record of a file has the snapshot."""
        return any(it['@id'] == self.current and reading.digest(it) == self.digest
                   for it in record['CVRSnapshot'])


class Origins:
    """The records by name, and the files by place."""

    def __init__(self, definition):
        self.records, self.paths, self.made, self.repeated = {}, [], [], []
        self.undone = undone.Undone(definition)

    def take_record(self, record):
        """Notes a record of volume 1."""
        self.records[reading.name_of(record)] = Record(reading.current_of(record))

    def take(self, path, report):
        """Notes the records of a file, once those of volume 1 are noted."""
        place, counts, having = len(self.paths), {}, set()
        self.paths.append(path)
        self.made.append(instant(report['GeneratedDate']))
        for it in report.get('CVR', []):
            name = reading.name_of(it)
            counts[name] = counts.get(name, 0) + 1
            if name not in self.records:
                raise mismatch('a record of a file stands in no volume')
            self.undone.take(path, it, self.records[name].current)
            if self.records[name].stands_in(it):
                having.add(name)
        for name, count in counts.items():
            self.records[name].files += (place,)
            if name in having:
                self.records[name].having += (place,)
        self.repeated += [(path, name, count) for name, count in sorted(counts.items())
                          if count > 1]

    def paths_of(self, name):
        """The paths of the files that have a record, in the order given."""
        return [self.paths[place] for place in self.records[name].files]

    def repeated_lines(self):
        """A line for each record that stands several times in one file."""
        for path, name, count in self.repeated:
            yield 'repeated', [spelled(path), *map(spelled, name), str(count)]

    def counted_lines(self):
        """Where the files have more records than are counted: both numbers, and how many stand again
        in a file, or in another one, too."""
        again = sum(count - 1 for _, _, count in self.repeated)
        elsewhere = sum(len(it.files) - 1 for it in self.records.values())
        if again or elsewhere:
            counted = len(self.records)
            numbers = counted + again + elsewhere, counted
            yield 'counted', [*map(str, numbers), 'again %d' % again, 'elsewhere %d' % elsewhere]

    def kinds_of(self, record):
        """What is said of the files that have the current snapshot of a record."""
        if len(record.files) > len(record.having):
            yield 'decides'
            if record.is_unsigned:
                yield 'unsigned'
        if record.is_unnamed:
            yield 'nobody'
        if record.moment is not None and all(record.moment > self.made[it] for it in record.having):
            yield 'later'

    def decided_lines(self):
        """For each kind a line for each file, with the number of records."""
        counts = {}
        for record in self.records.values():
            for kind in self.kinds_of(record):
                for place in record.having:
                    counts[kind, place] = counts.get((kind, place), 0) + 1
        for (kind, place), count in sorted(counts.items()):
            yield kind, [spelled(self.paths[place]), str(count)]
