"""What each command says of the records that it counts: `warnings` and `page` with what to do, the
others in a line of standard error that counts them."""
from . import counting, excess, origins, ranks, reading, recount
from .advice import line_of
from .reading import spelled

NEEDS = 'needs-adjudication'
USE = 'definition', 'among', 'alone'        # of how DEF is used


def use_lines(files):
    """The lines on a definition that has records, or is one of the files; and on a run of no file."""
    kinds = [files.marks[path][:2] for path in files.files if files.marks[path]]
    if files.marks[files.definition][:2] in kinds:
        yield 'among', [spelled(files.definition)]
    elif files.own_records:
        yield 'definition', [spelled(files.definition), str(files.own_records)]
    if not files.files:
        yield 'alone', [spelled(files.definition)]


def use_text(files, side=''):
    """The lines on DEF, for standard error."""
    return ''.join('cvr-audit: %s%s' % (side, line_of(*it)) for it in use_lines(files))


def is_unknown(position):
    """Whether it isn't known if there is a mark, nor decided whether it counts."""
    return position['HasIndication'] == 'unknown' and \
        position.get('IsAllocable', 'unknown') == 'unknown'


def is_waiting(chosen):
    return NEEDS in chosen.get('Status', []) or any(map(is_unknown, chosen['SelectionPosition']))


def waiting_in(snapshot):
    """The contests in which a snapshot waits for a person; None where it doesn't wait."""
    held = [it['ContestId'] for it in snapshot.get('CVRContest', [])
            if any(map(is_waiting, it.get('CVRContestSelection', [])))]
    return held if held or NEEDS in snapshot.get('Status', []) else None


class Notes:
    """What is seen in volume 1, and then in the files. A record that waits stands with its contests;
    `stated` has which contests have which number stated, in whatever snapshot of a file."""

    def __init__(self, files):
        self.files, self.waiting, self.stated = files, [], set()
        files.recount = recount.Recount(files)
        self.origins, self.ranks = origins.Origins(files.report), ranks.Ranks(files.report)
        self.excess = excess.Excess(files.report)

    def take(self, record):
        """Notes a record of volume 1."""
        current = reading.current_of(record)
        self.excess.take(record, self.files.recount.take(record))
        self.origins.take_record(record)
        self.ranks.take(current)
        contests = waiting_in(current)
        if contests is not None:
            self.waiting.append([*reading.name_of(record), *contests])

    def take_file(self, path, report):
        """Notes a file, once all records of volume 1 are noted."""
        self.origins.take(path, report)
        for record in report.get('CVR', []):
            for snapshot in record['CVRSnapshot']:
                self.take_stated(snapshot)

    def take_stated(self, snapshot):
        for contest in snapshot.get('CVRContest', []):
            for column in counting.WANTED:
                if counting.STATED[column] in contest:
                    self.stated.add((contest['ContestId'], column))

    def is_stated(self, contest, column):
        """Whether a file states a number of a contest; where none does, the 0 of its column means nothing."""
        return column not in counting.WANTED or (contest, column) in self.stated

    def lines(self):
        """What is said of the records and files."""
        yield from use_lines(self.files)
        yield from self.origins.repeated_lines()
        yield from self.origins.counted_lines()
        yield from self.origins.decided_lines()
        yield from self.origins.undone.held
        yield from self.excess.lines(self.ranks.is_ranked)
        yield from (('waiting', list(map(spelled, parts))) for parts in self.waiting)
        yield from self.ranks.lines()

    def text(self, side=''):
        """The lines on DEF, and one that counts the others."""
        counts = {}
        for kind, _ in self.lines():
            counts[kind] = counts.get(kind, 0) + (kind not in USE)
        said = ', '.join('%s %d' % it for it in counts.items() if it[1])
        line = 'cvr-audit: %ssee cvr-audit warnings: %s\n' % (side, said)
        return use_text(self.files, side) + line * bool(said)
