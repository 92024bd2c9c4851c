"""What `gather` writes: a folder with a definition, reports, and a list of where each record came
from. It has another name until all is done, and nothing is left of it where that fails."""
import csv
import json
import os
import shutil
import signal
import tempfile
from collections import namedtuple
from contextlib import contextmanager

from . import definition, testing
from . import gather_said as said
from .gather_source import fault
from .manifest import Sizes, manifest_in
from .program import FAILED, ended
from .reading import spelled
from .terminal import in_a_line

HEAD = said.BEGINNING.encode('utf-8')
DEFINITION, SOURCES = 'definition.json', 'sources.csv'
# Names of records are spelled as `cvr` prints them, so that no spreadsheet takes one for a formula or
# a date.
COLUMNS = 'source', 'place', 'length', 'SHA-256', 'CreatingDeviceId', 'UniqueId', 'file'

# A record: its source, its place there, its name, and its text as bytes.
Record = namedtuple('Record', 'source place device unique text')


def private(path, flags):
    """Opens a file that nobody else may read."""
    return os.open(path, flags, 0o600)


def named(batch):
    """The name of a batch in a sentence; None where a record has no BatchId."""
    parts = batch if isinstance(batch, tuple) else (None, batch)
    return ' '.join(map(spelled, parts[parts[0] is None:]))


def header_of(record):
    """The texts of a record that its size goes by; `cvr` refuses another kind of them."""
    value = json.loads(record.text)
    held = {it: value.get(it) for it in ('CreatingDeviceId', 'BatchId', 'BallotSheetId')}
    return {name: it for name, it in held.items() if isinstance(it, str)}


class Out:
    """The folder that is written. `files` has the names of the reports, `left` the lines for what
    isn't in them, and `reports` what the sources say of themselves."""

    def __init__(self, path):
        self.reports, self.sizes, self.is_part = testing.Reports(), None, False
        self.named = None       # of a kind whose records name their current snapshot
        self.path, self.names, self.files, self.left, self.way = path, set(), [], [], ''
        self.file, self.room, self.count = None, 0, 0
        above, name = os.path.split(os.path.abspath(path))
        if os.path.lexists(path):
            raise ended(FAILED, '%s: it is there already; name a folder that isn\'t' % path)
        self.folder = tempfile.mkdtemp(prefix='.%s.' % name, dir=above)
        self.sources = self.opened(SOURCES, newline='', encoding='utf-8', errors='backslashreplace')
        self.lines = csv.writer(self.sources, lineterminator='\n')
        self.lines.writerow(COLUMNS)

    def at(self, name):
        return os.path.join(self.folder, name)

    def opened(self, name, mode='x', **more):
        return open(self.at(name), mode, opener=private, **more)

    def note(self, text):
        self.left.append(in_a_line('note: %s' % text))

    def take_report(self, path, frame):
        """Notes what a report says of itself. What isn't known of that is named."""
        self.reports.take(path, frame)
        if frame.get(testing.OTHER) and not {path} & {*self.reports.tests, *self.reports.parts}:
            self.note(said.OTHER_TYPE % (path, spelled(frame[testing.OTHER])))

    def lack(self, name, text, place=None):
        """Stops at a source of which ballots are missing, or notes it where that is meant."""
        if not self.is_part:
            raise fault(name, text + said.GO_ON, place)
        self.note(': '.join(it for it in (name, place, text) if it))
        self.reports.lacks += 1

    def see_manifest(self, path):
        """Compares the batches with those of a manifest of the county."""
        expected = manifest_in(path)
        came = {batch: ballots for batch, (ballots, _) in self.sizes.by(expected).items()}
        self.see_batches(path, expected, came)

    def see_batches(self, name, stated, came, place=None):
        """Stops at the first batch of a source of which another number of ballots is stated than came;
        None states none. Names are texts or, of a manifest, a device or None, and a text."""
        for batch, number in (stated or {}).items():
            if number != came.get(batch, 0):
                self.lack(name, said.OTHER_COUNT % (named(batch), number, came.get(batch, 0)), place)
        for batch, number in came.items() if stated is not None else ():
            if batch not in stated:
                self.lack(name, said.UNLISTED % (named(batch), number), place)

    def take(self, words):
        """Notes what is meant by options."""
        self.is_part, self.sizes = words.incomplete, Sizes() if words.manifest else None

    # ---- records

    def add(self, record, may_repeat=False):
        """Writes a record behind those before it, in the same file or the next."""
        name = record.device, record.unique
        if name in self.names and not may_repeat:
            raise self.twice(record)
        if self.sizes and name not in self.names:
            self.sizes.take(header_of(record))
        self.names.add(name)
        self.count += 1
        if len(record.text) + 2 > self.room:
            self.next_file(record)
        else:
            self.file.write(b',\n')
        self.file.write(record.text)
        self.room -= len(record.text) + 2
        self.lines.writerow([record.source.name, record.place, None, None, *map(spelled, name),
                             self.files[-1]])

    def next_file(self, record):
        self.room = said.MOST - said.ROOM - len(HEAD)
        if len(record.text) + 2 > self.room:
            raise fault(record.source.name, said.LONG_RECORD, record.place)
        if self.file:
            self.file.close()
        self.files.append('records-%d.json' % (len(self.files) + 1))
        self.file = self.opened(self.files[-1], 'xb')
        self.file.write(HEAD)

    def twice(self, record):
        """The end where a name stands twice; what tells ballots apart is in the name."""
        names = [spelled(record.device), spelled(record.unique)]
        first = next(line for line in self.held() if line[4:6] == names)
        text = said.ELSEWHERE % (' '.join(names), *first[:2])
        return fault(record.source.name, text + self.way_beside(record.source, first[0]), record.place)

    def way_beside(self, source, first):
        """What goes on where a name stands in a source and in another one."""
        return self.way if source.name != first else ''

    def held(self):
        """The lines of the list as far as it is written."""
        if not self.sources.closed:
            self.sources.flush()
        with open(self.at(SOURCES), newline='', encoding='utf-8') as file:
            yield from csv.reader(file)

    def place_of(self, name, number):
        """The source of a record by its file and its place there, and the place in the source."""
        lines = (line for line in self.held() if line[6] == name)
        return next(line[:2] for place, line in enumerate(lines) if place == number)

    # ---- the end

    def finish(self, report, sources):
        """Writes the definition, the end of each report, and the lines of the sources."""
        tail = {name: part for name, part in report.items() if name not in ('@type', 'CVR')}
        tail = ('\n],' + spelled(tail)[1:]).encode('utf-8')
        if len(tail) > said.ROOM:
            raise fault(self.path, said.LONG_ELECTION % said.ROOM)
        self.file.close()
        for name in self.files:
            with open(self.at(name), 'ab') as file:
                file.write(tail)
        with self.opened(DEFINITION, encoding='utf-8') as file:
            file.write(definition.text_of(report))
        for source in sources:
            self.lines.writerow([source.name, None, source.size, source.digest, None, None, None])
        self.sources.close()

    def keep(self):
        """Gives the folder its name, once all is on the disk."""
        for name in [DEFINITION, SOURCES] + self.files:
            with open(self.at(name), 'rb') as file:
                os.fsync(file.fileno())
        os.rename(self.folder, self.path)
        self.folder = None

    def drop(self):
        if self.folder:
            shutil.rmtree(self.folder)


class Stopped(BaseException):
    """A signal asked the run to end."""


def stop(number, _):
    raise Stopped(number)


@contextmanager
def writing(path):
    """A folder to write. Nothing is left of it where the run ends early, also by a signal."""
    numbers = [it for it in (signal.SIGINT, signal.SIGTERM, signal.SIGHUP)
               if signal.getsignal(it) == signal.SIG_DFL]
    for number in numbers:
        signal.signal(number, stop)
    out = None
    try:
        out = Out(path)
        yield out
    except Stopped as by:
        for number in numbers:
            signal.signal(number, signal.SIG_DFL)
        if out:
            out.drop()
        os.kill(os.getpid(), by.args[0])
    finally:
        for number in numbers:
            signal.signal(number, signal.SIG_DFL)
        if out:
            out.drop()
