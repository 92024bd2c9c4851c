"""Bodies under their names: that of volume 1 and, where names are in conflict, those of the files.

`cvr conflicts` says which names are in conflict and how many bodies each has. The bodies are in the
files, each of which is read once, however many bodies there are. Volumes 2 and on have them, too,
but each would cost a run of `cvr merge` over all files."""
import json
from collections import namedtuple

from . import reading
from .program import mismatch
from .reading import spelled

KINDS = 'device', 'header', 'snapshot'

# A record with its bodies: those of its header, and of each snapshot by id. Bodies are values by
# their compact texts; the first is that of volume 1.
Record = namedtuple('Record', 'name headers snapshots current')


def facts_of(report):
    """Each fact of a report: its kind and name, and the value whose text is its body."""
    for device in report['ReportingDevice']:
        yield ('device', device['@id']), device
    for record in report.get('CVR', []):
        name = reading.name_of(record)
        yield ('header', *name), reading.header_of(record)
        for snapshot in record['CVRSnapshot']:
            yield ('snapshot', *name, snapshot['@id']), snapshot


def counts_in(text):
    """How many bodies each name in conflict has, from what `cvr conflicts` prints."""
    counts = {}
    for line in text.split('\n')[:-2]:          # the last line has the number of volumes
        *words, number = reading.words_of(line)
        kind = 'device' if words[0] == 'device' else words[2]
        name = (json.loads(word) for word in words if word.startswith('"'))
        counts[(kind, *name)] = int(number)
    return counts


class Conflicts:
    """The bodies of each name in conflict, and the paths of the files that have each body; `records`
    has the names of the records that these names belong to."""

    def __init__(self, names):
        self.paths = {name: {} for name in names}
        self.records = {tuple(name[:2]) for kind, *name in names if kind != 'device'}

    def take(self, path, report):
        """Notes the bodies in a report."""
        for name, value in facts_of(report):
            if name in self.paths:
                self.paths[name].setdefault(spelled(value), {})[path] = None

    def bodies_of(self, name, shown):
        """The bodies of a name: first the one that volume 1 shows, then the others by their bytes, the
        greatest first."""
        first, found = spelled(shown), self.paths.get(name)
        if found and first not in found:
            raise mismatch('a body of volume 1 stands in no file')
        others = sorted((text for text in found or () if text != first), reverse=True)
        return {first: shown, **{text: json.loads(text) for text in others}}

    def of(self, report):
        """Each name in conflict in a report with the bodies of volume 1; with the name, all its bodies."""
        for name, value in facts_of(report) if self.paths else ():
            if name in self.paths:
                yield name, self.bodies_of(name, value)


def conflicts_of(files):
    """The conflicts of files. Where there are none, no file is read."""
    counts = counts_in(files.text('conflicts'))
    found = Conflicts(counts)
    if counts:
        found.take(files.definition, dict(files.report, CVR=[]))
        files.each_report(found.take)
    if {name: len(texts) for name, texts in found.paths.items()} != counts:
        raise mismatch('the files don\'t have the bodies that `cvr conflicts` counts')
    return found


def record_of(shown, conflicts):
    """A record of volume 1 with all its bodies."""
    name, snapshots = reading.name_of(shown), {}
    for snapshot in shown['CVRSnapshot']:
        bodies = conflicts.bodies_of(('snapshot', *name, snapshot['@id']), snapshot)
        snapshots[snapshot['@id']] = bodies
    headers = conflicts.bodies_of(('header', *name), reading.header_of(shown))
    return Record(name, headers, snapshots, shown['CurrentSnapshotId'])


def devices(volume, conflicts):
    """The bodies of each device, once the records of volume 1 have been read."""
    shown = {device['@id']: device for device in volume.rest['ReportingDevice']}
    return {name: conflicts.bodies_of(('device', name), it) for name, it in shown.items()}


def first(bodies):
    """The value of the body of volume 1."""
    return next(iter(bodies.values()))
