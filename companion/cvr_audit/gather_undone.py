"""Records that name another of their snapshots as the current one than the one that counts, in reports
that are gathered."""
import json

from . import gather_said as said
from .gather_json import Document
from .reading import pointer, words_of
from .undone import Undone


class Named:
    """Records of several snapshots, by name: the source and the index there, the snapshot that it names
    as the current one, and the ids of all."""

    def __init__(self):
        self.held = {}

    def take(self, source, number, value):
        """Notes a record, which `cvr` hasn't looked at yet."""
        snapshots = value.get('CVRSnapshot')
        if isinstance(snapshots, list) and len(snapshots) > 1:
            ids = [it.get('@id') for it in snapshots if isinstance(it, dict)]
            name = value['CreatingDeviceId'], value['UniqueId']
            self.held.setdefault(name, []).append((source, number, value.get('CurrentSnapshotId'), ids))

    def others(self, currents):
        """By source the index of each record that has the snapshot that counts and names another one, and
        that snapshot; from what `cvr currents` prints."""
        found = {}
        for line in currents.decode('utf-8').split('\n')[:-1] if self.held else ():
            *name, current = map(json.loads, words_of(line)[:3])
            for source, number, named, ids in self.held.get(tuple(name), ()):
                if current in ids and current != named:
                    found.setdefault(source, {})[number] = current
        return found

    def notes(self, currents, report):
        """A note for each of these records: the snapshots, and what they say of the contests in which they
        differ. The sources of these are read again."""
        for source, numbers in self.others(currents).items():
            for number, value, _ in Document(source, 'CVR').items():
                if number in numbers:
                    undone = Undone(report)
                    undone.take(source.name, value, numbers[number])
                    (_, (_, device, unique, named, current, *rest)), = undone.held
                    readings = [said.READINGS % tuple(rest[it:it + 3]) for it in range(0, len(rest), 3)]
                    yield said.UNDONE % (source.name, pointer('CVR', number), device, unique, named,
                                         current, '; '.join(readings) or said.SAME_READING)
