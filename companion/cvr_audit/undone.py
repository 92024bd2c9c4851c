"""Records of a file that names another of its snapshots as the current one than the one that counts, as
where an adjudication was undone: `cvr` chooses by Type and moment."""
from . import counting
from .reading import name_of, spelled

ABSENT = '-'        # in place of a contest that a snapshot doesn't have


class Undone:
    """The lines of such records: both snapshots, and both readings of each contest that they read
    differently."""

    def __init__(self, definition):
        self.selections, self.held = counting.selections_of(definition), []

    def readings(self, snapshot):
        """What each contest of a snapshot adds to its row, without what is 0."""
        held = {it['ContestId']: it for it in snapshot.get('CVRContest', [])}
        for contest, chosen in self.selections.items():
            numbers = counting.sums(held[contest], chosen)[1:] if contest in held else None
            added = zip([*counting.COLUMNS[1:], *chosen], numbers or ())
            yield ABSENT if numbers is None else spelled({name: it for name, it in added if it})

    def take(self, path, record, current):
        """Notes a record of a file, and the snapshot that counts."""
        held = {it['@id']: it for it in record['CVRSnapshot']}
        named = record['CurrentSnapshotId']
        if named == current or current not in held:
            return
        parts = [spelled(it) for it in (path, *name_of(record), named, current)]
        for contest, *both in zip(self.selections, *map(self.readings, (held[named], held[current]))):
            parts += [spelled(contest), *both] if both[0] != both[1] else []
        self.held.append(('undone', parts))
