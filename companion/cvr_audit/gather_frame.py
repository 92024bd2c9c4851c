"""An election as a form of export names it, and records under it, in the standard's members."""
from . import VERSION
from .gather_devices import Ballots
from .gather_out import Record
from .gather_writein import is_write_in, votes_of
from .reading import pointer, spelled

ELECTION, SCOPE = 'election', 'all units'
NO_DATE = '1970-01-01T00:00:00Z'        # no form has one; so two runs write the same
NOTES = ('Made by cvr-audit %s of an export of the kind %s. GeneratedDate stands for no date: the '
         'export has none.')
HEADER = 'BallotAuditId', 'BallotSheetId', 'BallotStyleId', 'BallotStyleUnitId', 'BatchId', \
         'BatchSequenceId'


class Contest:
    """A contest, and its selections by id: whether each is for names that are written in."""

    def __init__(self, key, name, allowed=None, variation=None):
        self.key, self.allowed, self.selections, self.names = key, allowed, {}, {}
        self.shown = {'@id': key, '@type': 'CVR.CandidateContest', 'Name': name}
        if allowed is not None:
            self.shown['VotesAllowed'] = allowed
        if variation is not None:
            self.shown['VoteVariation'] = variation
        self.texts, self.columns = {}, set()

    def key_of(self, choice, party):
        """The id of the choice in a column: its name, with its party where a choice before has that
        name, or with its number where it is for written names. None where it stands there already."""
        is_written, key = is_write_in(choice), choice
        if choice in self.selections and (is_written or party):
            more = sum(self.selections.values()) + 1 if is_written else party
            key = '%s (%s)' % (choice, more)
        if key in self.selections or (choice, party) in self.columns and not is_written:
            return None
        self.columns.add((choice, party))
        return key

    def add(self, key, name, is_written=False):
        """Adds a selection, if it isn't there."""
        if key not in self.selections:
            self.selections[key] = is_written or is_write_in(name)
            self.names[key] = name

    def candidate(self, key):
        """The id of a choice's candidate, which no choice of another contest has."""
        return pointer(self.key, key)

    def candidates(self):
        for key, is_written in self.selections.items():
            if not is_written:
                yield {'@id': self.candidate(key), '@type': 'CVR.Candidate',
                       'Name': self.names[key]}

    def report(self):
        """The contest with its selections."""
        held = []
        for key, is_written in self.selections.items():
            more = {'IsWriteIn': True} if is_written else {'CandidateIds': [self.candidate(key)]}
            held.append(dict({'@id': key, '@type': 'CVR.CandidateSelection'}, **more))
        return dict(self.shown, ContestSelection=held)

    # ---- in a snapshot

    def written(self, chosen, members):
        """The text of the contest in a snapshot: a list of selections with their positions, and
        numbers."""
        held = [{'@type': 'CVR.CVRContestSelection', 'ContestSelectionId': key,
                 'SelectionPosition': positions} for key, positions in chosen]
        more = {'CVRContestSelection': held} if held else {}
        made = dict({'@type': 'CVR.CVRContest', 'ContestId': self.key}, **members, **more)
        return spelled(dict(made, WriteIns=votes_of(self, chosen)))

    def marked(self, chosen):
        """The same where one mark stands for each of the selections `chosen`, of which only so many
        may be marked."""
        chosen = tuple(chosen)
        if chosen not in self.texts:
            lost = self.allowed - len(chosen)
            positions = [(key, [position(is_vote=lost >= 0)]) for key in chosen]
            members = {'Overvotes': self.allowed if lost < 0 else 0, 'Undervotes': max(lost, 0)}
            members.update({'Status': ['overvoted']} if lost < 0 else {})
            self.texts[chosen] = self.written(positions, members)
        return self.texts[chosen]


def position(is_vote=True, is_sure=True, rank=None):
    """A mark of one vote."""
    made = {'@type': 'CVR.SelectionPosition', 'HasIndication': 'yes' if is_sure else 'unknown',
            'NumberVotes': 1}
    if is_sure and not is_vote:
        made['IsAllocable'] = 'no'
    if rank is not None:
        made['Rank'] = rank
    return made


def snapshot(key, kind, contests):
    """The text of a snapshot of these texts of contests."""
    return '{"@id":"%s","@type":"CVR.CVRSnapshot","CVRContest":[%s],"Type":"%s"}' % (
        key, ','.join(contests), kind)


class Frame:
    """What an export says of its election, apart from its records."""

    def __init__(self, kind, name=None):
        self.kind, self.name, self.contests, self.units, self.devices = kind, name, {}, {}, {}
        self.first = None       # what the first source says
        self.ballots = Ballots()

    def see_same(self, other, table):
        """Takes over the contests of a first source, and stops where a later one has others."""
        said = other.name, [it.report() for it in other.contests.values()]
        if self.first is None:
            self.first, self.name, self.contests = said, other.name, other.contests
        if said != self.first:
            raise table.fault('its election or its contests are not those of the files before it')

    def unit(self, key, name=None):
        """The id of a unit; None where there is none."""
        if key:
            self.units[key] = name or key
        return key or None

    def device(self, key):
        self.devices[key] = {'@id': key, '@type': 'CVR.ReportingDevice'}
        return key

    def of_source(self, source, name, header, snapshots):
        """The name of a record and its header, with what --device names its source."""
        device, unique = name
        if source.device is None:
            return name, header
        self.ballots.take(source, name, (header.get('BallotStyleUnitId'), *snapshots))
        batch = header.get('BatchId')
        header = dict(header, BatchId=batch and '%s/%s' % (source.device, batch))
        is_named = device != self.kind      # as that of a form is that names none
        return ('%s/%s' % (source.device, device) if is_named else source.device, unique), header

    def record(self, source, place, name, header, snapshots):
        """A record of the device and UniqueId `name`. What is None or empty of its header is left out;
        the current snapshot is the last of (id, text)."""
        (device, unique), header = self.of_source(source, name, header, snapshots)
        held = {'@type': 'CVR.CVR', 'CreatingDeviceId': self.device(device), 'UniqueId': unique,
                'ElectionId': ELECTION, 'CurrentSnapshotId': snapshots[-1][0]}
        held.update((member, header[member]) for member in HEADER if header.get(member))
        text = '%s,"CVRSnapshot":[%s]}' % (spelled(held)[:-1], ','.join(it for _, it in snapshots))
        return Record(source, place, device, unique, text.encode('utf-8'))

    def report(self):
        """The definition. All is in the order of ids, but contests and selections are as added."""
        self.ballots.see_others()
        scope = SCOPE
        while scope in self.units:
            scope = 'really ' + scope
        units = [{'@id': key, '@type': 'CVR.GpUnit', 'Name': self.units[key], 'Type': 'precinct'}
                 for key in sorted(self.units)]
        election = {'@id': ELECTION, '@type': 'CVR.Election', 'ElectionScopeId': scope,
                    'Candidate': [one for it in self.contests.values() for one in it.candidates()],
                    'Contest': [it.report() for it in self.contests.values()]}
        election.update({'Name': self.name} if self.name else {})
        devices = [self.devices[key] for key in sorted(self.devices)]
        return {'@type': 'CVR.CastVoteRecordReport', 'Version': '1.0.0', 'GeneratedDate': NO_DATE,
                'Notes': NOTES % (VERSION, self.kind), 'ReportingDevice': devices,
                'ReportGeneratingDeviceIds': sorted(self.devices)[:1], 'Election': [election],
                'GpUnit': [{'@id': scope, '@type': 'CVR.GpUnit', 'Type': 'other'}] + units,
                'CVR': []}
