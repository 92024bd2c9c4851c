"""The JSON of Dominion: CvrExport.json, and lists of what its numbers name."""
import json
from collections import Counter, namedtuple
from functools import partial

from .gather_frame import Contest, Frame, position, snapshot
from .gather_json import STRICT, Document, value_in
from .gather_sessions import Stated
from .gather_source import fault
from .gather_writein import is_write_in
from .reading import pointer, spelled

EXPORT, LIST = 'CvrExport', 'Manifest.json'
CONTESTS, CANDIDATES, UNITS = 'ContestManifest.json', 'CandidateManifest.json', \
    'PrecinctPortionManifest.json'
# the members of each object that are read, and those that are left out; no other is taken
READ = {
    'Session': {'TabulatorId', 'BatchId', 'RecordId', 'Original', 'Modified'},
    'Version': {'PrecinctPortionId', 'BallotTypeId', 'IsCurrent', 'Cards', 'Contests'},
    'Card': {'Id', 'Contests'},
    'Contest': {'Id', 'Undervotes', 'Overvotes', 'Marks'},
    'Mark': {'CandidateId', 'Rank', 'IsAmbiguous', 'IsVote'},
}
LEFT = {
    'Session': {'CountingGroupId', 'ImageMask', 'SessionType', 'VotingSessionIdentifier',
                'UniqueVotingIdentifier'},
    'Version': set(),
    'Card': {'KeyInId', 'PaperIndex', 'OutstackConditionIds'},
    'Contest': {'ManifestationId', 'OutstackConditionIds'},
    'Mark': {'ManifestationId', 'PartyId', 'MarkDensity', 'WriteinIndex', 'WriteinDensity',
             'OutstackConditionIds'},
}
APART = '; gather each export by itself, with --device NAME where they number their ballots alike'
KINDS = (('Original', 'original'), ('Modified', 'modified'))
UNSTATED = ('%d contests in snapshots have more marks that are votes than are allowed, and state no '
            'overvote; each is taken for overvoted')
UNEQUAL = ('in %d contests in snapshots the votes and Undervotes don\'t come to VoteFor; each is '
           'written as it stands')
OF_TYPE = '%d sessions have the SessionType %s; each is read as the others'
SCANNED = 'ScannedVote', None
# A mark; the rank is None in a contest without ranks.
Mark = namedtuple('Mark', 'choice is_vote is_sure rank')


def is_export(source):
    return source.is_named_as('dominion-json')


def fits(source):
    return source.is_of('dominion-json')


def stays(source):
    return False


def texts_in(source):
    """A list by the text of each item's Id."""
    held = value_in(source)
    items = held.get('List') if isinstance(held, dict) else None
    if not isinstance(items, list):
        raise fault(source.name, 'it has no List')
    found = {}
    for place, item in enumerate(items):
        name = item.get('Id') if isinstance(item, dict) else None
        if type(name) is not int or str(name) in found:
            raise fault(source.name, 'it has no Id of its own', pointer('List', place))
        if not isinstance(item.get('Description'), str) or not item['Description']:
            raise fault(source.name, 'it has no Description', pointer('List', place))
        found[str(name)] = item
    return found


def list_named(sources, base, is_needed=True):
    """The list of a name; it stands once among the sources."""
    held = [it for it in sources if it.base == base]
    if len(held) > 1 or is_needed and not held:
        text = 'it has to be there once, beside %s.json' % EXPORT
        raise fault(held[-1].name if held else base, text + APART * bool(held))
    return texts_in(held[0]) if held else None


def add_contests(frame, sources, meanings):
    """Adds the contests and their choices, as the lists have them."""
    for key, item in list_named(sources, CONTESTS).items():
        allowed = item.get('VoteFor')
        if type(allowed) is not int or allowed < 1:
            raise fault(CONTESTS, 'the contest %s has no VoteFor of 1 or more' % key)
        frame.contests[key] = Contest(key, item['Description'], allowed,
                                      'rcv' if item.get('NumOfRanks') else None)
    for key, item in list_named(sources, CANDIDATES).items():
        contest = str(item.get('ContestId'))
        if contest not in frame.contests:
            raise fault(CANDIDATES, 'the candidate %s is of no contest' % key)
        meanings.see_listed(partial(fault, CANDIDATES), item['Description'],
                            frame.contests[contest].shown['Name'])
        frame.contests[contest].add(key, item['Description'], is_write_in(str(item.get('Type'))))


def is_ranked(contest):
    return 'VoteVariation' in contest.shown


class Export:
    """What all sessions share: the election, the list of units or None, how many contests are
    overvoted by their marks alone, in how many votes and undervotes are too many or too few, and how
    many sessions are of a type that isn't SCANNED."""

    def __init__(self, sources, meanings):
        self.frame, self.types = Frame('dominion-json'), Counter()
        self.unstated = self.unequal = 0
        add_contests(self.frame, sources, meanings)
        self.units = list_named(sources, UNITS, is_needed=False)

    def notes(self):
        """What is said of all sessions."""
        if self.unstated:
            yield UNSTATED % self.unstated
        if self.unequal:
            yield UNEQUAL % self.unequal
        for kind, number in sorted(self.types.items()):
            yield OF_TYPE % (number, kind)


class Session:
    """A session of an export: the records of its cards."""

    def __init__(self, export, source, number, value):
        self.export, self.frame, self.source = export, export.frame, source
        self.place, self.value = pointer('Sessions', number), value

    def fault(self, text, *steps):
        return fault(self.source.name, text, self.place + pointer(*steps))

    def see(self, value, name, steps):
        """Stops where a value is no object of these members."""
        if not isinstance(value, dict):
            raise self.fault('it is no %s' % name, *steps)
        for member in value:
            if member not in READ[name] and member not in LEFT[name]:
                raise self.fault('the member %s of a %s is not of this form as it is known'
                                 % (spelled(member), name), *steps)

    def of(self, value, member, kind, steps):
        """A member of a kind that has to be there; a truth is no number."""
        if type(value.get(member)) is not kind:
            text = {int: 'a whole number', bool: 'true or false', list: 'an array'}[kind]
            raise self.fault('its %s is absent, or not %s' % (member, text), *steps)
        return value[member]

    # ---- votes

    def mark(self, contest, value, steps):
        """A mark. One that is ambiguous is never a vote."""
        self.see(value, 'Mark', steps)
        key = str(self.of(value, 'CandidateId', int, steps))
        if key not in contest.selections:
            raise self.fault('the CandidateId %s is none of the contest %s' % (key, contest.key),
                             *steps)
        is_vote = self.of(value, 'IsVote', bool, steps)
        is_sure = not self.of(value, 'IsAmbiguous', bool, steps)
        rank = self.of(value, 'Rank', int, steps) if is_ranked(contest) else None
        return Mark(key, is_vote, is_sure, rank)

    def overvoted(self, contest, marks, stated, steps):
        """The ranks that have too many votes; in a contest without ranks, None stands for all of it.
        Where an overvote is stated, marks that are no vote may show its rank."""
        if stated and not is_ranked(contest):
            return {None}
        allowed = 1 if is_ranked(contest) else contest.allowed
        votes = Counter(it.rank for it in marks if it.is_sure and (it.is_vote or stated))
        found = {rank for rank, number in votes.items() if number > allowed}
        if stated and not found:
            raise self.fault('it states Overvotes %d, but no rank is marked twice: which of its %d marks '
                             'are overvoted isn\'t known' % (stated, len(marks)), *steps)
        self.export.unstated += bool(found and not stated)
        return found

    def contest(self, value, steps):
        """The text of a contest in a snapshot."""
        self.see(value, 'Contest', steps)
        key = str(self.of(value, 'Id', int, steps))
        if key not in self.frame.contests:
            raise self.fault('the contest %s is not in %s' % (key, CONTESTS), *steps)
        contest, chosen = self.frame.contests[key], {}
        marks = [self.mark(contest, it, [*steps, 'Marks', place])
                 for place, it in enumerate(self.of(value, 'Marks', list, steps))]
        numbers = {it: self.of(value, it, int, steps) for it in ('Overvotes', 'Undervotes')
                   if it in value}
        over = self.overvoted(contest, marks, numbers.get('Overvotes', 0), steps)
        if not over and not is_ranked(contest) and 'Undervotes' in numbers:
            votes = sum(it.is_vote and it.is_sure for it in marks)
            self.export.unequal += votes + numbers['Undervotes'] != contest.allowed
        for it in marks:
            votes = chosen.setdefault(it.choice, [])
            if votes and not contest.selections[it.choice] and not is_ranked(contest):
                raise self.fault('the CandidateId %s is marked twice' % it.choice, *steps)
            votes.append(position(it.is_vote and it.rank not in over, it.is_sure, it.rank))
        if over:
            numbers['Overvotes'] = numbers.get('Overvotes') or contest.allowed
        numbers.update({'Status': ['overvoted']} if None in over else {})
        return contest.written(chosen.items(), numbers)

    def cards(self, name):
        """The cards of a version, each with the steps that lead to it."""
        value = self.value[name]
        if 'Cards' not in value:        # in older exports the contests stand here
            return [({'Contests': value.get('Contests')}, [name])]
        cards = self.of(value, 'Cards', list, [name])
        if not cards or 'Contests' in value:
            raise self.fault('it has no card, or Contests beside Cards', name)
        for place, card in enumerate(cards):
            self.see(card, 'Card', [name, 'Cards', place])
        return [(card, [name, 'Cards', place]) for place, card in enumerate(cards)]

    def texts(self, card, steps):
        contests = self.of(card, 'Contests', list, steps)
        return [self.contest(it, [*steps, 'Contests', place])
                for place, it in enumerate(contests)]

    # ---- records

    def versions(self):
        """The names of the versions, the current one last. `cvr` counts the modified one, where there
        is one."""
        held = [name for name, _ in KINDS if self.value.get(name) is not None]
        for name in held:
            self.see(self.value[name], 'Version', [name])
        current = [name for name in held if self.value[name].get('IsCurrent') is True]
        if 'Original' not in held:
            raise self.fault('it has no Original')
        if current != held[-1:]:
            raise self.fault('the current version has to be Modified, where it has one, and else '
                             'Original, and no other; cvr counts that one')
        return held

    def header(self, version, parts):
        """The header of the records, by the current version."""
        name, style = (self.id_of(version, it) for it in ('PrecinctPortionId', 'BallotTypeId'))
        units = self.export.units
        if name is not None and units is not None:
            if name not in units:
                raise self.fault('the PrecinctPortionId %s is not in %s' % (name, UNITS), version)
            self.frame.unit(name, units[name]['Description'])
        elif name is not None:
            self.frame.unit(name)
        return {'BallotStyleUnitId': name, 'BallotStyleId': style, 'BatchId': '-'.join(parts[:2])}

    def id_of(self, version, member):
        """The text of a number that may be absent or null."""
        value = self.value[version]
        is_there = value.get(member) is not None
        return str(self.of(value, member, int, [version])) if is_there else None

    def records(self):
        """The records: one for each card, whose number is in its name where there are several."""
        self.see(self.value, 'Session', [])
        parts = [str(self.of(self.value, it, int, [])) for it in ('TabulatorId', 'BatchId')]
        parts.append(self.record_id())
        names = self.versions()
        cards = [self.cards(name) for name in names]
        held = [[card.get('Id') for card, _ in it] for it in cards]
        if any(it != held[0] for it in held):
            raise self.fault('Original and Modified have different cards')
        self.see_contests_apart(cards[-1])
        if self.value.get('SessionType') not in SCANNED:
            self.export.types[spelled(self.value['SessionType'])] += 1
        header = self.header(names[-1], parts)
        for place, versions in enumerate(zip(*cards)):
            more = [str(place + 1)] if len(held[0]) > 1 else []
            snapshots = [self.snapshot(name, *card) for name, card in zip(names, versions)]
            sheet = {'BallotSheetId': str(place + 1)} if more else {}
            yield self.frame.record(self.source, self.place + pointer(*versions[0][1]),
                                    (parts[0], '-'.join(parts + more)), dict(header, **sheet),
                                    snapshots)

    def see_contests_apart(self, cards):
        """Stops where a contest stands on two cards, as a ballot would then be counted twice."""
        held = {}
        for number, (card, steps) in enumerate(cards):
            for place, it in enumerate(self.of(card, 'Contests', list, steps)):
                key = it.get('Id') if isinstance(it, dict) else None
                if held.setdefault(str(key), number) != number:
                    raise self.fault('the contest %s stands on the cards %d and %d of this session'
                                     % (key, held[str(key)] + 1, number + 1), *steps, 'Contests',
                                     place)

    def snapshot(self, name, card, steps):
        kind = dict(KINDS)[name]
        return kind, snapshot(kind, kind, self.texts(card, steps))

    def record_id(self):
        """The RecordId, a number or a text; some exports have an X in its place."""
        value = self.value.get('RecordId')
        if type(value) is not int and (not isinstance(value, str) or value in ('', 'X')):
            raise self.fault('its RecordId is absent or withheld, so nothing tells the ballots of '
                             'the batch apart')
        return str(value)


def read(sources, out, cvr, words):
    """Adds the records; answers the definition."""
    export, stated = Export(sources, words.meanings), Stated()
    for source in filter(is_export, sources):
        document, number = Document(source, 'Sessions', STRICT), -1
        for number, value, _ in document.items():
            for record in Session(export, source, number, value).records():
                out.add(record)
        if not document.is_there:
            raise fault(source.name, 'it has no Sessions')
        stated.take(source, document.rest, number + 1)
    stated.see(out)
    for text in export.notes():
        out.note(text)
    return export.frame.report()


class Cards:
    """Counts the cards of sessions. An object stands for how many it has, so that none is held."""

    def __init__(self):
        self.count = 0

    def take(self, value):
        if 'Original' in value:
            self.count += value['Original'] or 1        # without cards it is one itself
        return len(value['Cards']) if 'Cards' in value else None


def count(sources):
    """The number of records and of names, counted in another way: one for each card of Original."""
    cards = Cards()
    for source in filter(is_export, sources):
        json.loads(source.text(), object_hook=cards.take)
    return cards.count, cards.count
