"""model.py: what offices answer after a history, worked out anew each time from what has reached
them: by the definitions in crates/*/specs, and not by the code of the libraries. What a contest adds
to its row is as tests/rows/printed.py reads docs/FORMAT.md.

A fact is a tuple of its name's parts and its body: ('device', id, body), ('header', record, body)
or ('snapshot', record, id, body), where a record is (device, unique) and a body a compact text."""
import json
from collections import Counter, namedtuple
from datetime import datetime

import printed

TEXTS = printed.Texts()
RANKS = {'original': 0, 'interpreted': 1, 'modified': 2}
LEFT_OUT = 'CVRSnapshot', 'CurrentSnapshotId'           # of a header

Import = namedtuple('Import', 'office file')
Exchange = namedtuple('Exchange', 'giver taker')
# Events, and the office whose volumes are their files; None for the files that all histories share.
Step = namedtuple('Step', 'giver events')
# The index of each new office's definition, and the steps.
History = namedtuple('History', 'definitions steps')
Pool = namedtuple('Pool', 'definitions files histories')
Volume = namedtuple('Volume', 'definition facts')


def spelled(value):
    """The compact text, with members in byte order."""
    return json.dumps(value, ensure_ascii=False, sort_keys=True, separators=(',', ':'))


def spelled_as_it_stands(value):
    """The compact text with the members in their own order."""
    return json.dumps(value, ensure_ascii=False, separators=(',', ':'))


def in_bytes(text):
    return text.encode('utf-8')


def words(*parts):
    return ' '.join(map(str, parts))


class Rules:
    """The definitions."""

    # ---- facts

    def header_of(self, record):
        return spelled({name: it for name, it in record.items() if name not in LEFT_OUT})

    def facts(self, report):
        found = {('device', it['@id'], spelled(it)) for it in report['ReportingDevice']}
        for record in report['CVR']:
            name = record['CreatingDeviceId'], record['UniqueId']
            found.add(('header', name, self.header_of(record)))
            found |= {('snapshot', name, it['@id'], spelled(it)) for it in record['CVRSnapshot']}
        return found

    # ---- acceptance: the faults that random files have

    def is_sound(self, report):
        contests = {it['@id'] for it in report['Election'][0]['Contest']}
        votes = [vote for record in report['CVR'] for it in record['CVRSnapshot']
                 for vote in it['CVRContest']]
        return (all('UniqueId' in record for record in report['CVR'])
                and all(vote['ContestId'] in contests for vote in votes))

    def agrees(self, definition, report):
        units = [spelled(it) for it in definition['GpUnit']]
        return (spelled(report['Election']) == spelled(definition['Election'])
                and all(spelled(it) in units for it in report['GpUnit']))

    def is_accepted(self, definition, report):
        return self.is_sound(report) and self.agrees(definition, report)

    def is_same_definition(self, one, other):
        return (spelled(one['Election']) == spelled(other['Election'])
                and set(map(spelled, one['GpUnit'])) == set(map(spelled, other['GpUnit'])))

    # ---- which body comes first

    def instant(self, stamp):
        return datetime.fromisoformat(stamp.replace('Z', '+00:00')).timestamp()

    def moment(self, snapshot):
        notes = snapshot.get('Annotation', [])
        stamps = [it['TimeStamp'] for it in notes if 'TimeStamp' in it]
        return max(map(self.instant, stamps), default=None)

    def key(self, body):
        """The key of the order of choosing: rank, moment (none is below every moment), body."""
        snapshot = json.loads(body)
        moment = self.moment(snapshot)
        return RANKS[snapshot['Type']], moment is not None, moment or 0, in_bytes(body)

    def bodies(self, facts, name):
        """The bodies of a name, the greatest first."""
        key = self.key if name[0] == 'snapshot' else in_bytes
        return sorted((it[-1] for it in facts if it[:-1] == name), key=key, reverse=True)

    def current(self, facts, record):
        found = [it for it in facts if it[:2] == ('snapshot', record)]
        return max(found, key=lambda it: self.key(it[-1]))

    def header(self, facts, record):
        return json.loads(self.bodies(facts, ('header', record))[0])

    # ---- names in order, and volumes

    def record_place(self, record):
        return tuple(map(in_bytes, record))

    def records(self, facts):
        return sorted({it[1] for it in facts if it[0] == 'header'}, key=self.record_place)

    def place(self, name):
        """Devices first; then each record, the header before the snapshots."""
        if name[0] == 'device':
            return 0, in_bytes(name[1])
        return 1, self.record_place(name[1]), tuple(map(in_bytes, name[2:]))

    def names(self, facts):
        return sorted({it[:-1] for it in facts}, key=self.place)

    def counted(self, facts):
        """Each name with the number of its bodies."""
        counts = Counter(it[:-1] for it in facts)
        return [(name, counts[name]) for name in self.names(facts)]

    def volumes(self, facts):
        return max([1] + [count for _, count in self.counted(facts)])

    def stands(self, counted, name, i):
        """Whether a name stands in volume i: a device in each, a record where one of its names has
        at least so many bodies."""
        return name[0] == 'device' or any(it[0] != 'device' and it[1] == name[1] and count >= i
                                          for it, count in counted)

    def shown(self, facts, i):
        """The facts of volume i."""
        counted = self.counted(facts)
        return {name + (self.bodies(facts, name)[min(i, count) - 1],) for name, count in counted
                if self.stands(counted, name, i)}

    # ---- the tally

    def sums(self, vote, selections):
        """The columns of a contest, then the votes of each selection."""
        return TEXTS.sums(vote, selections)

    def row_of(self, header):
        """The unit and batch of the rows to which a record belongs."""
        return header.get('BallotStyleUnitId'), header.get('BatchId')

    def rows(self, contests, facts):
        """The numbers of each row, by its contest's index, its unit and its batch."""
        rows = {}
        for record in self.records(facts):
            snapshot = json.loads(self.current(facts, record)[-1])
            votes = {it['ContestId']: it for it in snapshot['CVRContest']}
            for place, (contest, selections) in enumerate(contests):
                if contest in votes:
                    key = (place, *self.row_of(self.header(facts, record)))
                    added = self.sums(votes[contest], selections)
                    rows[key] = [sum(it) for it in zip(rows.get(key, [0] * len(added)), added)]
        return rows

    # ---- events

    def reach(self, event, file, reached):
        """What an accepted event adds to what has reached its office."""
        return frozenset({file}) if isinstance(event, Import) else reached[event.giver]


# ---- texts

def currents_text(rules, facts):
    found = [rules.current(facts, record) for record in rules.records(facts)]
    return ''.join(words(*map(spelled, (*name, snapshot)), json.loads(body)['Type']) + '\n'
                   for _, name, snapshot, body in found)


def name_text(name):
    if name[0] == 'device':
        return words('device', spelled(name[1]))
    return words(*map(spelled, name[1]), name[0], *map(spelled, name[2:]))


def conflicts_text(rules, facts):
    lines = [words(name_text(name), count) for name, count in rules.counted(facts) if count > 1]
    return ''.join(it + '\n' for it in lines + [words('volumes', rules.volumes(facts))])


def row_order(key):
    place, unit, batch = key
    return place, unit is not None, in_bytes(unit or ''), batch is not None, in_bytes(batch or '')


def tally_text(rules, definition, facts):
    contests = [(contest['@id'], [it['@id'] for it in contest['ContestSelection']])
                for contest in definition['Election'][0]['Contest']]
    rows, text, end = rules.rows(contests, facts), '', len(TEXTS.columns)
    for key in sorted(rows, key=row_order):
        contest, selections = contests[key[0]]
        votes = [words(spelled(it), number) for it, number in zip(selections, rows[key][end:])]
        text += words(*map(spelled, (contest, *key[1:])), *rows[key][:end], *votes) + '\n'
    return text


# ---- what is played

class Play:
    """A history as it is played: what has reached each office, as a set of the offices that it began
    with, of files and of volumes."""

    def __init__(self, rules, pool, history):
        self.rules, self.pool, self.files, self.known = rules, pool, None, {}
        self.definitions = [pool.definitions[it] for it in history.definitions]
        self.reached = [frozenset({('office', it)}) for it in self.offices()]
        self.text = ''.join(map(self.told_of, history.steps))
        self.text += ''.join(map(self.answers_of, self.offices()))

    def offices(self):
        return range(len(self.definitions))

    def facts_of(self, kind, what):
        if kind == 'volume':
            return what
        report = self.definitions[what] if kind == 'office' else self.pool.files[what]
        return self.rules.facts(report)

    def content(self, office):
        """The facts of everything that has reached an office."""
        reached = self.reached[office]
        if reached not in self.known:
            self.known[reached] = set().union(*(self.facts_of(*it) for it in reached))
        return self.known[reached]

    def told_of(self, step):
        """The outcomes of a step's events, and what the offices then count."""
        self.files = self.pool.files
        if step.giver is not None:
            facts, definition = self.content(step.giver), self.definitions[step.giver]
            self.files = [Volume(definition, frozenset(self.rules.shown(facts, i + 1)))
                          for i in range(self.rules.volumes(facts))]
        outcomes = [words(self.outcome(event), '') for event in step.events]
        return ''.join(outcomes) + '|' + ''.join(map(self.counts_of, self.offices())) + '\n'

    def outcome(self, event):
        """Its refusal, or how many facts are new."""
        refusal = self.refusal(event)
        if refusal:
            return refusal
        is_import = isinstance(event, Import)
        taker = event.office if is_import else event.taker
        before = len(self.content(taker))
        added = self.rules.reach(event, self.file_of(event) if is_import else None, self.reached)
        self.reached[taker] |= added
        return len(self.content(taker)) - before

    def file_of(self, event):
        """What is imported: a volume by its facts, or a file of the pool by its index."""
        held = self.files[event.file]
        return ('volume', held.facts) if isinstance(held, Volume) else ('file', event.file)

    def refusal(self, event):
        offices = [event.office] if isinstance(event, Import) else event
        if max(offices) >= len(self.definitions):
            return 'N1'
        definitions = [self.definitions[it] for it in offices]
        if isinstance(event, Exchange):
            return '' if self.rules.is_same_definition(*definitions) else 'J1'
        if event.file >= len(self.files):
            return 'N2'
        file = self.files[event.file]
        if isinstance(file, Volume):
            return '' if self.rules.agrees(definitions[0], file.definition) else 'E'
        return '' if self.rules.is_accepted(definitions[0], file) else 'E'

    def is_same(self, one, other):
        return (self.rules.is_same_definition(self.definitions[one], self.definitions[other])
                and self.content(one) == self.content(other))

    def counts_of(self, office):
        """Its records, its facts, the most bodies of a name, the first office with the same facts."""
        facts = self.content(office)
        first = next(it for it in self.offices() if self.is_same(it, office))
        records = len(self.rules.records(facts))
        return words('', records, len(facts), self.rules.volumes(facts), first)

    def answers_of(self, office):
        """What an office answers at the end, and whether it is the same as the first office."""
        facts = self.content(office)
        counts = words(len(self.rules.records(facts)), len(facts), self.rules.volumes(facts))
        return ''.join([counts, '\n', currents_text(self.rules, facts),
                        conflicts_text(self.rules, facts),
                        tally_text(self.rules, self.definitions[office], facts),
                        'true\n' if self.is_same(0, office) else 'false\n'])


def told_of(rules, pool):
    """The answers to each history."""
    return [Play(rules, pool, history).text for history in pool.histories]
