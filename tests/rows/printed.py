#!/usr/bin/env python3
"""printed.py: the texts of docs/FORMAT.md as a small Python program: what each command prints for files that are read.

It is a second reading of what is printed, as rules.py is one of what is accepted. random_files.py compares the program
with it; printed_changes.py changes it rule by rule and reports changes that no row notices. Words that no command
takes, and help, are left to `words.json`."""
import itertools
import json
import re

import rules as format_rules

LINES = ('currents', 'conflicts', 'tally')   # the commands that print lines of what all files hold
TASKS = LINES + ('merge', 'check', 'drill')
BEFORE_FILES = {'merge': 4, 'drill': 2}     # the words of a command before its files or steps, where it has more than DEF
NEVER = float('-inf')       # the moment of a snapshot that has none
# A step: an office imports a file, or takes in all that another office holds.
STEP = re.compile(r'(?P<office>[0-9]{1,9})=(?P<path>.+)|(?P<giver>[0-9]{1,9})>(?P<taker>[0-9]{1,9})', re.S)


def by_bytes(text):
    return text.encode('utf-8')


def arguments(words):
    """The words after the command. The first `--` among them is left out."""
    place = words.index('--') if '--' in words else len(words)
    return words[1:place] + words[place + 1:]


def last(words):
    """The files or steps among the words."""
    return arguments(words)[BEFORE_FILES.get(words[0], 1):]


def told_files(words):
    """For each file beside the definition: its name in the log, its path and, in a drill, the number of the office that
    imports it."""
    if words[0] != 'drill':
        return [(path, path, None) for path in last(words)]
    found = [(text, STEP.fullmatch(text)) for text in last(words)]
    return [(text, step['path'], int(step['office'])) for text, step in found if step and step['path']]


def paths(words):
    """The paths among the words of a command, the definition's first."""
    return arguments(words)[:1] + [path for _, path, _ in told_files(words)]


def offices_of(words):
    """How many offices a drill has."""
    return int(arguments(words)[1])


def row_of(words):
    """The numbers of a row, by column, and by selection as it is spelled, in the words of its line."""
    end = 3 + len(Texts.columns)
    return dict(zip(Texts.columns + words[end::2], map(int, words[3:end] + words[end + 1::2])))


def put(held, name, body):
    """Keeps a body under its name; equal bodies once."""
    bodies = held.setdefault(name, [])
    if body not in bodies:
        bodies.append(body)


class Held:
    """What an office holds: the bodies of each device; and of each record the headers, under None, and the snapshots by
    id. The greatest body of each name comes first."""

    def __init__(self, devices, records):
        self.devices, self.records = devices, records

    def counts(self):
        """The number of bodies of each name."""
        return [len(bodies) for names in [self.devices] + list(self.records.values()) for bodies in names.values()]


class Texts:
    """The rules; each may be replaced by another."""
    types = ['original', 'interpreted', 'modified']         # least first
    choosing = ['type', 'moment', 'body']
    lacking = ['CVRSnapshot', 'CurrentSnapshotId']          # not in a header
    counting = {(None, 'yes'), ('yes', 'yes'), ('yes', 'no'), ('yes', 'unknown')}       # IsAllocable and HasIndication
    pending = {('unknown', 'yes')}
    columns = ['ballots', 'overvotes', 'undervotes', 'write-ins', 'pending', 'unassigned']
    stated = {'overvotes': 'Overvotes', 'undervotes': 'Undervotes', 'write-ins': 'WriteIns'}
    row_order = ['contest', 'unit', 'batch']
    current_line = ['device', 'unique', 'snapshot', 'type']
    conflict_kinds = ['device', 'header', 'snapshot']
    causes = ['H1', 'H2', 'V1']
    office_line = ['office', 'number', 'records', 'facts', 'same']
    step = STEP
    members = ['@type', 'CVR', 'Election', 'GeneratedDate', 'GpUnit', 'Party', 'ReportGeneratingDeviceIds', 'ReportType', 'ReportingDevice', 'Version']
    may_lack = ['CVR', 'Party']                             # left out where they have no item
    line_end, gap = '\n', ' '

    def __init__(self):
        self.put = put
        names = ('member', 'device', 'CreatingDeviceId', 'UniqueId', 'snapshot', 'unit', 'party', 'row unit', 'row batch',
                 'device body', 'header body', 'snapshot body')
        self.orders = {name: by_bytes for name in names}

    # ---- texts of values

    def spelled(self, text):
        return json.dumps(text, ensure_ascii=False)

    def compact(self, value):
        if isinstance(value, dict):
            names = sorted(value, key=self.orders['member'])
            return '{%s}' % ','.join('%s:%s' % (self.spelled(name), self.compact(value[name])) for name in names)
        if isinstance(value, list):
            return '[%s]' % ','.join(map(self.compact, value))
        return self.spelled(value)

    def line(self, parts):
        return self.gap.join(map(str, parts)) + self.line_end

    # ---- what is held

    def moment_of(self, stamps):
        return max(map(format_rules.instant, stamps), default=NEVER)

    def key(self, body):
        """A snapshot's key in the order of choosing."""
        snapshot = json.loads(body)
        stamps = [it['TimeStamp'] for it in snapshot.get('Annotation', []) if 'TimeStamp' in it]
        parts = {'type': self.types.index(snapshot['Type']), 'moment': self.moment_of(stamps), 'body': self.orders['snapshot body'](body)}
        return [parts[name] for name in self.choosing]

    def record_name(self, cvr):
        return cvr['CreatingDeviceId'], cvr['UniqueId']

    def header(self, cvr):
        return self.compact({name: part for name, part in cvr.items() if name not in self.lacking})

    def reports(self, definition, files):
        """The reports that give the devices, and those that give the records."""
        return [definition] + files, files

    def take_records(self, records, report):
        for cvr in report.get('CVR', []):
            names = records.setdefault(self.record_name(cvr), {})
            self.put(names, None, self.header(cvr))
            for snapshot in cvr['CVRSnapshot']:
                self.put(names, snapshot['@id'], self.compact(snapshot))

    def greatest_first(self, bodies, key):
        return sorted(bodies, key=key, reverse=True)

    def in_order(self, names, order, key_of):
        """Names in an order, None first, each with its bodies, greatest first."""
        chosen = sorted(names, key=lambda name: (name is not None, order(name) if name is not None else None))
        return {name: self.greatest_first(names[name], key_of(name)) for name in chosen}

    def hold(self, definition, files):
        devices, records = {}, {}
        of_devices, of_records = self.reports(definition, files)
        for report in of_devices:
            for device in report['ReportingDevice']:
                self.put(devices, device['@id'], self.compact(device))
        for report in of_records:
            self.take_records(records, report)
        chosen = sorted(records, key=self.record_key)
        return Held(self.in_order(devices, self.orders['device'], lambda _: self.orders['device body']),
                    {name: self.in_order(records[name], self.orders['snapshot'], self.key_of) for name in chosen})

    def key_of(self, name):
        return self.orders['header body'] if name is None else self.key

    def record_key(self, name):
        return self.orders['CreatingDeviceId'](name[0]), self.orders['UniqueId'](name[1])

    def current(self, record):
        return json.loads(max((bodies[0] for name, bodies in record.items() if name is not None), key=self.key))

    # ---- currents, conflicts, check

    def currents(self, held):
        for (device, unique), record in held.records.items():
            current = self.current(record)
            parts = {'device': self.spelled(device), 'unique': self.spelled(unique), 'snapshot': self.spelled(current['@id']), 'type': current['Type']}
            yield self.line([parts[name] for name in self.current_line])

    def least_conflict(self):
        return 2

    def conflicts(self, held):
        lines = [('device', ['device', self.spelled(name)], bodies) for name, bodies in held.devices.items()]
        for (device, unique), record in held.records.items():
            for name, bodies in record.items():
                kind = 'header' if name is None else 'snapshot'
                lines.append((kind, [self.spelled(device), self.spelled(unique), kind] + ([] if name is None else [self.spelled(name)]), bodies))
        for kind, parts, bodies in lines:
            if len(bodies) >= self.least_conflict() and kind in self.conflict_kinds:
                yield self.line(parts + [len(bodies)])
        yield self.line(['volumes', self.volumes(held)])

    def checked(self, path, report):
        return self.line([path, len(report.get('CVR', []))])

    # ---- tally

    def votes(self, position):
        return position['NumberVotes']

    def sum_of(self, positions, states):
        return sum(self.votes(it) for it in positions if (it.get('IsAllocable'), it['HasIndication']) in states)

    def positions(self, selections):
        return [position for it in selections for position in it['SelectionPosition']]

    def sums(self, contest, known):
        """The columns of a snapshot's contest, and the votes of the selections that are known."""
        every = contest.get('CVRContestSelection', [])
        named = {one: [it for it in every if it.get('ContestSelectionId') == one] for one in [None] + known}
        columns = {'ballots': 1, 'pending': self.sum_of(self.positions(every), self.pending),
                   'unassigned': self.sum_of(self.positions(named[None]), self.counting)}
        columns.update((name, contest.get(member, 0)) for name, member in self.stated.items())
        return [columns[name] for name in self.columns] + [self.sum_of(self.positions(named[one]), self.counting) for one in known]

    def unit_and_batch(self, record):
        header = json.loads(record[None][0])
        return header.get('BallotStyleUnitId'), header.get('BatchId')

    def counted(self, record):
        """The contests of a record that have rows."""
        return self.current(record).get('CVRContest', [])

    def selections(self, definition):
        """The selections of each contest, in the definition's order."""
        contests = definition['Election'][0]['Contest']
        return {it['@id']: [one['@id'] for one in it.get('ContestSelection', [])] for it in contests}

    def rows(self, definition, held):
        known, rows = self.selections(definition), {}
        for record in held.records.values():
            for contest in self.counted(record):
                place = (contest['ContestId'],) + self.unit_and_batch(record)
                added = self.sums(contest, known[place[0]])
                rows[place] = [sum(pair) for pair in zip(rows.get(place, [0] * len(added)), added)]
        return rows

    def nothing_first(self, text, order):
        return (text is not None, self.orders[order](text or ''))

    def row_key(self, place, contests):
        parts = {'contest': contests.index(place[0]), 'unit': self.nothing_first(place[1], 'row unit'), 'batch': self.nothing_first(place[2], 'row batch')}
        return [parts[name] for name in self.row_order]

    def tally(self, definition, held):
        known, rows = self.selections(definition), self.rows(definition, held)
        for place in sorted(rows, key=lambda it: self.row_key(it, list(known))):
            columns = rows[place][:len(self.columns)]
            votes = zip(map(self.spelled, known[place[0]]), rows[place][len(self.columns):])
            yield self.line([self.spelled(it) for it in place] + columns + [part for pair in votes for part in pair])

    # ---- merge

    def volumes(self, held):
        return max([1] + held.counts())

    def shown(self, bodies, i):
        return json.loads(bodies[min(i, len(bodies)) - 1])

    def stands(self, record, i):
        """Whether a record stands in volume i."""
        return any(len(bodies) >= i for bodies in record.values())

    def shown_current(self, record, snapshots):
        return max(snapshots, key=lambda it: self.key(self.compact(it)))['@id']

    def shown_record(self, record, i):
        snapshots = [self.shown(bodies, i) for name, bodies in record.items() if name is not None]
        return dict(self.shown(record[None], i), CVRSnapshot=snapshots, CurrentSnapshotId=self.shown_current(record, snapshots))

    def shown_records(self, held, i):
        return [self.shown_record(record, i) for record in held.records.values() if self.stands(record, i)]

    def shown_devices(self, definition, held, i):
        return [self.shown(bodies, i) for bodies in held.devices.values()]

    def of_definition(self, definition, member, order):
        return sorted(definition.get(member, []), key=lambda it: self.orders[order](it['@id']))

    def volume(self, definition, held, moment, device, i):
        every = {'@type': 'CVR.CastVoteRecordReport', 'CVR': self.shown_records(held, i), 'Election': definition['Election'], 'GeneratedDate': moment,
                 'GpUnit': self.of_definition(definition, 'GpUnit', 'unit'), 'Party': self.of_definition(definition, 'Party', 'party'),
                 'ReportGeneratingDeviceIds': [device], 'ReportType': ['aggregated'],
                 'ReportingDevice': self.shown_devices(definition, held, i), 'Version': '1.0.0'}
        return self.compact({name: every[name] for name in self.members if every[name] or name not in self.may_lack})

    def is_moment(self, text):
        return format_rules.is_moment(text)

    def is_device(self, definition, held, device):
        return device in [it['@id'] for it in definition['ReportingDevice']]

    def is_volume(self, held, i):
        return i <= self.volumes(held)

    def cause(self, definition, held, moment, device, i):
        """Why nothing is merged, as the log reports it, or nothing."""
        stands = {'H1': not self.is_moment(moment), 'H2': not self.is_device(definition, held, device), 'V1': not self.is_volume(held, i)}
        told = [name for name in self.causes if stands[name]]
        return self.line(['merge:'] + told[:1] + ([self.volumes(held)] if told[0] == 'V1' else [])) if told else ''

    # ---- drill

    def first_bad(self, steps):
        """The first step that has no step's form, or None."""
        return next((text for text in steps if not self.step.fullmatch(text)), None)

    def is_office(self, number, offices):
        return 1 <= number <= offices

    def goes_on(self, log):
        """Whether the next step is played after these lines."""
        return True

    def imported(self, reached, office, place):
        """What has reached each office once one has imported a file, which is known by its index among the imports'
        files."""
        return [held | {place} if number == office else held for number, held in enumerate(reached, 1)]

    def exchanged(self, reached, giver, taker):
        """What has reached each office once one has taken in all that another holds."""
        return [held | reached[giver - 1] if number == taker else held for number, held in enumerate(reached, 1)]

    def placed(self, steps):
        """The steps as they are played: each as its text, its form and the index of its file among the imports'
        files."""
        imports, held = itertools.count(), []
        for text in steps:
            step = self.step.fullmatch(text)
            held.append((text, step, next(imports) if step['path'] else None))
        return held

    def refusal(self, step, place, offices, files):
        """Why a step is refused, as the log reports it, or None."""
        numbers = [int(step[name]) for name in ('office', 'giver', 'taker') if step[name]]
        if not all(self.is_office(number, offices) for number in numbers):
            return 'N1'
        return files[place][1] if place is not None and isinstance(files[place][1], str) else None

    def told_step(self, text, step):
        """A step's name in the log."""
        return text

    def played_unless(self, reached, step, place, fault):
        """What has reached each office after a step; a step with a fault changes nothing."""
        if fault:
            return reached
        if place is None:
            return self.exchanged(reached, int(step['giver']), int(step['taker']))
        return self.imported(reached, int(step['office']), place)

    def play(self, steps, offices, files):
        """The files that have reached each office after all steps, and the lines of refused steps."""
        reached, log = [set() for _ in range(offices)], ''
        for text, step, place in self.placed(steps):
            fault = self.refusal(step, place, offices, files)
            log += self.line([self.told_step(text, step) + ':', fault]) if fault else ''
            reached = self.played_unless(reached, step, place, fault)
            if not self.goes_on(log):
                break
        return reached, log

    def facts(self, held):
        """How many facts an office holds: each body under a name is one."""
        return sum(held.counts())

    def is_same(self, held, other):
        return (held.devices, held.records) == (other.devices, other.records)

    def least_same(self, every, held):
        return next(number for number, other in enumerate(every, 1) if self.is_same(held, other))

    def record_count(self, held):
        return len(held.records)

    def office_lines(self, every):
        """A line for each office."""
        lines = []
        for number, held in enumerate(every, 1):
            parts = {'office': 'office', 'number': number, 'records': 'records %d' % self.record_count(held), 'facts': 'facts %d' % self.facts(held),
                     'same': 'same %d' % self.least_same(every, held)}
            lines.append(self.line([parts[name] for name in self.office_line]))
        return lines

    def drill(self, words, definition, files):
        """The lines of the offices, and those of refused steps."""
        reached, log = self.play(last(words), offices_of(words), files)
        every = [self.hold(definition, [files[place][1] for place in sorted(places)]) for places in reached]
        return ''.join(self.office_lines(every)), log

    # ---- a run

    def text(self, words, definition, files):
        """What is printed, and what is logged beside the refused files."""
        if words[0] == 'drill':
            return self.drill(words, definition, files)
        task, held = words[0], self.hold(definition, [it for _, it in files if not isinstance(it, str)])
        if task == 'merge':
            date, device, volume = arguments(words)[1:4]
            given = (date, device, int(volume))
            cause = self.cause(definition, held, *given)
            return ('', cause) if cause else (self.volume(definition, held, *given), '')
        lines = {'currents': lambda: self.currents(held), 'conflicts': lambda: self.conflicts(held), 'tally': lambda: self.tally(definition, held),
                 'check': lambda: (self.checked(*it) for it in files if not isinstance(it[1], str))}
        return ''.join(lines[task]()), ''


def refused(words, files):
    """The lines of refused files. A drill has them among the lines of its steps."""
    return ''.join('%s: %s\n' % it for it in files if isinstance(it[1], str)) if words[0] != 'drill' else ''


def answer(texts, words, definition, files, is_full=False):
    """Standard output, standard error and status. The definition, and each file with its path, is a value, or a fault's
    text; each import of a drill has a file of its own."""
    bad = texts.first_bad(last(words)) if words[0] == 'drill' else None
    if bad is not None:
        return '', '%s: L3\n' % bad, 2
    if isinstance(definition, str):
        return '', '%s: %s\n' % (paths(words)[0], definition), 1
    text, told = texts.text(words, definition, files)
    log = refused(words, files) + told
    if text and is_full:
        return '', log + 'out: X1\n', 3
    return text, log, 1 if log else 0
